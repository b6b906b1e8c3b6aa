//! Policies in which forms contain forms: also masks in chains, diamonds and combs, and rules that need a form far
//! inside, or must not have it.

use crate::policy::{Action, Policy, Query, Rule};
use crate::random::{bits, Case};
use crate::rng::Rng;

/// Forms from the outermost to the innermost, each with an action; the actions' numbers rise, fall or are mixed. Each
/// form has a decision that needs its action alone, the innermost one's wanted with nothing done; the decisions above
/// these are wanted with nothing done and with some forms done.
pub fn forms(rng: &mut Rng) -> Case {
    let count = match rng.below(12) {
        0 => 16,
        1 => rng.within(9, 15),
        _ => rng.within(2, 8),
    };
    forms_of(rng, count, if count > 8 { 1 } else { 3 })
}

/// The same with so many forms, and with at most so many levels above them.
pub fn forms_of(rng: &mut Rng, count: usize, most: usize) -> Case {
    let mut numbers: Vec<usize> = (0..count).collect();
    rng.reorder(&mut numbers);
    let inside = inside(rng, count);
    let mut policy = Policy { levels: vec![0; count], actions: actions(rng, &numbers, &inside), rules: Vec::new() };
    for (form, &number) in numbers.iter().enumerate() {
        policy.rules.push(Rule { head: form as u32, needs: 1 << number, ..Rule::default() });
    }
    let mut queries = vec![Query { want: count as u32 - 1, done: 0 }];
    for level in 1..=if most == 1 { 1 } else { rng.within(1, most) } {
        let want = policy.levels.len() as u32;
        policy.levels.push(level as u32);
        for _ in 0..rng.within(1, 3) {
            policy.rules.push(rule(rng, want, &numbers));
        }
        let done = some(rng, &[1, 1, 2], count);
        queries.extend([0, actions_of(&done, &numbers)].map(|done| Query { want, done }));
    }
    rng.shuffle(&mut policy.rules);
    Case { policy, queries }
}

/// For each form those directly in it, all of them later ones: a chain, diamonds end to end, a comb, or each form in up
/// to two of the three before it.
fn inside(rng: &mut Rng, count: usize) -> Vec<Vec<usize>> {
    let way = rng.below(5);
    let mut inside = vec![Vec::new(); count];
    for form in 1..count {
        let back = match (way, form % 3) {
            (0 | 1, _) => vec![1],
            (2, 0) => vec![1, 2],
            (2, place) => vec![place],
            (3, _) => vec![2 - form % 2],
            _ => {
                let outer = rng.pick(&[0, 1, 1, 2, 2]);
                rng.rising(outer, form.min(3)).into_iter().map(|back| back + 1).collect()
            }
        };
        back.into_iter().for_each(|back| inside[form - back].push(form));
    }
    inside
}

/// The action of each form, under its number: heavier than those of the forms in it, by so little that 16 in a chain
/// stay in range.
fn actions(rng: &mut Rng, numbers: &[usize], inside: &[Vec<usize>]) -> Vec<Action> {
    let step = rng.pick(&[1, 1, 3, 4_000]);
    let least = rng.pick(&[1, 1, 65_535 - 15 * step]) as u32;
    let mut actions = vec![Action { kind: 'p', weight: least, also: 0 }; numbers.len()];
    for (form, inner) in inside.iter().enumerate().rev() {
        let heaviest = inner.iter().map(|&form| actions[numbers[form]].weight).max();
        let weight = heaviest.map_or(least, |weight| weight + rng.within(1, step) as u32);
        actions[numbers[form]] = Action { kind: rng.pick(&['p', 'o']), weight, also: actions_of(inner, numbers) };
    }
    actions
}

/// A rule for a decision above those of the forms: some forms needed or asked for, some absent, and often the decision
/// just before it too.
fn rule(rng: &mut Rng, head: u32, numbers: &[usize]) -> Rule {
    let count = numbers.len();
    let needs = actions_of(&some(rng, &[0, 1, 1, 2], count), numbers);
    let [mut ifs, mut unless] = [[0, 0, 1, 2], [0, 1, 1, 2]]
        .map(|lengths| some(rng, &lengths, count).into_iter().map(|form| form as u32).collect::<Vec<u32>>());
    if head as usize > count {
        match rng.below(4) {
            0 => ifs.push(head - 1),
            1 => unless.push(head - 1),
            _ => {}
        }
    }
    Rule { head, needs, ifs, unless }
}

/// Some forms, rising; the innermost is often among them.
fn some(rng: &mut Rng, lengths: &[usize], count: usize) -> Vec<usize> {
    let length = rng.pick(lengths);
    let mut forms = rng.rising(length, count);
    if rng.once_in(2) {
        forms.iter_mut().rev().take(1).for_each(|form| *form = count - 1);
    }
    forms
}

fn actions_of(forms: &[usize], numbers: &[usize]) -> u32 {
    bits(&forms.iter().map(|&form| numbers[form]).collect::<Vec<usize>>())
}
