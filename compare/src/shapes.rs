//! Valid policies of several shapes, each with queries: random ones, and those that are made to be hard.

use crate::forms::forms;
use crate::policy::{Action, Policy, Query, Rule};
use crate::random::{actions, bits, full, large, mask, medium, queries, rule, small, Case};
use crate::rng::Rng;
use crate::spoils::spoils;

/// In so many valid policies each shape has its turn.
const TURNS: u64 = 18;

/// The index-th valid policy: the shapes take turns.
pub fn valid(rng: &mut Rng, index: u64) -> Case {
    match index % TURNS {
        0..=2 => small(rng),
        3 => ways(rng),
        4 | 5 => truth_table(rng),
        6 => chain(rng),
        7 => some_of_several(rng),
        8 => tower(rng),
        9 => medium(rng),
        10 => large(rng),
        11 => all_of_several(rng),
        12 | 13 => forms(rng),
        14..=16 => spoils(rng),
        _ => full(rng, index / TURNS),
    }
}

/// A chosen decision that holds in worlds picked at random, one rule for each world: the actions in it are asked for
/// by needs or by if, those outside it by unless. Any family of sets may be the enough ones, so a set may be enough
/// and have smaller enough sets under failing ones.
fn truth_table(rng: &mut Rng) -> Case {
    let count = if rng.once_in(6) { 8 } else { rng.within(2, 5) };
    let chosen = rng.below(count + 1) as u32;
    let done: Vec<u32> = (0..=count as u32).filter(|&d| d != chosen).collect();
    let mut policy = Policy { levels: vec![0; count + 1], actions: actions(rng, count), rules: Vec::new() };
    policy.levels[chosen as usize] = rng.within(1, 15) as u32;
    for (action, &head) in done.iter().enumerate() {
        policy.rules.push(Rule { head, needs: 1 << action, ..Rule::default() });
    }
    let (by_needs, seldom) = (rng.once_in(2), rng.pick(&[2, 3, 5]));
    for world in (0..1u32 << count).filter(|_| rng.once_in(seldom)).collect::<Vec<u32>>() {
        let parted = |inside| (0..count).filter(move |&i| (world >> i & 1 == 1) == inside);
        policy.rules.push(Rule {
            head: chosen,
            needs: if by_needs { world } else { 0 },
            ifs: if by_needs { Vec::new() } else { parted(true).map(|i| done[i]).collect() },
            unless: parted(false).map(|i| done[i]).collect(),
        });
    }
    rng.shuffle(&mut policy.rules);
    let mut queries = queries(rng, &policy, 3);
    queries.push(Query { want: chosen, done: 0 });
    Case { policy, queries }
}

/// Decision 0 if 1, 1 if 2 and so on, in file order, in the order against it, or mixed. Some links need an action,
/// and some decisions have a second rule: any rule, or one that leads back and so gives a circle.
fn chain(rng: &mut Rng) -> Case {
    let length = if rng.once_in(6) { rng.within(100, 128) } else { rng.within(2, 12) };
    let (count, shortcuts) = (rng.within(1, 4), rng.once_in(2));
    let mut policy = Policy { levels: vec![0; length], actions: actions(rng, count), rules: Vec::new() };
    for head in 0..length as u32 {
        let next = head + 1;
        let ifs = if policy.is_decision(next) { vec![next] } else { Vec::new() };
        let needs = if rng.once_in(3) { mask(rng, count) } else { 0 };
        policy.rules.push(Rule { head, needs, ifs, unless: Vec::new() });
        if rng.once_in(3) {
            let back = Rule { head, ifs: vec![rng.below(next as usize) as u32], ..Rule::default() };
            policy.rules.push(if shortcuts { rule(rng, &policy) } else { back });
        }
    }
    rng.reorder(&mut policy.rules);
    let mut queries = queries(rng, &policy, 2);
    queries.push(Query { want: 0, done: 0 });
    Case { policy, queries }
}

fn some_of_several(rng: &mut Rng) -> Case {
    let several = match rng.below(12) {
        0 => 16,
        1 => rng.within(8, 12),
        _ => rng.within(1, 7),
    };
    let least = rng.within(1, several.min(8));
    let mut case = at_least(least, several);
    case.policy.actions = actions(rng, several);
    if rng.once_in(2) {
        rng.shuffle(&mut case.policy.rules);
    }
    case.queries.extend(queries(rng, &case.policy, 2));
    case
}

/// "At least j of the first i actions", a decision for each i up to `several` and each j up to `least`, by rising i,
/// then rising j. Its rules: at least j of one action fewer, and the i-th action with j - 1 of one action fewer.
pub fn at_least(least: usize, several: usize) -> Case {
    let pairs: Vec<(usize, usize)> = (1..=several).flat_map(|i| (1..=least.min(i)).map(move |j| (i, j))).collect();
    let decision = |i, j| pairs.iter().position(|&pair| pair == (i, j)).expect("a pair") as u32;
    let mut policy = Policy {
        levels: vec![0; pairs.len()],
        actions: vec![Action { kind: 'p', weight: 1, also: 0 }; several],
        rules: Vec::new(),
    };
    for &(i, j) in &pairs {
        let head = decision(i, j);
        if j < i {
            policy.rules.push(Rule { head, ifs: vec![decision(i - 1, j)], ..Rule::default() });
        }
        let ifs = if j > 1 { vec![decision(i - 1, j - 1)] } else { Vec::new() };
        policy.rules.push(Rule { head, needs: 1 << (i - 1), ifs, unless: Vec::new() });
    }
    let queries = vec![Query { want: decision(several, least), done: 0 }];
    Case { policy, queries }
}

/// Several sets of actions for one decision, with weights that rise with the action's number: often two sets cost the
/// same and the one with more actions has the smaller mask. Some have 16 heavy actions, nearly all of them needed.
fn ways(rng: &mut Rng) -> Case {
    let (count, most) = rng.pick(&[(4, 3), (6, 4), (7, 4), (8, 4), (8, 5), (8, 8), (16, 4), (16, 16)]);
    let base = rng.pick(&[0, 65_500]);
    let mut policy = Policy { levels: vec![0], ..Policy::default() };
    for action in 0..count {
        let weight = base + rng.within(1 + action / 2, 1 + action) as u32;
        policy.actions.push(Action { kind: 'o', weight, also: 0 });
    }
    for _ in 0..rng.within(2, 6) {
        let needed = rng.within(most.max(4) - 3, most);
        policy.rules.push(Rule { needs: bits(&rng.rising(needed, count)), ..Rule::default() });
    }
    let mut queries = queries(rng, &policy, 2);
    queries.push(Query { want: 0, done: 0 });
    Case { policy, queries }
}

/// All actions needed, once by an if list of a decision for each action, and once by an unless list of a decision for
/// the absence of each. So each entry of a list counts, the eighth too.
fn all_of_several(rng: &mut Rng) -> Case {
    let count = rng.pick(&[2, 5, 7, 8, 8, 8]);
    let (all_by_if, all_by_unless) = (2 * count as u32, 2 * count as u32 + 1);
    let (done, absent): (Vec<u32>, Vec<u32>) = ((0..count as u32).collect(), (count as u32..all_by_if).collect());
    let mut policy = Policy { levels: vec![0; count], actions: actions(rng, count), rules: Vec::new() };
    policy.levels.extend(vec![1; count]);
    policy.levels.extend([rng.below(3) as u32, 2]);
    for (action, (&head, &other)) in done.iter().zip(&absent).enumerate() {
        policy.rules.push(Rule { head, needs: 1 << action, ..Rule::default() });
        policy.rules.push(Rule { head: other, unless: vec![head], ..Rule::default() });
    }
    policy.rules.push(Rule { head: all_by_if, ifs: done, ..Rule::default() });
    policy.rules.push(Rule { head: all_by_unless, unless: absent, ..Rule::default() });
    rng.shuffle(&mut policy.rules);
    let mut queries = queries(rng, &policy, 2);
    queries.extend([all_by_if, all_by_unless].map(|want| Query { want, done: 0 }));
    Case { policy, queries }
}

fn tower(rng: &mut Rng) -> Case {
    let (height, count) = (rng.within(2, 16), rng.within(1, 6));
    tower_of(rng, height, count)
}

/// Up to 16 levels, each decision unless the one below it or with an action.
pub fn tower_of(rng: &mut Rng, height: usize, count: usize) -> Case {
    let mut policy = Policy { levels: (0..height as u32).collect(), actions: actions(rng, count), rules: Vec::new() };
    for head in 0..height as u32 {
        let below: Vec<u32> = (0..head).rev().take(1).collect();
        policy.rules.push(Rule { head, needs: mask(rng, count), ifs: Vec::new(), unless: below });
        for _ in 0..rng.below(3) {
            let extra = rule(rng, &policy);
            policy.rules.push(extra);
        }
    }
    rng.shuffle(&mut policy.rules);
    let mut queries = queries(rng, &policy, 2);
    queries.push(Query { want: height as u32 - 1, done: 0 });
    Case { policy, queries }
}
