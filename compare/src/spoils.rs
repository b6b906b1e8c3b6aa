//! Policies in which actions done beside a set take its clearance away, one alone or several together.

use crate::policy::{has, Policy, Query, Rule};
use crate::random::{actions, bits, mask, Case};
use crate::rng::Rng;

pub fn spoils(rng: &mut Rng) -> Case {
    let count = if rng.once_in(16) { rng.within(9, 16) } else { rng.pick(&[3, 4, 5, 6, 7, 7, 8, 8]) };
    spoils_of(rng, count)
}

/// Decision 0 has the top level and the next three as unless. These hold where all of a group of actions are done, and
/// stand on any levels between; the last two at times unless decision 4, which one action gives. At times decision 0
/// has a second rule, which needs an action and has two of the three as unless.
pub fn spoils_of(rng: &mut Rng, count: usize) -> Case {
    let (top, needs, other) = (rng.within(2, 15), mask(rng, count), 1 << rng.below(count));
    let mut policy = Policy { levels: vec![top as u32], actions: actions(rng, count), rules: Vec::new() };
    policy.levels.extend([1, 2, 3].map(|_| rng.within(1, top - 1) as u32));
    policy.rules.push(Rule { head: 0, needs, ifs: Vec::new(), unless: vec![1, 2, 3] });
    if rng.once_in(3) {
        policy.rules.push(Rule { head: 0, needs: other, ifs: Vec::new(), unless: vec![1, 3] });
    }
    if rng.once_in(2) {
        policy.actions.iter_mut().for_each(|action| action.also = 0);
    }
    let groups = groups(rng, count);
    for &needs in &groups {
        policy.rules.push(Rule { head: rng.within(1, 3) as u32, needs, ..Rule::default() });
    }
    if rng.once_in(3) {
        mend(&mut policy, rng.pick(&groups));
    }
    rng.shuffle(&mut policy.rules);
    let in_a_group = rng.pick(&groups) & rng.pick(&groups);
    let queries = [0, in_a_group, mask(rng, count)].map(|done| Query { want: 0, done }).to_vec();
    Case { policy, queries }
}

/// The heaviest action mends what two of the decisions spoil, though it does the lighter ones of a group too.
fn mend(policy: &mut Policy, group: u32) {
    let weights: Vec<u32> = policy.actions.iter().map(|action| action.weight).collect();
    let heaviest = (0..weights.len()).max_by_key(|&action| weights[action]).expect("an action");
    let lighter: Vec<usize> =
        (0..weights.len()).filter(|&action| has(group, action) && weights[action] < weights[heaviest]).collect();
    policy.actions[heaviest].also |= bits(&lighter);
    policy.rules.iter_mut().filter(|rule| rule.head > 1).for_each(|rule| rule.unless.push(4));
    policy.levels.push(0);
    policy.rules.push(Rule { head: 4, needs: 1 << heaviest, ..Rule::default() });
}

/// One action, mostly the last, with each of up to four others; with half of the others, and each of these with one of
/// the rest; each action with the next in a ring; or any few.
fn groups(rng: &mut Rng, count: usize) -> Vec<u32> {
    let mut order: Vec<usize> = (0..count).rev().collect();
    if rng.once_in(3) {
        rng.shuffle(&mut order);
    }
    let pair = |one: usize, other: usize| bits(&[order[one], order[other % count]]);
    let half = (count - 1) / 2;
    match rng.below(6) {
        0 | 1 => (1..count.min(5)).map(|other| pair(0, other)).collect(),
        2 => (1..=half).flat_map(|other| [pair(0, other), pair(other, other + half)]).collect(),
        3 => (0..count).map(|one| pair(one, one + 1)).collect(),
        _ => {
            let sizes = rng.pick(&[[1, 2], [2, 3], [4, 5]]);
            let mut any = |_| {
                let size = rng.pick(&sizes);
                bits(&rng.rising(size, count))
            };
            (0..6).map(&mut any).collect()
        }
    }
}
