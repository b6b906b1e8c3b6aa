//! Valid policies with 9 to 16 actions and up to three queries, so that the words of many w have sets in them.

use crate::forms::forms_of;
use crate::policy::{Policy, Rule};
use crate::random::{actions, bits, queries, random, Case, Size};
use crate::rng::Rng;
use crate::shapes::{at_least, tower_of};
use crate::spoils::spoils_of;

/// The actions that part the sets of one word; all further ones part words.
const IN_A_WORD: usize = 6;

/// The index-th policy with many actions: the shapes take turns.
pub fn many_actions(rng: &mut Rng, index: u64) -> Case {
    let count = if rng.once_in(3) { 16 } else { rng.within(9, 15) };
    let mut case = match index % 7 {
        0 => tangled(rng, count),
        1 => forms_of(rng, count, 3),
        2 => largest(rng, count),
        3 => tower(rng, count),
        4 => odd(rng, count),
        5 => spoils_of(rng, count),
        _ => some_of_many(rng, count),
    };
    let asked = rng.within(1, 3);
    case.queries = queries(rng, &case.policy, asked);
    for query in &mut case.queries {
        query.done = done(rng, count);
    }
    case
}

/// Rules that lead to each other, on few levels.
fn tangled(rng: &mut Rng, actions: usize) -> Case {
    let size = Size {
        decisions: rng.within(8, 30),
        actions,
        rules: rng.within(30, 90),
        queries: 0,
        top_level: rng.within(0, 3),
    };
    random(rng, &size)
}

/// All decisions and rules that there may be, on all levels.
fn largest(rng: &mut Rng, actions: usize) -> Case {
    random(rng, &Size { decisions: 128, actions, rules: 256, queries: 0, top_level: 15 })
}

fn tower(rng: &mut Rng, count: usize) -> Case {
    let height = rng.within(8, 16);
    tower_of(rng, height, count)
}

/// An odd number of the first i actions, a decision for each i: the i-th action and an even number before it, or an odd
/// number before it and not the i-th. So each action counts in every set, and each decision stands a level higher.
fn odd(rng: &mut Rng, count: usize) -> Case {
    let mut policy = Policy { levels: vec![0; count], actions: actions(rng, count), rules: Vec::new() };
    policy.levels.extend(0..count as u32);
    for i in 0..count {
        let (own, head) = (i as u32, (count + i) as u32);
        let before: Vec<u32> = if i == 0 { Vec::new() } else { vec![head - 1] };
        policy.rules.push(Rule { head: own, needs: 1 << i, ..Rule::default() });
        policy.rules.push(Rule { head, needs: 1 << i, ifs: Vec::new(), unless: before.clone() });
        if i > 0 {
            policy.rules.push(Rule { head, needs: 0, ifs: before, unless: vec![own] });
        }
    }
    rng.shuffle(&mut policy.rules);
    Case { policy, queries: Vec::new() }
}

fn some_of_many(rng: &mut Rng, count: usize) -> Case {
    let mut case = at_least(rng.within(2, 8), count);
    case.policy.actions = actions(rng, count);
    rng.reorder(&mut case.policy.rules);
    case
}

/// Nothing, few actions, or most of those that part words, so that few words have sets; and then few of the others.
fn done(rng: &mut Rng, count: usize) -> u32 {
    let parting = count - IN_A_WORD;
    let (all, most) = match rng.below(5) {
        0 => return 0,
        1 => (count, 1),
        2 => (count, 3),
        _ => (parting, parting - rng.within(1, 3)),
    };
    let few = rng.rising(most, all).into_iter().map(|action| action + count - all);
    let others = rng.below(3);
    bits(&few.collect::<Vec<usize>>()) | bits(&rng.rising(others, IN_A_WORD))
}
