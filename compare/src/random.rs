//! Random policies with queries, small and large. They pass questions 3 to 6 by the way they are made.

use crate::policy::{Action, Policy, Query, Rule};
use crate::rng::Rng;

#[derive(Clone, Default)]
pub struct Case {
    pub policy: Policy,
    pub queries: Vec<Query>,
}

pub struct Size {
    pub decisions: usize,
    pub actions: usize,
    pub rules: usize,
    pub queries: usize,
    pub top_level: usize,
}

pub fn small(rng: &mut Rng) -> Case {
    let size = Size {
        decisions: rng.within(1, 8),
        actions: rng.within(0, 5),
        rules: rng.within(0, 14),
        queries: rng.within(0, 4),
        top_level: rng.within(0, 3),
    };
    random(rng, &size)
}

pub fn medium(rng: &mut Rng) -> Case {
    let size = Size {
        decisions: rng.within(5, 24),
        actions: rng.within(3, 8),
        rules: rng.within(10, 50),
        queries: rng.within(1, 6),
        top_level: rng.within(0, 6),
    };
    random(rng, &size)
}

pub fn large(rng: &mut Rng) -> Case {
    let size = Size {
        decisions: rng.within(60, 128),
        actions: rng.within(4, 9),
        rules: rng.within(100, 256),
        queries: rng.within(1, 12),
        top_level: rng.within(0, 15),
    };
    random(rng, &size)
}

/// Up to all that a file may hold. Most have few actions, or 16 of which so many are done that few sets are left;
/// one in eight has 16 actions, few rules and one query.
pub fn full(rng: &mut Rng, turn: u64) -> Case {
    if turn % 8 == 0 {
        let size = Size { decisions: 24, actions: 16, rules: 40, queries: 1, top_level: 3 };
        return random(rng, &size);
    }
    let actions = rng.pick(&[0, 1, 3, 5, 16]);
    let size = Size { decisions: 128, actions, rules: 256, queries: 64, top_level: 15 };
    let mut case = random(rng, &size);
    if actions == 16 {
        for query in &mut case.queries {
            query.done |= bits(&rng.rising(12, 16));
        }
    }
    case
}

/// Random rules over random levels.
pub fn random(rng: &mut Rng, size: &Size) -> Case {
    let mut policy = Policy {
        levels: (0..size.decisions).map(|_| rng.within(0, size.top_level) as u32).collect(),
        actions: actions(rng, size.actions),
        rules: Vec::new(),
    };
    for _ in 0..size.rules {
        let rule = rule(rng, &policy);
        policy.rules.push(rule);
    }
    let queries = queries(rng, &policy, size.queries);
    Case { policy, queries }
}

/// Weights that are often equal, or large enough for sums above 65535; also masks of lighter actions alone, so that
/// chains of them are common.
pub fn actions(rng: &mut Rng, count: usize) -> Vec<Action> {
    let (least, most) = rng.pick(&[(1, 1), (1, 3), (1, 9), (1, 65_535), (65_520, 65_535)]);
    let weights: Vec<u32> = (0..count).map(|_| rng.within(least, most) as u32).collect();
    let seldom = rng.pick(&[2, 4, 8, 1000]);
    let mut action = |&weight: &u32| {
        let lighter = (0..count).filter(|&other| weights[other] < weight);
        let also: Vec<usize> = lighter.filter(|_| rng.once_in(seldom)).collect();
        Action { kind: rng.pick(&['p', 'o']), weight, also: bits(&also) }
    };
    weights.iter().map(&mut action).collect()
}

pub fn rule(rng: &mut Rng, policy: &Policy) -> Rule {
    let decisions = policy.levels.len();
    let head = rng.below(decisions) as u32;
    let level = policy.level(head);
    let not_above: Vec<u32> = (0..decisions as u32).filter(|&d| policy.level(d) <= level).collect();
    let below: Vec<u32> = (0..decisions as u32).filter(|&d| policy.level(d) < level).collect();
    Rule {
        head,
        needs: mask(rng, policy.actions.len()),
        ifs: list(rng, &not_above, &[0, 0, 1, 1, 2]),
        unless: list(rng, &below, &[0, 1, 1, 2]),
    }
}

fn list(rng: &mut Rng, from: &[u32], lengths: &[usize]) -> Vec<u32> {
    let length = if rng.once_in(24) { rng.within(3, 8) } else { rng.pick(lengths) };
    rng.rising(length, from.len()).into_iter().map(|place| from[place]).collect()
}

pub fn mask(rng: &mut Rng, actions: usize) -> u32 {
    let count = rng.pick(&[0, 0, 1, 1, 1, 2, 2, 3]);
    bits(&rng.rising(count, actions))
}

pub fn bits(actions: &[usize]) -> u32 {
    actions.iter().fold(0, |mask, action| mask | 1 << action)
}

/// Mostly for the heads of rules, the higher levels before the lower ones, and with nothing done.
pub fn queries(rng: &mut Rng, policy: &Policy, count: usize) -> Vec<Query> {
    let mut query = |_| {
        let mut want = rng.below(policy.levels.len()) as u32;
        for _ in 0..rng.below(4).min(policy.rules.len()) {
            let head = policy.rules[rng.below(policy.rules.len())].head;
            if policy.level(head) >= policy.level(want) {
                want = head;
            }
        }
        let all = bits(&rng.rising(16, policy.actions.len()));
        let some = mask(rng, policy.actions.len());
        let done = match rng.below(16) {
            0..=7 => 0,
            8..=14 => some,
            _ => all & !some,
        };
        Query { want, done }
    };
    (0..count).map(&mut query).collect()
}
