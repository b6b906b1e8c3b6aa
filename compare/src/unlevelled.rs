//! Policies made for the levels: their level lines are in range and mostly wrong, and some have no levels at all.

use crate::policy::{Policy, Rule, TOP_LEVEL};
use crate::random::{actions, mask, queries, rule, Case};
use crate::rng::Rng;
use crate::shapes::valid;

/// The index-th policy: the shapes take turns. In one of six an action has its own bit in its also mask, so that
/// question 6 is answered no.
pub fn unlevelled(rng: &mut Rng, index: u64) -> Case {
    let mut case = match index % 7 {
        0 => with_actions(rng, few),
        1 => with_actions(rng, tangle),
        2 => with_actions(rng, circle),
        3 => with_actions(rng, ladder),
        4 => with_actions(rng, ranks),
        place => valid(rng, 2 * (index / 7) + place - 5),
    };
    scramble(rng, &mut case.policy.levels);
    if rng.once_in(6) {
        case.policy.actions.iter_mut().take(1).for_each(|action| action.also |= 1);
    }
    case
}

/// A policy of this shape, with actions for its rules to need, and queries.
fn with_actions(rng: &mut Rng, shape: fn(&mut Rng) -> Policy) -> Case {
    let mut policy = shape(rng);
    let count = rng.below(5);
    policy.actions = actions(rng, count);
    policy.rules.iter_mut().for_each(|rule| rule.needs = mask(rng, count));
    let count = rng.below(4);
    let queries = queries(rng, &policy, count);
    Case { policy, queries }
}

/// Levels as they are, one up, one down, all 0, all 15, two swapped, one changed, or all changed; none above 15.
fn scramble(rng: &mut Rng, levels: &mut [u32]) {
    let (place, other) = (rng.below(levels.len()), rng.below(levels.len()));
    match rng.below(9) {
        0 | 1 => {}
        2 => levels.iter_mut().for_each(|level| *level += 1),
        3 => levels.iter_mut().for_each(|level| *level = level.saturating_sub(1)),
        4 => levels.fill(0),
        5 => levels.fill(TOP_LEVEL),
        6 => levels.swap(place, other),
        7 => levels[place] = rng.pick(&[levels[place].saturating_sub(1), levels[place] + 1]),
        _ => levels.iter_mut().for_each(|level| *level = rng.within(0, 15) as u32),
    }
    levels.iter_mut().for_each(|level| *level = TOP_LEVEL.min(*level));
}

/// Few enough decisions that each assignment can be tried.
fn few(rng: &mut Rng) -> Policy {
    let decisions = rng.within(1, 5);
    let rules = rng.within(0, 2 * decisions);
    any_lists(rng, decisions, rules)
}

/// Fewer rules than decisions, or next to none, so that circles and decisions without a rule are both common.
fn tangle(rng: &mut Rng) -> Policy {
    let decisions = rng.pick(&[8, 12, 20, 40, 127, 128]);
    let rules = if rng.once_in(4) { rng.below(4) } else { rng.within(decisions / 3, decisions) };
    any_lists(rng, decisions, rules)
}

/// Rules with any decisions in their lists, their own heads among them.
fn any_lists(rng: &mut Rng, decisions: usize, rules: usize) -> Policy {
    let mut policy = Policy { levels: vec![0; decisions], ..Policy::default() };
    for _ in 0..rules {
        let head = rng.below(decisions) as u32;
        let [ifs, unless] = [[0, 0, 1, 1, 2], [0, 0, 0, 1, 2]].map(|lengths| {
            let length = rng.pick(&lengths);
            rng.rising(length, decisions).into_iter().map(|d| d as u32).collect()
        });
        policy.rules.push(Rule { head, ifs, unless, ..Rule::default() });
    }
    policy
}

/// Decisions in a circle, each with the next in its if list or, in a few places, its unless list. Some circles are left
/// open at one place, some are a decision that names itself, and others stand beside them.
fn circle(rng: &mut Rng) -> Policy {
    let length = match rng.below(8) {
        0 | 1 => 1,
        2..=4 => rng.within(2, 4),
        5 | 6 => rng.within(5, 20),
        _ => rng.within(100, 128),
    };
    let decisions = rng.within(length, 128.min(length + 4));
    let mut policy = Policy { levels: vec![0; decisions], ..Policy::default() };
    let order = any_order(rng, decisions);
    let (ring, others) = order.split_at(length);
    let by_unless = rng.pick(&[0, 1, 1, 1, 2, 3]);
    let by_unless = rng.rising(by_unless, length);
    for place in 0..length {
        let next = vec![ring[(place + 1) % length]];
        let (ifs, unless) = if by_unless.contains(&place) { (Vec::new(), next) } else { (next, Vec::new()) };
        policy.rules.push(Rule { head: ring[place], ifs, unless, ..Rule::default() });
    }
    if rng.once_in(3) {
        policy.rules.remove(rng.below(length));
    }
    for &head in others {
        let list = vec![rng.pick(ring)];
        let (ifs, unless) = if rng.once_in(2) { (list, Vec::new()) } else { (Vec::new(), list) };
        policy.rules.push(Rule { head, ifs, unless, ..Rule::default() });
    }
    rng.reorder(&mut policy.rules);
    policy
}

/// One chain from the lowest decision to the highest, by unless links and if links; mostly with 15, 16 or 17 levels in
/// it. Other rules agree with its levels.
fn ladder(rng: &mut Rng) -> Policy {
    let steps = if rng.once_in(6) { rng.within(1, 20) } else { rng.within(14, 16) };
    let most = rng.pick(&[0, 3, 127 - steps]);
    let level_links = rng.within(0, most);
    let mut ups = [vec![1; steps], vec![0; level_links]].concat();
    rng.shuffle(&mut ups);
    let order = any_order(rng, ups.len() + 1);
    let mut policy = Policy { levels: vec![0; order.len()], ..Policy::default() };
    for (place, up) in ups.into_iter().enumerate() {
        let (below, head) = (order[place], order[place + 1]);
        policy.levels[head as usize] = policy.level(below) + up;
        let list = among(rng, below, &order[..place]);
        let (ifs, unless) = if up == 0 { (list, Vec::new()) } else { (Vec::new(), list) };
        policy.rules.push(Rule { head, ifs, unless, ..Rule::default() });
    }
    for _ in 0..rng.pick(&[0, 2, 10]) {
        let other = rule(rng, &policy);
        policy.rules.push(other);
    }
    rng.reorder(&mut policy.rules);
    policy
}

/// Many decisions with a level for each, which their rules need: each decision above level 0 has one just below it in
/// an unless list. The highest level is mostly 14, 15 or 16. Other rules agree with the levels.
fn ranks(rng: &mut Rng) -> Policy {
    let top = rng.pick(&[1, 5, 14, 15, 15, 16]);
    let count = rng.within(top + 1, 128);
    let mut policy = Policy { levels: vec![0; count], ..Policy::default() };
    let order = any_order(rng, count);
    for (place, &head) in order.iter().enumerate() {
        let level = if place <= top { place } else { rng.within(0, top) } as u32;
        policy.levels[head as usize] = level;
        if level > 0 {
            let lower = order[..place].iter().copied().filter(|&d| policy.level(d) < level);
            let (just, further): (Vec<u32>, Vec<u32>) = lower.partition(|&d| policy.level(d) + 1 == level);
            let below = rng.pick(&just);
            policy.rules.push(Rule { head, unless: among(rng, below, &further), ..Rule::default() });
        }
    }
    for _ in 0..rng.below(100) {
        let other = rule(rng, &policy);
        policy.rules.push(other);
    }
    rng.reorder(&mut policy.rules);
    policy
}

/// A list with this decision and up to seven others.
fn among(rng: &mut Rng, decision: u32, others: &[u32]) -> Vec<u32> {
    let count = rng.pick(&[0, 0, 1, 3, 7]);
    let mut list: Vec<u32> = rng.rising(count, others.len()).into_iter().map(|place| others[place]).collect();
    list.push(decision);
    list.sort_unstable();
    list
}

/// All decisions, rising, falling or mixed.
fn any_order(rng: &mut Rng, decisions: usize) -> Vec<u32> {
    let mut order = (0..decisions as u32).collect::<Vec<u32>>();
    rng.reorder(&mut order);
    order
}
