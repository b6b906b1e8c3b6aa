//! Pairs of files of a seed, before a change and after it: a weight, or what else a policy holds, or the queries; and
//! pairs in which a file is refused. Pair number n of a seed is always the same.

use crate::engine::check;
use crate::forms::forms;
use crate::generate::{file, is_valid, text, to_lines};
use crate::policy::{
    has, Action, Policy, Query, Refusal, Rule, MOST_ACTIONS, MOST_DECISIONS, MOST_RULES, TOP_LEVEL, TOP_WEIGHT,
};
use crate::random::{mask, queries, rule, small, Case};
use crate::reader::{read, read_lines};
use crate::rng::Rng;
use crate::shapes::valid;
use crate::writer::lines;

/// A change of one thing that a policy holds, or none where there is no such thing.
type Change = fn(&mut Rng, &mut Policy);

/// Changes of more than one weight, or of something else.
const OTHERS: [Change; 11] =
    [two_weights, kind, level, also, head, needs, if_entry, unless_entry, last_rule, more_decisions, more_actions];
/// In so many pairs each kind of pair has its turn.
const TURNS: u64 = 27;
/// So often a change is tried for a policy that is accepted.
const TRIES: usize = 30;
/// The valid policies with this index have several ways to clear a decision.
const WAYS: u64 = 3;
/// Mostly there are no more actions.
const FEW_ACTIONS: usize = 8;

/// The files BEFORE and AFTER.
pub fn pair(seed: u64, number: u64) -> [Vec<u8>; 2] {
    let rng = &mut Rng::new(!seed, !number);
    let (round, place) = (number / TURNS, (number % TURNS) as usize);
    let by = 1 + (round % 6) as Refusal;
    let cases = match place {
        0..=7 => repriced(rng, place),
        8..=18 => other_change(rng, OTHERS[place - 8]),
        19 => changed(rng, base, |_, _| ()),
        20 => other_queries(rng),
        21 => unfit(rng),
        22 => out_of_range(rng),
        23 => same_fault(rng, seed, 5 + by % 2),
        24 => return [refused(rng, seed, by), text(&to_lines(&base(rng)))],
        25 => return [text(&to_lines(&base(rng))), refused(rng, seed, by)],
        _ => {
            let other = 1 + (by + rng.below(5) as Refusal) % 6;
            return [by, other].map(|number| refused(rng, seed, number));
        }
    };
    cases.map(|case| text(&to_lines(&case)))
}

/// A valid policy with its queries: mostly few actions; now and then up to 16, and two queries at most.
fn base(rng: &mut Rng) -> Case {
    let many = rng.once_in(30);
    loop {
        let index = rng.next() % 1_000;
        let mut case = if rng.once_in(3) { small(rng) } else { valid(rng, index) };
        if many == (case.policy.actions.len() > FEW_ACTIONS) {
            case.queries.truncate(if many { 2 } else { case.queries.len() });
            return case;
        }
    }
}

/// The policy with the change, still accepted where one of some tries gives that.
fn with(rng: &mut Rng, policy: &Policy, change: Change) -> Policy {
    let mut tried = policy.clone();
    for _ in 0..TRIES {
        tried = policy.clone();
        change(rng, &mut tried);
        if check(&tried).is_ok() && lines(&tried, &[]) != lines(policy, &[]) {
            break;
        }
    }
    tried
}

/// A valid case, and the same with the change; once in three times with queries of its own.
fn changed(rng: &mut Rng, make: fn(&mut Rng) -> Case, change: Change) -> [Case; 2] {
    let before = make(rng);
    let mut after = Case { policy: with(rng, &before.policy, change), queries: before.queries.clone() };
    if rng.once_in(3) {
        let count = rng.below(5);
        after.queries = queries(rng, &after.policy, count);
    }
    [before, after]
}

/// A valid policy with several ways to clear its decision, and few actions.
fn several_ways(rng: &mut Rng) -> Case {
    loop {
        let case = valid(rng, WAYS);
        if case.policy.actions.len() <= FEW_ACTIONS {
            return case;
        }
    }
}

/// A weight that rises or falls; in every other pair the decision is cleared in several ways.
fn repriced(rng: &mut Rng, place: usize) -> [Case; 2] {
    let make = if place % 2 == 0 { base } else { several_ways };
    let mut cases = changed(rng, make, if place / 2 == 2 { lower } else { raise });
    if place / 2 == 3 {
        cases.reverse();
    }
    cases
}

/// Once in four times with a weight changed too.
fn other_change(rng: &mut Rng, change: Change) -> [Case; 2] {
    let [one, mut other] = changed(rng, base, change);
    if rng.once_in(4) {
        let weight = rng.pick(&[raise as Change, lower]);
        other.policy = with(rng, &other.policy, weight);
    }
    either_way(rng, one, other)
}

fn either_way(rng: &mut Rng, one: Case, other: Case) -> [Case; 2] {
    if rng.once_in(2) {
        [one, other]
    } else {
        [other, one]
    }
}

fn other_queries(rng: &mut Rng) -> [Case; 2] {
    let after = base(rng);
    let count = rng.below(5);
    let queries = queries(rng, &after.policy, count);
    [Case { policy: after.policy.clone(), queries }, after]
}

/// Forms in forms. The weight of an inner form is raised to that of an outer one or past it, or the outer one's lowered
/// to it, so that question 6 is answered no.
fn unfit(rng: &mut Rng) -> [Case; 2] {
    let fit = forms(rng);
    let mut unfit = fit.clone();
    let actions = &mut unfit.policy.actions;
    let pairs = (0..actions.len()).flat_map(|outer| (0..actions.len()).map(move |inner| (outer, inner)));
    let inside: Vec<(usize, usize)> = pairs.filter(|&(outer, inner)| has(actions[outer].also, inner)).collect();
    let (outer, inner) = rng.pick(&inside);
    if rng.once_in(3) {
        actions[outer].weight = actions[inner].weight;
    } else {
        let past = actions[outer].weight + rng.below(3) as u32;
        actions[inner].weight = past.min(TOP_WEIGHT);
    }
    either_way(rng, fit, unfit)
}

/// The first policy has a decision or an action more, and a query for it.
fn out_of_range(rng: &mut Rng) -> [Case; 2] {
    let after = base(rng);
    let mut before = after.clone();
    let query = if rng.once_in(2) {
        before.policy = with(rng, &after.policy, more_decisions);
        Query { want: before.policy.levels.len() as u32 - 1, done: 0 }
    } else {
        before.policy = with(rng, &after.policy, more_actions);
        Query { want: 0, done: 1 << (before.policy.actions.len() - 1) }
    };
    let place = rng.below(before.queries.len() + 1);
    before.queries.insert(place, query);
    [before, after]
}

/// A policy that this question, 5 or 6, refuses, and the same with one weight changed.
fn same_fault(rng: &mut Rng, seed: u64, number: Refusal) -> [Case; 2] {
    let (policy, queries) = read_lines(&refused(rng, seed, number)).expect("lines with no fault");
    let one = Case { policy, queries };
    let mut other = one.clone();
    raise(rng, &mut other.policy);
    either_way(rng, one, other)
}

/// One of the files of the seed that are not valid, which this question refuses.
fn refused(rng: &mut Rng, seed: u64, number: Refusal) -> Vec<u8> {
    let start = rng.next() % 10_000;
    let mut files = (start..).filter(|&number| !is_valid(number)).map(|number| file(seed, number));
    files.find(|file| read(file).err() == Some(number)).expect("each question refuses some")
}

fn raise(rng: &mut Rng, policy: &mut Policy) {
    for place in rng.rising(1, policy.actions.len()) {
        weigh(rng, policy, place, true);
    }
}

fn lower(rng: &mut Rng, policy: &mut Policy) {
    for place in rng.rising(1, policy.actions.len()) {
        weigh(rng, policy, place, false);
    }
}

/// A weight up or down: by little, by any number, to that of another action, or to the end of the range.
fn weigh(rng: &mut Rng, policy: &mut Policy, place: usize, up: bool) {
    let weights: Vec<u32> = policy.actions.iter().map(|action| action.weight).collect();
    let (weight, little, other) = (weights[place], rng.within(1, 9) as u32, rng.pick(&weights));
    let (least, most) = if up { (weight, TOP_WEIGHT) } else { (1, weight) };
    policy.actions[place].weight = match rng.below(4) {
        0 if up => weight + little.min(TOP_WEIGHT - weight),
        0 => weight.saturating_sub(little).max(1),
        1 => rng.within(least as usize, most as usize) as u32,
        2 => other.clamp(least, most),
        _ if up => TOP_WEIGHT,
        _ => 1,
    };
}

fn two_weights(rng: &mut Rng, policy: &mut Policy) {
    for place in rng.rising(2, policy.actions.len()) {
        let up = rng.once_in(2);
        weigh(rng, policy, place, up);
    }
}

fn kind(rng: &mut Rng, policy: &mut Policy) {
    for place in rng.rising(1, policy.actions.len()) {
        let action = &mut policy.actions[place];
        action.kind = if action.kind == 'p' { 'o' } else { 'p' };
    }
}

fn level(rng: &mut Rng, policy: &mut Policy) {
    let place = rng.below(policy.levels.len());
    policy.levels[place] = rng.within(0, TOP_LEVEL as usize) as u32;
}

fn also(rng: &mut Rng, policy: &mut Policy) {
    let count = policy.actions.len();
    for place in rng.rising(1, count) {
        policy.actions[place].also ^= 1 << rng.below(count);
    }
}

/// A rule, the last one half of the time.
fn some_rule<'a>(rng: &mut Rng, policy: &'a mut Policy) -> Option<&'a mut Rule> {
    let count = policy.rules.len();
    let place = if count > 0 && rng.once_in(2) { rng.below(count) } else { count.max(1) - 1 };
    policy.rules.get_mut(place)
}

fn needs(rng: &mut Rng, policy: &mut Policy) {
    let bit = 1 << rng.below(policy.actions.len().max(1));
    some_rule(rng, policy).into_iter().for_each(|rule| rule.needs ^= bit);
}

fn head(rng: &mut Rng, policy: &mut Policy) {
    let head = rng.below(policy.levels.len()) as u32;
    some_rule(rng, policy).into_iter().for_each(|rule| rule.head = head);
}

fn if_entry(rng: &mut Rng, policy: &mut Policy) {
    let entries = entries(rng, policy.levels.len());
    some_rule(rng, policy).into_iter().for_each(|rule| toggle(&mut rule.ifs, &entries));
}

fn unless_entry(rng: &mut Rng, policy: &mut Policy) {
    let entries = entries(rng, policy.levels.len());
    some_rule(rng, policy).into_iter().for_each(|rule| toggle(&mut rule.unless, &entries));
}

/// What to change in a list: the entry 0, or any one or two.
fn entries(rng: &mut Rng, decisions: usize) -> Vec<u32> {
    match rng.below(3) {
        0 => vec![0],
        count => rng.rising(count, decisions).into_iter().map(|d| d as u32).collect(),
    }
}

/// Takes each entry out of the list, or puts it in where it is not there.
fn toggle(list: &mut Vec<u32>, entries: &[u32]) {
    for entry in entries {
        match list.binary_search(entry) {
            Ok(place) => drop(list.remove(place)),
            Err(place) => list.insert(place, *entry),
        }
    }
}

/// The last rule dropped, swapped with another, or put a second time; or another put after it, at times all zeros.
fn last_rule(rng: &mut Rng, policy: &mut Policy) {
    let count = policy.rules.len();
    let last = policy.rules.last().cloned();
    match (rng.below(5), last) {
        (0, Some(_)) => drop(policy.rules.pop()),
        (1, Some(_)) => policy.rules.swap(rng.below(count), count - 1),
        _ if count == MOST_RULES => {}
        (2, Some(last)) => policy.rules.push(last),
        (3, _) => policy.rules.push(Rule::default()),
        _ => policy.rules.push(rule(rng, policy)),
    }
}

/// A decision after the last, of level 0 half of the time.
fn more_decisions(rng: &mut Rng, policy: &mut Policy) {
    if policy.levels.len() < MOST_DECISIONS {
        let level = rng.within(0, TOP_LEVEL as usize) as u32;
        policy.levels.push(if rng.once_in(2) { 0 } else { level });
    }
}

/// An action after the last, with no others in it half of the time.
fn more_actions(rng: &mut Rng, policy: &mut Policy) {
    let count = policy.actions.len();
    if count < MOST_ACTIONS {
        let (kind, weight) = (rng.pick(&['p', 'o']), rng.within(1, TOP_WEIGHT as usize) as u32);
        policy.actions.push(Action { kind, weight, also: if rng.once_in(2) { 0 } else { mask(rng, count) } });
    }
}
