//! Hard files, and others that are timed beside them.

use crate::generate::{text, to_lines};
use crate::policy::{Action, Policy, Query, Rule};
use crate::random::{bits, random, Case, Size};
use crate::rng::Rng;
use crate::shapes::at_least;

pub const LARGEST: Size = Size { decisions: 128, actions: 16, rules: 256, queries: 64, top_level: 15 };
const ALL: u32 = 65_535;

/// Each with one query.
pub fn hard() -> Vec<(&'static str, Case)> {
    let mut rng = Rng::new(0, 0);
    let same = any_rules(&mut Rng::new(0, 0), 0);
    vec![
        ("at least 8 of 16: 12,870 slim sets", at_least(8, 16)),
        ("chain of 128 against file order, all 16 actions needed at its end", chain()),
        ("chain of 128 against file order, 255 rules", twofold_chain(false)),
        ("the same with needs everywhere", twofold_chain(true)),
        ("256 rules, 16 levels with unless, 16 actions, 1 query", any_rules(&mut rng, 1)),
        ("256 rules, 16 actions, nothing clears", nothing(&mut rng)),
        ("256 rules with unless at 16 levels, tangled", wanting(tangled(), 127)),
        ("terms: 240 rules for one decision", terms()),
        ("at least 4 of 16, unless as many counted from the last, nothing clears", counted_twice()),
        ("16 actions in one chain of also masks, 1 rule, nothing clears", contained(1)),
        ("chain up with action 0 and down without it, links in turn", up_and_down(ALL - 1, &[])),
        ("the same with 5 actions needed and action 0 to keep off", up_and_down(62, &[7])),
        ("256 rules, 16 levels with unless, nothing to do, 2 to keep off", wanting(same.policy, 59)),
        ("256 rules with unless at 16 levels, tangled, nothing to do, 4 to keep off", wanting(tangled(), 120)),
        ("at most 8 of 16: nothing to do, 8 to keep off", between(0, 8)),
        ("6 to 10 of 16: 8,008 slim sets, 6 to keep off", between(6, 10)),
    ]
}

/// The text of a hard file, or nothing past the last.
pub fn file(number: u64) -> Vec<u8> {
    hard().get(number as usize).map_or(Vec::new(), |(_, case)| text(&to_lines(case)))
}

/// The files that are timed beside the hard ones.
pub fn others() -> Vec<(&'static str, Case)> {
    vec![
        ("256 rules, 16 levels with unless, 16 actions, 64 queries", any_rules(&mut Rng::new(0, 0), 64)),
        ("the same with no query: reading alone", any_rules(&mut Rng::new(0, 0), 0)),
        ("16 actions in one chain of also masks, 1 rule, nothing clears, 64 queries", contained(64)),
        ("two chains through the same 127 decisions, all in unrelated orders", crossed()),
        ("4 decisions, 4 actions, 4 rules, 1 query", little()),
    ]
}

fn wanting(policy: Policy, want: u32) -> Case {
    Case { policy, queries: vec![Query { want, done: 0 }] }
}

fn actions(count: usize) -> Vec<Action> {
    vec![Action { kind: 'p', weight: 1, also: 0 }; count]
}

fn of_levels(levels: Vec<u32>) -> Policy {
    Policy { levels, actions: actions(16), rules: Vec::new() }
}

/// A small file: what a run costs at least.
pub fn little() -> Case {
    let mut policy = Policy { levels: vec![1, 0, 0, 0], actions: actions(4), rules: Vec::new() };
    for (head, needs) in [(1, 1), (1, 4), (2, 2)] {
        policy.rules.push(Rule { head, needs, ..Rule::default() });
    }
    policy.rules.push(Rule { head: 0, needs: 0, ifs: vec![1], unless: vec![2] });
    wanting(policy, 0)
}

/// 0 if 1, 1 if 2 and so on, so that each pass adds one decision, in the world of every set.
pub fn chain() -> Case {
    let mut policy = of_levels(vec![0; 128]);
    for head in 0..127 {
        let needs = if head == 0 { ALL } else { 0 };
        policy.rules.push(Rule { head, needs, ifs: vec![head + 1], unless: Vec::new() });
    }
    policy.rules.push(Rule { head: 127, ..Rule::default() });
    wanting(policy, 0)
}

/// The chain with two rules for each link, and all 16 actions needed at its end; or with one action needed by each rule
/// of a link, of a pair that 16 links in a row share, so that many sets come a long way.
fn twofold_chain(needs_everywhere: bool) -> Case {
    let mut policy = of_levels(vec![0; 128]);
    for head in 0..127 {
        let needs = match head {
            _ if needs_everywhere => [1 << (head / 16), 256 << (head / 16)],
            0 => [ALL, ALL],
            _ => [0, 0],
        };
        for needs in needs {
            policy.rules.push(Rule { head, needs, ifs: vec![head + 1], unless: Vec::new() });
        }
    }
    policy.rules.push(Rule { head: 127, ..Rule::default() });
    wanting(policy, 0)
}

/// 0 if 1, 1 if 2 and so on to 127 unless 0: a round over the rules raises one level by one, or two, until all are 15.
pub fn circle() -> Case {
    let mut case = chain();
    case.policy.rules[127].unless.push(0);
    case.queries.clear();
    case
}

/// Random rules, as many as a file may hold, and so many queries.
fn any_rules(rng: &mut Rng, queries: usize) -> Case {
    let mut case = random(rng, &LARGEST);
    case.policy.actions = actions(16);
    case.queries.truncate(queries);
    for query in &mut case.queries {
        query.done = 0;
    }
    case
}

/// 8 decisions on each level, with two rules each: one with decisions of its level or the one below as if, and one with
/// decisions of the two levels below as unless. Most need actions too. They stand in any order.
fn tangled() -> Policy {
    let mut rng = Rng::new(0, 0);
    let mut policy = of_levels((0..128).map(|d| d / 8).collect());
    for head in 0..128 {
        let first = head / 8 * 8;
        let mut some = |from: u32, to: u32| -> Vec<u32> {
            let count = rng.within(1, 2);
            rng.rising(count, (to - from) as usize).into_iter().map(|place| from + place as u32).collect()
        };
        let ifs = if first == 0 { Vec::new() } else { some(first - 8, first + 8) };
        let unless = some(first.saturating_sub(16), first);
        let counts = [rng.within(1, 2), rng.within(0, 1) + usize::from(first == 0)];
        let needs = counts.map(|count| bits(&rng.rising(count, 16)));
        policy.rules.push(Rule { head, needs: needs[0], ifs, unless: Vec::new() });
        policy.rules.push(Rule { head, needs: needs[1], ifs: Vec::new(), unless });
    }
    rng.shuffle(&mut policy.rules);
    policy
}

/// Decision 0 needs one of 240 sets of 6 to 8 actions, with every fourth of them unless decision 1, which needs one of
/// 16 sets of 3 or 4.
fn terms() -> Case {
    let mut rng = Rng::new(0, 3);
    let mut policy = of_levels(vec![1, 0]);
    for number in 0..256 {
        let head = u32::from(number >= 240);
        let count = if head == 0 { rng.within(6, 8) } else { rng.within(3, 4) };
        let unless = if head == 0 && number % 4 == 0 { vec![1] } else { Vec::new() };
        policy.rules.push(Rule { head, needs: bits(&rng.rising(count, 16)), ifs: Vec::new(), unless });
    }
    wanting(policy, 0)
}

/// At least 4 of the 16 actions by one count, and not by a second one that starts from the last action. The counts
/// agree in every world, so nothing clears, but that takes some search to see.
fn counted_twice() -> Case {
    let Case { mut policy, queries } = at_least(4, 16);
    let (count, reached) = (policy.levels.len() as u32, queries[0].want);
    for rule in policy.rules.clone() {
        let needs = rule.needs.reverse_bits() >> 16;
        let ifs = rule.ifs.iter().map(|d| d + count).collect();
        policy.rules.push(Rule { head: rule.head + count, needs, ifs, unless: Vec::new() });
    }
    policy.rules.push(Rule { head: 2 * count, needs: 0, ifs: vec![reached], unless: vec![reached + count] });
    policy.levels = vec![0; 2 * count as usize];
    policy.levels.push(1);
    wanting(policy, 2 * count)
}

/// At least so many of the 16 actions, unless more than so many.
fn between(least: u32, most: u32) -> Case {
    let Case { mut policy, queries } = at_least(most as usize + 1, 16);
    let more = queries[0].want;
    let ifs = if least == 0 { Vec::new() } else { vec![more - most - 1 + least] };
    policy.rules.push(Rule { head: more + 1, needs: 0, ifs, unless: vec![more] });
    policy.levels.push(1);
    wanting(policy, more + 1)
}

/// Random rules, and a decision on the highest level that only a circle gives.
fn nothing(rng: &mut Rng) -> Case {
    let mut case = random(rng, &Size { queries: 0, top_level: 14, ..LARGEST });
    case.policy.actions = actions(16);
    case.policy.levels[..2].fill(15);
    case.policy.rules.retain(|rule| rule.head > 1 && !rule.ifs.iter().chain(&rule.unless).any(|&d| d < 2));
    case.policy.rules.push(Rule { head: 0, ifs: vec![1], ..Rule::default() });
    case.policy.rules.push(Rule { head: 1, ifs: vec![0], ..Rule::default() });
    wanting(case.policy, 0)
}

/// Each action has the one numbered just below it in its also mask, so that a round over the actions by rising number
/// follows each chain by one step. The only rule never fires, so every set is judged.
fn contained(queries: usize) -> Case {
    let mut policy = of_levels(vec![0]);
    for (number, action) in policy.actions.iter_mut().enumerate() {
        action.weight = 1 + number as u32;
        action.also = (1 << number) >> 1;
    }
    policy.rules.push(Rule { head: 0, ifs: vec![0], ..Rule::default() });
    Case { policy, queries: vec![Query { want: 0, done: 0 }; queries] }
}

/// Decisions 8 to 126 chain upwards in the worlds with action 0 and downwards in the others. The links of the two
/// chains take turns in the file, so that in file order the chain down takes a pass for each link; and no order of the
/// decisions suits both chains. Each link asks for 7 more decisions, which always hold. The wanted decision asks for
/// both ends, with these needs and unless entries.
fn up_and_down(needs: u32, unless: &[u32]) -> Case {
    let mut policy = of_levels((0..128).map(|d| u32::from(d > 7)).collect());
    for head in 0..7 {
        policy.rules.push(Rule { head, ..Rule::default() });
    }
    for head in [7, 8] {
        policy.rules.push(Rule { head, needs: 1, ..Rule::default() });
    }
    policy.rules.push(Rule { head: 126, unless: vec![7], ..Rule::default() });
    let with = |decision| (0..7).chain([decision]).collect();
    for below in 8..126 {
        policy.rules.push(Rule { head: below + 1, needs: 1, ifs: with(below), unless: Vec::new() });
        policy.rules.push(Rule { head: below, needs: 0, ifs: with(below + 1), unless: vec![7] });
    }
    policy.rules.push(Rule { head: 127, needs, ifs: vec![8, 126], unless: unless.to_vec() });
    wanting(policy, 127)
}

/// The first 127 decisions chain in one order in the worlds with action 0, and in another in those with action 1. The
/// links of both stand in the file in a third order.
fn crossed() -> Case {
    let mut rng = Rng::new(0, 0);
    let mut policy = of_levels(vec![0; 128]);
    let mut order: Vec<u32> = (0..127).collect();
    for needs in [1, 2] {
        rng.shuffle(&mut order);
        policy.rules.push(Rule { head: order[0], needs, ..Rule::default() });
        for link in order.windows(2) {
            policy.rules.push(Rule { head: link[1], needs, ifs: vec![link[0]], unless: Vec::new() });
        }
    }
    policy.rules.push(Rule { head: 127, needs: ALL, ifs: vec![order[126]], unless: Vec::new() });
    rng.shuffle(&mut policy.rules);
    wanting(policy, 127)
}
