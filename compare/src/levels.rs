//! The lowest levels that meet question 5, from a graph: a head stands above what its rules name. Decisions that stand
//! above each other form a group and share a level, and from group to group an unless is a step up.

use crate::policy::{ask, Policy, Refusal, TOP_LEVEL};
use crate::reader::read_lines;
use std::collections::BTreeMap;

/// A set of decisions: decision d is in it when bit d is 1.
type Decisions = u128;

/// What the program `levels` prints for a file.
pub fn levels(input: &[u8]) -> String {
    match read_lines(input).and_then(|(policy, _)| lowest(&policy)) {
        Err(number) => format!("refused={number}\n"),
        Ok(levels) => levels.iter().map(|level| format!("level={level}\n")).collect(),
    }
}

/// The call: the lowest levels, after questions 3 and 4, or 9 where no levels meet question 5.
pub fn lowest(policy: &Policy) -> Result<Vec<u32>, Refusal> {
    ask(3, policy.in_range_but_levels())?;
    ask(4, policy.lists_rise())?;
    let (mut ifs, mut unless) = (vec![0; policy.levels.len()], vec![0; policy.levels.len()]);
    for rule in &policy.rules {
        ifs[rule.head as usize] |= set(&rule.ifs);
        unless[rule.head as usize] |= set(&rule.unless);
    }
    let mut levels = vec![0; policy.levels.len()];
    // When a group's turn comes, all below it have their levels and its own stand at 0.
    for group in groups(&ifs, &unless) {
        let mut level = 0;
        for head in members(group) {
            ask(9, unless[head] & group == 0)?;
            let same = members(ifs[head]).map(|d| levels[d]);
            let above = members(unless[head]).map(|d| levels[d] + 1);
            level = same.chain(above).fold(level, u32::max);
        }
        members(group).for_each(|d| levels[d] = level);
    }
    ask(9, levels.iter().all(|&level| level <= TOP_LEVEL))?;
    Ok(levels)
}

/// The groups, each after all that it stands above. Decisions are in one group when the same decisions stand at or
/// below them; a group above another has more of these, and its set is the greater number.
fn groups(ifs: &[Decisions], unless: &[Decisions]) -> Vec<Decisions> {
    let mut below: Vec<Decisions> = ifs.iter().zip(unless).map(|(ifs, unless)| ifs | unless).collect();
    below.iter_mut().enumerate().for_each(|(d, below)| *below |= 1 << d);
    for middle in 0..below.len() {
        let through = below[middle];
        below.iter_mut().filter(|below| **below >> middle & 1 == 1).for_each(|below| *below |= through);
    }
    let mut groups = BTreeMap::new();
    for (d, &below) in below.iter().enumerate() {
        *groups.entry(below).or_insert(0) |= 1 << d;
    }
    groups.into_values().collect()
}

fn set(list: &[u32]) -> Decisions {
    list.iter().fold(0, |set, d| set | 1 << d)
}

fn members(set: Decisions) -> impl Iterator<Item = usize> {
    (0..128).filter(move |d| set >> d & 1 == 1)
}

/// The most decisions for which each assignment is tried.
pub const MOST_TRIED: usize = 5;

/// Whether an answer of the call is right for a policy that passes questions 3 and 4, by each assignment of levels
/// below the decision count. These are enough: levels with gaps between them can be closed up, which raises none.
pub fn is_lowest(policy: &Policy, answer: &Result<Vec<u32>, Refusal>) -> bool {
    let count = policy.levels.len();
    let mut tried = policy.clone();
    let mut fitting = Vec::new();
    for number in 0..count.pow(count as u32) {
        tried.levels = (0..count).map(|d| (number / count.pow(d as u32) % count) as u32).collect();
        if tried.levels_fit() {
            fitting.push(tried.levels.clone());
        }
    }
    match answer {
        Ok(found) => {
            let at_least = |other: &Vec<u32>| found.iter().zip(other).all(|(level, other)| level <= other);
            fitting.contains(found) && fitting.iter().all(at_least)
        }
        Err(number) => *number == 9 && fitting.is_empty(),
    }
}
