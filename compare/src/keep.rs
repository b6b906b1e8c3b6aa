//! The keep-off mask of the best set. Up to 8 actions each mask is tried with each set, as document 02 has it; with
//! more, the groups of actions that spoil the best set are found first, and then a mask with an action of each.

use crate::engine::{smallest, Engine};
use crate::policy::{Policy, Query};

/// With more actions it would take too long to try each mask with each set.
const MOST_ACTIONS: usize = 8;

/// The mask for a set that is enough. Of each mask `enough` has whether it is a set and enough.
pub fn keep(enough: &[bool], done: u32, set: u32) -> u32 {
    if enough.len() <= 1 << MOST_ACTIONS {
        by_trial(enough, done, set)
    } else {
        by_groups(enough, done, set)
    }
}

/// A mask serves when each set that contains the best one and shares nothing with the mask or done is enough.
fn by_trial(enough: &[bool], done: u32, set: u32) -> u32 {
    let masks = 0..enough.len() as u32;
    let serves = |keep: &u32| {
        let mut sets = masks.clone().filter(|with| with & set == set && with & (keep | done) == 0);
        sets.all(|with| enough[with as usize])
    };
    let keeps = masks.clone().filter(|keep| keep & (set | done) == 0).filter(serves);
    keeps.min_by_key(|&keep| (keep.count_ones(), keep)).expect("all other actions serve")
}

/// A group spoils the set when it is added to it, and no part of the group does. The masks are taken by rising number
/// of actions, and those of equal number by rising mask.
fn by_groups(enough: &[bool], done: u32, set: u32) -> u32 {
    let masks = 0..enough.len() as u32;
    let is_free = |mask: &u32| mask & (set | done) == 0;
    let spoils: Vec<bool> = masks.clone().map(|more| is_free(&more) && !enough[(set | more) as usize]).collect();
    let groups = smallest(&spoils);
    let mut keeps: Vec<u32> = masks.filter(is_free).collect();
    keeps.sort_by_key(|keep| keep.count_ones());
    let first = keeps.into_iter().find(|keep| groups.iter().all(|group| group & keep != 0));
    first.expect("all other actions have one of each group")
}

/// Whether the mask of each query, where it was found by trial, is the same by groups.
pub fn ways_agree(policy: &Policy, queries: &[Query]) -> bool {
    let mut engine = Engine::new(policy);
    policy.actions.len() > MOST_ACTIONS
        || queries.iter().all(|query| match engine.choose(query) {
            Ok(Some(best)) => best.keep == by_groups(&engine.try_each(query), query.done, best.mask),
            _ => true,
        })
}
