//! How costs follow a weight, as document 02 has it, to see that the engine here is right: where one weight moves by k
//! and both policies are accepted, the slim sets stay the same, none stays none, and a cost moves by 0 to k the same
//! way.

use crate::engine::Engine;
use crate::policy::{Policy, Query};
use crate::reader::read;
use crate::reprice::{comparable, price};

/// No query has more slim sets.
const MOST_SLIM: usize = 12_870;

/// Of two files that are accepted and comparable, for each query of the first that both policies accept: how its cost
/// moved, or None where it does not follow.
pub fn effects(before: &[u8], after: &[u8]) -> Vec<Option<&'static str>> {
    match (read(before), read(after)) {
        (Ok((before, queries)), Ok((after, _))) if comparable(&before, &after) => {
            let rise = weights(&after) - weights(&before);
            let (low, high) = if rise < 0 { (&after, &before) } else { (&before, &after) };
            let (mut low, mut high) = (Engine::new(low), Engine::new(high));
            let accepted = queries.iter().filter(|query| after.is_query(query));
            accepted.map(|query| effect(&mut low, &mut high, rise.abs(), query)).collect()
        }
        _ => Vec::new(),
    }
}

fn weights(policy: &Policy) -> i64 {
    policy.actions.iter().map(|action| i64::from(action.weight)).sum()
}

/// The weight that differs is lower by k in the first policy.
fn effect(low: &mut Engine, high: &mut Engine, k: i64, query: &Query) -> Option<&'static str> {
    let ((slim, least), (same, most)) = (answer(low, query), answer(high, query));
    match (least, most) {
        _ if slim != same => None,
        (None, None) => Some("none"),
        (Some(least), Some(most)) => match i64::from(most) - i64::from(least) {
            0 if k == 0 => Some("of equal policies"),
            0 => Some("moved by 0"),
            by if by == k => Some("moved by k"),
            by if 0 < by && by < k => Some("moved in between"),
            _ => None,
        },
        _ => None,
    }
}

/// The slim sets as List has them, and the least cost, which Choose has too.
fn answer(engine: &mut Engine, query: &Query) -> (Vec<u16>, Option<u32>) {
    let mut lent = vec![0; MOST_SLIM];
    let count = engine.list(query, &mut lent).expect("an accepted query");
    lent.truncate(count);
    let cost = price(engine, query);
    let best = engine.choose(query).expect("an accepted query");
    assert!(cost == best.map(|best| best.cost), "another cost is the least");
    (lent, cost)
}
