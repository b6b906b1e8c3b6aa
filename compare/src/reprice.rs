//! What the programs `reprice` and `pairprobe` print for two files, the policy before a change and after it. Each set is
//! tried by both policies, and the lines that state these show whether the two can be compared.

use crate::engine::Engine;
use crate::policy::{has, Policy, Query, Refusal, MOST_DECISIONS};
use crate::probe::named;
use crate::reader::{read, read_lines};
use crate::writer::lines;

/// The least cost of a set that clears a query, or none.
type Cost = Option<u32>;

/// What `reprice` prints.
pub fn reprice(before: &[u8], after: &[u8]) -> String {
    costs_of_files(before, after).unwrap_or_else(|number| format!("refused={number}\n"))
}

fn costs_of_files(before: &[u8], after: &[u8]) -> Result<String, Refusal> {
    let (before, queries) = read(before)?;
    let (after, _) = read(after)?;
    let (mut first, mut second) = (Engine::new(&before), Engine::new(&after));
    for query in &queries {
        second.questions(query, 0)?;
    }
    if !comparable(&before, &after) {
        return Ok("not comparable\n".to_string());
    }
    let answers = queries.iter().map(|query| {
        let [before, after] = [&mut first, &mut second].map(|engine| text(price(engine, query)));
        format!("want={}\nbefore={before}\nafter={after}\n", query.want)
    });
    Ok(answers.collect())
}

/// Whether two policies are equal but for at most one weight. A count that differs shows in its own line.
pub fn comparable(one: &Policy, other: &Policy) -> bool {
    let (one, other) = (lines(one, &[]), lines(other, &[]));
    let mut differing = one.iter().zip(&other).filter(|(line, other)| line != other);
    differing.clone().count() <= 1 && differing.all(|(line, _)| line.starts_with("weight="))
}

/// The call price: none too where the policy with the query is refused.
pub fn price(engine: &mut Engine, query: &Query) -> Cost {
    engine.questions(query, 0).ok()?;
    let clears = engine.try_each(query);
    let actions = &engine.policy.actions;
    let cost = |set: u32| (0..actions.len()).filter(|&i| has(set, i)).map(|i| actions[i].weight).sum::<u32>();
    (0..clears.len() as u32).filter(|&set| clears[set as usize]).map(cost).min()
}

fn text(cost: Cost) -> String {
    cost.map_or("none".to_string(), |cost| cost.to_string())
}

/// What the call reprice returns: a refusal of the first policy or of the second, not comparable, or both costs.
fn call(before: &mut Engine, after: &mut Engine, query: &Query) -> String {
    if let Err(number) = before.questions(query, 0).and_then(|()| after.questions(query, 0)) {
        format!("refused={number}")
    } else if comparable(before.policy, after.policy) {
        both_costs(before, after, query)
    } else {
        "not comparable".to_string()
    }
}

fn both_costs(before: &mut Engine, after: &mut Engine, query: &Query) -> String {
    format!("before={} after={}", text(price(before, query)), text(price(after, query)))
}

/// What `pairprobe` prints.
pub fn pairprobe(before: &[u8], after: &[u8]) -> String {
    let both = read_lines(before).and_then(|(before, queries)| Ok((before, queries, read_lines(after)?.0)));
    let (before, queries, after) = match both {
        Err(number) => return format!("refused={number}\n"),
        Ok(both) => both,
    };
    let (mut first, mut second) = (Engine::new(&before), Engine::new(&after));
    let mut text = format!("comparable={}\n", u32::from(comparable(&before, &after)));
    for query in &queries {
        text += &format!("{}reprice {}\n", named(query), call(&mut first, &mut second, query));
        text += &format!("price {}\n", both_costs(&mut first, &mut second, query));
    }
    if let Some(query) = queries.first() {
        text += &format!("swapped {}\n", call(&mut second, &mut first, query));
        text += &format!("same {}\n", call(&mut first, &mut Engine::new(&before), query));
        // nothing is kept past a count
        text += &format!("past {}\n", call(&mut first, &mut second, query));
        text += &spoilt_lines(&before, &after, query);
    }
    text
}

/// With one of the policies spoilt, and with both.
fn spoilt_lines(before: &Policy, after: &Policy, query: &Query) -> String {
    let spoils = ["count", "falling", "own", "itself"];
    let one = spoils.iter().flat_map(|&name| [(name, "-"), ("-", name)]);
    let both = spoils.iter().flat_map(|&name| spoils.map(|other| (name, other)));
    let lines = one.chain(both).map(|(name, other)| {
        let (before, after) = (spoilt(before, name), spoilt(after, other));
        let answer = call(&mut Engine::new(&before), &mut Engine::new(&after), query);
        format!("{name} {other} {answer}\n")
    });
    lines.collect()
}

/// The policy spoilt in the way of this name; as it is where it has no place for that.
fn spoilt(policy: &Policy, name: &str) -> Policy {
    let mut spoilt = policy.clone();
    match (name, spoilt.rules.first_mut(), spoilt.actions.first_mut()) {
        ("count", _, _) => spoilt.levels.resize(MOST_DECISIONS + 1, 0),
        ("falling", Some(rule), _) if policy.levels.len() >= 2 => rule.ifs = vec![1, 0],
        ("own", Some(rule), _) => rule.unless = vec![rule.head],
        ("itself", _, Some(action)) => action.also = 1,
        _ => {}
    }
    spoilt
}
