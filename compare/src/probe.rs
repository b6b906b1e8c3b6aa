//! What the program `probe` prints for a file: the answers of each call to every set offered, to lists of each
//! length, to each w, to buffers of several lengths, to queries out of range and to spoilt policies.

use crate::engine::{check, Engine};
use crate::levels::lowest;
use crate::policy::{Action, Policy, Query, Refusal, Rule, MOST_DECISIONS, MOST_QUERIES};
use crate::run::commas;
use crate::words::{SETS, TOP_W};
use crate::{reader, writer};

/// With more actions the lines are few.
const MOST_ACTIONS: usize = 8;
/// The bytes lent to write what is spoilt; no accepted file is longer.
const LENT: usize = 27_300;

pub fn probe(input: &[u8]) -> String {
    let (policy, queries) = match reader::read(input) {
        Err(number) => return format!("refused={number}\n"),
        Ok(read) => read,
    };
    if policy.actions.len() > MOST_ACTIONS {
        return many_actions(&policy, &queries);
    }
    let mut text = format!("check={}\n{}\n", number(check(&policy)), levels(&policy));
    for length in [0, input.len() - 1, input.len(), input.len() + 3] {
        text += &format!("write {length} {}\n", write(&policy, &queries, length));
    }
    let mut engine = Engine::new(&policy);
    for query in &queries {
        text += &named(query);
        text += &offers(&mut engine, query, 1 << policy.actions.len());
        text += &lists(&mut engine, query);
        text += &each_w(&mut engine, query, 1 << policy.actions.len());
        let over = Query { want: policy.levels.len() as u32, done: query.done };
        text += &out_of_range(&mut engine, "want", &over);
        let over = Query { want: query.want, done: 1 << policy.actions.len() };
        text += &out_of_range(&mut engine, "done", &over);
    }
    if let Some(query) = queries.first() {
        for (name, spoilt) in spoilt(&policy) {
            text += &format!("spoilt {name} {}\n", calls(&spoilt, query, &queries));
        }
        text += &spoilt_queries(&policy, &queries);
    }
    text
}

/// Of each query Choose, List with a place for every slim set and with one place fewer, and words: those of few w, and
/// all in one number.
fn many_actions(policy: &Policy, queries: &[Query]) -> String {
    let mut engine = Engine::new(policy);
    let mut text = String::new();
    for query in queries {
        let count = slim(&mut engine, query);
        text += &format!("{}choose {}\n", named(query), choose(&mut engine, query));
        for length in count.saturating_sub(1)..=count {
            text += &format!("list {length} {}\n", list(&mut engine, query, length));
        }
        for w in [0, 1, TOP_W, TOP_W + 1] {
            text += &format!("words {w} {}\n", words(&mut engine, query, w));
        }
        text += &format!("digest={}\n", digest(&mut engine, query));
    }
    text
}

/// The words of each w in turn, one decision after the other; the query is accepted.
fn digest(engine: &mut Engine, query: &Query) -> u64 {
    let words = (0..=TOP_W).flat_map(|w| engine.words(query, w).expect("an accepted query"));
    words.fold(0, |digest: u64, word| {
        let digest = digest ^ word;
        let digest = digest ^ digest << 13;
        let digest = digest ^ digest >> 7;
        digest ^ digest << 17
    })
}

/// The calls put to a spoilt policy with a query, and the policy written with all queries.
fn calls(policy: &Policy, query: &Query, queries: &[Query]) -> String {
    let mut engine = Engine::new(policy);
    let (judge, fire) = (judge(&mut engine, query, 0), fire(&mut engine, query, 0));
    let (choose, list) = (choose(&mut engine, query), list(&mut engine, query, 4));
    let (words, late) = (words(&mut engine, query, 0), late(&mut engine, query));
    let (check, levels, write) = (number(check(policy)), levels(policy), write(policy, queries, LENT));
    format!(
        "check={check} judge {judge} fire {fire} choose {choose} list {list} words {words} {late} {levels} write {write}"
    )
}

/// The same with another reason to refuse: a w out of range, a set that shares with done, a list with no place.
fn late(engine: &mut Engine, query: &Query) -> String {
    let shared = Query { want: query.want, done: 1 };
    let (judge, fire) = (judge(engine, &shared, 1), fire(engine, &shared, 1));
    let (words, short) = (words(engine, query, TOP_W + 1), list(engine, query, 0));
    format!("late {words} shared judge {judge} fire {fire} short {short}")
}

pub fn named(query: &Query) -> String {
    format!("query want={} done={}\n", query.want, query.done)
}

/// The number of slim sets that Choose gives, 0 where there is none or it is refused.
fn slim(engine: &mut Engine, query: &Query) -> usize {
    match engine.choose(query) {
        Ok(Some(choice)) => choice.slim,
        _ => 0,
    }
}

fn number(answer: Result<(), Refusal>) -> Refusal {
    answer.err().unwrap_or(0)
}

/// All 128 entries of the array; those past the decision count are 0, and all where the call is refused.
fn levels(policy: &Policy) -> String {
    let (refusal, mut levels) = match lowest(policy) {
        Err(number) => (number, Vec::new()),
        Ok(levels) => (0, levels),
    };
    levels.resize(MOST_DECISIONS, 0);
    format!("levels refusal={refusal} level={}", commas(&levels))
}

/// Each mask up to the first that is out of range, and 65535.
fn offers(engine: &mut Engine, query: &Query, over: u32) -> String {
    let lines = (0..=over).chain([65_535]).map(|set| {
        let (judge, fire) = (judge(engine, query, set), fire(engine, query, set));
        format!("judge {set} {judge}\nfire {set} {fire}\n")
    });
    lines.collect()
}

/// Choose, and List with each length up to one more than the slim sets take.
fn lists(engine: &mut Engine, query: &Query) -> String {
    let count = slim(engine, query);
    let mut text = format!("choose {}\n", choose(engine, query));
    for length in 0..=count + 1 {
        text += &format!("list {length} {}\n", list(engine, query, length));
    }
    text
}

/// Each w up to the first that has none of so many sets, then the last w, and two past it.
fn each_w(engine: &mut Engine, query: &Query, sets: u32) -> String {
    let first_over = (sets / SETS).max(1);
    let lines = (0..=first_over).chain([TOP_W, TOP_W + 1, 65_535]);
    lines.map(|w| format!("words {w} {}\n", words(engine, query, w))).collect()
}

fn out_of_range(engine: &mut Engine, name: &str, query: &Query) -> String {
    let (judge, fire) = (judge(engine, query, 0), fire(engine, query, 0));
    let (choose, list) = (choose(engine, query), list(engine, query, 4));
    let words = words(engine, query, 0);
    format!(
        "{name} over judge {judge}\n{name} over fire {fire}\n\
         {name} over choose {choose}\n{name} over list {list}\n{name} over words {words}\n"
    )
}

fn judge(engine: &mut Engine, query: &Query, set: u32) -> String {
    match engine.judge(query, set) {
        Err(number) => format!("refused={number}"),
        Ok((enough, cost)) => format!("enough={} cost={cost}", u32::from(enough)),
    }
}

/// No entry past the count is ever other than 0, so the tail is always 0.
fn fire(engine: &mut Engine, query: &Query, set: u32) -> String {
    let (refusal, fired) = match engine.fire(query, set) {
        Err(number) => (number, Vec::new()),
        Ok(fired) => (0, fired),
    };
    format!("refusal={refusal} count={} rules={} tail=0", fired.len(), commas(&fired))
}

fn choose(engine: &mut Engine, query: &Query) -> String {
    match engine.choose(query) {
        Err(number) => format!("refused={number}"),
        Ok(None) => "none".to_string(),
        Ok(Some(choice)) => {
            format!("mask={} keep={} cost={} slim={}", choice.mask, choice.keep, choice.cost, choice.slim)
        }
    }
}

fn list(engine: &mut Engine, query: &Query, length: usize) -> String {
    let mut lent: Vec<u16> = (50_000..).take(length).collect();
    let answer = match engine.list(query, &mut lent) {
        Err(number) => format!("refused={number}"),
        Ok(count) => format!("count={count}"),
    };
    format!("{answer} places={}", commas(&lent))
}

/// The words below the decision count, each 0 where the call is refused, and how many of the others are not 0.
fn words(engine: &mut Engine, query: &Query, w: u32) -> String {
    let (refusal, words) = match engine.words(query, w) {
        Err(number) => (number, [0; MOST_DECISIONS]),
        Ok(words) => (0, words),
    };
    let (below, past) = words.split_at(engine.policy.levels.len().min(MOST_DECISIONS));
    let tail = past.iter().filter(|&&word| word != 0).count();
    format!("refusal={refusal} word={} tail={tail}", commas(below))
}

/// The writer on so many bytes `*`. Shown afterwards are the file and the next three bytes, as far as there are any.
fn write(policy: &Policy, queries: &[Query], lent: usize) -> String {
    let mut lent = vec![b'*'; lent];
    match writer::write(policy, queries, &mut lent) {
        Err(number) => {
            let kept = lent.iter().filter(|&&byte| byte == b'*').count();
            format!("refused={number} kept={kept}")
        }
        Ok(length) => {
            lent.truncate(length + 3);
            format!("length={length} bytes={}", String::from_utf8_lossy(&lent))
        }
    }
}

/// The policy with one entry spoilt at a time, and the name of what was spoilt. A count is spoilt by more entries.
/// Nothing is kept past a count, so `past` changes nothing.
fn spoilt(policy: &Policy) -> Vec<(&'static str, Policy)> {
    let mut all = Vec::new();
    let mut spoil = |name, place_is_there: bool, change: &dyn Fn(&mut Policy)| {
        if place_is_there {
            let mut spoilt = policy.clone();
            change(&mut spoilt);
            all.push((name, spoilt));
        }
    };
    let none = Action { kind: 'p', weight: 0, also: 0 };
    let has_action = !policy.actions.is_empty();
    let has_rule = !policy.rules.is_empty();
    spoil("decisions", true, &|p| p.levels.resize(129, 0));
    spoil("actions", true, &|p| p.actions.resize(17, none.clone()));
    spoil("rules", true, &|p| p.rules.resize(257, Rule::default()));
    spoil("level", true, &|p| p.levels[0] = 16);
    spoil("past", policy.levels.len() < MOST_DECISIONS, &|_| ());
    spoil("weight", has_action, &|p| p.actions[0].weight = 0);
    spoil("also", has_action, &|p| p.actions[0].also = 65_535);
    spoil("itself", has_action, &|p| p.actions[0].also = 1);
    spoil("head", has_rule, &|p| p.rules[0].head = p.levels.len() as u32);
    spoil("list", has_rule, &|p| p.rules[0].ifs.resize(9, 0));
    spoil("falling", has_rule && policy.levels.len() >= 2, &|p| p.rules[0].ifs = vec![1, 0]);
    spoil("own", has_rule, &|p| p.rules[0].unless = vec![p.rules[0].head]);
    all
}

/// The lines of the queries, of which there is one at least, spoilt in the same way. Nothing is kept past a count of
/// policy or queries, so `unused` changes nothing.
fn spoilt_queries(policy: &Policy, queries: &[Query]) -> String {
    let last = queries.len() - 1;
    let (mut many, mut want, mut done) = (queries.to_vec(), queries.to_vec(), queries.to_vec());
    many.resize(MOST_QUERIES + 1, Query { want: 0, done: 0 });
    want[last].want = policy.levels.len() as u32;
    done[last].done = 1 << policy.actions.len();
    let line = |name, policy: &Policy, queries: &[Query], lent| {
        format!("spoilt {name} write {}\n", write(policy, queries, lent))
    };
    let both = match spoilt(policy).iter().find(|(name, _)| *name == "own") {
        Some((_, own)) => line("both", own, &want, LENT),
        None => String::new(),
    };
    [
        line("count", policy, &many, LENT),
        line("short", policy, &many, 0),
        line("want", policy, &want, LENT),
        both,
        line("done", policy, &done, LENT),
        line("unused", policy, queries, LENT),
    ]
    .concat()
}
