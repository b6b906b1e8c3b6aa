//! From a policy and its queries to a file of edition 1, document 01's format. A record has one form, so an accepted
//! file is what is written for what was read from it. The files of a seed are made from the same lines.

use crate::policy::{ask, Policy, Query, Refusal, MOST_QUERIES};
use crate::reader::{read, MOST_BYTES};
use crate::run::commas;

/// What the program `rewrite` prints for a file.
pub fn rewrite(input: &[u8]) -> String {
    match read(input) {
        Err(number) => format!("refused={number}\n"),
        Ok((policy, queries)) => {
            let mut lent = vec![0; MOST_BYTES];
            let length = write(&policy, &queries, &mut lent).expect("an accepted file is written");
            lent.truncate(length);
            String::from_utf8(lent).expect("a file is text")
        }
    }
}

/// The call: writes the file to the lent buffer, and returns its length, after questions 3 to 6; or 10 where the
/// buffer is too short.
pub fn write(policy: &Policy, queries: &[Query], lent: &mut [u8]) -> Result<usize, Refusal> {
    let queries_in_range = queries.len() <= MOST_QUERIES && queries.iter().all(|query| policy.is_query(query));
    ask(3, policy.in_range() && queries_in_range)?;
    policy.ordered()?;
    let file = text(&lines(policy, queries));
    ask(10, file.len() <= lent.len())?;
    lent[..file.len()].copy_from_slice(&file);
    Ok(file.len())
}

/// The lines that state a policy and its queries, in or out of range.
pub fn lines(policy: &Policy, queries: &[Query]) -> Vec<String> {
    let mut lines = vec![format!("decisions={}", policy.levels.len()), format!("actions={}", policy.actions.len())];
    lines.extend(policy.levels.iter().map(|level| format!("level={level}")));
    for action in &policy.actions {
        lines.push(format!("kind={}", action.kind));
        lines.push(format!("weight={}", action.weight));
        lines.push(format!("also={}", action.also));
    }
    lines.push(format!("rules={}", policy.rules.len()));
    for rule in &policy.rules {
        lines.push(format!("head={}", rule.head));
        lines.push(format!("needs={}", rule.needs));
        lines.push(format!("if={}", commas(&rule.ifs)));
        lines.push(format!("unless={}", commas(&rule.unless)));
    }
    lines.push(format!("queries={}", queries.len()));
    for query in queries {
        lines.push(format!("want={}", query.want));
        lines.push(format!("done={}", query.done));
    }
    lines
}

/// The lines, each with its LF.
pub fn text(lines: &[String]) -> Vec<u8> {
    lines.iter().flat_map(|line| [line.as_bytes(), b"\n"].concat()).collect()
}
