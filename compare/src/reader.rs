//! From the bytes of a file to the record, with the reader's questions in document 01's order: 1 to the input, 2 to
//! 4 to each line in turn, 2 to what follows the last line, then 5 and 6 to the whole.

use crate::policy::{
    ask, rises, Action, Policy, Query, Refusal, Rule, MOST_ACTIONS, MOST_DECISIONS, MOST_LISTED, MOST_QUERIES,
    MOST_RULES, TOP_LEVEL, TOP_WEIGHT,
};

pub const MOST_BYTES: usize = 32_768;

/// The input from the line that is due.
struct Lines<'a>(&'a [u8]);

impl<'a> Lines<'a> {
    /// The content of the next line, which has this key, the = sign and an LF at its end.
    fn content(&mut self, key: &str) -> Result<&'a [u8], Refusal> {
        let end = self.0.iter().position(|&byte| byte == b'\n').ok_or(2u32)?;
        let (line, rest) = (&self.0[..end], &self.0[end + 1..]);
        let content = line.strip_prefix(key.as_bytes()).ok_or(2u32)?;
        self.0 = rest;
        content.strip_prefix(b"=").ok_or(2)
    }

    fn number(&mut self, key: &str, least: u32, most: u32) -> Result<u32, Refusal> {
        let number = number(self.content(key)?)?;
        ask(3, least <= number && number <= most)?;
        Ok(number)
    }

    fn count(&mut self, key: &str, least: usize, most: usize) -> Result<usize, Refusal> {
        let number = self.number(key, least as u32, most as u32)?;
        Ok(number as usize)
    }

    fn kind(&mut self) -> Result<char, Refusal> {
        match self.content("kind")? {
            b"p" => Ok('p'),
            b"o" => Ok('o'),
            _ => Err(2),
        }
    }

    fn list(&mut self, key: &str, top: u32) -> Result<Vec<u32>, Refusal> {
        let content = self.content(key)?;
        if content.is_empty() {
            return Ok(Vec::new());
        }
        let entries = content.split(|&byte| byte == b',');
        let list = entries.map(number).collect::<Result<Vec<u32>, Refusal>>()?;
        ask(3, list.len() <= MOST_LISTED && list.iter().all(|&d| d <= top))?;
        ask(4, rises(&list))?;
        Ok(list)
    }
}

/// 1 to 5 digits, with no leading zero except 0 itself.
fn number(text: &[u8]) -> Result<u32, Refusal> {
    let zero_first = text.len() > 1 && text[0] == b'0';
    ask(2, (1..=5).contains(&text.len()) && !zero_first)?;
    ask(2, text.iter().all(u8::is_ascii_digit))?;
    Ok(text.iter().fold(0, |sum, &digit| 10 * sum + u32::from(digit - b'0')))
}

/// The policy and the queries that the lines state, or the first no.
pub fn read(input: &[u8]) -> Result<(Policy, Vec<Query>), Refusal> {
    let (policy, queries) = read_lines(input)?;
    policy.ordered()?;
    Ok((policy, queries))
}

/// The same without questions 5 and 6.
pub fn read_lines(input: &[u8]) -> Result<(Policy, Vec<Query>), Refusal> {
    ask(1, input.len() <= MOST_BYTES)?;
    let mut lines = Lines(input);
    let decisions = lines.count("decisions", 1, MOST_DECISIONS)?;
    let actions = lines.count("actions", 0, MOST_ACTIONS)?;
    let top_decision = decisions as u32 - 1;
    let top_mask = (1 << actions) - 1;
    let mut policy = Policy::default();
    for _ in 0..decisions {
        policy.levels.push(lines.number("level", 0, TOP_LEVEL)?);
    }
    for _ in 0..actions {
        policy.actions.push(Action {
            kind: lines.kind()?,
            weight: lines.number("weight", 1, TOP_WEIGHT)?,
            also: lines.number("also", 0, top_mask)?,
        });
    }
    for _ in 0..lines.count("rules", 0, MOST_RULES)? {
        policy.rules.push(Rule {
            head: lines.number("head", 0, top_decision)?,
            needs: lines.number("needs", 0, top_mask)?,
            ifs: lines.list("if", top_decision)?,
            unless: lines.list("unless", top_decision)?,
        });
    }
    let mut queries = Vec::new();
    for _ in 0..lines.count("queries", 0, MOST_QUERIES)? {
        queries.push(Query { want: lines.number("want", 0, top_decision)?, done: lines.number("done", 0, top_mask)? });
    }
    ask(2, lines.0.is_empty())?;
    Ok((policy, queries))
}
