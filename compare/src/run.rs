//! What the program `clear` prints for a file.

use crate::engine::Engine;
use crate::policy::{Query, Refusal};
use crate::reader;
use std::fmt::{Display, Write};

/// The places that the program lends List.
const LENT: usize = 32_768;

pub fn run(input: &[u8]) -> String {
    match reader::read(input) {
        Err(number) => format!("refused={number}\n"),
        Ok((policy, queries)) => {
            let mut engine = Engine::new(&policy);
            let answers = queries.iter().map(|query| answer(&mut engine, query));
            answers.collect::<Result<String, Refusal>>().expect("an accepted file is worked")
        }
    }
}

fn answer(engine: &mut Engine, query: &Query) -> Result<String, Refusal> {
    let mut text = format!("want={}\n", query.want);
    let best = match engine.choose(query)? {
        None => return Ok(text + "best=none\n"),
        Some(best) => best,
    };
    let mut lent = vec![0; LENT];
    let count = engine.list(query, &mut lent)?;
    let fired = engine.fire(query, best.mask)?;
    assert!(engine.is_derivation(query, best.mask, &fired));
    write!(text, "best={}\nkeep={}\ncost={}\nslim={}\n", best.mask, best.keep, best.cost, best.slim).expect("text");
    write!(text, "list={}\nfired={}\n", commas(&lent[..count]), commas(&fired)).expect("text");
    Ok(text)
}

/// The entries with one comma between.
pub fn commas<T: Display>(entries: &[T]) -> String {
    let entries: Vec<String> = entries.iter().map(T::to_string).collect();
    entries.join(",")
}
