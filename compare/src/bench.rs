//! Hard files, each timed in one run through `clear`, `levels` or `rewrite` and through the engine here, as Markdown
//! tables; through clingo where it is there; and, where an earlier `clear` is named, those without also masks through
//! both builds of it.

use crate::asp::{program, sets, NO_NOTES, SOLVE};
use crate::clock::{best_in_turns, best_time, timed, Timed, LEAST_TURNS, MOST_TURNS, REPEATS};
use crate::compare::but_lines;
use crate::generate::{file, text, to_lines};
use crate::hard::{circle, hard, little, others, LARGEST};
use crate::random::{random, Case, Size};
use crate::reader::read;
use crate::rng::Rng;
use std::io;

/// What a query should take at most, in milliseconds.
const MOST: f64 = 10.0;
/// So many generated files show that clingo is asked the same question.
const ALIKE: usize = 100;

pub fn bench(clear: &str, levels: &str, rewrite: &str, before: Option<&str>) -> io::Result<()> {
    let times = table("clear", clear, "run", &cases())?;
    table("levels", levels, "levels", &unlevelled())?;
    table("rewrite", rewrite, "rewrite", &written())?;
    println!("Each time is the processor time of one run of the program (where /proc does not tell it, the time that");
    println!("passed), process start included, the best of up to {REPEATS}.");
    println!("A ratio below 1 means that the outside engine is the slower one.");
    println!("The outside engine keeps the model of each world for all queries; clear works each query afresh.");
    println!();
    let times = &times[..hard().len()];
    within(times);
    match timed("clingo", &["--version"], &[]) {
        Ok(_) => clingo(clear, times)?,
        Err(error) if error.kind() == io::ErrorKind::NotFound => {
            println!("clingo is not there (Debian has it in the package gringo), so its table is left out.");
        }
        Err(error) => return Err(error),
    }
    before.map_or(Ok(()), |before| builds(clear, before))
}

/// The times of a program and of the engine here, told to print the same. Those of the program are handed back.
fn table(name: &str, program: &str, command: &str, cases: &[(&str, Case)]) -> io::Result<Vec<Timed>> {
    let own = std::env::current_exe()?;
    let own = own.to_str().expect("a path that is text");
    heading("file", name, "outside engine");
    let mut times = Vec::new();
    for (what, case) in cases {
        let file = text(&to_lines(case));
        let (this, other) = (best_time(program, &[], &file)?, best_time(own, &[command], &file)?);
        row(what, &this, &other, this.printed == other.printed);
        times.push(this);
    }
    println!();
    Ok(times)
}

/// Whether every hard file is worked in the time that a query should take at most.
fn within(times: &[Timed]) {
    let longest = times.iter().map(Timed::milliseconds).fold(0.0, f64::max);
    let count = times.iter().filter(|timed| timed.milliseconds() <= MOST).count();
    let answer = if count == times.len() { "yes" } else { "no" };
    println!("Does every hard file (the first {} of clear) take at most {MOST} ms a query? {answer}:", times.len());
    println!("{count} of them do, and the longest takes {longest:.1} ms.");
    println!();
}

/// The times of `clear` for the hard files beside those of clingo, which is given the program of the query, and then
/// the same program as clingo itself has grounded it.
fn clingo(clear: &str, times: &[Timed]) -> io::Result<()> {
    println!("| hard file | clear, ms | clingo, ms | ratio | clingo on the ground program, ms |");
    println!("|---|--:|--:|--:|--:|");
    let (whole, ground) = ([&[NO_NOTES], &SOLVE[..]].concat(), [&["--mode=clasp"], &SOLVE[..]].concat());
    let mut quicker = [0, 0];
    for ((what, case), this) in hard().iter().zip(times) {
        let question = program(&case.policy, &case.queries[0]);
        let grounded = timed("clingo", &[NO_NOTES, "--mode=gringo"], question.as_bytes())?.printed;
        let other = best_time("clingo", &whole, question.as_bytes())?;
        let solved = best_time("clingo", &ground, &grounded)?;
        let list = listed(&this.printed);
        let same = list.is_some() && [&other, &solved].iter().all(|clingo| sets(&clingo.printed) == list);
        println!("{} {:.1} |", row_text(what, this, &other, same), solved.milliseconds());
        for (count, clingo) in quicker.iter_mut().zip([&other, &solved]) {
            *count += usize::from(this.time < clingo.time);
        }
    }
    println!();
    let [with, without] = quicker;
    println!("A ratio below 1 means that clingo is the slower one. Process start counts for both.");
    println!("clingo lists the slim sets; clear also finds what to keep off, and the rules fired.");
    println!("Of {} files clear is quicker on {with}, and on {without} where grounding is not counted.", times.len());
    println!("Of {ALIKE} generated files clingo lists the same sets as clear for {}.", alike(clear)?);
    Ok(())
}

/// For how many of the first files of seed 1 that have a query clingo lists the sets that `clear` lists.
fn alike(clear: &str) -> io::Result<usize> {
    let cases = (0..).filter_map(|number| read(&file(1, number)).ok()).filter(|(_, queries)| !queries.is_empty());
    let mut count = 0;
    for (policy, mut queries) in cases.take(ALIKE) {
        queries.truncate(1);
        let question = program(&policy, &queries[0]);
        let clingo = timed("clingo", &[&[NO_NOTES], &SOLVE[..]].concat(), question.as_bytes())?;
        let this = timed(clear, &[], &text(&to_lines(&Case { policy, queries })))?;
        let list = listed(&this.printed);
        count += usize::from(list.is_some() && sets(&clingo.printed) == list);
    }
    Ok(count)
}

/// The sets that `clear` listed for the one query. None where it did not come to its end.
fn listed(printed: &[u8]) -> Option<Vec<u32>> {
    let printed = std::str::from_utf8(printed).ok()?;
    if printed.ends_with("best=none\n") {
        return Some(Vec::new());
    }
    let list = printed.lines().find_map(|line| line.strip_prefix("list="))?;
    list.split(',').map(|set| set.parse().ok()).collect()
}

/// The times of `clear` and of an earlier build of it, on the files without also masks. The earlier one may print no
/// keep-off masks, so these are not compared.
fn builds(clear: &str, before: &str) -> io::Result<()> {
    println!();
    heading("file without also masks", "clear", "earlier clear");
    let without = |case: &Case| case.policy.actions.iter().all(|action| action.also == 0);
    for (what, case) in cases().into_iter().filter(|(_, case)| without(case)) {
        let [this, earlier] = best_in_turns([clear, before], &text(&to_lines(&case)))?;
        let [one, other] = [&this, &earlier].map(|timed| but_lines(&String::from_utf8_lossy(&timed.printed), "keep="));
        row(what, &this, &earlier, one == other);
    }
    println!();
    println!("The two builds took turns, {LEAST_TURNS} to {MOST_TURNS} times; the times are the best of these.");
    println!("A ratio above 1 means that clear has become slower.");
    Ok(())
}

fn heading(what: &str, name: &str, other: &str) {
    println!("| {what} | {name}, ms | {other}, ms | ratio |");
    println!("|---|--:|--:|--:|");
}

fn row(what: &str, one: &Timed, other: &Timed, same: bool) {
    println!("{}", row_text(what, one, other, same));
}

/// The times of two programs for a file, and whether they have the same answer.
fn row_text(what: &str, one: &Timed, other: &Timed, same: bool) -> String {
    let note = if same { "" } else { " (and they differ)" };
    let [time, other_time] = [one, other].map(Timed::milliseconds);
    format!("| {what}{note} | {time:.1} | {other_time:.1} | {:.2} |", time / other_time)
}

fn cases() -> Vec<(&'static str, Case)> {
    hard().into_iter().chain(others()).collect()
}

fn unlevelled() -> Vec<(&'static str, Case)> {
    let mut rng = Rng::new(0, 0);
    vec![
        ("4 decisions, 4 rules", little()),
        ("256 rules, 16 levels with unless", random(&mut rng, &Size { queries: 0, ..LARGEST })),
        ("circle of 128 against file order, with one unless", circle()),
    ]
}

fn written() -> Vec<(&'static str, Case)> {
    vec![
        ("4 decisions, 4 actions, 4 rules, 1 query", little()),
        ("128 decisions, 16 actions, 256 rules, 64 queries", random(&mut Rng::new(0, 0), &LARGEST)),
    ]
}
