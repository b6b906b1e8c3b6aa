//! An engine outside the proofs, which does what the documents say, and is run against the proved one.

mod asp;
mod bench;
mod clock;
mod compare;
mod edges;
mod effect;
mod engine;
mod forms;
mod generate;
mod hard;
mod keep;
mod levels;
mod longest;
mod many;
mod pairs;
mod policy;
mod probe;
mod random;
mod reader;
mod reprice;
mod rng;
mod run;
mod shapes;
mod spoils;
mod unlevelled;
mod words;
mod writer;

use compare::Comparison;
use std::fs;
use std::io::{self, Read, Write};
use std::process::ExitCode;

const USAGE: &str = "usage: compare run                    what clear prints for standard input
       compare probe                  what probe prints for it
       compare levels                 what levels prints for it
       compare rewrite                what rewrite prints for it
       compare longest                what longest prints
       compare reprice AFTER          what reprice prints for standard input and the file AFTER
       compare pairprobe AFTER        what pairprobe prints for them
       compare asp                    the first query of standard input as a program for clingo
       compare hard N                 hard file number N of the bench, from 0, or nothing past the last
       compare make SEED N            file number N of a seed
       compare make-levels SEED N     file number N of a seed among those for the levels
       compare make-words SEED N      file number N of a seed among those for the words
       compare make-pair SEED N first|second
                                      a file of pair number N of a seed
       compare compare SEED PART ...  each part one of: clear CLEAR COUNT, probe PROBE COUNT,
                                      words PROBE COUNT, levels LEVELS COUNT, mended LEVELS CLEAR COUNT,
                                      rewrite REWRITE COUNT, longest LONGEST CLEAR PROBE,
                                      reprice REPRICE COUNT, pairprobe PAIRPROBE COUNT
       compare first SEED PART ...    the same, up to the first difference
       compare bench CLEAR LEVELS REWRITE [BEFORE]
                                      times of hard files; BEFORE is an earlier build of clear";

/// With so many differences a comparison ends.
const MOST_DIFFERENCES: usize = 10;

fn main() -> ExitCode {
    let arguments: Vec<String> = std::env::args().skip(1).collect();
    let arguments: Vec<&str> = arguments.iter().map(String::as_str).collect();
    match work(&arguments) {
        Ok(true) => ExitCode::SUCCESS,
        Ok(false) => ExitCode::FAILURE,
        Err(error) => {
            eprintln!("compare: {error}");
            ExitCode::from(2)
        }
    }
}

/// False when a comparison found a difference.
fn work(arguments: &[&str]) -> io::Result<bool> {
    match *arguments {
        ["compare", seed, ref parts @ ..] => {
            return compare_parts(Comparison::new(parse(seed)?, MOST_DIFFERENCES), parts)
        }
        ["first", seed, ref parts @ ..] => return compare_parts(Comparison::new(parse(seed)?, 1), parts),
        ["bench", clear, levels, rewrite] => bench::bench(clear, levels, rewrite, None)?,
        ["bench", clear, levels, rewrite, before] => bench::bench(clear, levels, rewrite, Some(before))?,
        _ => io::stdout().write_all(&printed(arguments)?)?,
    }
    Ok(true)
}

/// What is printed where nothing is run.
fn printed(arguments: &[&str]) -> io::Result<Vec<u8>> {
    Ok(match *arguments {
        ["run"] => run::run(&input()?).into_bytes(),
        ["probe"] => probe::probe(&input()?).into_bytes(),
        ["levels"] => levels::levels(&input()?).into_bytes(),
        ["rewrite"] => writer::rewrite(&input()?).into_bytes(),
        ["longest"] => longest::longest(),
        ["reprice", after] => reprice::reprice(&input()?, &fs::read(after)?).into_bytes(),
        ["pairprobe", after] => reprice::pairprobe(&input()?, &fs::read(after)?).into_bytes(),
        ["asp"] => asp::asp(&input()?).into_bytes(),
        ["hard", number] => hard::file(parse(number)?),
        ["make", seed, number] => generate::file(parse(seed)?, parse(number)?),
        ["make-levels", seed, number] => generate::levels_file(parse(seed)?, parse(number)?),
        ["make-words", seed, number] => generate::words_file(parse(seed)?, parse(number)?),
        ["make-pair", seed, number, "first"] => pairs::pair(parse(seed)?, parse(number)?)[0].clone(),
        ["make-pair", seed, number, "second"] => pairs::pair(parse(seed)?, parse(number)?)[1].clone(),
        _ => return Err(usage()),
    })
}

/// True when there was no difference.
fn compare_parts(mut comparison: Comparison, mut parts: &[&str]) -> io::Result<bool> {
    while !parts.is_empty() {
        let (done, rest) = match *parts {
            ["clear", clear, count, ref rest @ ..] => (comparison.clear(clear, parse(count)?), rest),
            ["probe", probe, count, ref rest @ ..] => (comparison.probe(probe, parse(count)?), rest),
            ["words", probe, count, ref rest @ ..] => (comparison.words(probe, parse(count)?), rest),
            ["levels", levels, count, ref rest @ ..] => (comparison.levels(levels, parse(count)?), rest),
            ["mended", levels, clear, count, ref rest @ ..] => (comparison.mended(levels, clear, parse(count)?), rest),
            ["rewrite", rewrite, count, ref rest @ ..] => (comparison.rewrite(rewrite, parse(count)?), rest),
            ["longest", longest, clear, probe, ref rest @ ..] => (comparison.longest(longest, clear, probe), rest),
            ["reprice", reprice, count, ref rest @ ..] => (comparison.reprice(reprice, parse(count)?), rest),
            ["pairprobe", prober, count, ref rest @ ..] => (comparison.pairprobe(prober, parse(count)?), rest),
            _ => return Err(usage()),
        };
        done?;
        parts = rest;
    }
    Ok(comparison.end() == 0)
}

fn input() -> io::Result<Vec<u8>> {
    let mut input = Vec::new();
    io::stdin().read_to_end(&mut input)?;
    Ok(input)
}

fn parse(text: &str) -> io::Result<u64> {
    text.parse().map_err(|_| usage())
}

fn usage() -> io::Error {
    io::Error::new(io::ErrorKind::InvalidInput, USAGE)
}
