//! Runs the files of a seed through a program and through the engine here, and compares what they print.

use crate::effect::effects;
use crate::generate::{file, is_valid, levels_file, words_file};
use crate::keep::ways_agree;
use crate::levels::{is_lowest, levels, lowest, MOST_TRIED};
use crate::longest::{longest, sets_of};
use crate::pairs::pair;
use crate::probe::probe;
use crate::reader::{read, read_lines};
use crate::reprice::{pairprobe, reprice};
use crate::run::{commas, run};
use crate::writer::rewrite;
use std::collections::BTreeMap;
use std::io::Write as _;
use std::path::Path;
use std::process::{self, Command, Stdio};
use std::{env, fs, io};

/// The files that a part takes: what stands before their names where they are kept, and how they are made.
struct Kind {
    name: &'static str,
    make: fn(u64, u64) -> Vec<u8>,
}

const ANY: Kind = Kind { name: "", make: file };
const FOR_LEVELS: Kind = Kind { name: "levels-", make: levels_file };
const FOR_WORDS: Kind = Kind { name: "words-", make: words_file };

/// The differences of a run over the files of a seed, up to the most with which it goes on. Each part of the run prints
/// a line on the files that it took. A file is compared first; then it is seen that the engine here is right, where
/// that can be told in another way.
pub struct Comparison {
    seed: u64,
    most: usize,
    differences: usize,
}

/// How many files, or pairs of files, were refused by each number, and by none.
#[derive(Default)]
struct Tally(BTreeMap<String, u64>);

impl Comparison {
    pub fn new(seed: u64, most: usize) -> Self {
        Comparison { seed, most, differences: 0 }
    }

    /// The first files of the seed, by what `clear` prints. Those made to be valid are accepted. No query has more slim
    /// sets than there are sets of half of the actions. With no unless entry there is nothing to keep off, and both ways
    /// to a keep-off mask agree.
    pub fn clear(&mut self, program: &str, count: u64) -> io::Result<()> {
        let (mut queries, mut none, mut most, mut kept) = (0, 0, 0, 0);
        let tally = self.each(&ANY, program, 0..count, run, |number, input, due| {
            queries += due.matches("want=").count();
            none += due.matches("best=none").count();
            if let Ok((policy, asked)) = read(input) {
                let (slim, actions, keeping) = (most_slim(due), policy.actions.len(), keeping(due));
                assert!(slim <= sets_of(actions / 2, actions).len(), "file {number} has more slim sets");
                assert!(keeping == 0 || policy.has_unless(), "file {number} has something to keep off");
                assert!(ways_agree(&policy, &asked), "file {number} has another keep-off mask");
                (most, kept) = (most.max(slim), kept + keeping);
            } else {
                assert!(!is_valid(number), "file {number} is valid and refused");
            }
        })?;
        let (text, bests) = (tally.text("files"), format!("{none} with none, {kept} with actions to keep off"));
        self.tell(&format!("clear: {text}, {queries} queries, {bests}, at most {most} slim sets"));
        Ok(())
    }

    /// The first files of the seed that the probe is meant for, and some of those that are refused.
    pub fn probe(&mut self, program: &str, count: u64) -> io::Result<()> {
        let seed = self.seed;
        let meant = |number: &u64| match read(&file(seed, *number)) {
            Ok((policy, queries)) => policy.actions.len() <= 9 && queries.len() <= 8,
            Err(_) => number % 5 == 0,
        };
        let numbers = (0..).filter(meant).take(count as usize);
        let tally = self.each(&ANY, program, numbers, probe, |_, _, _| ())?;
        self.tell(&format!("probe: {}", tally.text("files")));
        Ok(())
    }

    /// The first files for the words, by what the probe prints. All are made to be valid, and are accepted.
    pub fn words(&mut self, program: &str, count: u64) -> io::Result<()> {
        let mut queries = 0;
        let tally = self.each(&FOR_WORDS, program, 0..count, probe, |number, _, due| {
            assert!(!due.starts_with("refused="), "file {number} for the words is refused");
            queries += due.matches("query ").count();
        })?;
        self.tell(&format!("words: {}, {queries} queries", tally.text("files")));
        Ok(())
    }

    /// The first files for the levels, by what `levels` prints. Where there are few decisions, each assignment of
    /// levels is tried to see that the engine here is right.
    pub fn levels(&mut self, program: &str, count: u64) -> io::Result<()> {
        let mut tried = 0;
        let tally = self.each(&FOR_LEVELS, program, 0..count, levels, |number, input, _| match read_lines(input) {
            Ok((policy, _)) if policy.levels.len() <= MOST_TRIED => {
                assert!(is_lowest(&policy, &lowest(&policy)), "file {number} for the levels has others");
                tried += 1;
            }
            _ => {}
        })?;
        self.tell(&format!("levels: {}, {tried} with each assignment tried", tally.text("files")));
        Ok(())
    }

    /// Files of the seed by their numbers, by what is due for each; and what is done with each after it was compared.
    fn each(
        &mut self,
        kind: &Kind,
        program: &str,
        numbers: impl Iterator<Item = u64>,
        due: fn(&[u8]) -> String,
        mut after: impl FnMut(u64, &[u8], &str),
    ) -> io::Result<Tally> {
        let mut tally = Tally::default();
        for number in numbers {
            let input = (kind.make)(self.seed, number);
            let due = due(&input);
            tally.count(&due);
            if self.differs(kind.name, number, &[&input], &output(program, &[], &input)?, &due)? {
                break;
            }
            after(number, &input, &due);
        }
        Ok(tally)
    }

    /// The first files for the levels that have levels, queries and few actions, mended: the levels that the one
    /// program prints are put in, and the other program works the file. It is not refused by 5. Where the file was
    /// accepted before, the answers are the same, except that other rules may have fired.
    pub fn mended(&mut self, program: &str, clear: &str, count: u64) -> io::Result<()> {
        let seed = self.seed;
        let meant = |number: &u64| match read_lines(&levels_file(seed, *number)) {
            Ok((policy, queries)) => {
                lowest(&policy).is_ok() && policy.actions.len() <= 8 && (1..=8).contains(&queries.len())
            }
            Err(_) => false,
        };
        let (mut tally, mut compared) = (Tally::default(), 0);
        for number in (0..).filter(meant).take(count as usize) {
            let input = levels_file(seed, number);
            let due = run(&with_levels(&input, &levels(&input)));
            tally.count(&due);
            let found = String::from_utf8_lossy(&output(program, &[], &input)?).into_owned();
            let mended = with_levels(&input, &found);
            let mut stop = self.differs("mended-", number, &[&mended], &output(clear, &[], &mended)?, &due)?;
            let refused = due.starts_with("refused=") && due != "refused=6\n";
            assert!(stop || !refused, "file {number} for the levels is not mended");
            let before = String::from_utf8_lossy(&output(clear, &[], &input)?).into_owned();
            if !before.starts_with("refused=") {
                compared += 1;
                let [before, due] = [before, due].map(|answers| but_lines(&answers, "fired="));
                stop = self.differs("levels-", number, &[&input], before.as_bytes(), &due)?;
            }
            if stop {
                break;
            }
        }
        self.tell(&format!("mended: {}, {compared} accepted before", tally.text("files")));
        Ok(())
    }

    /// The first files of the seed, and as many of those for the levels, by what `rewrite` prints. An accepted file is
    /// given back, by the engine here too.
    pub fn rewrite(&mut self, program: &str, count: u64) -> io::Result<()> {
        let mut longest = 0;
        let mut after = |number: u64, input: &[u8], due: &str| {
            if !due.starts_with("refused=") {
                assert!(due.as_bytes() == input, "file {number} is not given back");
                longest = longest.max(input.len());
            }
        };
        let mut tally = self.each(&ANY, program, 0..count, rewrite, &mut after)?;
        tally.add(self.each(&FOR_LEVELS, program, 0..count, rewrite, &mut after)?);
        self.tell(&format!("rewrite: {}, the longest accepted {longest} bytes", tally.text("files")));
        Ok(())
    }

    /// The file with the longest list, by what `longest` prints, and by what `clear` and the probe print for it. Its
    /// list has the sets of exactly 8 actions.
    pub fn longest(&mut self, program: &str, clear: &str, prober: &str) -> io::Result<()> {
        let (file, sets) = (longest(), sets_of(8, 16));
        let answers = run(&file);
        let stop =
            self.differs("longest-", 0, &[&file], &output(program, &[], b"")?, &String::from_utf8_lossy(&file))?
                || self.differs("longest-", 1, &[&file], &output(clear, &[], &file)?, &answers)?
                || self.differs("longest-", 2, &[&file], &output(prober, &[], &file)?, &probe(&file))?;
        let listed = [format!("slim={}", sets.len()), format!("list={}", commas(&sets))];
        let all_due = listed.iter().all(|due| answers.lines().any(|line| line == due));
        assert!(stop || all_due, "other sets are listed");
        self.tell(&format!("longest: {} bytes, {} sets listed", file.len(), sets.len()));
        Ok(())
    }

    /// The first pairs of the seed, by what `reprice` prints.
    pub fn reprice(&mut self, program: &str, count: u64) -> io::Result<()> {
        let text = self.each_pair(program, count, reprice)?;
        self.tell(&format!("reprice: {text}"));
        Ok(())
    }

    /// The first pairs of the seed, by what `pairprobe` prints.
    pub fn pairprobe(&mut self, program: &str, count: u64) -> io::Result<()> {
        let text = self.each_pair(program, count, pairprobe)?;
        self.tell(&format!("pairprobe: {text}"));
        Ok(())
    }

    /// So many pairs of the seed, by what is due for each; and how the costs of those that are accepted and comparable
    /// follow the weight.
    fn each_pair(&mut self, program: &str, count: u64, due: fn(&[u8], &[u8]) -> String) -> io::Result<String> {
        let (mut tally, mut apart, mut costs) = (Tally::default(), 0, BTreeMap::new());
        for number in 0..count {
            let [before, after] = pair(self.seed, number);
            let due = due(&before, &after);
            tally.count(&due);
            apart += u64::from(due.starts_with("not comparable") || due.starts_with("comparable=0"));
            let printed = output_for_pair(program, &before, &after)?;
            if self.differs("pair-", number, &[&before, &after], &printed, &due)? {
                break;
            }
            for effect in effects(&before, &after) {
                let effect = effect.unwrap_or_else(|| panic!("a cost of pair {number} does not follow the weight"));
                *costs.entry(effect).or_insert(0) += 1;
            }
        }
        let costs: Vec<String> = costs.iter().map(|(effect, count)| format!("{count} {effect}")).collect();
        Ok(format!("{}, {apart} not comparable; costs: {}", tally.text("pairs"), costs.join(", ")))
    }

    /// Prints the number of differences, and returns it.
    pub fn end(&self) -> usize {
        self.tell(&format!("{} differences", self.differences));
        self.differences
    }

    fn tell(&self, text: &str) {
        println!("compare: seed {}, {text}", self.seed);
    }

    /// Tells of a difference and keeps the file, or both of a pair. True when there were too many to go on.
    fn differs(&mut self, kind: &str, number: u64, inputs: &[&[u8]], printed: &[u8], due: &str) -> io::Result<bool> {
        if printed != due.as_bytes() {
            self.differences += 1;
            let folder = Path::new(env!("CARGO_MANIFEST_DIR")).join("differences");
            let name = format!("{kind}{}-{number}", self.seed);
            fs::create_dir_all(&folder)?;
            for (input, which) in inputs.iter().zip(["", "-after"]) {
                fs::write(folder.join(format!("{name}{which}.policy")), input)?;
            }
            println!("compare/differences/{name}.policy: {}", first_difference(printed, due));
        }
        Ok(self.differences >= self.most)
    }
}

impl Tally {
    fn count(&mut self, due: &str) {
        let refused = due.strip_prefix("refused=").map(str::trim_end);
        *self.0.entry(refused.unwrap_or("0").to_string()).or_default() += 1;
    }

    fn add(&mut self, other: Tally) {
        for (number, count) in other.0 {
            *self.0.entry(number).or_default() += count;
        }
    }

    /// The things are files, or pairs of files.
    fn text(&self, things: &str) -> String {
        let mut text = format!("{} {things}", self.0.values().sum::<u64>());
        for (number, count) in &self.0 {
            text += &match number.as_str() {
                "0" => format!(", {count} accepted"),
                _ => format!(", {count} refused by {number}"),
            };
        }
        text
    }
}

/// The file with its level lines replaced.
fn with_levels(input: &[u8], levels: &str) -> Vec<u8> {
    let input = String::from_utf8_lossy(input);
    let lines = input.split_inclusive('\n').map(|line| if line.starts_with("level=") { "" } else { line });
    let mut lines: Vec<&str> = lines.collect();
    lines[2] = levels;
    lines.concat().into_bytes()
}

/// The largest number of slim sets of a query, 0 where there is none.
fn most_slim(answers: &str) -> usize {
    let counts = answers.lines().filter_map(|line| line.strip_prefix("slim="));
    counts.map(|count| count.parse().expect("a number")).max().unwrap_or(0)
}

/// The number of queries with a keep-off mask other than 0.
fn keeping(answers: &str) -> usize {
    answers.lines().filter(|line| line.starts_with("keep=") && *line != "keep=0").count()
}

/// The lines but those with this key.
pub fn but_lines(answers: &str, key: &str) -> String {
    answers.split_inclusive('\n').filter(|line| !line.starts_with(key)).collect()
}

fn first_difference(printed: &[u8], due: &str) -> String {
    let printed = String::from_utf8_lossy(printed);
    let (mut left, mut right) = (printed.split('\n'), due.split('\n'));
    for line in 1.. {
        let (left, right) = (left.next(), right.next());
        if left != right || left.is_none() {
            let show = |text: Option<&str>| text.unwrap_or("(no more)").to_string();
            return format!("line {line}: the program has '{}', here it is '{}'", show(left), show(right));
        }
    }
    unreachable!("the texts end")
}

/// What a program prints for this input. That it ends without reading all of it is no fault; that it fails is.
pub fn output(program: &str, arguments: &[&str], input: &[u8]) -> io::Result<Vec<u8>> {
    let mut command = Command::new(program);
    let child = command.args(arguments).stdin(Stdio::piped()).stdout(Stdio::piped()).spawn();
    let mut child = child.map_err(|error| io::Error::new(error.kind(), format!("{program}: {error}")))?;
    let written = child.stdin.take().expect("a pipe").write_all(input);
    let output = child.wait_with_output()?;
    match written {
        Err(error) if error.kind() != io::ErrorKind::BrokenPipe => return Err(error),
        _ => {}
    }
    if output.status.success() {
        Ok(output.stdout)
    } else {
        Ok(format!("{program} ended with {}", output.status).into_bytes())
    }
}

/// What a program prints that reads one file from standard input and the other from descriptor 3.
fn output_for_pair(program: &str, before: &[u8], after: &[u8]) -> io::Result<Vec<u8>> {
    let name = env::temp_dir().join(format!("after-{}.policy", process::id()));
    fs::write(&name, after)?;
    let path = name.to_str().expect("a name in text");
    let printed = output("sh", &["-c", r#"exec "$0" 3<"$1""#, program, path], before);
    fs::remove_file(&name)?;
    printed
}
