//! How long a program takes for an input.

use std::fs::read_to_string;
use std::io::{self, Read, Write};
use std::process::{Command, Stdio};
use std::thread::sleep;
use std::time::{Duration, Instant};

/// Runs are repeated for this long, at most so many times.
const LONG: Duration = Duration::from_secs(2);
pub const REPEATS: usize = 25;
/// Two builds take turns for this long on a file, though at least and at most so many times.
const TURNS_LONG: Duration = Duration::from_secs(5);
pub const LEAST_TURNS: usize = 3;
pub const MOST_TURNS: usize = 500;

/// The time that a program took, and what it printed.
pub struct Timed {
    pub time: Duration,
    pub printed: Vec<u8>,
}

impl Timed {
    pub fn milliseconds(&self) -> f64 {
        1000.0 * self.time.as_secs_f64()
    }
}

/// One run. Its time is what the process used of a processor, or where /proc does not tell it, the time that passed.
/// What it writes to standard error is dropped.
pub fn timed(program: &str, arguments: &[&str], input: &[u8]) -> io::Result<Timed> {
    let start = Instant::now();
    let mut command = Command::new(program);
    command.args(arguments).stdin(Stdio::piped()).stdout(Stdio::piped()).stderr(Stdio::null());
    let mut child = command.spawn().map_err(|error| io::Error::new(error.kind(), format!("{program}: {error}")))?;
    let written = child.stdin.take().expect("a pipe").write_all(input);
    let mut printed = Vec::new();
    child.stdout.take().expect("a pipe").read_to_end(&mut printed)?;
    let passed = start.elapsed();
    let time = processor_time(child.id()).unwrap_or(passed);
    child.wait()?;
    match written {
        Err(error) if error.kind() != io::ErrorKind::BrokenPipe => Err(error),
        _ => Ok(Timed { time, printed }),
    }
}

/// What a process used from its start to its end, user and system together. It is read when the process has ended and
/// has not been waited for; the last of it is booked just after that, hence the short sleep.
fn processor_time(process: u32) -> Option<Duration> {
    while !read_to_string(format!("/proc/{process}/stat")).ok()?.rsplit(") ").next()?.starts_with('Z') {
        sleep(Duration::from_micros(200));
    }
    sleep(Duration::from_millis(1));
    let account = read_to_string(format!("/proc/{process}/schedstat")).ok()?;
    let nanoseconds = account.split(' ').next()?.parse().ok()?;
    (nanoseconds > 0).then(|| Duration::from_nanos(nanoseconds))
}

/// The run that took least of up to as many as there are repeats.
pub fn best_time(program: &str, arguments: &[&str], input: &[u8]) -> io::Result<Timed> {
    let start = Instant::now();
    let mut best = timed(program, arguments, input)?;
    for _ in 1..REPEATS {
        if start.elapsed() > LONG {
            break;
        }
        best.time = best.time.min(timed(program, arguments, input)?.time);
    }
    Ok(best)
}

/// The programs run one after the other, so that what else the machine does slows both.
pub fn best_in_turns(programs: [&str; 2], input: &[u8]) -> io::Result<[Timed; 2]> {
    let start = Instant::now();
    let mut best = [timed(programs[0], &[], input)?, timed(programs[1], &[], input)?];
    for turn in 1..MOST_TURNS {
        if turn >= LEAST_TURNS && start.elapsed() > TURNS_LONG {
            break;
        }
        for (best, program) in best.iter_mut().zip(programs) {
            best.time = best.time.min(timed(program, &[], input)?.time);
        }
    }
    Ok(best)
}
