//! The files of a seed: valid ones, ones at the edges of each question, damaged ones, random bytes, and ones about
//! as long as a file may be; and beside them files for the levels and for the words. File number n of a seed is always
//! the same.

use crate::edges::edge;
use crate::many::many_actions;
use crate::random::{small, Case};
use crate::rng::Rng;
use crate::shapes::valid;
use crate::unlevelled::unlevelled;
use crate::writer::lines;
pub use crate::writer::text;

/// Of twenty files in a row nine are valid, seven at an edge, three damaged and one of odd bytes.
pub fn file(seed: u64, number: u64) -> Vec<u8> {
    let mut rng = Rng::new(seed, number);
    let (round, place) = (number / 20, number % 20);
    match place {
        _ if is_valid(number) => text(&to_lines(&valid(&mut rng, 9 * round + place))),
        9..=15 => edge(&mut rng, 7 * round + place - 9),
        16 => damaged_bytes(&mut rng),
        17 => damaged_lines(&mut rng),
        18 => nudged(&mut rng),
        _ if round % 2 == 0 => odd_bytes(&mut rng),
        _ => long(&mut rng),
    }
}

/// Whether the file with this number is one of the valid ones.
pub fn is_valid(number: u64) -> bool {
    number % 20 < 9
}

/// Of nine files in a row six are made for the levels, and three are those above that are not valid ones, in turn.
pub fn levels_file(seed: u64, number: u64) -> Vec<u8> {
    let (round, place) = (number / 9, number % 9);
    if place < 6 {
        let mut rng = Rng::new(!seed, number);
        text(&to_lines(&unlevelled(&mut rng, 6 * round + place)))
    } else {
        let index = 3 * round + place - 6;
        file(seed, 20 * (index / 11) + 9 + index % 11)
    }
}

/// Each file for the words is valid, and has more actions than the small ones that the probe is meant for.
pub fn words_file(seed: u64, number: u64) -> Vec<u8> {
    text(&to_lines(&many_actions(&mut Rng::new(seed, !number), number)))
}

pub fn to_lines(case: &Case) -> Vec<String> {
    lines(&case.policy, &case.queries)
}

/// One to three bytes changed to another of the file, changed in one bit, dropped, doubled or swapped, or the end
/// cut.
fn damaged_bytes(rng: &mut Rng) -> Vec<u8> {
    let mut file = text(&to_lines(&small(rng)));
    for _ in 0..rng.within(1, 3) {
        let (place, other) = (rng.below(file.len()), rng.below(file.len()));
        match rng.below(16) {
            0..=5 => file[place] = file[other],
            6..=8 => file[place] ^= 1 << rng.below(8),
            9..=11 => drop(file.remove(place)),
            12 | 13 => file.insert(place, file[place]),
            14 => file.swap(place, other),
            _ => file.truncate(place.max(1)),
        }
    }
    file
}

/// One or two lines dropped, doubled, swapped, cut, or replaced by another.
fn damaged_lines(rng: &mut Rng) -> Vec<u8> {
    let mut lines = to_lines(&small(rng));
    for _ in 0..rng.within(1, 2) {
        let (place, other) = (rng.below(lines.len()), rng.below(lines.len()));
        match rng.below(5) {
            0 => drop(lines.remove(place)),
            1 => lines.insert(place, lines[place].clone()),
            2 => lines.swap(place, other),
            3 => {
                let length = rng.below(lines[place].len() + 1);
                lines[place].truncate(length);
            }
            _ => lines[place] = lines[other].clone(),
        }
    }
    text(&lines)
}

/// Some numbers one up or one down, which leaves most files well formed.
fn nudged(rng: &mut Rng) -> Vec<u8> {
    let mut lines = to_lines(&small(rng));
    for _ in 0..rng.within(1, 3) {
        let place = rng.below(lines.len());
        let (key, content) = lines[place].split_once('=').expect("a line has an = sign");
        if let Ok(number) = content.parse::<u32>() {
            let number = if rng.once_in(2) { number + 1 } else { number.saturating_sub(1) };
            lines[place] = format!("{key}={number}");
        }
    }
    text(&lines)
}

/// Any bytes, or bytes that occur in files, alone or behind the start of a file.
fn odd_bytes(rng: &mut Rng) -> Vec<u8> {
    let mut file = text(&to_lines(&small(rng)));
    let known = file.clone();
    file.truncate(if rng.once_in(2) { 0 } else { rng.below(known.len()) });
    let any = rng.once_in(2);
    for _ in 0..rng.below(200) {
        file.push(if any { rng.below(256) as u8 } else { rng.pick(&known) });
    }
    file
}

/// 32,767 to 32,769 bytes. An accepted file is shorter than that, so its end is made longer, or a list in it, or a
/// number; or an earlier line is refused.
fn long(rng: &mut Rng) -> Vec<u8> {
    let length = rng.within(32_767, 32_769);
    let mut lines = to_lines(&small(rng));
    let way = rng.below(6);
    if way < 2 {
        lines[way] = ["decisions=129", "actions=17"][way].to_string();
    }
    let mut file = text(&lines);
    let missing = length - file.len();
    let filling: Vec<u8> = match way {
        2 => b"0,".iter().copied().cycle().take(missing).collect(),
        3 => vec![b'1'; missing],
        4 => (0..missing).map(|_| rng.below(256) as u8).collect(),
        _ => file.iter().copied().cycle().take(missing).collect(),
    };
    let list = file.windows(4).position(|bytes| bytes == b"\nif=").map(|start| start + 4);
    let place = if way == 2 || way == 3 { list.unwrap_or(file.len()) } else { file.len() };
    file.splice(place..place, filling);
    file
}
