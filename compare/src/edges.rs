//! Files at the edges that document 01 names: a valid file with one line, or one relation, put to either side of an
//! edge; and files with two faults, which show that the first no wins.

use crate::generate::{text, to_lines};
use crate::policy::{Action, Query, Rule};
use crate::random::{random, rule, Case, Size};
use crate::rng::Rng;

const NUMBER_KEYS: [&str; 11] =
    ["decisions", "actions", "level", "weight", "also", "rules", "head", "needs", "queries", "want", "done"];

/// The index-th file at an edge: the groups of edges take turns, and in a group its edges do.
pub fn edge(rng: &mut Rng, index: u64) -> Vec<u8> {
    let turn = (index / 9) as usize;
    match index % 9 {
        0 => numbers(rng, 2 * turn),
        1 => numbers(rng, 2 * turn + 1),
        2 => lists(rng, 2 * turn),
        3 => lists(rng, 2 * turn + 1),
        4 => forms(rng, turn),
        5 => counts(rng, turn),
        6 => whole_lines(rng, turn),
        7 => relations(rng, turn),
        _ => two_faults(rng, turn),
    }
}

/// A valid file to change: decisions 0 to 8 have level 0 and the last one the highest, so that any of the first nine
/// may stand in a list of a rule for the last.
fn base(rng: &mut Rng) -> Case {
    let size = Size {
        decisions: rng.within(10, 16),
        actions: rng.within(1, 5),
        rules: 0,
        queries: rng.within(1, 3),
        top_level: 3,
    };
    let mut case = random(rng, &size);
    case.policy.levels[..9].fill(0);
    let last = size.decisions - 1;
    case.policy.levels[last] = 4;
    for _ in 0..rng.below(8) {
        let rule = rule(rng, &case.policy);
        case.policy.rules.push(rule);
    }
    case.policy.rules.push(Rule { head: last as u32, ..Rule::default() });
    case.queries.push(Query { want: last as u32, done: 0 });
    case
}

/// Puts the content to one of the lines with that key.
fn put(rng: &mut Rng, lines: &mut [String], key: &str, content: &str) {
    let start = format!("{key}=");
    let places: Vec<usize> = (0..lines.len()).filter(|&i| lines[i].starts_with(&start)).collect();
    if !places.is_empty() {
        lines[rng.pick(&places)] = start + content;
    }
}

/// Each number at and just past the ends of its range.
fn number_edges(case: &Case) -> Vec<(&'static str, String)> {
    let decisions = case.policy.levels.len();
    let masks = 1usize << case.policy.actions.len();
    let ranges = [
        ("decisions", 1, 128),
        ("actions", 0, 16),
        ("level", 0, 15),
        ("weight", 1, 65_535),
        ("also", 0, masks - 1),
        ("rules", 0, 256),
        ("head", 0, decisions - 1),
        ("needs", 0, masks - 1),
        ("queries", 0, 64),
        ("want", 0, decisions - 1),
        ("done", 0, masks - 1),
    ];
    let mut edges = Vec::new();
    for (key, least, most) in ranges {
        let values = [0, least, most, most + 1, 99_999];
        edges.extend(values.map(|value| (key, value.to_string())));
    }
    edges
}

fn numbers(rng: &mut Rng, turn: usize) -> Vec<u8> {
    let case = base(rng);
    let mut lines = to_lines(&case);
    let edges = number_edges(&case);
    let (key, content) = &edges[turn % edges.len()];
    put(rng, &mut lines, key, content);
    text(&lines)
}

/// Ways to write a number, and ways to write a kind, good and bad, a bar between them.
const NUMBERS: &str = "|00|01|000000|000001|0x1|1x|x| 1|1 |+1|-1|1,|1.0|99999|100000|4294967297";
const KINDS: &str = "p|o||P|op|pp|x|0";

/// How a number or a kind is written: its digits, leading zeros, and what does not belong there.
fn forms(rng: &mut Rng, turn: usize) -> Vec<u8> {
    let mut lines = to_lines(&base(rng));
    let numbers = NUMBERS.split('|').map(|form| (rng.pick(&NUMBER_KEYS), form));
    let mut all: Vec<(&str, &str)> = numbers.collect();
    all.extend(KINDS.split('|').map(|form| ("kind", form)));
    let (key, form) = all[turn % all.len()];
    put(rng, &mut lines, key, form);
    text(&lines)
}

/// Lists that go with any base file, a bar between them.
const LISTS: &str = "|0|0,1,2,3,4,5,6,7|1,2,3,4,5,6,7,8|0,1,2,3,4,5,6,7,8|0,1,2,3,4,5,6,7,8,9|0,0|1,0|0,1,1|0,2,1\
    |0,1,2,3,4,5,6,6|0,1,2,3,4,5,7,6|7,6,5,4,3,2,1,0|8,7,6,5,4,3,2,1,0|0,0,0,0,0,0,0,0,0|0,1,2,3,4,5,6,7,8,x\
    |0,1,2,3,4,5,6,7,|,|0,|,0|0,,1|0, 1| 0|0;1|0.1|00|0,01|0,00|100000|99999|0,100000|1,0,x|x,1,0|p|-1|1,0,99999\
    |127|128";

/// Lists for a base file with so many decisions: form, length, range and order, and two faults in one list.
fn list_edges(decisions: usize) -> Vec<String> {
    let (last, over) = (decisions - 1, decisions);
    let mut edges = vec![
        format!("{last}"),
        format!("0,{last}"),
        format!("{over}"),
        format!("0,{over}"),
        format!("{over},0"),
        format!("{over},x"),
        format!("0,1,2,3,4,5,6,{over}"),
        vec!["1"; 256].join(","),
        vec!["1"; 257].join(","),
        vec!["1"; 300].join(","),
    ];
    edges.extend(LISTS.split('|').map(str::to_string));
    edges
}

/// A list edge in the if or the unless line of the rule for the last decision.
fn lists(rng: &mut Rng, turn: usize) -> Vec<u8> {
    let mut case = base(rng);
    let edges = list_edges(case.policy.levels.len());
    let place = rng.below(case.policy.rules.len());
    let last = case.policy.rules.len() - 1;
    case.policy.rules.swap(place, last);
    let mut lines = to_lines(&case);
    let first = lines.iter().position(|line| line.starts_with("rules=")).expect("a rule count") + 1;
    let (offset, key) = [(2, "if"), (3, "unless")][turn % 2];
    lines[first + 4 * place + offset] = format!("{key}={}", edges[turn / 2 % edges.len()]);
    text(&lines)
}

/// Counts at the ends of their ranges, with as many entries as the count says.
fn counts(rng: &mut Rng, turn: usize) -> Vec<u8> {
    let ends = [[1, 127, 128, 129], [0, 15, 16, 17], [0, 255, 256, 257], [0, 63, 64, 65]];
    let (which, end) = (turn % 4, turn / 4 % 4);
    let mut size = Size { decisions: 5, actions: 3, rules: 6, queries: 1, top_level: 2 };
    *[&mut size.decisions, &mut size.actions, &mut size.rules, &mut size.queries][which] = ends[which][end];
    text(&to_lines(&random(rng, &size)))
}

/// The levels of question 5 and the weights of question 6, one below, equal and one above.
fn relations(rng: &mut Rng, turn: usize) -> Vec<u8> {
    let mut case = base(rng);
    let turn = turn % 13;
    if turn < 8 {
        level_edge(rng, &mut case, turn);
    } else {
        weight_edge(rng, &mut case, turn - 8);
    }
    text(&to_lines(&case))
}

/// Two new decisions, the first the head of a new rule that has the second in its if or unless list. The last two of
/// the eight ways have the head itself there.
fn level_edge(rng: &mut Rng, case: &mut Case, way: usize) {
    let policy = &mut case.policy;
    let head = policy.levels.len() as u32;
    let level = rng.within(1, 14) as u32;
    policy.levels.extend([level, [level - 1, level, level + 1, level][way / 2]]);
    let named = if way < 6 { head + 1 } else { head };
    let mut list: Vec<u32> = rng.rising(2, 9).into_iter().map(|d| d as u32).collect();
    list.push(named);
    let (ifs, unless) = if way % 2 == 0 { (list, Vec::new()) } else { (Vec::new(), list) };
    let place = rng.below(policy.rules.len() + 1);
    policy.rules.insert(place, Rule { head, needs: 0, ifs, unless });
    case.queries.push(Query { want: head, done: 0 });
}

/// Two new actions, the first with the second in its also mask. The last two of the five ways have itself there.
fn weight_edge(rng: &mut Rng, case: &mut Case, way: usize) {
    let actions = &mut case.policy.actions;
    let (first, weight) = (actions.len(), rng.within(2, 65_534) as u32);
    let own = [weight - 1, weight, weight + 1, weight + 1, weight][way];
    let also = [2 << first, 2 << first, 2 << first, 3 << first, 1 << first][way];
    actions.push(Action { kind: 'p', weight: own, also });
    actions.push(Action { kind: 'o', weight, also: 0 });
    if rng.once_in(2) {
        actions.swap(first, first + 1);
        actions[first + 1].also = [1 << first, 1 << first, 1 << first, 3 << first, 2 << first][way];
    }
}

/// Two of six faults, against questions 2, 3, 4, 5, 6, and 2 again by what follows the last line.
fn two_faults(rng: &mut Rng, turn: usize) -> Vec<u8> {
    let faults = [turn % 6, turn / 6 % 6];
    let mut case = base(rng);
    for fault in faults {
        match fault {
            3 => level_edge(rng, &mut case, 3),
            4 => weight_edge(rng, &mut case, 1),
            _ => {}
        }
    }
    let mut lines = to_lines(&case);
    for fault in faults {
        let number = rng.pick(&["level", "weight", "also", "head", "needs", "want", "done"]);
        let list = rng.pick(&["if", "unless"]);
        match fault {
            0 => put(rng, &mut lines, number, "x"),
            1 => put(rng, &mut lines, number, "99999"),
            2 => put(rng, &mut lines, list, "1,0"),
            5 => lines.push("done=0".to_string()),
            _ => {}
        }
    }
    text(&lines)
}

/// Lines missing, doubled, out of order or ill formed, and what may follow the last.
fn whole_lines(rng: &mut Rng, turn: usize) -> Vec<u8> {
    let case = base(rng);
    let mut lines = to_lines(&case);
    let (place, other) = (rng.below(lines.len()), rng.below(lines.len()));
    let line = lines[place].clone();
    let (key, content) = line.split_once('=').expect("a line has an = sign");
    match turn % 24 {
        0 => drop(lines.remove(place)),
        1 => lines.insert(place, line),
        2 => lines.swap(place, other),
        3 => lines.swap(place, place.max(1) - 1),
        4 => lines.truncate(place),
        5 => lines.insert(place, String::new()),
        6 => lines.push(String::new()),
        7 => lines.push(lines[lines.len() - 1].clone()),
        8 => lines[place] = line.clone() + "\r",
        9 => lines[place] = format!("{key} ={content}"),
        10 => lines[place] = format!("{key}{content}"),
        11 => lines[place] = key.to_string(),
        12 => lines[place] = format!("{}={content}", key.to_uppercase()),
        13 => lines[place] = format!("{}={content}", &key[1..]),
        14 => lines[place] = format!("{}={content}", &key[..key.len() - 1]),
        15 => lines[place] = format!("{key}s={content}"),
        16 => lines[place] = format!("{key}=={content}"),
        17 => lines[place] = format!(" {line}"),
        18 => lines[place] = format!("{line}#"),
        19 => lines.insert(0, "edition=2".to_string()),
        20 => lines.clear(),
        _ => return odd_ends(rng, text(&lines), turn % 24 - 21),
    }
    text(&lines)
}

/// No last LF, or a byte after it.
fn odd_ends(rng: &mut Rng, mut file: Vec<u8>, way: usize) -> Vec<u8> {
    match way {
        0 => drop(file.pop()),
        1 => file.push(rng.below(256) as u8),
        _ => file.push(0),
    }
    file
}
