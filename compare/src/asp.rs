//! The question of a query put to clingo: an answer set program whose answer sets are the enough sets, and options with
//! which clingo lists those of them that are slim.

use crate::policy::{has, Action, Policy, Query};
use crate::reader::read;

/// All answer sets (-n0) that are smallest in the shown atoms: these are tried false first, and what is found shuts out
/// all that contain it. Of the configurations frumpy is the quickest here. The sets are printed and nothing else.
pub const SOLVE: [&str; 6] =
    ["--configuration=frumpy", "--heuristic=Domain", "--dom-mod=false,show", "--enum-mode=domRec", "-n0", "-V0"];
/// An atom may have no rule.
pub const NO_NOTES: &str = "-Wnone";

/// The program for the first query of a file, with the command for it, or the refusal of the file.
pub fn asp(input: &[u8]) -> String {
    match read(input) {
        Err(number) => format!("refused={number}\n"),
        Ok((policy, queries)) => {
            let command = format!("% clingo {NO_NOTES} {}\n", SOLVE.join(" "));
            queries.first().map_or(String::new(), |query| command + &program(&policy, query))
        }
    }
}

/// a(3): action 3 is in the set; w3: it is in the world; d3: decision 3 is in the model. The rules are written out,
/// which is quicker for clingo than a few rules with variables over the policy as facts.
pub fn program(policy: &Policy, query: &Query) -> String {
    let actions = |mask| (0..policy.actions.len()).filter(move |&action| has(mask, action));
    let mut lines = Vec::new();
    for (action, Action { also, .. }) in policy.actions.iter().enumerate() {
        if has(query.done, action) {
            lines.push(format!("w{action}."));
        } else {
            lines.push(format!("{{a({action})}}. w{action} :- a({action})."));
        }
        lines.extend(actions(*also).map(|other| format!("w{other} :- w{action}.")));
    }
    for rule in &policy.rules {
        let needs = actions(rule.needs).map(|action| format!("w{action}"));
        let ifs = rule.ifs.iter().map(|d| format!("d{d}"));
        let unless = rule.unless.iter().map(|d| format!("not d{d}"));
        let body: Vec<String> = needs.chain(ifs).chain(unless).collect();
        lines.push(format!("d{} :- {}.", rule.head, body.join(", ")));
    }
    lines.push(format!(":- not d{}.\n#show a/1.\n", query.want));
    lines.join("\n")
}

/// The sets that clingo printed, rising: a line for each, and a last one that says whether there are any. None where
/// it did not come to its end.
pub fn sets(printed: &[u8]) -> Option<Vec<u32>> {
    let text = std::str::from_utf8(printed).ok()?;
    let mut lines: Vec<&str> = text.lines().collect();
    lines.pop().filter(|last| ["SATISFIABLE", "UNSATISFIABLE"].contains(last))?;
    let bit = |atom: &str| Some(1 << atom.strip_prefix("a(")?.strip_suffix(')')?.parse::<u32>().ok()?);
    let set = |line: &str| line.split_whitespace().map(bit).sum();
    let mut sets = lines.into_iter().map(set).collect::<Option<Vec<u32>>>()?;
    sets.sort_unstable();
    Some(sets)
}
