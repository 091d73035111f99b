//! Which outcomes have come up, call by call, and which must.

use std::collections::BTreeMap;

use crate::frames::{Answer, Request};

/// How often each outcome of each call came up, in all and by family.
#[derive(Default)]
pub struct Coverage {
    outcomes: BTreeMap<(&'static str, String), u64>,
    by_family: BTreeMap<(&'static str, &'static str, String), u64>,
}

/// Every outcome that can come, call by call. "done" of Match says which.
/// "7 at 0 to 32" stands for 7 at each of these places of a joint proof.
const REQUIRED: [(&str, &str); 20] = [
    ("digest", "done, 11"),
    ("match", "done yes, done no, 11"),
    ("height", "done"),
    ("save", "done, 12"),
    ("load", "done, 12"),
    ("check", "done, 1"),
    ("prove", "done, 1, 2, 5, 6"),
    ("apply Read", "done, 1, 2"),
    ("apply Replace", "done, 1, 2"),
    ("apply Insert", "done, 1, 2, 3, 4, 5, 14"),
    ("apply Delete", "done, 1, 2"),
    ("gateway Read", "done, 2, 7 first, 8 first, 9 first, 12"),
    ("gateway Replace", "done, 2, 7 first, 8 first, 9 first, 12"),
    (
        "gateway Insert",
        "done, 2, 3, 4, 7 first, 8 first, 9 first, 12, 14",
    ),
    (
        "gateway Delete",
        "done, 2, 7 first, 8 first, 9 first, 7 second, 8 second, 9 second, 10, 12",
    ),
    ("tag", "done, 11"),
    ("prove joint", "done, 1, 2, 5, 6, 13"),
    (
        "check joint",
        "done, 2, 7 at 0 to 32, 8 at 1 to 32, 9 at 1 to 32, 12, 13",
    ),
    (
        "file",
        "done, 2, 3, 4, 7 first, 8 first, 9 first, 7 second, 8 second, 9 second, \
         11, 12, 14, 15, 16",
    ),
    ("find place", "done"),
];

/// What must come up where the metadata is held by no archive.
const REQUIRED_BY_FAMILY: [(&str, &str, &str); 8] = [
    ("forged", "gateway Read", "done, 8 first, 9 first"),
    ("forged", "gateway Replace", "done, 8 first, 9 first"),
    ("forged", "gateway Insert", "done, 4, 8 first, 9 first, 12"),
    (
        "forged pairs",
        "gateway Delete",
        "done, 8 first, 9 second, 10",
    ),
    ("rules", "gateway Delete", "7 first, 7 second"),
    (
        "repeated forged",
        "gateway Insert",
        "done, 4, 7 first, 8 first, 9 first, 12, 14",
    ),
    (
        "joint forged",
        "check joint",
        "done, 2, 8 at 1 to 32, 9 at 1 to 32, 12",
    ),
    (
        "filing forged",
        "file",
        "done, 4, 9 first, 8 second, 9 second, 12, 14, 15, 16",
    ),
];

/// The outcomes that a row of these tables names, those at several places one
/// by one.
fn each(outcomes: &str) -> impl Iterator<Item = String> + '_ {
    outcomes.split(", ").flat_map(each_place)
}

fn each_place(named: &str) -> Vec<String> {
    let (number, places) = match named.split_once(" at ") {
        Some(split) => split,
        None => return vec![named.to_string()],
    };
    let place = |text: &str| text.parse::<u8>().expect("a place of a joint proof");
    let (first, last) = places.split_once(" to ").unwrap_or((places, places));
    let places = place(first)..=place(last);
    places.map(|at| format!("{number} at {at}")).collect()
}

/// The outcome in words.
pub fn outcome(request: &Request, answer: &Answer) -> String {
    let which = match answer.which {
        0 => "",
        1 => " first",
        _ => " second",
    };
    let place = answer.which;
    match (answer.refusal, request) {
        (0, Request::Match { .. }) if answer.yes == 1 => "done yes".to_string(),
        (0, Request::Match { .. }) => "done no".to_string(),
        (0, _) => "done".to_string(),
        (number @ 7..=9, Request::CheckJoint(_)) => format!("{number} at {place}"),
        (number, _) => format!("{number}{which}"),
    }
}

impl Coverage {
    pub fn note(&mut self, family: &'static str, request: &Request, answer: &Answer) {
        let (name, outcome) = (request.name(), outcome(request, answer));
        *self.outcomes.entry((name, outcome.clone())).or_default() += 1;
        *self.by_family.entry((family, name, outcome)).or_default() += 1;
    }

    /// What should have come up and has not.
    pub fn missing(&self) -> Vec<String> {
        let mut missing = Vec::new();
        for (name, outcomes) in REQUIRED {
            for outcome in each(outcomes) {
                if !self.outcomes.contains_key(&(name, outcome.clone())) {
                    missing.push(format!("{name}: {outcome}"));
                }
            }
        }
        for (family, name, outcomes) in REQUIRED_BY_FAMILY {
            for outcome in each(outcomes) {
                let key = (family, name, outcome.clone());
                if !self.by_family.contains_key(&key) {
                    missing.push(format!("{name}, {family}: {outcome}"));
                }
            }
        }
        missing
    }

    /// Outcomes that came up and are not in the table of those that can.
    pub fn unexpected(&self) -> Vec<String> {
        let can = |name: &str, outcome: &str| {
            let row = REQUIRED.iter().find(|(known, _)| *known == name);
            row.map_or(false, |(_, outcomes)| each(outcomes).any(|o| o == outcome))
        };
        let all = self.outcomes.keys();
        all.filter(|(name, outcome)| !can(name, outcome))
            .map(|(name, outcome)| format!("{name}: {outcome}"))
            .collect()
    }

    /// One line a call: its outcomes with their counts.
    pub fn table(&self) -> String {
        let mut lines = String::from("call            | outcomes\n");
        for (name, outcomes) in REQUIRED {
            let counted = outcomes.split(", ").map(|outcome| {
                let keys = each(outcome).map(|outcome| (name, outcome));
                let times: u64 = keys.filter_map(|key| self.outcomes.get(&key)).sum();
                format!("{outcome}: {times}")
            });
            let counted: Vec<String> = counted.collect();
            lines += &format!("{name:<15} | {}\n", counted.join(", "));
        }
        lines
    }

    /// One line a family: how many calls it had.
    pub fn families(&self) -> String {
        let mut totals: BTreeMap<&str, u64> = BTreeMap::new();
        for ((family, _, _), times) in &self.by_family {
            *totals.entry(family).or_default() += times;
        }
        let listed = totals.iter().map(|(family, n)| format!("{family} {n}"));
        listed.collect::<Vec<String>>().join(", ")
    }
}
