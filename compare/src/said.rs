//! What texts of sheets say: their phrases, a number written as #, counted; and those that a run must meet.

use crate::catalogue::{CATALOGUE, NAMED_ONLY};
use std::collections::BTreeMap;

const SHEETS: [&str; 5] = [
    "sheet refused, #: it is longer than # bytes",
    "sheet refused, #: a record has an unknown kind",
    "sheet refused, #: a record is cut short",
    "record # at byte #",
    "records #, answers #",
];

const VERDICTS: [&str; 5] = [
    "clear on the lower side",
    "clear on the upper side",
    "clear on both sides",
    "conflict at # s",
    "conflict on both sides: lower at # s, upper at # s",
];

const REFUSALS: [&str; 13] = [
    "refused, #: an encounter field is outside its limits",
    "refused, #: the puck's radius or half height is outside its limits",
    "refused, #: the delay acceleration is outside its limits",
    "refused, #: the sides are not # or #, or the sense is not # or #",
    "refused, #: the target or, two-sided, the upper target is outside its limits",
    "refused, #: the delay or the limit is outside its limits",
    "refused, #: no encounter was accepted before the question",
    "refused, #: the code is not one of # to #",
    "refused, #: codes # and # have a name and are not judged",
    "refused, #: a strength is outside its limits, or the upper strength is below the strength",
    "refused, #: the upper target falls short of the target in the sense",
    "refused, #: the question is one-sided and an upper field is not #",
    "refused, #: code # is not issued to an aircraft going down, nor code # to one going up",
];

/// Of either side, and of a one-sided question.
const MOMENTS: [&str; 5] = [
    "at the start",
    "as the intruder comes within # ft",
    "at the time limit",
    "at the last instant within # ft",
    "the first whole second in conflict",
];

const LOWER_MOMENTS: [&str; 2] = [
    "as the delay ends",
    "as the ownship's vertical speed comes to the intruder's",
];

/// Where the intruder is.
const PLACES: [&str; 11] = [
    "# ft above, on the puck's edge",
    "# ft below, on the puck's edge",
    "level with the ownship, closer than # ft",
    "less than # ft above, closer than # ft",
    "less than # ft below, closer than # ft",
    "# ft above, closer than # ft",
    "# ft below, closer than # ft",
    "less than # ft above, where only more than # ft below is clear",
    "less than # ft below, where only more than # ft above is clear",
    "# ft above, where only more than # ft below is clear",
    "# ft below, where only more than # ft above is clear",
];

/// The forms in which feet are said.
const FEET: [&str; 5] = [
    "no foot",
    "whole feet",
    "feet and a fraction",
    "a fraction of a foot",
    "tenths of a foot",
];

const EMPTY_WINDOWS: [&str; 2] = [
    "the intruder never comes within # ft",
    "the intruder does not come within # ft up to the limit",
];

const INSTANTS: [&str; 14] = [
    "# s is a conflict time; the judge shows # s",
    "# s is in the window and no conflict time",
    "# s is outside the window",
    "# s is out of the judge's reach",
    "# s is a conflict time on both sides; the judge shows # s on the lower side and # s on the upper",
    "# s is a conflict time on the lower side and not on the upper",
    "# s is a conflict time on the lower side and not on the upper; the judge shows # s on the lower side and # s on the upper",
    "# s is a conflict time on the upper side and not on the lower",
    "# s is a conflict time on the upper side and not on the lower; the judge shows # s on the lower side and # s on the upper",
    "asked of the encounter in record #",
    "warning: the encounter in record # was refused, so the one before it holds",
    "warning: the encounter in record # was refused, and there is none before it",
    "warning: the puck in record # was refused, so the one before it holds",
    "warning: the delay acceleration in record # was refused, so the one before it holds",
];

const RECORDS: [&str; 20] = [
    "encounter: r #",
    "encounter: r -#",
    "puck: p #",
    "puck: p -#",
    "delay acceleration: e #",
    "delay acceleration: e -#",
    "coded question: code #",
    "free question: one-sided",
    "free question: two-sided",
    "free question: sides #",
    "climb",
    "descend",
    "sense #",
    "target #",
    "target -#",
    "upper target #",
    "upper target -#",
    "delay # s",
    "limit # s",
    "no limit",
];

/// What is said of a clear side.
fn clear() -> impl Iterator<Item = String> {
    let paths = ["", " the lower path", " the upper path"];
    let ways = ["above", "below"].into_iter();
    let ways = ways.flat_map(move |way| paths.map(|path| format!("{way}{path}")));
    ways.flat_map(|way| {
        ["", ", up to the limit"].map(|until| {
            format!("the intruder is more than # ft {way} whenever it is within # ft{until}")
        })
    })
}

/// What is said of a conflict on each side.
fn conflicts() -> impl Iterator<Item = String> {
    ["", "lower: ", "upper: "].into_iter().flat_map(|side| {
        let lower = LOWER_MOMENTS.iter().filter(move |_| side != "upper: ");
        let said = MOMENTS.iter().chain(&PLACES).chain(lower);
        said.map(move |phrase| format!("{side}{phrase}"))
    })
}

/// What a run must meet.
fn required() -> Vec<String> {
    let of_sheets = SHEETS.iter().chain(&VERDICTS).chain(&REFUSALS);
    let others = EMPTY_WINDOWS.iter().chain(&FEET).chain(&INSTANTS);
    let fixed = of_sheets.chain(others).chain(&RECORDS);
    let judged = CATALOGUE.iter().map(|advice| advice.name);
    let codes = judged.chain(NAMED_ONLY.map(|(_, name)| name));
    let codes = codes.map(|name| format!("coded question: code # {name}"));
    let fixed = fixed.map(|phrase| phrase.to_string());
    fixed
        .chain(clear())
        .chain(conflicts())
        .chain(codes)
        .collect()
}

/// A text with each number as #, be it whole, a fraction, both, or a decimal. Digits of a name, as in CL1500, stay.
fn shape(text: &str) -> String {
    let mut shape = String::new();
    let mut in_number = false;
    for c in text.chars() {
        let in_name = shape.ends_with(|c: char| c.is_ascii_alphanumeric());
        let of_number = c.is_ascii_digit() && !in_name;
        if !of_number {
            shape.push(c);
        } else if !in_number {
            shape.push('#');
        }
        in_number = of_number;
    }
    for number in ["# #/#", "#/#", "#.#"] {
        shape = shape.replace(number, "#");
    }
    shape
}

/// The forms of the feet of a line.
fn forms(line: &str) -> impl Iterator<Item = &'static str> {
    line.match_indices(" ft").map(|(at, _)| {
        let text = &line[..at];
        let number = text.rsplit(' ').next().unwrap_or_default();
        let whole = text.strip_suffix(number).unwrap_or_default().trim_end();
        match number {
            "0" => "no foot",
            _ if number.contains('.') => "tenths of a foot",
            _ if !number.contains('/') => "whole feet",
            _ if whole.ends_with(|c: char| c.is_ascii_digit()) => "feet and a fraction",
            _ => "a fraction of a foot",
        }
    })
}

/// The phrases of a line.
fn phrases(line: &str) -> Vec<String> {
    let shape = shape(line.trim_start());
    if let Some((_, verdict)) = shape.split_once("answer #: ") {
        return vec![verdict.into()];
    }
    if let Some((_, given)) = shape.split_once("record # at byte #") {
        let given = given.strip_prefix(", ").unwrap_or("record # at byte #");
        return given.split(", ").map(String::from).collect();
    }
    if let Some((encounter, _)) = shape.split_once(": r ") {
        return vec![encounter.into()];
    }
    match shape.split_once("; ") {
        Some((moment, place)) if place.contains(" is ") => {
            let side = ["lower: ", "upper: "];
            let side = side.into_iter().find(|side| moment.starts_with(side));
            let (_, place) = place.split_once(" is ").unwrap_or_default();
            let place = format!("{}{place}", side.unwrap_or_default());
            vec![moment.into(), place]
        }
        _ => vec![shape],
    }
}

/// How often each phrase was said.
#[derive(Default)]
pub struct Counts(BTreeMap<String, u64>);

impl Counts {
    /// Counts the phrases of a sheet's text.
    pub fn add(&mut self, text: &str) {
        for line in text.lines() {
            let feet = line.starts_with("    ").then(|| forms(line));
            let feet = feet.into_iter().flatten().map(String::from);
            for phrase in phrases(line).into_iter().chain(feet) {
                *self.0.entry(phrase).or_default() += 1;
            }
        }
    }

    /// What a run must meet, each with its count.
    pub fn required(&self) -> Vec<(u64, String)> {
        let counted = |phrase: String| (self.0.get(&phrase).copied().unwrap_or(0), phrase);
        required().into_iter().map(counted).collect()
    }
}
