//! The text that the program `words` writes of a sheet, from the records and what comes of them (`sheet`), the verdicts
//! (`independent`), their meaning (`meaning`) and what holds at a named instant (`instant`).

use crate::catalogue::{CATALOGUE, NAMED_ONLY};
use crate::exact::Ratio;
use crate::independent::{Answer, NO_LIMIT, Question, Time, judge};
use crate::instant::{self, InstantAnswer, Judged, Known, Standing};
use crate::meaning::meanings;
use crate::sheet::{Fault, Place, Record, Step, steps};

/// An instant n/m, if one is named for the answers of a sheet.
pub type Named = Option<(u64, u64)>;

/// "24 3/8 s"
fn seconds(t: Ratio) -> String {
    let t = t.lowest();
    let (whole, rest) = (t.floor(), t.num.rem_euclid(t.den));
    if rest == 0 {
        format!("{whole} s")
    } else {
        format!("{whole} {rest}/{} s", t.den)
    }
}

fn time(t: Time) -> String {
    seconds(t.ratio())
}

fn refusal(number: u8) -> String {
    let meaning = match number {
        1 => "an encounter field is outside its limits",
        2 => "the puck's radius or half height is outside its limits",
        3 => "the delay acceleration is outside its limits",
        4 => "the sides are not 1 or 2, or the sense is not 0 or 1",
        5 => "the target or, two-sided, the upper target is outside its limits",
        6 => "the delay or the limit is outside its limits",
        7 => "no encounter was accepted before the question",
        8 => "the code is not one of 1 to 18",
        9 => "codes 17 and 18 have a name and are not judged",
        10 => "it is longer than 8192 bytes",
        11 => "a record has an unknown kind",
        12 => "a record is cut short",
        14 => "a strength is outside its limits, or the upper strength is below the strength",
        15 => "the upper target falls short of the target in the sense",
        16 => "the question is one-sided and an upper field is not 0",
        17 => "code 10 is not issued to an aircraft going down, nor code 9 to one going up",
        _ => unreachable!("no sheet is refused with {number}"),
    };
    format!("refused, {number}: {meaning}")
}

fn verdict(answer: &Answer) -> String {
    match *answer {
        Answer::Clear(1) => "clear on the lower side".into(),
        Answer::Clear(2) => "clear on the upper side".into(),
        Answer::Clear(_) => "clear on both sides".into(),
        Answer::Conflict(t) => format!("conflict at {}", time(t)),
        Answer::BothConflict(t, j) => format!(
            "conflict on both sides: lower at {}, upper at {}",
            time(t),
            time(j)
        ),
        Answer::Refused(number) => refusal(number),
    }
}

fn standing(found: &Standing) -> &'static str {
    if !found.in_window {
        return "outside the window";
    }
    match (found.lower, found.upper) {
        (true, None) => "a conflict time",
        (false, None) => "in the window and no conflict time",
        (true, Some(true)) => "a conflict time on both sides",
        (true, Some(false)) => "a conflict time on the lower side and not on the upper",
        (false, Some(true)) => "a conflict time on the upper side and not on the lower",
        (false, Some(false)) => "in the window and no conflict time on either side",
    }
}

/// What the judge shows, said of a conflict time.
fn shown(found: &Standing, answer: &Answer) -> String {
    if !found.lower && found.upper != Some(true) {
        return String::new();
    }
    match *answer {
        Answer::Conflict(t) => format!("; the judge shows {}", time(t)),
        Answer::BothConflict(t, j) => format!(
            "; the judge shows {} on the lower side and {} on the upper",
            time(t),
            time(j)
        ),
        _ => String::new(),
    }
}

fn named_text((n, m): (u64, u64), held: InstantAnswer, answer: &Answer) -> String {
    let instant = if m == 0 {
        format!("{n}/0 s")
    } else {
        seconds(Ratio::new(n.into(), m.into()))
    };
    match held.expect("the question is accepted") {
        Judged::OutOfReach => format!("{instant} is out of the judge's reach"),
        Judged::At(found) => format!("{instant} is {}{}", standing(&found), shown(&found, answer)),
    }
}

/// What holds at the instant that is named.
fn at_instant(q: &Question, (n, m): (u64, u64), answer: &Answer) -> String {
    let case = instant::case_at(q, (n, m));
    named_text((n, m), instant::answer(&Known::of(q), &case), answer)
}

fn limit(limit: i64) -> String {
    if limit == NO_LIMIT {
        "no limit".into()
    } else {
        format!("limit {limit} s")
    }
}

fn code(code: u8) -> String {
    let judged = CATALOGUE.iter().map(|advice| (advice.code, advice.name));
    let mut named = judged.chain(NAMED_ONLY);
    match named.find(|(number, _)| *number == code) {
        Some((_, name)) => format!("code {code} {name}"),
        None => format!("code {code}"),
    }
}

fn encounter([r, h, c, v, vi]: &[i64; 5]) -> String {
    format!("r {r}, h {h}, c {c}, v {v}, vi {vi}")
}

/// The word for a number, or the number behind what it is a number of.
fn named_number(words: &[(i64, &str)], what: &str, n: i64) -> String {
    match words.iter().find(|(number, _)| *number == n) {
        Some((_, word)) => word.to_string(),
        None => format!("{what} {n}"),
    }
}

fn free(fields: &[i64; 8]) -> String {
    let [
        sides,
        sense,
        target,
        upper_target,
        strength,
        upper_strength,
        delay,
        until,
    ] = *fields;
    format!(
        "{}, {}, target {target}, upper target {upper_target}, strength {strength}, \
         upper strength {upper_strength}, delay {delay} s, {}",
        named_number(&[(1, "one-sided"), (2, "two-sided")], "sides", sides),
        named_number(&[(0, "descend"), (1, "climb")], "sense", sense),
        limit(until)
    )
}

fn record(record: &Record) -> String {
    match record {
        Record::Encounter(fields) => format!("encounter: {}", encounter(fields)),
        Record::Puck(p, k) => format!("puck: p {p}, k {k}"),
        Record::DelayAcceleration(e) => format!("delay acceleration: e {e}"),
        Record::Coded {
            code: number,
            limit: until,
        } => format!("coded question: {}, {}", code(*number), limit(*until)),
        Record::Free(fields) => format!("free question: {}", free(fields)),
    }
}

fn place(place: Place) -> String {
    format!("record {} at byte {}", place.record, place.byte)
}

/// What a question rests on of the steps before it.
fn asked_of(before: &[Step]) -> Vec<String> {
    let encounters = || last(before, |record| matches!(record, Record::Encounter(_)));
    let held = encounters().find_map(|step| match (&step.record, &step.asked) {
        (Record::Encounter(fields), None) => Some((step.place.record, encounter(fields))),
        _ => None,
    });
    let mut lines = Vec::new();
    if let Some((number, fields)) = &held {
        lines.push(format!(
            "asked of the encounter in record {number}: {fields}"
        ));
    }
    let earlier = "so the one before it holds";
    let instead = if held.is_some() {
        earlier
    } else {
        "and there is none before it"
    };
    let pucks = last(before, |record| matches!(record, Record::Puck(..)));
    let delays = last(before, |record| {
        matches!(record, Record::DelayAcceleration(_))
    });
    lines.extend(warning("the encounter", encounters(), instead));
    lines.extend(warning("the puck", pucks, earlier));
    lines.extend(warning("the delay acceleration", delays, earlier));
    lines
}

/// The steps with such a record, the last first.
fn last(steps: &[Step], such: impl Fn(&Record) -> bool) -> impl Iterator<Item = &Step> {
    steps.iter().rev().filter(move |step| such(&step.record))
}

/// Where the last of a setting's records was refused.
fn warning<'a>(
    setting: &str,
    mut steps: impl Iterator<Item = &'a Step>,
    instead: &str,
) -> Option<String> {
    let step = steps.next().filter(|step| step.asked.is_some())?;
    let number = step.place.record;
    Some(format!(
        "warning: {setting} in record {number} was refused, {instead}"
    ))
}

/// What is said of a step behind its verdict.
fn details(step: &Step, before: &[Step], answer: &Answer, named: Named) -> Vec<String> {
    let mut lines = Vec::new();
    if let Some(Ok(q)) = &step.asked {
        lines.extend(meanings(q, answer).iter().map(|line| line.text(q)));
        lines.extend(named.map(|at| at_instant(q, at, answer)));
    }
    lines.push(format!("{}, {}", place(step.place), record(&step.record)));
    if matches!(step.record, Record::Coded { .. } | Record::Free(_)) {
        lines.extend(asked_of(before));
    }
    lines
}

fn refused_text(fault: Fault) -> String {
    let place = fault.place.map(|at| format!("    {}\n", place(at)));
    let place = place.unwrap_or_default();
    format!("sheet {}\n{place}", refusal(fault.number))
}

/// The whole text of a sheet, with what holds at an instant if one is named.
pub fn text(sheet: &[u8], named: Named) -> String {
    let steps = match steps(sheet) {
        Ok(steps) => steps,
        Err(fault) => return refused_text(fault),
    };
    let (mut text, mut answers) = (String::new(), 0);
    for (i, step) in steps.iter().enumerate() {
        let Some(asked) = &step.asked else { continue };
        let answer = asked.as_ref().map_or_else(|n| Answer::Refused(*n), judge);
        answers += 1;
        text += &format!("answer {answers}: {}\n", verdict(&answer));
        for line in details(step, &steps[..i], &answer, named) {
            text += &format!("    {line}\n");
        }
    }
    text + &format!("records {}, answers {answers}\n", steps.len())
}
