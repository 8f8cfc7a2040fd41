//! compare [COUNT] [SEED]: holds the proved judge against the independent implementation on COUNT
//! plain questions (10 million), the drawings of their paths with twelve seconds each, what each code
//! asks, eight instants of each question, a tenth as many flights and a hundredth as many sheets, and on
//! the worked questions, instants, flights and sheets; then the program that JUDGE_PROGRAM names, on its
//! standard input and output. The status is 0 only if no answer differs and every required class was met.
//! Drawings want the feature `screen`, instants the feature `instants`, flights the feature `flights`,
//! sheets the feature `sheets`.

use compare::check::{self, Tally, argument};
#[cfg(feature = "sheets")]
use compare::examples;
use compare::ffi::{self, JudgeResult};
#[cfg(feature = "flights")]
use compare::flight::{self, FlightCase};
use compare::generate::{self, Random};
use compare::independent::{Accepted, NAMES, Question};
#[cfg(feature = "instants")]
use compare::instant::{self, InstantCase, Known, case_at};
#[cfg(feature = "flights")]
use compare::pilots;
use compare::program;
#[cfg(feature = "screen")]
use compare::screen;
use compare::worked;
#[cfg(feature = "flights")]
use compare::worked_flights;
#[cfg(feature = "instants")]
use compare::worked_instants;
use std::path::Path;
use std::process::ExitCode;
use std::time::Instant;

fn describe(name: &str, q: &Question, wanted: JudgeResult, found: JudgeResult) -> String {
    let mut text = format!("{name}: {q}\n");
    for (field, n) in NAMES.iter().zip(q.numbers()) {
        text += &format!("  {field:<16}{n}\n");
    }
    text += &format!("  wanted {wanted:?}\n  found  {found:?}\n");
    if let Ok(x) = Accepted::of(q) {
        text += &format!("  in document 01's letters {x:?}\n");
        text += &format!("  lower side {:?}\n", x.lower_side());
        if let Some(upper) = x.upper {
            text += &format!("  upper side {:?}\n", x.upper_side(upper));
        }
    }
    text
}

fn question(tally: &mut Tally, name: impl Fn() -> String, q: &Question, wanted: JudgeResult) {
    let found = ffi::judge(q);
    if found != wanted {
        tally.differ(|| describe(&name(), q, wanted, found));
    }
}

/// The drawing of a question and its points, number for number and bit for bit.
#[cfg(feature = "screen")]
fn screen(tally: &mut Tally, name: impl Fn() -> String, q: &Question, any: u64) {
    let wanted = ffi::DrawingResult::of(&tally.drawing(q));
    let found = ffi::drawing(q);
    if found != wanted {
        tally.differ(|| {
            let name = name();
            format!("drawing of {name}: {q}\n  wanted {wanted:?}\n  found  {found:?}\n")
        });
    }
    for second in screen::seconds(q, any) {
        let wanted = ffi::PointResult::of(&tally.point(q, second));
        let found = ffi::point(q, second);
        if found != wanted {
            tally.differ(|| {
                let name = name();
                format!("{name} at {second}: {q}\n  wanted {wanted:?}\n  found  {found:?}\n")
            });
        }
    }
}

/// The drawing and the points of its upper path.
#[cfg(feature = "screen")]
fn upper_screen(tally: &mut Tally, name: impl Fn() -> String, q: &Question, any: u64) {
    let wanted = ffi::DrawingResult::of_upper(&tally.upper_drawing(q));
    let found = ffi::drawing_above(q);
    if found != wanted {
        tally.differ(|| {
            let name = name();
            format!("upper drawing of {name}: {q}\n  wanted {wanted:?}\n  found  {found:?}\n")
        });
    }
    for second in screen::upper_seconds(q, any) {
        let wanted = ffi::UpperPointResult::of(&tally.upper_point(q, second));
        let found = ffi::point_above(q, second);
        if found != wanted {
            tally.differ(|| {
                let name = name();
                format!(
                    "{name}, above, at {second}: {q}\n  wanted {wanted:?}\n  found  {found:?}\n"
                )
            });
        }
    }
}

/// What a code asks an ownship of any speed, with any limit.
#[cfg(feature = "screen")]
fn code(tally: &mut Tally, code: u64, v: i64, limit: i64) {
    let wanted = ffi::QuestionResult::of(&tally.coded(code, v), limit);
    let found = ffi::question_of(code, v, limit);
    if found != wanted {
        tally.differ(|| {
            format!("code {code}, v {v}, limit {limit}\n  wanted {wanted:?}\n  found  {found:?}\n")
        });
    }
}

/// Each code and its neighbours past a byte, at each sign of v and at the ends of 64 bits.
#[cfg(feature = "screen")]
fn codes(tally: &mut Tally) {
    let numbers = (0..=300).chain([(1 << 32) + 12, u64::MAX, (1 << 63) + 12]);
    for number in numbers {
        for v in [i64::MIN, -10_001, -1, 0, 1, 10_000, i64::MAX] {
            for limit in [i64::MIN, -1, 0, 600, 65_535, i64::MAX] {
                code(tally, number, v, limit);
            }
        }
    }
}

#[cfg(feature = "screen")]
fn drawings(tally: &mut Tally, count: u64, seed: u64, began: Instant) {
    for case in worked::groups().into_iter().flat_map(|group| group.cases) {
        if let Ok(q) = case.free() {
            screen(tally, || case.name.clone(), &q, 0);
            upper_screen(tally, || case.name.clone(), &q, 0);
        }
    }
    codes(tally);
    let mut random = Random::new(!seed);
    for i in 0..count {
        let q = generate::question(seed, i);
        let name = || format!("question {i} of seed {seed}");
        let any = random.draw();
        screen(tally, name, &q, any);
        upper_screen(tally, name, &q, any);
        progress("drawings", i + 1, count, tally, began);
    }
}

#[cfg(not(feature = "screen"))]
fn drawings(_: &mut Tally, _: u64, _: u64, _: Instant) {
    println!("no drawing was compared");
}

/// What is said of an instant; and that the judge's own answers keep what is proved of them.
#[cfg(feature = "instants")]
fn instant(tally: &mut Tally, name: impl Fn() -> String, known: &Known, case: &InstantCase) {
    let wanted = ffi::InstantResult::of(&tally.instant(known, case));
    let found = ffi::instant(case);
    let InstantCase { question, n, m } = case;
    if found != wanted {
        tally.differ(|| {
            let name = name();
            format!("{name} at {n}/{m}: {question}\n  wanted {wanted:?}\n  found  {found:?}\n")
        });
    }
    let verdict = ffi::judge(question);
    if instant::breaks_theorem(&verdict, (*n, *m), &found) {
        tally.differ(|| {
            let name = name();
            format!("{name} at {n}/{m}: {question}\n  {verdict:?}, but {found:?}\n")
        });
    }
}

/// Instants of a question, and the times that the judge itself shows of it.
#[cfg(feature = "instants")]
fn instants_of(
    tally: &mut Tally,
    name: impl Fn() -> String,
    q: &Question,
    at: impl FnOnce(&Known) -> Vec<(u64, u64)>,
) {
    let known = Known::of(q);
    tally.shown(&known);
    let shown = ffi::judge(q).shown();
    for at in shown.into_iter().flatten().chain(at(&known)) {
        instant(tally, &name, &known, &case_at(q, at));
    }
}

#[cfg(feature = "instants")]
fn instants(tally: &mut Tally, count: u64, seed: u64, began: Instant) {
    for group in worked_instants::groups() {
        for (case, wanted) in &group.cases {
            if case.answer() != *wanted {
                tally.differ(|| format!("{}: {case:?}\n  by hand {wanted:?}\n", group.name));
            }
            let known = Known::of(&case.question);
            instant(tally, || group.name.to_string(), &known, case);
        }
    }
    for case in worked::groups().into_iter().flat_map(|group| group.cases) {
        if let Ok(q) = case.free() {
            instants_of(tally, || case.name.clone(), &q, instant::edges);
        }
    }
    let mut random = Random::new(!seed);
    for i in 0..count {
        let q = generate::question(seed, i);
        let name = || format!("question {i} of seed {seed}");
        instants_of(tally, name, &q, |known| {
            instant::instants(known, &mut random).to_vec()
        });
        progress("questions' instants", i + 1, count, tally, began);
    }
}

#[cfg(not(feature = "instants"))]
fn instants(_: &mut Tally, _: u64, _: u64, _: Instant) {
    println!("no instant was compared");
}

/// What is said of a flight; and that the judge's own answers keep what is proved of them.
#[cfg(feature = "flights")]
fn flight(tally: &mut Tally, name: impl Fn() -> String, case: &FlightCase, random: &mut Random) {
    let answer = tally.flight(case, random);
    let wanted = ffi::FlightResult::of(&answer);
    let found = ffi::flight(case);
    let FlightCase { question, flight } = case;
    if found != wanted {
        tally.differ(|| {
            let name = name();
            format!(
                "{name}: {question}\n  flight {flight:?}\n  wanted {wanted:?}\n  found  {found:?}\n"
            )
        });
    }
    let verdict = ffi::judge(question);
    if flight::breaks_theorem(question, verdict.is_clear(), found.answer()) {
        tally.differ(|| {
            let name = name();
            format!("{name}: {question}\n  flight {flight:?}\n  {verdict:?}, but {found:?}\n")
        });
    }
}

#[cfg(feature = "flights")]
fn flights(tally: &mut Tally, count: u64, seed: u64, began: Instant) {
    let mut random = Random::new(!seed);
    for group in worked_flights::groups() {
        for (case, wanted) in &group.cases {
            if case.answer() != *wanted {
                tally.differ(|| format!("{}: {case:?}\n  by hand {wanted:?}\n", group.name));
            }
            flight(tally, || group.name.to_string(), case, &mut random);
        }
    }
    for i in 0..count {
        let case = pilots::flight(seed, i);
        let name = || format!("flight {i} of seed {seed}");
        flight(tally, name, &case, &mut random);
        progress("flights", i + 1, count, tally, began);
    }
}

#[cfg(not(feature = "flights"))]
fn flights(_: &mut Tally, _: u64, _: u64, _: Instant) {
    println!("no flight was compared");
}

#[cfg(feature = "sheets")]
fn sheet(tally: &mut Tally, name: impl Fn() -> String, case: &generate::SheetCase) {
    let expected = tally.sheet(case);
    let mut area = expected.before.clone();
    let found = ffi::answer_sheet(&case.sheet, &mut area);
    let wanted = ffi::SheetResult::of(expected.outcome);
    if found != wanted || area != expected.after {
        tally.differ(|| {
            let place = area.iter().zip(&expected.after).position(|(x, y)| x != y);
            format!(
                "{}: {:?}, area {:?} of {} bytes\n  sheet {}\n  wanted {wanted:?}\n  found  {found:?}\n  \
                 first wrong byte of the area: {place:?}\n  area wanted {}\n  area found  {}\n",
                name(),
                case.form,
                case.area_form,
                area.len(),
                examples::to_hex(&case.sheet),
                examples::to_hex(&expected.after),
                examples::to_hex(&area),
            )
        });
    }
}

#[cfg(feature = "sheets")]
fn sheets(tally: &mut Tally, count: u64, seed: u64, began: Instant) {
    for (name, bytes, _) in examples::sheets() {
        let case = check::plain_sheet_case(bytes);
        sheet(tally, || name.to_string(), &case);
    }
    for i in 0..count {
        let case = generate::sheet(seed, i);
        sheet(tally, || format!("sheet {i} of seed {seed}"), &case);
        progress("sheets", i + 1, count, tally, began);
    }
}

#[cfg(not(feature = "sheets"))]
fn sheets(_: &mut Tally, _: u64, _: u64, _: Instant) {
    println!("no sheet was compared");
}

fn main() -> ExitCode {
    let count = argument(1, 10_000_000);
    let seed = argument(2, 1);
    println!("compare: {count} questions, seed {seed}");
    let began = Instant::now();
    let mut tally = Tally::default();
    check::examples(&mut tally);
    for case in worked::groups().into_iter().flat_map(|group| group.cases) {
        // A code that is refused has no plain question.
        if let Ok(q) = case.free() {
            let wanted = JudgeResult::of(&case.answer());
            question(&mut tally, || case.name.clone(), &q, wanted);
        }
    }
    let mut random = Random::new(seed);
    for i in 0..count {
        let q = generate::question(seed, i);
        let answer = tally.question(&q, &mut random);
        question(
            &mut tally,
            || format!("question {i} of seed {seed}"),
            &q,
            JudgeResult::of(&answer),
        );
        progress("questions", i + 1, count, &tally, began);
    }
    drawings(&mut tally, count, seed, began);
    instants(&mut tally, count, seed, began);
    flights(&mut tally, count.div_ceil(10), seed, began);
    sheets(&mut tally, count.div_ceil(100), seed, began);
    match std::env::var_os("JUDGE_PROGRAM") {
        Some(path) => program::compare(&mut tally, Path::new(&path), seed),
        None => println!("no program was run"),
    }
    ExitCode::from(tally.finish())
}

/// A line for each tenth of the way.
fn progress(what: &str, done: u64, of: u64, tally: &Tally, began: Instant) {
    let tenth = of.div_ceil(10);
    if done.is_multiple_of(tenth) || done == of {
        eprintln!(
            "{done} of {of} {what}, {} differences, {:.0} s",
            tally.differences(),
            began.elapsed().as_secs_f64()
        );
    }
}
