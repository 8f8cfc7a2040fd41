//! bench: a table of verdicts and sheet bytes per second, the proved judge and the independent
//! implementation behind the same interface, on the same inputs.
//!
//! bench classes: a line for each class whose instructions are counted: its group, its name, and the
//! verdicts (or sheet bytes) of one pass.
//!
//! bench only judge|independent CLASS: one implementation, once over the inputs of one class.
//!
//! Sheets want the feature `sheets`.

use compare::examples::{BASE, TWO};
use compare::ffi::{self, independent_entry};
use compare::generate::Random;
use compare::independent::{Accepted, Moment, NO_LIMIT, Question};
use std::hint::black_box;
use std::process::ExitCode;
use std::time::{Duration, Instant};

/// A class of questions, made so that each gets a verdict.
struct Class {
    name: &'static str,
    inputs: usize,
    make: fn(&mut Random) -> Question,
    /// What a drawn question must meet besides being accepted.
    wanted: fn(&Accepted) -> bool,
}

const fn class(
    name: &'static str,
    make: fn(&mut Random) -> Question,
    wanted: fn(&Accepted) -> bool,
) -> Class {
    Class {
        name,
        inputs: 4_096,
        make,
        wanted,
    }
}

/// Few, as each call is counted by itself, for the greatest count.
const fn search(
    name: &'static str,
    make: fn(&mut Random) -> Question,
    wanted: fn(&Accepted) -> bool,
) -> Class {
    Class {
        name,
        inputs: 256,
        make,
        wanted,
    }
}

/// How many of the first are averaged.
const AVERAGED: usize = 3;

/// The first four have no search.
const CLASSES: [Class; 6] = [
    class("one-sided", one_sided, |x| x.window().is_some()),
    class("two-sided", two_sided, |x| x.window().is_some()),
    class("delayed", delayed, |x| x.window().is_some()),
    class("two-delayed", two_delayed, |x| x.window().is_some()),
    class("no-end-lower", no_end_lower, |x| lower_second(x).is_some()),
    class("no-end-upper", no_end_upper, |x| upper_second(x).is_some()),
];

/// Searches without an end by their first conflicting second.
const SEARCHES: [Class; 6] = [
    search("lower-100", no_end_lower, |x| near(lower_second(x), 100)),
    search("lower-10000", no_end_lower, |x| {
        near(lower_second(x), 10_000)
    }),
    search("lower-1000000", far_lower, |x| {
        near(lower_second(x), 1_000_000)
    }),
    search("upper-100", no_end_upper, |x| near(upper_second(x), 100)),
    search("upper-10000", no_end_upper, |x| {
        near(upper_second(x), 10_000)
    }),
    search("upper-1000000", far_upper, |x| {
        near(upper_second(x), 1_000_000)
    }),
];

/// The second that a search finds, if there is one.
fn lower_second(x: &Accepted) -> Option<i128> {
    match x.lower_shown() {
        Some((t, Moment::WholeSecond)) => Some(t.floor()),
        _ => None,
    }
}

fn upper_second(x: &Accepted) -> Option<i128> {
    match x.upper.and_then(|upper| x.upper_shown(upper)) {
        Some((t, Moment::WholeSecond)) => Some(t.floor()),
        _ => None,
    }
}

/// Within a factor of √2 or so.
fn near(second: Option<i128>, wanted: i128) -> bool {
    second.is_some_and(|second| 7 * wanted <= 10 * second && 10 * second <= 14 * wanted)
}

fn one_sided(random: &mut Random) -> Question {
    Question {
        r: random.between(-30_000, 600_000),
        h: random.between(-30_000, 30_000),
        c: random.between(5_000, 60_000),
        v: random.between(-3_000, 3_000),
        vi: random.between(-3_000, 3_000),
        sense: random.between(0, 1),
        target: random.between(-2_500, 2_500),
        strength: random.pick(&[483, 500, 644]),
        limit: random.pick(&[NO_LIMIT, NO_LIMIT, 30, 60]),
        ..BASE
    }
}

fn two_sided(random: &mut Random) -> Question {
    let q = one_sided(random);
    let w = if q.sense == 1 { 1 } else { -1 };
    Question {
        sides: 2,
        upper_target: q.target + w * random.between(0, 2_000),
        upper_strength: q.strength + random.between(0, 500),
        ..q
    }
}

fn delayed(random: &mut Random) -> Question {
    Question {
        delay: random.between(1, 15),
        ..one_sided(random)
    }
}

fn two_delayed(random: &mut Random) -> Question {
    Question {
        delay: random.between(1, 15),
        ..two_sided(random)
    }
}

fn no_end_lower(random: &mut Random) -> Question {
    let vi = random.between(-3_000, 3_000);
    let w = random.pick(&[1, -1]);
    Question {
        r: random.between(-30_000, 30_000),
        h: -w * random.between(30_000, 480_000),
        v: vi + random.between(-3_000, 3_000),
        vi,
        sense: (w + 1) / 2,
        target: vi - w * random.between(1, 500),
        delay: random.pick(&[0, 3, 5]),
        ..BASE
    }
}

fn no_end_upper(random: &mut Random) -> Question {
    let vi = random.between(-3_000, 3_000);
    let w = random.pick(&[1, -1]);
    Question {
        r: random.between(-30_000, 30_000),
        h: w * random.between(30_000, 480_000),
        v: vi + random.between(-3_000, 3_000),
        vi,
        sense: (w + 1) / 2,
        target: vi - w * 500,
        upper_target: vi + w * random.between(1, 500),
        ..TWO
    }
}

/// Away from the intruder for a minute, then towards it by a grain a second.
fn far_lower(random: &mut Random) -> Question {
    let w = random.pick(&[1, -1]);
    Question {
        h: -w * random.between(30_000, 480_000),
        v: w * random.between(0, 10_000),
        vi: -w * 9_999,
        e: 0,
        sense: (w + 1) / 2,
        target: -w * 10_000,
        delay: 60,
        ..BASE
    }
}

/// Away from the intruder, turned by a grain/s², then towards it by a grain a second.
fn far_upper(random: &mut Random) -> Question {
    let w = random.pick(&[1, -1]);
    Question {
        h: w * random.between(30_000, 480_000),
        v: -w * random.between(0, 1_500),
        sense: (w + 1) / 2,
        target: -w,
        upper_target: w,
        strength: 1,
        upper_strength: 1,
        ..TWO
    }
}

fn questions(class: &Class) -> Vec<Question> {
    let mut random = Random::new(2_026);
    let mut found = Vec::with_capacity(class.inputs);
    while found.len() < class.inputs {
        let q = (class.make)(&mut random);
        if Accepted::of(&q).is_ok_and(|x| (class.wanted)(&x)) {
            found.push(q);
        }
    }
    found
}

/// One implementation.
#[derive(Clone, Copy)]
enum Which {
    Judge,
    Independent,
}

#[inline(never)]
fn pass_questions(which: Which, questions: &[Question]) {
    match which {
        Which::Judge => {
            for q in questions {
                black_box(ffi::judge(black_box(q)));
            }
        }
        Which::Independent => {
            for q in questions {
                black_box(independent_entry::judge(black_box(q)));
            }
        }
    }
}

/// The shortest time of one pass of each, of fifteen rounds in turn, each of some 30 ms.
fn shortest(mut pass: impl FnMut(Which)) -> [Duration; 2] {
    let both = [Which::Judge, Which::Independent];
    let time = |passes: u32, which: Which, pass: &mut dyn FnMut(Which)| {
        let began = Instant::now();
        for _ in 0..passes {
            pass(which);
        }
        began.elapsed() / passes
    };
    let passes = both.map(|which| {
        pass(which);
        let once = time(1, which, &mut pass).as_nanos().max(1);
        (30_000_000 / once).clamp(1, 1_000_000) as u32
    });
    let mut best = [Duration::MAX; 2];
    for _ in 0..15 {
        for (i, which) in both.into_iter().enumerate() {
            best[i] = best[i].min(time(passes[i], which, &mut pass));
        }
    }
    best
}

fn line(name: &str, unit: &str, amount: usize, [judge, independent]: [Duration; 2]) {
    let rate = |time: Duration| amount as f64 / time.as_secs_f64();
    println!(
        "{name:<16}{unit:<12}{:>14.0}{:>14.0}{:>8.2}",
        rate(judge),
        rate(independent),
        rate(judge) / rate(independent)
    );
}

fn table() {
    println!(
        "{:<16}{:<12}{:>14}{:>14}{:>8}",
        "class", "per second", "judge", "independent", "ratio"
    );
    let (mut amount, mut spent) = (0, [Duration::ZERO; 2]);
    for (i, class) in CLASSES.iter().enumerate() {
        let questions = questions(class);
        let times = shortest(|which| pass_questions(which, &questions));
        line(class.name, "verdicts", class.inputs, times);
        if i < AVERAGED {
            amount += class.inputs;
            spent = [spent[0] + times[0], spent[1] + times[1]];
        }
        if i + 1 == AVERAGED {
            line("these three", "verdicts", amount, spent);
        }
    }
    #[cfg(feature = "sheets")]
    sheets::table();
}

/// Sheets by their length.
#[cfg(feature = "sheets")]
mod sheets {
    use super::*;
    use compare::generate;

    pub const LENGTHS: [usize; 4] = [1_024, 2_048, 4_096, 8_192];
    /// Of the sheets of one length together.
    pub const BYTES: usize = 131_072;
    const AREA: usize = 65_536;

    /// Encounters, coded and free questions of the first three classes. Each 1,024 bytes are filled up
    /// with coded ones, so that every length has the same mixture.
    fn inputs(length: usize) -> Vec<Vec<u8>> {
        let mut random = Random::new(2_026);
        let mut found = Vec::new();
        while found.len() * length < BYTES {
            let mut sheet = Vec::new();
            while sheet.len() < length {
                let make = random.pick(&[one_sided, two_sided, delayed]);
                let q = make(&mut random);
                if sheet.len() % 1_024 + 48 <= 1_024 {
                    generate::encounter_record(&mut sheet, &q);
                    generate::free_record(&mut sheet, &q);
                }
                generate::coded_record(&mut sheet, random.between(1, 16) as u8, q.limit);
            }
            assert!(sheet.len() == length);
            found.push(sheet);
        }
        found
    }

    #[inline(never)]
    fn pass(which: Which, sheets: &[Vec<u8>], area: &mut [u8]) {
        for sheet in sheets {
            let result = match which {
                Which::Judge => ffi::answer_sheet(black_box(sheet), area),
                Which::Independent => independent_entry::answer_sheet(black_box(sheet), area),
            };
            assert!(result.refusal == 0);
            black_box(&mut *area);
        }
    }

    pub fn table() {
        let mut area = vec![0; AREA];
        for length in LENGTHS {
            let sheets = inputs(length);
            let times = shortest(|which| pass(which, &sheets, &mut area));
            line(&format!("sheets-{length}"), "sheet bytes", BYTES, times);
        }
    }

    pub fn only(which: Which, length: usize) {
        pass(which, &inputs(length), &mut vec![0; AREA]);
    }
}

fn classes() {
    for (i, class) in CLASSES.iter().enumerate() {
        let group = if i < AVERAGED { "plain" } else { "further" };
        println!("{group} {} {}", class.name, class.inputs);
    }
    #[cfg(feature = "sheets")]
    for length in sheets::LENGTHS {
        println!("sheets sheets-{length} {}", sheets::BYTES);
    }
    for class in &SEARCHES {
        println!("search {} {}", class.name, class.inputs);
    }
}

fn only(which: &str, name: &str) -> Option<()> {
    let which = match which {
        "judge" => Which::Judge,
        "independent" => Which::Independent,
        _ => return None,
    };
    #[cfg(feature = "sheets")]
    if let Some(length) = name.strip_prefix("sheets-") {
        sheets::only(which, length.parse().ok()?);
        return Some(());
    }
    let class = CLASSES
        .iter()
        .chain(&SEARCHES)
        .find(|known| known.name == name)?;
    pass_questions(which, &questions(class));
    Some(())
}

fn main() -> ExitCode {
    let words: Vec<String> = std::env::args().skip(1).collect();
    let words: Vec<&str> = words.iter().map(String::as_str).collect();
    let done = match words[..] {
        [] => {
            table();
            Some(())
        }
        ["classes"] => {
            classes();
            Some(())
        }
        ["only", which, class] => only(which, class),
        _ => None,
    };
    if done.is_none() {
        eprintln!("bench | bench classes | bench only judge|independent CLASS");
        return ExitCode::from(2);
    }
    ExitCode::SUCCESS
}
