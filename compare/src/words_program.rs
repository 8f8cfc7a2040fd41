//! The program `words` run as a process, for the module's words to be held against: a sheet to its standard input, with an instant to name or without,
//! and what it writes.

use crate::generate::{self, Random};
use crate::independent::{Answer, Question, Time};
use crate::sheet::{LONGEST_SHEET, responses};
use crate::sheet_cases;
use crate::stream::{Function, Item};
use std::ffi::OsStr;
use std::io::{self, ErrorKind, Write};
use std::os::unix::ffi::OsStrExt;
use std::path::Path;
use std::process::{ChildStdin, Command, Stdio};
use std::thread;

/// Instants as they are written, and texts that are none.
#[rustfmt::skip]
const INSTANTS: [&str; 32] = [
    "0", "1", "2.5", "17 1/2", "35/2", "54/2", "600", "0/1", "1/0", "12000.001", "0.001", "201680060", "201680061", "12060000/1", "12060001/7",
    "1/150000", "1/150001", "18446744073709551615", "18446744073709551615/18446744073709551614", "18446744073709551616", "000017.500", "17.", ".5",
    "17 1", "1 2/0", "1  1/2", "-1", "x", "", " ", "17 1/2 s", "\u{bd}",
];

/// What the module has room for.
const LONGEST_ARGUMENT: usize = 4_096;
const READ: usize = LONGEST_SHEET + 1;

/// An argument, if there is one, and a sheet.
type Case = (Option<Vec<u8>>, Vec<u8>);

fn written(t: Time, as_one: bool) -> String {
    let Time {
        seconds,
        remainder,
        divisor,
    } = t;
    let numerator = u64::from(seconds) * u64::from(divisor) + u64::from(remainder);
    match (as_one, remainder) {
        (true, _) => format!("{numerator}/{divisor}"),
        (false, 0) => seconds.to_string(),
        (false, _) => format!("{seconds} {remainder}/{divisor}"),
    }
}

/// The times that a sheet's answers show.
fn shown(sheet: &[u8]) -> Vec<Time> {
    let times = |answer| match answer {
        Answer::Conflict(t) => vec![t],
        Answer::BothConflict(t, u) => vec![t, u],
        _ => Vec::new(),
    };
    let responses = responses(sheet).unwrap_or_default();
    responses
        .into_iter()
        .flat_map(|it| times(it.answer))
        .collect()
}

/// An instant to name of a sheet: a time that it shows, a decimal, or one of the texts.
fn instant(sheet: &[u8], random: &mut Random) -> String {
    let shown = shown(sheet);
    match random.below(4) {
        0 | 1 if !shown.is_empty() => written(random.pick(&shown), random.chance(1, 2)),
        2 => format!("{}.{:03}", random.below(100), random.below(1_000)),
        _ => random.pick(&INSTANTS).into(),
    }
}

/// Two thousand questions by a code, each with three warnings.
fn longest(code: u8) -> Vec<u8> {
    let first = Question {
        r: 9_999_999,
        h: -479_999,
        c: 149_999,
        v: -9_999,
        vi: -9_999,
        p: 60_000,
        k: 11_999,
        e: 1_999,
        ..Question::default()
    };
    let refused = Question {
        r: 12_000_001,
        p: 60_001,
        e: 2_001,
        ..first
    };
    let mut sheet = Vec::new();
    for q in [first, refused] {
        generate::encounter_record(&mut sheet, &q);
        generate::puck_record(&mut sheet, &q);
        generate::delay_acceleration_record(&mut sheet, &q);
    }
    while sheet.len() + 4 <= LONGEST_SHEET {
        generate::coded_record(&mut sheet, code, 65_535);
    }
    sheet
}

/// The named sheets, each instant of the list, arguments as long as there is room for, and generated sheets; each sheet with an instant and without.
pub fn cases(seed: u64, count: u64) -> Vec<Case> {
    let mut random = Random::new(seed);
    let named = sheet_cases::cases().into_iter().map(|(_, sheet)| sheet);
    let mut sheets: Vec<Vec<u8>> = named.collect();
    sheets.extend([longest(10), longest(16), generate::largest_answer()]);
    sheets.extend((0..count).map(|i| generate::sheet(seed, i).sheet));
    let mut cases = Vec::new();
    let named = |at: &str| Some(format!("--at={at}").into_bytes());
    for at in INSTANTS {
        cases.push((named(at), sheet_cases::cases().swap_remove(0).1));
    }
    for length in [LONGEST_ARGUMENT - 1, LONGEST_ARGUMENT] {
        let at = format!("{:0>1$}", 17, length - "--at=".len());
        cases.push((named(&at), longest(16)));
    }
    for sheet in sheets {
        cases.push((named(&instant(&sheet, &mut random)), sheet.clone()));
        cases.push((None, sheet));
    }
    cases
}

fn send(mut input: ChildStdin, sheet: &[u8]) -> io::Result<()> {
    match input.write_all(sheet) {
        // Of a sheet that is too long, or with an instant that is none, the end is not read.
        Err(error) if error.kind() == ErrorKind::BrokenPipe => Ok(()),
        sent => sent,
    }
}

/// What the program writes of a case, and its status.
fn run(program: &Path, (argument, sheet): &Case) -> io::Result<Item> {
    let mut child = Command::new(program)
        .args(argument.iter().map(|bytes| OsStr::from_bytes(bytes)))
        .arg("-")
        .stdin(Stdio::piped())
        .stdout(Stdio::piped())
        .stderr(Stdio::piped())
        .spawn()?;
    let input = child.stdin.take().expect("piped");
    let (sent, output) = thread::scope(|scope| {
        let sent = scope.spawn(|| send(input, sheet));
        let output = child.wait_with_output();
        (sent.join().expect("no panic"), output)
    });
    sent?;
    let output = output?;
    let status = output
        .status
        .code()
        .ok_or_else(|| io::Error::other(output.status.to_string()))?;
    let mut given = vec![sheet[..sheet.len().min(READ)].to_vec()];
    given.extend(argument.clone());
    Ok(Item {
        given,
        written: vec![output.stdout, output.stderr],
        ..Item::of_numbers(Function::Words, &[], &[status as u64])
    })
}

/// Runs the program on each case, four at once.
pub fn items(program: &Path, cases: &[Case]) -> io::Result<Vec<Item>> {
    let parts = cases.chunks(cases.len().div_ceil(4).max(1));
    thread::scope(|scope| {
        let all: Vec<_> = parts
            .map(|part| {
                scope.spawn(|| {
                    part.iter()
                        .map(|case| run(program, case))
                        .collect::<io::Result<Vec<_>>>()
                })
            })
            .collect();
        let made = all.into_iter().map(|part| part.join().expect("no panic"));
        Ok(made.collect::<io::Result<Vec<_>>>()?.concat())
    })
}
