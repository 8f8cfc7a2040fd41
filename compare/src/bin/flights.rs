//! flights FOLDER: writes the files of the program crate `flights` to FOLDER/data, their names to
//! FOLDER/args and what the program must say of them to FOLDER/stdout: the worked flights, a file for
//! each group; generated ones, 256 to a file, case i being flight i of seed 2026; and wrong files, which
//! show that the program sees what is wrong.
//!
//! A file is a line of words and then its cases, numbers of 8 bytes each, big-endian, negative ones in
//! two's complement: the thirteen numbers of encounter, puck, e and advice; how many numbers the flight
//! has, and how many of them follow, the others being 0; the four numbers of the answer; the flight's.

use compare::ffi::FlightResult;
use compare::flight::{FLIGHT_CLASSES, FlightCase, Seen};
use compare::pilots;
use compare::worked_flights;
use std::fs;
use std::io;
use std::path::Path;
use std::process::ExitCode;

const SEED: u64 = 2026;
const FILES: u64 = 8;
const CASES_IN_FILE: u64 = 256;
const ANSWER: usize = 4;

/// The program's room for a file.
const ROOM: usize = 131_072;

/// A flight, and the numbers that the file gives for its answer.
#[derive(Clone)]
struct Case {
    asked: FlightCase,
    answer: [u64; ANSWER],
}

impl Case {
    fn right(asked: FlightCase) -> Case {
        let answer = FlightResult::of(&asked.answer()).numbers();
        Case { asked, answer }
    }

    fn bytes(&self) -> Vec<u8> {
        let FlightCase {
            question: q,
            flight,
        } = &self.asked;
        let zeros = flight.iter().rev().take_while(|n| **n == 0).count();
        let given = &flight[..flight.len() - zeros];
        let asked = [
            q.r, q.h, q.c, q.v, q.vi, q.p, q.k, q.e, q.sense, q.target, q.strength, q.delay,
            q.limit,
        ];
        let mut numbers: Vec<u64> = asked.map(|n| n as u64).to_vec();
        numbers.extend([flight.len() as u64, given.len() as u64]);
        numbers.extend(self.answer);
        numbers.extend(given.iter().map(|n| *n as u64));
        numbers.into_iter().flat_map(u64::to_be_bytes).collect()
    }
}

/// A file's cases.
struct File {
    name: String,
    about: String,
    cases: Vec<Case>,
    /// Bytes after the last case.
    rest: Vec<u8>,
}

impl File {
    fn of(name: impl Into<String>, about: impl Into<String>, cases: Vec<Case>) -> File {
        File {
            name: name.into(),
            about: about.into(),
            cases,
            rest: Vec::new(),
        }
    }

    fn bytes(&self) -> Vec<u8> {
        let mut bytes = format!("{}\n", self.about).into_bytes();
        bytes.extend(self.cases.iter().flat_map(Case::bytes));
        bytes.extend_from_slice(&self.rest);
        assert!(
            bytes.len() <= ROOM,
            "{} has {} bytes",
            self.name,
            bytes.len()
        );
        bytes
    }

    /// What the program must say.
    fn report(&self) -> String {
        let right: Vec<[u64; ANSWER]> = self
            .cases
            .iter()
            .map(|case| Case::right(case.asked.clone()).answer)
            .collect();
        let different = self.cases.iter().zip(&right);
        let different = different
            .filter(|(case, right)| case.answer != **right)
            .count();
        let count = |holds: fn(&[u64; ANSWER]) -> bool| right.iter().filter(|x| holds(x)).count();
        format!(
            "{}: {}\n  flights {}, different {different}; obeying {}, not {}; inside {}, never {}; \
             refused {}; bytes left over {}\n",
            self.name,
            self.about,
            right.len(),
            count(|x| x[0] == 0 && x[1] == 1),
            count(|x| x[0] == 0 && x[1] == 0),
            count(|x| x[0] == 0 && x[2] == 1),
            count(|x| x[0] == 0 && x[2] == 0),
            count(|x| x[0] != 0),
            self.rest.len(),
        )
    }
}

fn worked_files() -> Vec<File> {
    let file = |group: worked_flights::Group| {
        let cases = group.cases.into_iter().map(|(asked, wanted)| {
            let case = Case::right(asked);
            let by_hand = FlightResult::of(&wanted).numbers();
            assert_eq!(case.answer, by_hand, "{}: {:?}", group.name, case.asked);
            case
        });
        File::of(group.name, group.about, cases.collect())
    };
    worked_flights::groups().into_iter().map(file).collect()
}

fn generated_files() -> Vec<File> {
    let file = |i| {
        let (first, end) = (i * CASES_IN_FILE, (i + 1) * CASES_IN_FILE);
        let case = |i| Case::right(pilots::flight(SEED, i));
        File::of(
            format!("generated_{first:04}"),
            format!("generated flights {first} to {} of seed {SEED}", end - 1),
            (first..end).map(case).collect(),
        )
    };
    (0..FILES).map(file).collect()
}

/// One that obeys and is inside, one that does neither, and one that is refused.
fn samples() -> Vec<Case> {
    let groups = worked_flights::groups();
    let cases: Vec<&FlightCase> = groups
        .iter()
        .flat_map(|group| group.cases.iter().map(|(case, _)| case))
        .collect();
    let wanted = [[0, 1, 1], [0, 0, 0], [18, 0, 0]];
    wanted
        .map(|wanted| {
            let mut right = cases.iter().map(|case| Case::right((*case).clone()));
            let case = right.find(|case| case.answer[..3] == wanted);
            case.expect("a worked flight of each kind")
        })
        .to_vec()
}

/// Right answers at both ends, and between them each number of three answers wrong in turn.
fn planted_file() -> File {
    let samples = samples();
    let mut cases = vec![samples[0].clone()];
    for right in &samples {
        for i in 0..ANSWER {
            let mut case = right.clone();
            case.answer[i] += 1;
            cases.push(case);
        }
        // The next number that the program could take for the same.
        let mut case = right.clone();
        case.answer[3] += 1 << 32;
        cases.push(case);
    }
    cases.push(samples[2].clone());
    File::of(
        "planted",
        "wrong answers: each number of an answer in turn, of three flights; the first and the last case are right",
        cases,
    )
}

/// A case and a cut one.
fn cut_file() -> File {
    let samples = samples();
    let bytes = samples[1].bytes();
    File {
        rest: bytes[..bytes.len() - 1].to_vec(),
        ..File::of(
            "cut",
            "a case, and one that lacks its last byte",
            vec![samples[0].clone()],
        )
    }
}

/// A case, and one that says more numbers than a slice may have here, or than it has.
fn miscounted_files() -> [File; 2] {
    let samples = samples();
    let with = |place: usize, n: u64, name: &str, about: &str| {
        let mut bytes = samples[0].bytes();
        bytes[8 * place..8 * place + 8].copy_from_slice(&n.to_be_bytes());
        File {
            rest: bytes,
            ..File::of(name, about, vec![samples[0].clone()])
        }
    };
    [
        with(
            13,
            65_537,
            "too_many",
            "a case, and one that asks for 65,537 numbers, one more than there is room for",
        ),
        with(
            14,
            u64::MAX,
            "miscounted",
            "a case, and one that claims to give 2^64 - 1 numbers",
        ),
    ]
}

/// Of which there is no file.
const MISSING: &str = "no_such_file";

fn write_crate(folder: &Path) -> io::Result<()> {
    let data = folder.join("data");
    fs::create_dir_all(&data)?;
    remove_earlier(folder)?;
    let mut files = worked_files();
    files.extend(generated_files());
    files.extend([planted_file(), cut_file()]);
    files.extend(miscounted_files());
    let (mut names, mut reports) = (String::new(), String::new());
    for file in &files {
        fs::write(data.join(&file.name), file.bytes())?;
        names += &format!("{}\n", file.name);
        reports += &file.report();
    }
    names += &format!("{MISSING}\n");
    reports += &format!("{MISSING}: cannot be read\n");
    fs::write(folder.join("args"), names)?;
    fs::write(folder.join("stdout"), reports)
}

/// Removes the files that an earlier run has named.
fn remove_earlier(folder: &Path) -> io::Result<()> {
    let names = fs::read_to_string(folder.join("args")).unwrap_or_default();
    for name in names.lines() {
        let file = folder.join("data").join(name);
        if file.exists() {
            fs::remove_file(file)?;
        }
    }
    Ok(())
}

/// Every class must be among the cases.
fn print_counts() -> Result<(), String> {
    let files: Vec<File> = worked_files()
        .into_iter()
        .chain(generated_files())
        .collect();
    let cases: Vec<&Case> = files.iter().flat_map(|file| &file.cases).collect();
    let seen: Vec<Seen> = cases.iter().map(|case| Seen::of(&case.asked)).collect();
    let mut met = true;
    for (class, holds) in FLIGHT_CLASSES {
        let count = seen.iter().filter(|seen| holds(seen)).count();
        eprintln!("{class}: {count}");
        met &= count > 0;
    }
    eprintln!("{} flights", cases.len());
    if met {
        Ok(())
    } else {
        Err("a class does not occur".into())
    }
}

fn main() -> ExitCode {
    let arguments: Vec<String> = std::env::args().skip(1).collect();
    let done = match &arguments[..] {
        [folder] => write_crate(Path::new(folder))
            .map_err(|error| error.to_string())
            .and_then(|()| print_counts()),
        _ => Err("flights FOLDER".into()),
    };
    match done {
        Ok(()) => ExitCode::SUCCESS,
        Err(error) => {
            eprintln!("flights: {error}");
            ExitCode::FAILURE
        }
    }
}
