//! instants FOLDER: writes the files of the program crate `instants` to FOLDER/data, their names to
//! FOLDER/args and what the program must say of them to FOLDER/stdout: the worked instants, a file for
//! each group; generated ones, 512 to a file, case i being the generator's question i of seed 2026 with one
//! of its instants; and wrong files, which show that the program sees what is wrong.
//!
//! A file is a line of words and then its cases, 23 numbers of 8 bytes each, big-endian, negative ones in
//! two's complement: the sixteen plain numbers; n and m; the five numbers of the answer.

use compare::ffi::InstantResult;
use compare::generate::{self, Random};
use compare::instant::{self, INSTANT_CLASSES, InstantCase, Known, Seen, TRIED, case_at};
use compare::worked_instants;
use std::fs;
use std::io;
use std::path::Path;
use std::process::ExitCode;

const SEED: u64 = 2026;
const FILES: u64 = 8;
const CASES_IN_FILE: u64 = 512;
const ANSWER: usize = 5;

/// The program's room for a file.
const ROOM: usize = 94_808;

/// An instant, and the numbers that the file gives for its answer.
#[derive(Clone, Copy)]
struct Case {
    asked: InstantCase,
    answer: [u64; ANSWER],
}

impl Case {
    fn right(asked: InstantCase) -> Case {
        let answer = InstantResult::of(&asked.answer()).numbers();
        Case { asked, answer }
    }

    fn bytes(&self) -> Vec<u8> {
        let InstantCase { question, n, m } = self.asked;
        let mut numbers: Vec<u64> = question.numbers().map(|n| n as u64).to_vec();
        numbers.extend([n, m]);
        numbers.extend(self.answer);
        numbers.into_iter().flat_map(u64::to_be_bytes).collect()
    }
}

/// A file's cases.
struct File {
    name: String,
    about: String,
    cases: Vec<Case>,
    /// Bytes after the last case.
    rest: Vec<u8>,
}

impl File {
    fn of(name: impl Into<String>, about: impl Into<String>, cases: Vec<Case>) -> File {
        File {
            name: name.into(),
            about: about.into(),
            cases,
            rest: Vec::new(),
        }
    }

    fn bytes(&self) -> Vec<u8> {
        let mut bytes = format!("{}\n", self.about).into_bytes();
        bytes.extend(self.cases.iter().flat_map(Case::bytes));
        bytes.extend_from_slice(&self.rest);
        assert!(
            bytes.len() <= ROOM,
            "{} has {} bytes",
            self.name,
            bytes.len()
        );
        bytes
    }

    /// What the program must say.
    fn report(&self) -> String {
        let right: Vec<[u64; ANSWER]> = self
            .cases
            .iter()
            .map(|case| Case::right(case.asked).answer)
            .collect();
        let different = self.cases.iter().zip(&right);
        let different = different
            .filter(|(case, right)| case.answer != **right)
            .count();
        let count = |holds: fn(&[u64; ANSWER]) -> bool| right.iter().filter(|x| holds(x)).count();
        format!(
            "{}: {}\n  instants {}, different {different}; judged {}, in the window {}; conflicts on the lower side {}, \
             on the upper {}; out of reach {}; refused {}; bytes left over {}\n",
            self.name,
            self.about,
            right.len(),
            count(|x| x[1] == 1),
            count(|x| x[2] == 1),
            count(|x| x[3] == 2),
            count(|x| x[4] == 2),
            count(|x| x[0] == 0 && x[1] == 0),
            count(|x| x[0] != 0),
            self.rest.len(),
        )
    }
}

fn worked_files() -> Vec<File> {
    let file = |group: worked_instants::Group| {
        let cases = group.cases.into_iter().map(|(asked, wanted)| {
            let case = Case::right(asked);
            let by_hand = InstantResult::of(&wanted).numbers();
            assert_eq!(case.answer, by_hand, "{}: {:?}", group.name, case.asked);
            case
        });
        File::of(group.name, group.about, cases.collect())
    };
    worked_instants::groups().into_iter().map(file).collect()
}

fn generated_files() -> Vec<File> {
    // Eight cases in a row have an instant of every kind.
    let case = |i: u64| {
        let question = generate::question(SEED, i);
        let instants = instant::instants(&Known::of(&question), &mut Random::of_case(!SEED, i));
        Case::right(case_at(&question, instants[i as usize % TRIED]))
    };
    let file = |i| {
        let (first, end) = (i * CASES_IN_FILE, (i + 1) * CASES_IN_FILE);
        File::of(
            format!("generated_{first:04}"),
            format!(
                "an instant of each of the generated questions {first} to {} of seed {SEED}",
                end - 1
            ),
            (first..end).map(case).collect(),
        )
    };
    (0..FILES).map(file).collect()
}

/// Of each kind an instant: one-sided a conflict, none, outside the window; two-sided on one side and on both;
/// out of reach; refused.
fn samples() -> Vec<Case> {
    let wanted = [
        [0, 1, 1, 2, 0],
        [0, 1, 1, 1, 0],
        [0, 1, 0, 1, 0],
        [0, 1, 1, 2, 1],
        [0, 1, 1, 1, 2],
        [0, 1, 1, 2, 2],
        [0, 1, 0, 1, 1],
        [0; ANSWER],
        [14, 0, 0, 0, 0],
    ];
    let groups = worked_instants::groups();
    let sample = |wanted| {
        let cases = groups.iter().flat_map(|group| &group.cases);
        let mut right = cases.map(|(asked, _)| Case::right(*asked));
        let case = right.find(|case| case.answer == wanted);
        case.expect("a worked instant of each kind")
    };
    wanted.map(sample).to_vec()
}

/// Right answers at both ends, and between them each number of nine answers wrong in turn: one more, one less, and the
/// next that the program could take for the same.
fn planted_file() -> File {
    let samples = samples();
    let mut cases = vec![samples[0]];
    for right in &samples {
        for i in 0..ANSWER {
            let n = right.answer[i];
            for wrong in [Some(n + 1), n.checked_sub(1), Some(n + (1 << 32))] {
                let mut case = *right;
                if let Some(wrong) = wrong {
                    case.answer[i] = wrong;
                    cases.push(case);
                }
            }
        }
    }
    cases.push(samples[2]);
    File::of(
        "planted",
        "wrong answers: each number of an answer in turn one more, one less and 2^32 more, of nine instants; the first and the last case are right",
        cases,
    )
}

/// A case and a cut one.
fn cut_file() -> File {
    let samples = samples();
    let bytes = samples[1].bytes();
    File {
        rest: bytes[..bytes.len() - 1].to_vec(),
        ..File::of(
            "cut",
            "a case, and one that lacks its last byte",
            vec![samples[0]],
        )
    }
}

/// Of which there is no file.
const MISSING: &str = "no_such_file";

fn write_crate(folder: &Path) -> io::Result<()> {
    let data = folder.join("data");
    fs::create_dir_all(&data)?;
    remove_earlier(folder)?;
    let mut files = worked_files();
    files.extend(generated_files());
    files.extend([planted_file(), cut_file()]);
    let (mut names, mut reports) = (String::new(), String::new());
    for file in &files {
        fs::write(data.join(&file.name), file.bytes())?;
        names += &format!("{}\n", file.name);
        reports += &file.report();
    }
    names += &format!("{MISSING}\n");
    reports += &format!("{MISSING}: cannot be read\n");
    fs::write(folder.join("args"), names)?;
    fs::write(folder.join("stdout"), reports)
}

/// Removes the files that an earlier run has named.
fn remove_earlier(folder: &Path) -> io::Result<()> {
    let names = fs::read_to_string(folder.join("args")).unwrap_or_default();
    for name in names.lines() {
        let file = folder.join("data").join(name);
        if file.exists() {
            fs::remove_file(file)?;
        }
    }
    Ok(())
}

/// Every class must be among the cases.
fn print_counts() -> Result<(), String> {
    let files: Vec<File> = worked_files()
        .into_iter()
        .chain(generated_files())
        .collect();
    let cases: Vec<&Case> = files.iter().flat_map(|file| &file.cases).collect();
    let mut met = [0; INSTANT_CLASSES.len()];
    for case in &cases {
        let known = Known::of(&case.asked.question);
        let seen = Seen::of(&known, case.asked, case.asked.answer());
        for (n, (_, holds)) in met.iter_mut().zip(INSTANT_CLASSES) {
            *n += u64::from(holds(&seen));
        }
    }
    for (n, (class, _)) in met.iter().zip(INSTANT_CLASSES) {
        eprintln!("{class}: {n}");
    }
    eprintln!("{} instants", cases.len());
    if met.contains(&0) {
        Err("a class does not occur".into())
    } else {
        Ok(())
    }
}

fn main() -> ExitCode {
    let arguments: Vec<String> = std::env::args().skip(1).collect();
    let done = match &arguments[..] {
        [folder] => write_crate(Path::new(folder))
            .map_err(|error| error.to_string())
            .and_then(|()| print_counts()),
        _ => Err("instants FOLDER".into()),
    };
    match done {
        Ok(()) => ExitCode::SUCCESS,
        Err(error) => {
            eprintln!("instants: {error}");
            ExitCode::FAILURE
        }
    }
}
