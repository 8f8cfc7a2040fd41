//! The files of the crates `vectors`, `drawings`, `flights`, `instants` and `sheets` as calls of the module, with the answers that the files give, and
//! how many of these the crate's program must find wrong. `src/bin/` has the programs that write the files, and their layouts.

use crate::check::ExpectedSheet;
use crate::examples::hex;
use crate::generate::{coded_record, encounter_record};
use crate::independent::{FIELDS, Question};
use crate::sheet::coded_question;
use crate::stream::{Function, Item};
use std::fs;
use std::io;
use std::path::Path;

/// A file's items, and how many are wrong.
pub struct File {
    pub name: String,
    pub items: Vec<Item>,
    pub wrong: u64,
}

/// The most numbers that a flight of the files has.
const MOST_NUMBERS: u64 = 65_536;

/// All files of the crates in the folder.
pub fn read(crates: &Path) -> io::Result<Vec<File>> {
    let mut files = Vec::new();
    for (name, case) in [
        ("vectors", vector as fn(&mut &[u64]) -> Option<Vec<Item>>),
        ("drawings", drawing),
        ("flights", flight),
        ("instants", instant),
    ] {
        let folder = crates.join(name);
        let said = fs::read_to_string(folder.join("stdout"))?;
        let lines: Vec<&str> = said.lines().collect();
        for line in lines.windows(2) {
            // A file's first line begins with its name, its second one has the counts.
            let Some((file, _)) = line[0]
                .split_once(": ")
                .filter(|_| line[1].starts_with(' '))
            else {
                continue;
            };
            let bytes = fs::read(folder.join("data").join(file))?;
            files.push(of_bytes(format!("{name}/{file}"), &bytes, line[1], case)?);
        }
    }
    files.push(sheets(&crates.join("sheets"))?);
    Ok(files)
}

/// The number after a word, of each of its places.
fn after(line: &str, word: &str) -> Vec<u64> {
    let parts = line.split(word).skip(1);
    let digits = |part: &str| {
        part.split(|c: char| !c.is_ascii_digit())
            .next()
            .map(str::to_string)
    };
    parts
        .filter_map(|part| digits(part)?.parse().ok())
        .collect()
}

fn of_bytes(
    name: String,
    bytes: &[u8],
    said: &str,
    case: fn(&mut &[u64]) -> Option<Vec<Item>>,
) -> io::Result<File> {
    let from = bytes
        .iter()
        .position(|byte| *byte == b'\n')
        .map_or(0, |at| at + 1);
    let eight = |bytes: &[u8]| u64::from_be_bytes(bytes.try_into().expect("eight bytes"));
    let numbers: Vec<u64> = bytes[from..].chunks_exact(8).map(eight).collect();
    let (mut rest, mut cases, mut items) = (&numbers[..], 0, Vec::new());
    while let Some(more) = case(&mut rest) {
        cases += 1;
        items.extend(more);
    }
    let left = bytes.len() - from - 8 * (numbers.len() - rest.len());
    let counted = ["cases ", "drawings ", "flights ", "instants "]
        .map(|word| after(said, word))
        .concat();
    if counted[..] != [cases] || after(said, "left over ")[..] != [left as u64] {
        let text = format!(
            "{name}: {cases} cases, {left} bytes left over, but the program must say {said}"
        );
        return Err(io::Error::other(text));
    }
    let wrong = ["differences ", "different "]
        .map(|word| after(said, word))
        .concat();
    Ok(File {
        name,
        items,
        wrong: wrong.iter().sum(),
    })
}

fn taken<'a>(rest: &mut &'a [u64], count: usize) -> Option<&'a [u64]> {
    let (first, others) = rest.split_at_checked(count)?;
    *rest = others;
    Some(first)
}

/// Sixteen numbers, whether it is by code, the code, the kind and its six numbers.
fn vector(rest: &mut &[u64]) -> Option<Vec<Item>> {
    let numbers = taken(rest, 25)?;
    let (kind, six) = (numbers[18], &numbers[19..]);
    let question: [u64; FIELDS] = numbers[..FIELDS].try_into().ok()?;
    let question = Question::from_numbers(question.map(|n| n as i64));
    let free = match numbers[16] {
        0 => Ok(question),
        _ => coded_question(&question, numbers[17] as u8),
    };
    let answer = match kind {
        65 | 68 => [&[kind, six[0]][..], &[0; 6]].concat(),
        _ => [&[kind, 0][..], six].concat(),
    };
    Some(vec![match free {
        Ok(q) => Item::of_numbers(Function::Plain, &q.numbers().map(|n| n as u64), &answer),
        Err(_) => refused_code(&question, numbers[17] as u8, six[0] as u8),
    }])
}

/// A code that is refused has no plain question, and is asked on a sheet.
fn refused_code(q: &Question, code: u8, refusal: u8) -> Item {
    let mut sheet = Vec::new();
    encounter_record(&mut sheet, q);
    coded_record(&mut sheet, code, q.limit);
    Item::sheet(&sheet, answered(vec![68, refusal]))
}

fn drawing(rest: &mut &[u64]) -> Option<Vec<Item>> {
    let (question, answer) = taken(rest, 55)?.split_at(FIELDS);
    let (drawing, points) = answer.split_at(23);
    let mut items = vec![Item::of_numbers(Function::Drawing, question, drawing)];
    items.extend(points.chunks(4).map(|point| {
        let arguments = [question, &point[..1]].concat();
        Item::of_numbers(Function::Point, &arguments, &point[1..])
    }));
    Some(items)
}

fn instant(rest: &mut &[u64]) -> Option<Vec<Item>> {
    let (arguments, answer) = taken(rest, 23)?.split_at(FIELDS + 2);
    Some(vec![Item::of_numbers(Function::Instant, arguments, answer)])
}

/// Thirteen numbers, how many the flight has and how many of them follow, the others being 0; four of the answer; the flight's.
fn flight(rest: &mut &[u64]) -> Option<Vec<Item>> {
    let mut after = *rest;
    let head = taken(&mut after, 19)?;
    let (count, given) = (head[13], head[14]);
    if count > MOST_NUMBERS || given > count {
        return None;
    }
    let numbers = taken(&mut after, given as usize)?;
    let mut flight: Vec<i64> = numbers.iter().map(|n| *n as i64).collect();
    flight.resize(count as usize, 0);
    *rest = after;
    Some(vec![Item::of_flight(&head[..13], &head[15..], &flight)])
}

/// An area of just the answer's bytes.
fn answered(bytes: Vec<u8>) -> ExpectedSheet {
    ExpectedSheet {
        outcome: Ok(bytes.len()),
        before: vec![0xa5; bytes.len()],
        after: bytes,
    }
}

/// The sheets, each a file, and of each a line with its name and what the program must write in hex: an answer, or kind 69 and the refusal.
fn sheets(folder: &Path) -> io::Result<File> {
    let mut items = Vec::new();
    for line in fs::read_to_string(folder.join("stdout"))?.lines() {
        let (name, shown) = line.split_once(' ').unwrap_or((line, ""));
        let sheet = fs::read(folder.join("data").join(name))?;
        let bytes = hex(shown);
        let expected = match bytes[..] {
            [69, number] => ExpectedSheet {
                outcome: Err(number),
                before: vec![0xa5; 64],
                after: vec![0xa5; 64],
            },
            _ => answered(bytes),
        };
        items.push(Item::sheet(&sheet, expected));
    }
    Ok(File {
        name: "sheets".into(),
        items,
        wrong: 0,
    })
}
