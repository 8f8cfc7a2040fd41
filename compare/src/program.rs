//! The program `lifgorund` run as a process: a sheet to its standard input, its answer from its standard
//! output, held byte for byte against the independent implementation's.

use crate::check::Tally;
use crate::examples::to_hex;
use crate::generate::{self, Random};
use crate::sheet::program_bytes;
use crate::sheet_cases;
use std::io::{self, ErrorKind, Write};
use std::path::Path;
use std::process::{ChildStdin, Command, Stdio};
use std::thread;
use std::time::Duration;

/// Generated sheets besides the named ones.
const GENERATED: u64 = 400;

/// Around the longest sheet, and far beyond it.
const LENGTHS: [usize; 5] = [8_191, 8_192, 8_193, 8_194, 20_000];

/// Name and bytes of each sheet.
fn sheets(seed: u64) -> Vec<(String, Vec<u8>)> {
    let mut sheets = sheet_cases::cases();
    let mut random = Random::new(seed);
    for length in LENGTHS {
        let whole = generate::sheet_of_length(&mut random, length);
        sheets.push((format!("whole records of {length} bytes"), whole));
        sheets.push((
            format!("{length} bytes of an unknown kind"),
            vec![0; length],
        ));
        let mut cut = generate::sheet_of_length(&mut random, length - 1);
        cut.push(5);
        sheets.push((format!("a kind byte last of {length} bytes"), cut));
    }
    sheets.push(("the largest answer".into(), generate::largest_answer()));
    for i in 0..GENERATED {
        let sheet = generate::sheet(seed, i).sheet;
        sheets.push((format!("sheet {i} of seed {seed}"), sheet));
    }
    sheets
}

/// All at once, or in pieces, so that one read does not get the whole.
fn send(mut input: ChildStdin, sheet: &[u8], in_pieces: bool) -> io::Result<()> {
    let size = if in_pieces { 1_000 } else { sheet.len().max(1) };
    for piece in sheet.chunks(size) {
        match input.write_all(piece) {
            // The program need not read a sheet that is too long to its end.
            Err(error) if error.kind() == ErrorKind::BrokenPipe => return Ok(()),
            sent => sent?,
        }
        if in_pieces {
            thread::sleep(Duration::from_millis(1));
        }
    }
    Ok(())
}

/// What the program writes.
fn answer(program: &Path, sheet: &[u8], in_pieces: bool) -> io::Result<Vec<u8>> {
    let mut child = Command::new(program)
        .stdin(Stdio::piped())
        .stdout(Stdio::piped())
        .spawn()?;
    let input = child.stdin.take().expect("piped");
    let (sent, output) = thread::scope(|scope| {
        let sent = scope.spawn(|| send(input, sheet, in_pieces));
        let output = child.wait_with_output();
        (sent.join().expect("no panic"), output)
    });
    sent?;
    let output = output?;
    if !output.status.success() {
        return Err(io::Error::other(output.status.to_string()));
    }
    Ok(output.stdout)
}

/// Runs the program on each sheet, every tenth in pieces, and notes what differs.
pub fn compare(tally: &mut Tally, program: &Path, seed: u64) {
    let sheets = sheets(seed);
    let (mut refused, mut longest) = (0, 0);
    for (i, (name, sheet)) in sheets.iter().enumerate() {
        let wanted = program_bytes(sheet);
        refused += u64::from(wanted.first() == Some(&69));
        longest = longest.max(wanted.len());
        let found = answer(program, sheet, i % 10 == 0);
        if !matches!(&found, Ok(bytes) if *bytes == wanted) {
            tally.differ(|| {
                let found = found.map_or_else(|error| error.to_string(), |bytes| to_hex(&bytes));
                format!(
                    "{}: {name}\n  sheet {}\n  wanted {}\n  found  {found}\n",
                    program.display(),
                    to_hex(sheet),
                    to_hex(&wanted),
                )
            });
        }
    }
    println!(
        "{}: {} sheets, {refused} of them refused, longest answer {longest} bytes",
        program.display(),
        sheets.len(),
    );
}
