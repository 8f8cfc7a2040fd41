//! words [COUNT] [SEED]: holds the program `words` that WORDS_PROGRAM names against the independent text, byte for byte, on the
//! sheets of the crate `sheets`, the examples, the longest ones and COUNT generated ones (20,000), a part of them with a named
//! instant. The status is 0 only if no byte differs and every phrase that a run must meet was said.
//! words --print [--at=INSTANT] FILE: writes the independent text of a sheet.

use compare::check::argument;
use compare::examples::to_hex;
use compare::generate::{self, Random};
use compare::instant::{self, Known};
use compare::named;
use compare::said::Counts;
use compare::sheet::{LONGEST_SHEET, steps};
use compare::sheet_cases;
use compare::words::{Named, text};
use compare::worked_words;
use std::fs::{self, File};
use std::io;
use std::path::{Path, PathBuf};
use std::process::{Command, ExitCode, Stdio};

/// Sheets that one process answers.
const AT_ONCE: usize = 40;

/// A sheet by name, and the instant that its answers are to speak of.
struct Case {
    name: String,
    sheet: Vec<u8>,
    named: Named,
}

/// An instant of one of the sheet's questions; of a sheet that asks none, M2's time.
fn an_instant(sheet: &[u8], random: &mut Random) -> (u64, u64) {
    let steps = steps(sheet).unwrap_or_default();
    let asked: Vec<_> = steps.iter().filter_map(|step| step.asked?.ok()).collect();
    if asked.is_empty() {
        return (27, 1);
    }
    let known = Known::of(&random.pick(&asked));
    let instants = instant::instants(&known, random);
    random.pick(&instants)
}

/// The sheets of the crate `sheets`, those worked by hand, the longest and longer ones, and the one with the largest answer.
fn fixed(seed: u64) -> Vec<(String, Vec<u8>)> {
    let mut random = Random::new(seed);
    let mut sheets = sheet_cases::cases();
    let worked = worked_words::questions().into_iter();
    let worked = worked.map(|worked| worked.sheet());
    let told = worked_words::texts().into_iter().map(|told| told.sheet);
    for (i, sheet) in worked.chain(told).enumerate() {
        sheets.push((format!("worked_{i}"), sheet));
    }
    for length in [LONGEST_SHEET, LONGEST_SHEET + 1, 2 * LONGEST_SHEET] {
        let sheet = generate::sheet_of_length(&mut random, length);
        sheets.push((format!("whole_records_{length}"), sheet));
    }
    sheets.push(("largest_answer".into(), generate::largest_answer()));
    sheets
}

/// The program, its folder of sheets, and what is known of its texts.
struct Run {
    program: PathBuf,
    folder: PathBuf,
    counts: Counts,
    sheets: usize,
    bytes: usize,
    differences: u64,
}

impl Run {
    /// Some sheets, given to one process: the first on standard input, then all by their names, the second half with an instant each.
    fn batch(&mut self, sheets: Vec<(String, Vec<u8>)>, random: &mut Random) -> io::Result<()> {
        let half = sheets.len() / 2;
        let case = |(i, (name, sheet)): (usize, (String, Vec<u8>))| {
            let named = (i >= half).then(|| an_instant(&sheet, random));
            Case { name, sheet, named }
        };
        let cases: Vec<Case> = sheets.into_iter().enumerate().map(case).collect();
        let mut command = Command::new(&self.program);
        command.current_dir(&self.folder).arg("-");
        let mut wanted = vec![text(&cases[0].sheet, None)];
        for case in &cases {
            fs::write(self.folder.join(&case.name), &case.sheet)?;
            if let Some(at) = case.named {
                command.arg(format!("--at={}", named::written(at, random)));
            }
            command.arg(&case.name);
            let text = text(&case.sheet, case.named);
            self.counts.add(&text);
            wanted.push(format!("{}\n{text}", case.name));
        }
        command.stdin(Stdio::from(File::open(self.folder.join(&cases[0].name))?));
        let found = command.output()?;
        self.sheets += cases.len();
        self.bytes += wanted.iter().map(String::len).sum::<usize>();
        let silent = found.stderr.is_empty() && found.status.success();
        if !silent || found.stdout != wanted.concat().as_bytes() {
            self.differ(&cases, &wanted, &found.stdout);
        }
        for case in &cases {
            fs::remove_file(self.folder.join(&case.name))?;
        }
        Ok(())
    }

    /// Says where the first byte differs.
    fn differ(&mut self, cases: &[Case], wanted: &[String], found: &[u8]) {
        self.differences += 1;
        if self.differences > 1 {
            return;
        }
        let whole = wanted.concat();
        let same = whole.bytes().zip(found).take_while(|(x, y)| x == *y);
        let at = same.count();
        let mut end = 0;
        let text = wanted.iter().position(|text| {
            end += text.len();
            at < end
        });
        let case = &cases[text.map_or(cases.len() - 1, |i| i.saturating_sub(1))];
        let line = |bytes: &[u8]| {
            let start = bytes[..at].iter().rposition(|byte| *byte == b'\n');
            let start = start.map_or(0, |i| i + 1);
            let line = bytes[start..].split(|byte| *byte == b'\n').next();
            String::from_utf8_lossy(line.unwrap_or_default()).into_owned()
        };
        println!(
            "first difference: {}, at {:?}\n  sheet {}\n  wanted {}\n  found  {}",
            case.name,
            case.named,
            to_hex(&case.sheet),
            line(whole.as_bytes()),
            line(found)
        );
    }

    /// Prints the counts; whether there is no difference and no phrase is missing.
    fn finish(&self) -> bool {
        let mut missing = Vec::new();
        for (n, phrase) in self.counts.required() {
            println!("  {n:>12}  {phrase}");
            if n == 0 {
                missing.push(phrase);
            }
        }
        for phrase in &missing {
            println!("not met: {phrase}");
        }
        let Run {
            sheets,
            bytes,
            differences,
            ..
        } = self;
        println!("\n{sheets} sheets, {bytes} bytes, {differences} differences");
        *differences == 0 && missing.is_empty()
    }
}

fn run(program: &Path, count: u64, seed: u64) -> io::Result<bool> {
    let folder = std::env::temp_dir().join(format!("lifgorund_words_{}", std::process::id()));
    fs::create_dir_all(&folder)?;
    let mut run = Run {
        program: fs::canonicalize(program)?,
        folder,
        counts: Counts::default(),
        sheets: 0,
        bytes: 0,
        differences: 0,
    };
    let mut random = Random::new(!seed);
    let generated = (0..count).map(|i| (format!("sheet_{i}"), generate::sheet(seed, i).sheet));
    let mut sheets = fixed(seed).into_iter().chain(generated).peekable();
    while sheets.peek().is_some() {
        let some = sheets.by_ref().take(AT_ONCE).collect();
        run.batch(some, &mut random)?;
    }
    fs::remove_dir_all(&run.folder)?;
    Ok(run.finish())
}

fn print(arguments: &[String]) -> io::Result<()> {
    let (mut at, mut file) = (None, None);
    for argument in arguments {
        match argument.strip_prefix("--at=") {
            Some(text) => at = Some(named::read(text).expect("an instant")),
            None => file = Some(argument),
        }
    }
    let sheet = fs::read(file.expect("words --print [--at=INSTANT] FILE"))?;
    print!("{}", text(&sheet, at));
    Ok(())
}

fn main() -> io::Result<ExitCode> {
    let arguments: Vec<String> = std::env::args().skip(1).collect();
    if let Some(("--print", rest)) = arguments.split_first().map(|(x, rest)| (x.as_str(), rest)) {
        return print(rest).map(|()| ExitCode::SUCCESS);
    }
    let program = std::env::var_os("WORDS_PROGRAM").expect("WORDS_PROGRAM names the program");
    let agrees = run(Path::new(&program), argument(1, 20_000), argument(2, 1))?;
    Ok(ExitCode::from(u8::from(!agrees)))
}
