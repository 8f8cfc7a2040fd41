//! turned [COUNT] [SEED]: how fast the comparison finds a broken judge. Each comparison in the judge's
//! sources is turned in a copy of its own (< and <=, > and >=, == and !=; of a range with its last
//! number, and of a call of `limits::within`, either end becomes strict), the copy is built by rustc
//! as a dynamic library, and held against the independent implementation on COUNT plain questions (1
//! million) and, where these find nothing, the drawings of a tenth of them, a tenth as many flights,
//! a hundredth as many sheets and the instants of a tenth of the questions, up to the first difference. The status is 0 only
//! if the copy with nothing turned agrees and just those that EQUIVALENT names are not found.
//!
//! turned --against LIBRARY COUNT SEED: one library; writes what is found, in a line.

use compare::check::{Tally, argument};
use compare::ffi::{
    DrawingResult, FlightResult, InstantResult, JudgeResult, Loaded, PointResult, SheetResult,
    UpperPointResult,
};
use compare::generate::{self, Random};
use compare::independent::{self, Question};
use compare::instant::{self, Known, case_at};
use compare::pilots;
use compare::rattle::{self, Comparison, Module};
use compare::screen;
use compare::worked_flights;
use std::ffi::{c_int, c_uint};
use std::path::{Path, PathBuf};
use std::process::{Command, ExitCode};
use std::sync::atomic::{AtomicU64, AtomicUsize, Ordering::Relaxed};
use std::time::Instant;

/// A turned comparison that changes no answer, by its function and its line as turned, which stay the
/// same when lines and crates move.
struct Equivalent {
    function: &'static str,
    turned: &'static str,
    reason: &'static str,
}

const EQUIVALENT: &[Equivalent] = &[
    Equivalent {
        function: "no_later",
        turned: "a.n * b.m < b.n * a.m",
        reason: "of two instants that are the same time either is shown alike, in lowest terms; a path that turns at the window's start is tried there once more; two pieces have the same height where they meet",
    },
    Equivalent {
        function: "short_gcd",
        turned: "while y >= 1 {",
        reason: "a division by 1 leaves 0, and 1 as the divisor",
    },
    Equivalent {
        function: "positive_difference",
        turned: "((q - u) * ((0 <= q - u) as i64)) as u64",
        reason: "0 times 1 is 0, as 0 times 0 is",
    },
    Equivalent {
        function: "not_beyond",
        turned: "if self.strength * since.n <= gap * since.m {",
        reason: "at G/a the arc ends where the straight begins: both comparisons are the same there",
    },
    Equivalent {
        function: "not_beyond",
        turned: "if t.n < end {",
        reason: "at d the rule begins at the height where the delay ends",
    },
    Equivalent {
        function: "approaching",
        turned: "Side::Lower => target <= 0,",
        reason: "in a window without an end a path to target 0 is settled at its turning instant, and not searched",
    },
    Equivalent {
        function: "conflict_at_delay",
        turned: "start.n <= d * start.m && in_window(question, end) && not_beyond(lower, end)",
        reason: "a window that starts at d has been tried there",
    },
    Equivalent {
        function: "tops",
        turned: "(g < 0) & ((0 < v * y + g * x) & (0 <= v * v + g * edge))",
        reason: "a top at the part's first instant is tried as that",
    },
    Equivalent {
        function: "reaches",
        turned: "first | (last | (top & (v * (y as i64) + g * (z as i64) < 0)))",
        reason: "a top at the part's last instant is tried as that",
    },
    Equivalent {
        function: "answer_fits",
        turned: "LONGEST_ANSWER < room || answer_length(sheet) <= room",
        reason: "an area of just that length has room for every answer, as the length pass finds too",
    },
];

const PLACES: [&str; 5] = ["question", "drawing", "flight", "sheet", "instant"];

// What the handlers tell: the place, and the number of the case.
static PLACE: AtomicUsize = AtomicUsize::new(0);
static CASE: AtomicU64 = AtomicU64::new(0);
/// The case at the last alarm.
static BEFORE: AtomicU64 = AtomicU64::new(u64::MAX);

const ABORTED: c_int = 6;
const ALARM: c_int = 14;
/// A case that lasts from one alarm to the next does not end: one takes a millisecond at most.
const SECONDS_BETWEEN: c_uint = 1;

unsafe extern "C" {
    fn signal(number: c_int, handler: extern "C" fn(c_int)) -> usize;
    fn alarm(seconds: c_uint) -> c_uint;
}

fn report(what: &str) -> ! {
    let place = PLACES[PLACE.load(Relaxed)];
    println!("{place} {} {what}", CASE.load(Relaxed));
    std::process::exit(0);
}

extern "C" fn interrupted(number: c_int) {
    if number == ABORTED {
        // Overflow, division by 0, an index out of bounds.
        report("stopped by a Rust check");
    }
    let case = CASE.load(Relaxed);
    if BEFORE.swap(case, Relaxed) == case {
        report("does not return");
    }
    // SAFETY: no memory is involved.
    unsafe { alarm(SECONDS_BETWEEN) };
}

fn begin(case: u64) {
    CASE.store(case, Relaxed);
}

fn begin_place(place: usize) {
    PLACE.store(place, Relaxed);
    BEFORE.store(u64::MAX, Relaxed);
}

/// What differs between two answers.
fn difference(wanted: JudgeResult, found: JudgeResult) -> String {
    if wanted.kind != found.kind {
        return format!("kind {} for {}", found.kind, wanted.kind);
    }
    match wanted.kind {
        65 => "other clear sides".into(),
        68 => "another refusal".into(),
        _ => "another time".into(),
    }
}

/// Holds the drawings of both paths and twelve seconds of each against the independent ones.
fn drawn(judge: &Loaded, q: &Question, any: u64) {
    if judge.drawing(q) != DrawingResult::of(&screen::drawing(q)) {
        report("another drawing");
    }
    for second in screen::seconds(q, any) {
        if judge.point(q, second) != PointResult::of(&screen::point(q, second)) {
            report("another point");
        }
    }
    if judge.upper_drawing(q) != DrawingResult::of_upper(&screen::upper_drawing(q)) {
        report("another upper drawing");
    }
    for second in screen::upper_seconds(q, any) {
        if judge.upper_point(q, second) != UpperPointResult::of(&screen::upper_point(q, second)) {
            report("another upper point");
        }
    }
}

/// Holds what is said of flights, generated and worked ones, against the independent answers.
fn flown(judge: &Loaded, count: u64, seed: u64) {
    let worked = worked_flights::groups().into_iter();
    let worked = worked.flat_map(|group| group.cases).map(|(case, _)| case);
    let generated = (0..count).map(|i| pilots::flight(seed, i));
    for (i, case) in generated.chain(worked).enumerate() {
        begin(i as u64);
        let wanted = FlightResult::of(&case.answer());
        let found = judge.flight(&case);
        if found.refusal != wanted.refusal {
            report("another refusal");
        }
        if found.obeys != wanted.obeys {
            report("obeying or not");
        }
        if found != wanted {
            report("another second inside");
        }
    }
}

/// Holds what is said of instants of a question against the independent answers.
fn named(judge: &Loaded, q: &Question, random: &mut Random) {
    let known = Known::of(q);
    for at in instant::instants(&known, random) {
        let case = case_at(q, at);
        let wanted = InstantResult::of(&instant::answer(&known, &case));
        let found = judge.instant(&case);
        if [found.refusal, found.in_reach] != [wanted.refusal, wanted.in_reach] {
            report("refused, in reach or not");
        }
        if found.in_window != wanted.in_window {
            report("in the window or not");
        }
        if found != wanted {
            report("a conflict time or not");
        }
    }
}

/// Holds one library against the independent implementation.
fn against(library: &str, count: u64, seed: u64) -> ExitCode {
    let Some(judge) = Loaded::open(library) else {
        eprintln!("no judge in {library}");
        return ExitCode::from(2);
    };
    // SAFETY: the handler only reads and writes atomics, and prints while nothing else does.
    unsafe {
        signal(ABORTED, interrupted);
        signal(ALARM, interrupted);
        alarm(SECONDS_BETWEEN);
    }
    for i in 0..count {
        begin(i);
        let q = generate::question(seed, i);
        let wanted = JudgeResult::of(&independent::judge(&q));
        let found = judge.judge(&q);
        if found != wanted {
            report(&difference(wanted, found));
        }
    }
    begin_place(1);
    let mut random = Random::new(!seed);
    for i in 0..count.div_ceil(10) {
        begin(i);
        drawn(&judge, &generate::question(seed, i), random.draw());
    }
    begin_place(2);
    flown(&judge, count.div_ceil(10), seed);
    begin_place(3);
    let mut tally = Tally::default();
    for i in 0..count.div_ceil(100) {
        begin(i);
        let case = generate::sheet(seed, i);
        let expected = tally.sheet(&case);
        let mut area = expected.before.clone();
        let found = judge.answer_sheet(&case.sheet, &mut area);
        if found != SheetResult::of(expected.outcome) {
            report("another outcome");
        }
        if area != expected.after {
            report("another byte of the area");
        }
    }
    begin_place(4);
    let mut random = Random::new(!seed);
    for i in 0..count.div_ceil(10) {
        begin(i);
        named(&judge, &generate::question(seed, i), &mut random);
    }
    println!("none");
    ExitCode::SUCCESS
}

/// What a run against one copy finds.
enum Found {
    /// Place, number of the case, what.
    At(String, u64, String),
    Nothing,
}

/// Builds a copy and runs this program against it; the time is the run's.
fn tried(
    folder: &Path,
    modules: &[Module],
    turned: Option<&Comparison>,
    [count, seed]: [u64; 2],
) -> Result<(Found, f64), String> {
    let failed = |error: std::io::Error| error.to_string();
    rattle::write(folder, modules, turned).map_err(failed)?;
    let library = folder.join("libbinding.so");
    let built = Command::new("rustc")
        .args(["--edition", "2021", "--crate-type", "cdylib"])
        .args(["--crate-name", "binding", "--cap-lints", "allow"])
        .args(["-C", "opt-level=1", "-C", "overflow-checks=on"])
        .args(["-C", "panic=abort", "-o"])
        .arg(&library)
        .arg(folder.join("lib.rs"))
        .status()
        .map_err(failed)?;
    if !built.success() {
        return Err("the copy is not built".into());
    }
    let began = Instant::now();
    let run = Command::new(std::env::current_exe().map_err(failed)?)
        .arg("--against")
        .arg(&library)
        .args([count.to_string(), seed.to_string()])
        .output()
        .map_err(failed)?;
    let took = began.elapsed().as_secs_f64();
    let text = String::from_utf8_lossy(&run.stdout);
    let words: Vec<&str> = text.trim().splitn(3, ' ').collect();
    match words[..] {
        ["none"] => Ok((Found::Nothing, took)),
        [place, case, what] => {
            let case = case.parse().map_err(|_| format!("unclear: {text}"))?;
            Ok((Found::At(place.into(), case, what.into()), took))
        }
        _ => Err(format!("the run ended with {}: {text}", run.status)),
    }
}

/// What the whole run counts.
#[derive(Default)]
struct Summary {
    turned: u64,
    /// Found by questions, drawings, flights, sheets and instants, and the latest case of each.
    found: [u64; PLACES.len()],
    latest: [u64; PLACES.len()],
    longest: f64,
    equivalent: Vec<String>,
    faults: Vec<String>,
}

impl Summary {
    /// The row of one comparison: where and when it is found, and by what.
    fn row(&mut self, name: &str, known: Option<usize>, found: Found, took: f64) -> [String; 3] {
        self.turned += 1;
        let time = format!("{took:.2} s");
        match (found, known) {
            (Found::At(place, case, what), known) => {
                let i = PLACES.iter().position(|known| *known == place).unwrap();
                self.found[i] += 1;
                self.latest[i] = self.latest[i].max(case);
                self.longest = self.longest.max(took);
                if known.is_some() {
                    self.faults
                        .push(format!("{name}\n  named equivalent, but found"));
                }
                [format!("{place} {case}"), time, what]
            }
            (Found::Nothing, Some(i)) => {
                let reason = EQUIVALENT[i].reason;
                self.equivalent.push(format!("{name}\n  {reason}"));
                ["not found".into(), time, "equivalent".into()]
            }
            (Found::Nothing, None) => {
                self.faults.push(format!("{name}\n  not found"));
                ["NOT FOUND".into(), time, String::new()]
            }
        }
    }
}

/// A crate that the exported functions' crates use, and none of them calls: the program `words` does, and
/// `compare/words` holds what it writes. The checker tries wrong answers of its (crates/meaning/must-fail).
const UNCALLED: &str = "crates/meaning/";

fn all(root: &Path, numbers: [u64; 2]) -> Result<Summary, String> {
    let modules = rattle::modules(root, "binding_c").map_err(|error| error.to_string())?;
    let folder = root.join("target/compare/turned");
    std::fs::create_dir_all(&folder).map_err(|error| error.to_string())?;
    let (found, took) = tried(&folder, &modules, None, numbers)?;
    if let Found::At(place, case, what) = found {
        return Err(format!("nothing turned: {place} {case}: {what}"));
    }
    println!("nothing turned: 0 differences, {took:.2} s\n");
    println!(
        "{:<35}{:<14}{:>7}  {:<25}turned",
        "place", "found at", "after", "by"
    );
    let mut summary = Summary::default();
    let mut met = vec![false; EQUIVALENT.len()];
    for comparison in rattle::comparisons(&modules) {
        if modules[comparison.module].file.starts_with(UNCALLED) {
            continue;
        }
        let line = comparison.turned_line(&modules);
        let function = comparison.function(&modules);
        let name = format!("{function}: {}", line.trim());
        let known = EQUIVALENT
            .iter()
            .position(|known| known.function == function && known.turned == line.trim());
        if let Some(i) = known {
            met[i] = true;
        }
        let (found, took) = tried(&folder, &modules, Some(&comparison), numbers)?;
        let [at, time, what] = summary.row(&name, known, found, took);
        let file = modules[comparison.module].file.display();
        let place = format!("{file}:{}", comparison.line + 1);
        println!("{place:<35}{at:<14}{time:>7}  {what:<25}{name}");
    }
    for (known, met) in EQUIVALENT.iter().zip(met) {
        if !met {
            let name = format!("{}: {}", known.function, known.turned);
            summary.faults.push(format!(
                "{name}\n  named equivalent, but not in the sources"
            ));
        }
    }
    Ok(summary)
}

fn main() -> ExitCode {
    let words: Vec<String> = std::env::args().skip(1).collect();
    if let [flag, library, count, seed] = &words[..]
        && flag == "--against"
    {
        let (Ok(count), Ok(seed)) = (count.parse(), seed.parse()) else {
            return ExitCode::from(2);
        };
        return against(library, count, seed);
    }
    let count = argument(1, 1_000_000);
    let seed = argument(2, 2_026);
    let root = PathBuf::from(env!("CARGO_MANIFEST_DIR")).join("..");
    let summary = match all(&root, [count, seed]) {
        Ok(summary) => summary,
        Err(error) => {
            println!("{error}");
            return ExitCode::FAILURE;
        }
    };
    let tenth = count.div_ceil(10);
    println!(
        "\n{} turned; at most {count} questions, {tenth} drawings, {tenth} flights, {} sheets and the instants of {tenth} questions of seed {seed} each",
        summary.turned,
        count.div_ceil(100)
    );
    for (place, (found, latest)) in PLACES.iter().zip(summary.found.iter().zip(summary.latest)) {
        println!("{found} found by {place}s, the last at {place} {latest}");
    }
    println!("each within {:.2} s", summary.longest);
    println!("{} equivalent:", summary.equivalent.len());
    for known in &summary.equivalent {
        println!("{known}");
    }
    if !summary.faults.is_empty() {
        println!("\nFAULTS:");
    }
    for fault in &summary.faults {
        println!("{fault}");
    }
    ExitCode::from(u8::from(!summary.faults.is_empty()))
}
