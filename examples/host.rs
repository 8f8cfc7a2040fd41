//! A host in Rust: judges questions of plain numbers and instants, draws two, judges flights, and answers sheets. `compare/hosts` builds and runs it; by hand, from the repository's root:
//!     tools/archive
//!     rustc -L native=target/staticlib -o host examples/host.rs && ./host examples/whole_example.sheet
//! include/lifgorund.h says what each argument and each field is.

const ONE_SIDED: i64 = 1;
const TWO_SIDED: i64 = 2;
const CLIMB: i64 = 1;
const NO_LIMIT: i64 = 65_535;
const CLEAR: u64 = 65;
const CONFLICTS: u64 = 67;
const REFUSED: u64 = 68;
const CONFLICT_TIME: u64 = 2;
const ARC: u64 = 2;
const LAST_SECOND: u64 = 600;
const AMPLE_AREA: usize = 26_624;

#[repr(C)]
struct JudgeResult {
    kind: u64,
    number: u64,
    lower_seconds: u64,
    lower_remainder: u64,
    lower_divisor: u64,
    upper_seconds: u64,
    upper_remainder: u64,
    upper_divisor: u64,
}

#[repr(C)]
struct InstantResult {
    refusal: u64,
    in_reach: u64,
    in_window: u64,
    lower: u64,
    upper: u64,
}

#[repr(C)]
struct PieceResult {
    kind: u64,
    seconds: u64,
    remainder: u64,
    divisor: u64,
    square: f64,
    linear: f64,
    constant: f64,
}

#[repr(C)]
struct DrawingResult {
    refusal: u64,
    pieces: u64,
    first: PieceResult,
    second: PieceResult,
    third: PieceResult,
}

#[repr(C)]
struct PointResult {
    refusal: u64,
    time: f64,
    height: f64,
}

#[repr(C)]
struct UpperPointResult {
    refusal: u64,
    asked: u64,
    time: f64,
    height: f64,
}

// It prints five of them.
#[allow(dead_code)]
#[repr(C)]
struct QuestionResult {
    refusal: u64,
    sides: i64,
    sense: i64,
    target: i64,
    upper_target: i64,
    strength: i64,
    upper_strength: i64,
    delay: i64,
    limit: i64,
}

#[repr(C)]
struct FlightResult {
    refusal: u64,
    obeys: u64,
    inside: u64,
    second: u64,
}

#[repr(C)]
struct SheetResult {
    refusal: u64,
    length: u64,
}

#[link(name = "binding", kind = "static")]
unsafe extern "C" {
    // These take any numbers and touch no memory.
    #[rustfmt::skip]
    safe fn judge_plain(
        r: i64, h: i64, c: i64, v: i64, vi: i64, p: i64, k: i64, e: i64, sides: i64, sense: i64,
        target: i64, upper_target: i64, strength: i64, upper_strength: i64, delay: i64, limit: i64,
    ) -> JudgeResult;

    #[rustfmt::skip]
    safe fn judge_at(
        r: i64, h: i64, c: i64, v: i64, vi: i64, p: i64, k: i64, e: i64, sides: i64, sense: i64,
        target: i64, upper_target: i64, strength: i64, upper_strength: i64, delay: i64, limit: i64, n: u64, m: u64,
    ) -> InstantResult;

    #[rustfmt::skip]
    safe fn screen_drawing(
        r: i64, h: i64, c: i64, v: i64, vi: i64, p: i64, k: i64, e: i64, sides: i64, sense: i64,
        target: i64, upper_target: i64, strength: i64, upper_strength: i64, delay: i64, limit: i64,
    ) -> DrawingResult;

    #[rustfmt::skip]
    safe fn screen_point(
        r: i64, h: i64, c: i64, v: i64, vi: i64, p: i64, k: i64, e: i64, sides: i64, sense: i64,
        target: i64, upper_target: i64, strength: i64, upper_strength: i64, delay: i64, limit: i64, second: u64,
    ) -> PointResult;

    #[rustfmt::skip]
    safe fn upper_drawing(
        r: i64, h: i64, c: i64, v: i64, vi: i64, p: i64, k: i64, e: i64, sides: i64, sense: i64,
        target: i64, upper_target: i64, strength: i64, upper_strength: i64, delay: i64, limit: i64,
    ) -> DrawingResult;

    #[rustfmt::skip]
    safe fn upper_point(
        r: i64, h: i64, c: i64, v: i64, vi: i64, p: i64, k: i64, e: i64, sides: i64, sense: i64,
        target: i64, upper_target: i64, strength: i64, upper_strength: i64, delay: i64, limit: i64, second: u64,
    ) -> UpperPointResult;

    safe fn coded_question(code: u64, v: i64, limit: i64) -> QuestionResult;

    #[rustfmt::skip]
    fn judge_flight(
        r: i64, h: i64, c: i64, v: i64, vi: i64, p: i64, k: i64, e: i64, sense: i64,
        target: i64, strength: i64, delay: i64, limit: i64, flight: *const i64, flight_length: usize,
    ) -> FlightResult;

    fn answer_sheet_bytes(sheet: *const u8, sheet_length: usize, area: *mut u8, area_length: usize) -> SheetResult;
}

/// The answer records, or the refusal's number.
fn answer_sheet<'a>(sheet: &[u8], area: &'a mut [u8]) -> Result<&'a [u8], u64> {
    // SAFETY: two slices are valid for their lengths, and a `&` and a `&mut` do not overlap.
    let result = unsafe { answer_sheet_bytes(sheet.as_ptr(), sheet.len(), area.as_mut_ptr(), area.len()) };
    if result.refusal == 0 { Ok(&area[..result.length as usize]) } else { Err(result.refusal) }
}

fn show(name: &str, answer: JudgeResult) {
    match answer.kind {
        CLEAR => println!("{name}: clear, sides {}", answer.number),
        REFUSED => println!("{name}: refused, {}", answer.number),
        _ => {
            print!("{name}: conflict at {} {}/{} s", answer.lower_seconds, answer.lower_remainder, answer.lower_divisor);
            if answer.kind == CONFLICTS {
                print!(", upper side at {} {}/{} s", answer.upper_seconds, answer.upper_remainder, answer.upper_divisor);
            }
            println!();
        }
    }
}

/// Climb to 1,500 from level flight, 300,000 grains ahead of an intruder at height h that closes at 10,000.
fn climb(h: i64, strength: i64) -> JudgeResult {
    judge_plain(300_000, h, 10_000, 0, 0, 30_000, 6_000, 966, ONE_SIDED, CLIMB, 1_500, 0, strength, 0, 0, NO_LIMIT)
}

/// Such a climb at the instant n/m.
fn at(name: &str, h: i64, n: u64, m: u64) {
    let answer = judge_at(300_000, h, 10_000, 0, 0, 30_000, 6_000, 966, ONE_SIDED, CLIMB, 1_500, 0, 500, 0, 0, NO_LIMIT, n, m);
    if answer.refusal == 0 && answer.in_reach == 1 {
        let window = if answer.in_window == 1 { "in" } else { "outside" };
        let lower = if answer.lower == CONFLICT_TIME { "a conflict time" } else { "no conflict time" };
        println!("{name} at {n}/{m} s: {window} the window, {lower}, upper side {}", answer.upper);
    } else {
        println!("{name} at {n}/{m} s: refusal {}, in reach {}", answer.refusal, answer.in_reach);
    }
}

fn draw(name: &str, drawing: DrawingResult) {
    println!("{name}: refusal {}, pieces {}", drawing.refusal, drawing.pieces);
    for piece in [drawing.first, drawing.second, drawing.third].iter().take(drawing.pieces as usize) {
        let kind = if piece.kind == ARC { "arc" } else { "straight" };
        let time = format!("{} {}/{} s", piece.seconds, piece.remainder, piece.divisor);
        println!("  from {time}, {kind}: {} {} {}", piece.square, piece.linear, piece.constant);
    }
}

/// The question of code 12, climb to 1,500, from level flight: its drawing and two points.
fn draw_code_12() {
    draw("drawing", screen_drawing(0, 0, 0, 0, 0, 30_000, 6_000, 966, ONE_SIDED, CLIMB, 1_500, 0, 483, 0, 5, NO_LIMIT));
    for second in [15, LAST_SECOND + 1] {
        let answer = screen_point(0, 0, 0, 0, 0, 30_000, 6_000, 966, ONE_SIDED, CLIMB, 1_500, 0, 483, 0, 5, NO_LIMIT, second);
        println!("point: refusal {}, time {}, height {}", answer.refusal, answer.time, answer.height);
    }
}

fn point_above(name: &str, answer: UpperPointResult) {
    println!("{name}: refusal {}, asked {}, time {}, height {}", answer.refusal, answer.asked, answer.time, answer.height);
}

/// The upper path: that of a two-sided question goes to 2,500, and code 12, which is one-sided, has none.
fn draw_above() {
    draw("upper drawing", upper_drawing(0, 0, 0, 0, 0, 30_000, 6_000, 300, TWO_SIDED, CLIMB, 0, 2_500, 400, 500, 2, NO_LIMIT));
    draw("upper drawing, one-sided", upper_drawing(0, 0, 0, 0, 0, 30_000, 6_000, 966, ONE_SIDED, CLIMB, 1_500, 0, 483, 0, 5, NO_LIMIT));
    point_above("upper point", upper_point(0, 0, 0, 0, 0, 30_000, 6_000, 300, TWO_SIDED, CLIMB, 0, 2_500, 400, 500, 2, NO_LIMIT, 3));
    point_above("upper point, one-sided", upper_point(0, 0, 0, 0, 0, 30_000, 6_000, 966, ONE_SIDED, CLIMB, 1_500, 0, 483, 0, 5, NO_LIMIT, 3));
}

/// The question that a code asks from level flight.
fn ask(code: u64) {
    let question = coded_question(code, 0, NO_LIMIT);
    println!("code {code}: refusal {}, sense {}, target {}, strength {}, delay {}", question.refusal, question.sense, question.target, question.strength, question.delay);
}

/// M5, climb to 0 at 500: a candidate's flight against it.
fn fly(name: &str, flight: &[i64]) {
    // SAFETY: a slice is valid for its length.
    let answer = unsafe { judge_flight(0, -7_000, 10_000, -1_000, 0, 30_000, 6_000, 966, CLIMB, 0, 500, 0, NO_LIMIT, flight.as_ptr(), flight.len()) };
    println!("{name}: refusal {}, obeys {}, inside {}, second {}", answer.refusal, answer.obeys, answer.inside, answer.second);
}

fn answer(name: &str, sheet: &[u8], room: usize) {
    let mut area = vec![0; room];
    match answer_sheet(sheet, &mut area) {
        Ok(bytes) => {
            print!("{name}: refusal 0, length {},", bytes.len());
            bytes.iter().for_each(|byte| print!(" {byte:02x}"));
            println!();
        }
        Err(refusal) => println!("{name}: refusal {refusal}, length 0,"),
    }
}

fn main() -> std::io::Result<()> {
    let sheet = std::fs::read(std::env::args_os().nth(1).expect("a sheet's name"))?;
    show("M1", climb(32_249, 500));
    show("M2", climb(32_250, 500));
    show("M13", judge_plain(0, 6_000, 0, 0, 0, 30_000, 6_000, 966, TWO_SIDED, CLIMB, 0, 0, 500, 500, 0, NO_LIMIT));
    show("strength 0", climb(32_250, 0));
    at("M1", 32_249, 27, 1);
    at("M2", 32_250, 54, 2);
    at("M2", 32_250, 20, 1);
    at("M2", 32_250, 27, 0);
    draw_code_12();
    draw_above();
    ask(12);
    ask(300);
    fly("M5, 500 for 2 s", &[500, 2, 0, 5]);
    fly("M5, 2,000 for 1 s", &[2_000, 1, 0, 6]);
    fly("three numbers", &[500, 2, 0]);
    fly("no flight", &[]);
    answer("whole example", &sheet, AMPLE_AREA);
    answer("cut short", &sheet[..sheet.len() - 1], AMPLE_AREA);
    answer("area of 12 bytes", &sheet, 12);
    answer("no sheet and no area", &[], 0);
    Ok(())
}
