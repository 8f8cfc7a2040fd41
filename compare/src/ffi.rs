//! The judge's exported functions: of the proved static library `binding` with the feature `judge`,
//! and of any dynamic library with the same interface.
//!
//! Nothing checks these declarations against the library. Every function takes any values.

use crate::catalogue::Coded;
use crate::flight::{FlightAnswer, FlightCase, Flown};
use crate::independent::{Answer, Question, Time};
use crate::instant::{InstantAnswer, InstantCase, Judged, Standing};
use crate::screen::{Drawing, Piece, Point, UpperDrawing, UpperPoint};
use std::ffi::{CString, c_char, c_int, c_void};

/// The answer to plain numbers. Numbers that the kind does not use are 0.
#[repr(C)]
#[derive(Clone, Copy, Debug, PartialEq, Eq)]
pub struct JudgeResult {
    /// 65 to 68.
    pub kind: u64,
    /// Kind 65: the clear sides; kind 68: the refusal.
    pub number: u64,
    pub lower_seconds: u64,
    pub lower_remainder: u64,
    pub lower_divisor: u64,
    pub upper_seconds: u64,
    pub upper_remainder: u64,
    pub upper_divisor: u64,
}

/// The outcome of a sheet: refusal 0 and the answer's length, or the refusal and length 0.
#[repr(C)]
#[derive(Clone, Copy, Debug, PartialEq, Eq)]
pub struct SheetResult {
    pub refusal: u64,
    pub length: u64,
}

/// A piece of a drawing; all zeros where there is none.
#[repr(C)]
#[derive(Clone, Copy, Debug, Default)]
pub struct PieceResult {
    /// 1 a straight, 2 an arc.
    pub kind: u64,
    pub seconds: u64,
    pub remainder: u64,
    pub divisor: u64,
    pub square: f64,
    pub linear: f64,
    pub constant: f64,
}

/// A drawing: refusal 0 and its pieces, or the refusal and none.
#[repr(C)]
#[derive(Clone, Copy, Debug)]
pub struct DrawingResult {
    pub refusal: u64,
    pub pieces: u64,
    pub first: PieceResult,
    pub second: PieceResult,
    pub third: PieceResult,
}

/// A screen point: refusal 0, its time and height, or the refusal and zeros.
#[repr(C)]
#[derive(Clone, Copy, Debug)]
pub struct PointResult {
    pub refusal: u64,
    pub time: f64,
    pub height: f64,
}

/// A point of the upper path: refusal 0, 1 for asked, its time and height; one-sided zeros; or the
/// refusal and zeros.
#[repr(C)]
#[derive(Clone, Copy, Debug)]
pub struct UpperPointResult {
    pub refusal: u64,
    pub asked: u64,
    pub time: f64,
    pub height: f64,
}

/// The question that a code asks: refusal 0 and its fields, or the refusal and zeros.
#[repr(C)]
#[derive(Clone, Copy, Debug, Default, PartialEq, Eq)]
pub struct QuestionResult {
    pub refusal: u64,
    pub sides: i64,
    pub sense: i64,
    pub target: i64,
    pub upper_target: i64,
    pub strength: i64,
    pub upper_strength: i64,
    pub delay: i64,
    pub limit: i64,
}

/// What is said of a flight: refusal 0, whether it obeys, whether it is inside the puck (1 or 0), and
/// the second; or the refusal and zeros. The second is 0 where it is never inside.
#[repr(C)]
#[derive(Clone, Copy, Debug, PartialEq, Eq)]
pub struct FlightResult {
    pub refusal: u64,
    pub obeys: u64,
    pub inside: u64,
    pub second: u64,
}

/// What is said of an instant: refusal 0, whether it is in reach, in the window (1 or 0), and of each side 2 for a
/// conflict time, 1 for none, 0 where the side is not asked; or the refusal and zeros. Out of reach all are 0.
#[repr(C)]
#[derive(Clone, Copy, Debug, PartialEq, Eq)]
pub struct InstantResult {
    pub refusal: u64,
    pub in_reach: u64,
    pub in_window: u64,
    pub lower: u64,
    pub upper: u64,
}

/// A function of the sixteen plain numbers.
type OfNumbers<R> = unsafe extern "C" fn(
    i64,
    i64,
    i64,
    i64,
    i64,
    i64,
    i64,
    i64,
    i64,
    i64,
    i64,
    i64,
    i64,
    i64,
    i64,
    i64,
) -> R;

/// `screen_point` and `upper_point`: the sixteen plain numbers and a second.
type OfSecond<R> = unsafe extern "C" fn(
    i64,
    i64,
    i64,
    i64,
    i64,
    i64,
    i64,
    i64,
    i64,
    i64,
    i64,
    i64,
    i64,
    i64,
    i64,
    i64,
    u64,
) -> R;

/// `coded_question`: a code, a vertical speed and a limit.
type OfCode = unsafe extern "C" fn(u64, i64, i64) -> QuestionResult;

/// `judge_at`: the sixteen plain numbers, and n and m.
type OfInstant = unsafe extern "C" fn(
    i64,
    i64,
    i64,
    i64,
    i64,
    i64,
    i64,
    i64,
    i64,
    i64,
    i64,
    i64,
    i64,
    i64,
    i64,
    i64,
    u64,
    u64,
) -> InstantResult;

/// `judge_flight`: encounter, puck and e, a one-sided advice, and a flight's numbers, a pointer and
/// their count.
type OfFlight = unsafe extern "C" fn(
    i64,
    i64,
    i64,
    i64,
    i64,
    i64,
    i64,
    i64,
    i64,
    i64,
    i64,
    i64,
    i64,
    *const i64,
    usize,
) -> FlightResult;

/// `answer_sheet_bytes`: a sheet and an area, each a pointer and a length.
type SheetBytes = unsafe extern "C" fn(*const u8, usize, *mut u8, usize) -> SheetResult;

#[inline]
fn asked<R>(of_numbers: OfNumbers<R>, q: &Question) -> R {
    // SAFETY: sixteen numbers by value; every such function takes any and writes no memory.
    unsafe {
        of_numbers(
            q.r,
            q.h,
            q.c,
            q.v,
            q.vi,
            q.p,
            q.k,
            q.e,
            q.sides,
            q.sense,
            q.target,
            q.upper_target,
            q.strength,
            q.upper_strength,
            q.delay,
            q.limit,
        )
    }
}

fn asked_at<R>(of_second: OfSecond<R>, q: &Question, second: u64) -> R {
    // SAFETY: seventeen numbers by value; every such function takes any and writes no memory.
    unsafe {
        of_second(
            q.r,
            q.h,
            q.c,
            q.v,
            q.vi,
            q.p,
            q.k,
            q.e,
            q.sides,
            q.sense,
            q.target,
            q.upper_target,
            q.strength,
            q.upper_strength,
            q.delay,
            q.limit,
            second,
        )
    }
}

fn coded(of_code: OfCode, code: u64, v: i64, limit: i64) -> QuestionResult {
    // SAFETY: three numbers by value; every such function takes any and writes no memory.
    unsafe { of_code(code, v, limit) }
}

fn named(of_instant: OfInstant, case: &InstantCase) -> InstantResult {
    let InstantCase { question: q, n, m } = case;
    // SAFETY: eighteen numbers by value; every such function takes any and writes no memory.
    unsafe {
        of_instant(
            q.r,
            q.h,
            q.c,
            q.v,
            q.vi,
            q.p,
            q.k,
            q.e,
            q.sides,
            q.sense,
            q.target,
            q.upper_target,
            q.strength,
            q.upper_strength,
            q.delay,
            q.limit,
            *n,
            *m,
        )
    }
}

fn flown(of_flight: OfFlight, case: &FlightCase) -> FlightResult {
    let FlightCase {
        question: q,
        flight,
    } = case;
    // SAFETY: thirteen numbers by value and a slice that is valid for its length; every such function
    // takes any and writes no memory.
    unsafe {
        of_flight(
            q.r,
            q.h,
            q.c,
            q.v,
            q.vi,
            q.p,
            q.k,
            q.e,
            q.sense,
            q.target,
            q.strength,
            q.delay,
            q.limit,
            flight.as_ptr(),
            flight.len(),
        )
    }
}

#[inline]
fn answered(bytes: SheetBytes, sheet: &[u8], area: &mut [u8]) -> SheetResult {
    // SAFETY: both slices are valid for their lengths and do not overlap.
    unsafe { bytes(sheet.as_ptr(), sheet.len(), area.as_mut_ptr(), area.len()) }
}

#[cfg(feature = "judge")]
unsafe extern "C" {
    fn judge_plain(
        r: i64,
        h: i64,
        c: i64,
        v: i64,
        vi: i64,
        p: i64,
        k: i64,
        e: i64,
        sides: i64,
        sense: i64,
        target: i64,
        upper_target: i64,
        strength: i64,
        upper_strength: i64,
        delay: i64,
        limit: i64,
    ) -> JudgeResult;

    #[cfg(feature = "screen")]
    fn screen_drawing(
        r: i64,
        h: i64,
        c: i64,
        v: i64,
        vi: i64,
        p: i64,
        k: i64,
        e: i64,
        sides: i64,
        sense: i64,
        target: i64,
        upper_target: i64,
        strength: i64,
        upper_strength: i64,
        delay: i64,
        limit: i64,
    ) -> DrawingResult;

    #[cfg(feature = "screen")]
    fn screen_point(
        r: i64,
        h: i64,
        c: i64,
        v: i64,
        vi: i64,
        p: i64,
        k: i64,
        e: i64,
        sides: i64,
        sense: i64,
        target: i64,
        upper_target: i64,
        strength: i64,
        upper_strength: i64,
        delay: i64,
        limit: i64,
        second: u64,
    ) -> PointResult;

    #[cfg(feature = "screen")]
    fn upper_drawing(
        r: i64,
        h: i64,
        c: i64,
        v: i64,
        vi: i64,
        p: i64,
        k: i64,
        e: i64,
        sides: i64,
        sense: i64,
        target: i64,
        upper_target: i64,
        strength: i64,
        upper_strength: i64,
        delay: i64,
        limit: i64,
    ) -> DrawingResult;

    #[cfg(feature = "screen")]
    fn upper_point(
        r: i64,
        h: i64,
        c: i64,
        v: i64,
        vi: i64,
        p: i64,
        k: i64,
        e: i64,
        sides: i64,
        sense: i64,
        target: i64,
        upper_target: i64,
        strength: i64,
        upper_strength: i64,
        delay: i64,
        limit: i64,
        second: u64,
    ) -> UpperPointResult;

    #[cfg(feature = "screen")]
    fn coded_question(code: u64, v: i64, limit: i64) -> QuestionResult;

    #[cfg(feature = "instants")]
    fn judge_at(
        r: i64,
        h: i64,
        c: i64,
        v: i64,
        vi: i64,
        p: i64,
        k: i64,
        e: i64,
        sides: i64,
        sense: i64,
        target: i64,
        upper_target: i64,
        strength: i64,
        upper_strength: i64,
        delay: i64,
        limit: i64,
        n: u64,
        m: u64,
    ) -> InstantResult;

    #[cfg(feature = "flights")]
    fn judge_flight(
        r: i64,
        h: i64,
        c: i64,
        v: i64,
        vi: i64,
        p: i64,
        k: i64,
        e: i64,
        sense: i64,
        target: i64,
        strength: i64,
        delay: i64,
        limit: i64,
        flight: *const i64,
        count: usize,
    ) -> FlightResult;

    #[cfg(feature = "sheets")]
    fn answer_sheet_bytes(
        sheet: *const u8,
        sheet_length: usize,
        area: *mut u8,
        area_length: usize,
    ) -> SheetResult;
}

/// The proved judge's answer to plain numbers.
#[cfg(feature = "judge")]
#[inline]
pub fn judge(q: &Question) -> JudgeResult {
    asked(judge_plain, q)
}

/// The proved drawing of plain numbers.
#[cfg(feature = "screen")]
pub fn drawing(q: &Question) -> DrawingResult {
    asked(screen_drawing, q)
}

/// The proved point of plain numbers at a second.
#[cfg(feature = "screen")]
pub fn point(q: &Question, second: u64) -> PointResult {
    asked_at(screen_point, q, second)
}

/// The proved drawing of the upper path of plain numbers.
#[cfg(feature = "screen")]
pub fn drawing_above(q: &Question) -> DrawingResult {
    asked(upper_drawing, q)
}

/// The proved point of the upper path of plain numbers at a second.
#[cfg(feature = "screen")]
pub fn point_above(q: &Question, second: u64) -> UpperPointResult {
    asked_at(upper_point, q, second)
}

/// The proved question of a code.
#[cfg(feature = "screen")]
pub fn question_of(code: u64, v: i64, limit: i64) -> QuestionResult {
    coded(coded_question, code, v, limit)
}

/// What the proved judge says of an instant.
#[cfg(feature = "instants")]
pub fn instant(case: &InstantCase) -> InstantResult {
    named(judge_at, case)
}

/// What the proved judge says of a flight.
#[cfg(feature = "flights")]
pub fn flight(case: &FlightCase) -> FlightResult {
    flown(judge_flight, case)
}

/// The proved judge's answer to a sheet, written to the front of the area.
#[cfg(feature = "sheets")]
#[inline]
pub fn answer_sheet(sheet: &[u8], area: &mut [u8]) -> SheetResult {
    answered(answer_sheet_bytes, sheet, area)
}

unsafe extern "C" {
    fn dlopen(path: *const c_char, mode: c_int) -> *mut c_void;
    fn dlsym(library: *mut c_void, name: *const c_char) -> *mut c_void;
}

/// A judge in a dynamic library.
pub struct Loaded {
    plain: OfNumbers<JudgeResult>,
    drawing: OfNumbers<DrawingResult>,
    point: OfSecond<PointResult>,
    upper_drawing: OfNumbers<DrawingResult>,
    upper_point: OfSecond<UpperPointResult>,
    coded: OfCode,
    instant: OfInstant,
    flight: OfFlight,
    sheet_bytes: SheetBytes,
}

impl Loaded {
    /// None where the file is no such library.
    pub fn open(path: &str) -> Option<Loaded> {
        const RESOLVE_NOW: c_int = 2;
        let path = CString::new(path).ok()?;
        // SAFETY: the strings end with a zero byte. The symbols are functions of the types above; the
        // library is never closed.
        unsafe {
            let library = dlopen(path.as_ptr(), RESOLVE_NOW);
            if library.is_null() {
                return None;
            }
            let plain = dlsym(library, c"judge_plain".as_ptr());
            let drawing = dlsym(library, c"screen_drawing".as_ptr());
            let point = dlsym(library, c"screen_point".as_ptr());
            let upper_drawing = dlsym(library, c"upper_drawing".as_ptr());
            let upper_point = dlsym(library, c"upper_point".as_ptr());
            let coded = dlsym(library, c"coded_question".as_ptr());
            let instant = dlsym(library, c"judge_at".as_ptr());
            let flight = dlsym(library, c"judge_flight".as_ptr());
            let sheet_bytes = dlsym(library, c"answer_sheet_bytes".as_ptr());
            let found = [
                plain,
                drawing,
                point,
                upper_drawing,
                upper_point,
                coded,
                instant,
                flight,
                sheet_bytes,
            ];
            if found.contains(&std::ptr::null_mut()) {
                return None;
            }
            Some(Loaded {
                plain: std::mem::transmute::<*mut c_void, OfNumbers<JudgeResult>>(plain),
                drawing: std::mem::transmute::<*mut c_void, OfNumbers<DrawingResult>>(drawing),
                point: std::mem::transmute::<*mut c_void, OfSecond<PointResult>>(point),
                upper_drawing: std::mem::transmute::<*mut c_void, OfNumbers<DrawingResult>>(
                    upper_drawing,
                ),
                upper_point: std::mem::transmute::<*mut c_void, OfSecond<UpperPointResult>>(
                    upper_point,
                ),
                coded: std::mem::transmute::<*mut c_void, OfCode>(coded),
                instant: std::mem::transmute::<*mut c_void, OfInstant>(instant),
                flight: std::mem::transmute::<*mut c_void, OfFlight>(flight),
                sheet_bytes: std::mem::transmute::<*mut c_void, SheetBytes>(sheet_bytes),
            })
        }
    }

    pub fn judge(&self, q: &Question) -> JudgeResult {
        asked(self.plain, q)
    }

    pub fn drawing(&self, q: &Question) -> DrawingResult {
        asked(self.drawing, q)
    }

    pub fn point(&self, q: &Question, second: u64) -> PointResult {
        asked_at(self.point, q, second)
    }

    pub fn upper_drawing(&self, q: &Question) -> DrawingResult {
        asked(self.upper_drawing, q)
    }

    pub fn upper_point(&self, q: &Question, second: u64) -> UpperPointResult {
        asked_at(self.upper_point, q, second)
    }

    pub fn question_of(&self, code: u64, v: i64, limit: i64) -> QuestionResult {
        coded(self.coded, code, v, limit)
    }

    pub fn instant(&self, case: &InstantCase) -> InstantResult {
        named(self.instant, case)
    }

    pub fn flight(&self, case: &FlightCase) -> FlightResult {
        flown(self.flight, case)
    }

    pub fn answer_sheet(&self, sheet: &[u8], area: &mut [u8]) -> SheetResult {
        answered(self.sheet_bytes, sheet, area)
    }
}

/// The independent implementation behind the judge's interface, so that both are measured alike: the
/// same numbers in, the same struct out, and a name by which callgrind finds the call.
#[cfg(feature = "judge")]
pub mod independent_entry {
    use super::{JudgeResult, Question, asked};
    use crate::independent;

    #[allow(clippy::too_many_arguments)]
    #[inline(never)]
    #[unsafe(no_mangle)]
    extern "C" fn independent_plain(
        r: i64,
        h: i64,
        c: i64,
        v: i64,
        vi: i64,
        p: i64,
        k: i64,
        e: i64,
        sides: i64,
        sense: i64,
        target: i64,
        upper_target: i64,
        strength: i64,
        upper_strength: i64,
        delay: i64,
        limit: i64,
    ) -> JudgeResult {
        JudgeResult::of(&independent::judge(&Question {
            r,
            h,
            c,
            v,
            vi,
            p,
            k,
            e,
            sides,
            sense,
            target,
            upper_target,
            strength,
            upper_strength,
            delay,
            limit,
        }))
    }

    #[inline]
    pub fn judge(q: &Question) -> JudgeResult {
        asked(independent_plain, q)
    }

    #[cfg(feature = "sheets")]
    #[inline(never)]
    #[unsafe(no_mangle)]
    unsafe extern "C" fn independent_sheet_bytes(
        sheet: *const u8,
        sheet_length: usize,
        area: *mut u8,
        area_length: usize,
    ) -> super::SheetResult {
        // SAFETY: `answered` is the only caller, and passes two slices.
        let (sheet, area) = unsafe {
            (
                std::slice::from_raw_parts(sheet, sheet_length),
                std::slice::from_raw_parts_mut(area, area_length),
            )
        };
        super::SheetResult::of(crate::sheet::answer_into(sheet, area))
    }

    #[cfg(feature = "sheets")]
    #[inline]
    pub fn answer_sheet(sheet: &[u8], area: &mut [u8]) -> super::SheetResult {
        super::answered(independent_sheet_bytes, sheet, area)
    }
}

impl JudgeResult {
    /// The result that stands for an answer.
    pub fn of(answer: &Answer) -> JudgeResult {
        let none = [0; 3];
        let time = |t: Time| [t.seconds, t.remainder, t.divisor].map(u64::from);
        let (number, lower, upper) = match *answer {
            Answer::Clear(n) | Answer::Refused(n) => (u64::from(n), none, none),
            Answer::Conflict(t) => (0, time(t), none),
            Answer::BothConflict(t, j) => (0, time(t), time(j)),
        };
        JudgeResult {
            kind: u64::from(answer.kind()),
            number,
            lower_seconds: lower[0],
            lower_remainder: lower[1],
            lower_divisor: lower[2],
            upper_seconds: upper[0],
            upper_remainder: upper[1],
            upper_divisor: upper[2],
        }
    }
}

impl JudgeResult {
    /// Its numbers in order.
    pub fn numbers(&self) -> [u64; 8] {
        [
            self.kind,
            self.number,
            self.lower_seconds,
            self.lower_remainder,
            self.lower_divisor,
            self.upper_seconds,
            self.upper_remainder,
            self.upper_divisor,
        ]
    }

    pub fn is_clear(&self) -> bool {
        self.kind == 65
    }

    /// Whether the lower side is clear, and the upper; one-sided the lower one alone.
    pub fn clear_sides(&self) -> [bool; 2] {
        [1, 2].map(|side| self.is_clear() && self.number & side == side)
    }

    /// The times shown as fractions, of the lower side and of the upper.
    pub fn shown(&self) -> [Option<(u64, u64)>; 2] {
        let time = |seconds, remainder, divisor: u64| {
            (divisor > 0).then(|| (seconds * divisor + remainder, divisor))
        };
        [
            time(self.lower_seconds, self.lower_remainder, self.lower_divisor),
            time(self.upper_seconds, self.upper_remainder, self.upper_divisor),
        ]
    }
}

impl SheetResult {
    /// The result that stands for an outcome.
    pub fn of(outcome: Result<usize, u8>) -> SheetResult {
        match outcome {
            Ok(length) => SheetResult {
                refusal: 0,
                length: length as u64,
            },
            Err(number) => SheetResult {
                refusal: u64::from(number),
                length: 0,
            },
        }
    }
}

impl PieceResult {
    fn of(piece: &Piece) -> PieceResult {
        let [square, linear, constant] = piece.coefficients.map(|x| x as f64);
        PieceResult {
            kind: if piece.is_straight() { 1 } else { 2 },
            seconds: piece.from.seconds.into(),
            remainder: piece.from.remainder.into(),
            divisor: piece.from.divisor.into(),
            square,
            linear,
            constant,
        }
    }

    fn numbers(&self) -> [u64; 7] {
        [
            self.kind,
            self.seconds,
            self.remainder,
            self.divisor,
            self.square.to_bits(),
            self.linear.to_bits(),
            self.constant.to_bits(),
        ]
    }
}

impl DrawingResult {
    /// The result that stands for a drawing.
    pub fn of(drawing: &Drawing) -> DrawingResult {
        match drawing {
            Ok(pieces) => DrawingResult::of_pieces(0, pieces),
            Err(number) => DrawingResult::of_pieces(u64::from(*number), &[]),
        }
    }

    /// The same of the upper path.
    pub fn of_upper(drawing: &UpperDrawing) -> DrawingResult {
        match drawing {
            Ok(pieces) => DrawingResult::of_pieces(0, pieces.as_deref().unwrap_or_default()),
            Err(number) => DrawingResult::of_pieces(u64::from(*number), &[]),
        }
    }

    fn of_pieces(refusal: u64, pieces: &[Piece]) -> DrawingResult {
        let place = |i: usize| {
            pieces
                .get(i)
                .map_or(PieceResult::default(), PieceResult::of)
        };
        DrawingResult {
            refusal,
            pieces: pieces.len() as u64,
            first: place(0),
            second: place(1),
            third: place(2),
        }
    }

    /// Its numbers in order, a float as its bit pattern, so that 0 and -0 differ.
    pub fn numbers(&self) -> [u64; 23] {
        let mut numbers = vec![self.refusal, self.pieces];
        for piece in [self.first, self.second, self.third] {
            numbers.extend(piece.numbers());
        }
        numbers.try_into().expect("23 numbers")
    }
}

impl PointResult {
    /// The result that stands for a point.
    pub fn of(point: &Point) -> PointResult {
        let (refusal, (time, height)) = match *point {
            Ok(point) => (0, point),
            Err(number) => (u64::from(number), (0, 0)),
        };
        PointResult {
            refusal,
            time: time as f64,
            height: height as f64,
        }
    }

    /// Its numbers in order, a float as its bit pattern.
    pub fn numbers(&self) -> [u64; 3] {
        [self.refusal, self.time.to_bits(), self.height.to_bits()]
    }
}

impl UpperPointResult {
    /// The result that stands for a point of the upper path.
    pub fn of(point: &UpperPoint) -> UpperPointResult {
        let (refusal, asked, (time, height)) = match *point {
            Ok(Some(point)) => (0, 1, point),
            Ok(None) => (0, 0, (0, 0)),
            Err(number) => (u64::from(number), 0, (0, 0)),
        };
        UpperPointResult {
            refusal,
            asked,
            time: time as f64,
            height: height as f64,
        }
    }

    /// Its numbers in order, a float as its bit pattern.
    pub fn numbers(&self) -> [u64; 4] {
        [
            self.refusal,
            self.asked,
            self.time.to_bits(),
            self.height.to_bits(),
        ]
    }
}

impl QuestionResult {
    /// The result that stands for what a code asks.
    pub fn of(coded: &Coded, limit: i64) -> QuestionResult {
        match *coded {
            Err(number) => QuestionResult {
                refusal: u64::from(number),
                ..QuestionResult::default()
            },
            Ok((advice, target)) => QuestionResult {
                sides: 1,
                sense: advice.sense,
                target,
                strength: advice.strength,
                delay: advice.delay,
                limit,
                ..QuestionResult::default()
            },
        }
    }

    /// Its numbers in order.
    pub fn numbers(&self) -> [u64; 9] {
        let fields = [
            self.sides,
            self.sense,
            self.target,
            self.upper_target,
            self.strength,
            self.upper_strength,
            self.delay,
            self.limit,
        ];
        let mut numbers = [self.refusal; 9];
        numbers[1..].copy_from_slice(&fields.map(|n| n as u64));
        numbers
    }
}

impl InstantResult {
    /// The result that stands for an answer.
    pub fn of(answer: &InstantAnswer) -> InstantResult {
        let side = |conflict| if conflict { 2 } else { 1 };
        let numbers = match *answer {
            Err(number) => [u64::from(number), 0, 0, 0, 0],
            Ok(Judged::OutOfReach) => [0; 5],
            Ok(Judged::At(Standing {
                in_window,
                lower,
                upper,
            })) => [
                0,
                1,
                u64::from(in_window),
                side(lower),
                upper.map_or(0, side),
            ],
        };
        let [refusal, in_reach, in_window, lower, upper] = numbers;
        InstantResult {
            refusal,
            in_reach,
            in_window,
            lower,
            upper,
        }
    }

    /// Its numbers in order.
    pub fn numbers(&self) -> [u64; 5] {
        [
            self.refusal,
            self.in_reach,
            self.in_window,
            self.lower,
            self.upper,
        ]
    }

    /// Whether each side has a conflict time there.
    pub fn conflicts(&self) -> [bool; 2] {
        [self.lower == 2, self.upper == 2]
    }
}

impl FlightResult {
    /// The result that stands for an answer.
    pub fn of(answer: &FlightAnswer) -> FlightResult {
        match *answer {
            Ok(Flown { obeys, inside }) => FlightResult {
                refusal: 0,
                obeys: u64::from(obeys),
                inside: u64::from(inside.is_some()),
                second: inside.unwrap_or(0),
            },
            Err(number) => FlightResult {
                refusal: u64::from(number),
                obeys: 0,
                inside: 0,
                second: 0,
            },
        }
    }

    /// The answer that it stands for.
    pub fn answer(&self) -> FlightAnswer {
        match self.refusal {
            0 => Ok(Flown {
                obeys: self.obeys == 1,
                inside: (self.inside == 1).then_some(self.second),
            }),
            number => Err(number as u8),
        }
    }

    /// Its numbers in order.
    pub fn numbers(&self) -> [u64; 4] {
        [self.refusal, self.obeys, self.inside, self.second]
    }
}

impl PartialEq for DrawingResult {
    fn eq(&self, other: &DrawingResult) -> bool {
        self.numbers() == other.numbers()
    }
}

impl PartialEq for UpperPointResult {
    fn eq(&self, other: &UpperPointResult) -> bool {
        self.numbers() == other.numbers()
    }
}

impl PartialEq for PointResult {
    fn eq(&self, other: &PointResult) -> bool {
        self.numbers() == other.numbers()
    }
}
