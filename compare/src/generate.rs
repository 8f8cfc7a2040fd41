//! Seeded questions and sheets, biased to edges. Case number i of a seed is always the same.

use crate::exact::Ratio;
use crate::independent::{Accepted, FIELDS, NO_LIMIT, Question, RANGES, Window};
use crate::sheet::LONGEST_SHEET;

/// SplitMix64.
#[derive(Clone, Copy, Debug)]
pub struct Random(u64);

impl Random {
    pub fn new(seed: u64) -> Random {
        Random(seed)
    }

    /// The stream of case `index` under `seed`.
    pub fn of_case(seed: u64, index: u64) -> Random {
        let mut first = Random(seed);
        Random(first.draw() ^ index.wrapping_mul(0xd1b5_4a32_d192_ed03))
    }

    pub fn draw(&mut self) -> u64 {
        self.0 = self.0.wrapping_add(0x9e37_79b9_7f4a_7c15);
        let mut z = self.0;
        z = (z ^ (z >> 30)).wrapping_mul(0xbf58_476d_1ce4_e5b9);
        z = (z ^ (z >> 27)).wrapping_mul(0x94d0_49bb_1331_11eb);
        z ^ (z >> 31)
    }

    /// A number from 0 to n − 1.
    pub fn below(&mut self, n: u64) -> u64 {
        ((u128::from(self.draw()) * u128::from(n)) >> 64) as u64
    }

    /// A number from `from` to `to`, both included.
    pub fn between(&mut self, from: i64, to: i64) -> i64 {
        from + self.below((to - from + 1) as u64) as i64
    }

    /// True in x of y cases.
    pub fn chance(&mut self, x: u64, y: u64) -> bool {
        self.below(y) < x
    }

    pub fn pick<T: Copy>(&mut self, from: &[T]) -> T {
        from[self.below(from.len() as u64) as usize]
    }

    /// A number within limits: often at or next to an end, or small, else anywhere.
    pub fn edgy(&mut self, (from, to): (i64, i64)) -> i64 {
        let n = match self.below(16) {
            0 => from,
            1 => to,
            2 => from + 1,
            3 => to - 1,
            4 => self.between(-2, 2),
            5..=7 => {
                let size = self.below(1 + (to - from).ilog2() as u64);
                let n = self.between(0, 1 << size);
                if self.chance(1, 2) { n } else { -n }
            }
            _ => return self.between(from, to),
        };
        n.clamp(from, to)
    }
}

const R: usize = 0;
const H: usize = 1;
const C: usize = 2;
const V: usize = 3;
const P: usize = 5;
const K: usize = 6;
const E: usize = 7;
const TARGET: usize = 10;
const UPPER_TARGET: usize = 11;
const STRENGTH: usize = 12;
const UPPER_STRENGTH: usize = 13;
const DELAY: usize = 14;
const LIMIT: usize = 15;

fn into_range(field: usize, n: i128) -> i64 {
    let (from, to) = RANGES[field];
    n.clamp(i128::from(from), i128::from(to)) as i64
}

/// Question number `index` of a seed. About one in six is refused.
pub fn question(seed: u64, index: u64) -> Question {
    let mut random = Random::of_case(seed, index);
    let q = accepted(&mut random);
    if random.chance(1, 6) {
        spoiled(&mut random, q)
    } else {
        q
    }
}

/// What a question is drawn for.
#[derive(Clone, Copy, PartialEq, Eq)]
enum Favour {
    Nothing,
    /// A lower path that turns, often at a whole second.
    Turning,
    /// A window without an end, and slow paths towards the intruder.
    NoEnd,
}

/// A question within limits.
pub fn accepted(random: &mut Random) -> Question {
    let favour = match random.below(8) {
        0 => Favour::Turning,
        1 => Favour::NoEnd,
        _ => Favour::Nothing,
    };
    let mut q = Question {
        sides: if random.chance(2, 5) { 2 } else { 1 },
        sense: random.between(0, 1),
        ..Question::default()
    };
    q.p = match random.below(4) {
        0 => random.edgy(RANGES[P]),
        1 => random.between(0, 100),
        _ => 30_000,
    };
    q.k = match random.below(4) {
        0 | 1 => random.edgy(RANGES[K]),
        2 => random.between(1, 10),
        _ => 6_000,
    };
    q.e = match random.below(4) {
        0 | 1 => random.edgy(RANGES[E]),
        2 => 0,
        _ => 966,
    };
    q.strength = match random.below(4) {
        0 => random.edgy(RANGES[STRENGTH]),
        1 => random.pick(&[1, 2, 3, 4, 10]),
        _ => random.pick(&[483, 500, 644, 966, 2_000]),
    };
    q.delay = match random.below(6) {
        0 | 1 => 0,
        2 => random.pick(&[60, 59]),
        3 => random.pick(&[1, 3, 5]),
        _ => random.between(0, 60),
    };
    q.vi = match random.below(3) {
        0 => 0,
        1 => random.edgy(RANGES[V]),
        _ => random.between(-500, 500),
    };
    q.v = match random.below(4) {
        0 => random.edgy(RANGES[V]),
        1 => into_range(V, i128::from(q.vi + random.between(-3, 3))),
        2 => random.between(-2_500, 2_500),
        _ => random.pick(&[0, 100, -100, 1_000, -1_000]),
    };
    targets(random, &mut q);
    if favour == Favour::Turning {
        turn(random, &mut q);
    }
    if favour == Favour::NoEnd {
        stay(random, &mut q);
    } else {
        closing(random, &mut q, favour);
    }
    height(random, &mut q, favour);
    q
}

/// Sinks at d by a multiple of half the strength, towards a target at or above the intruder's
/// speed.
fn turn(random: &mut Random, q: &mut Question) {
    let w = if q.sense == 1 { 1 } else { -1 };
    q.delay = random.pick(&[0, 1, 3, 5]);
    q.e = random.pick(&[0, 1, 483, 966]);
    q.vi = random.between(-1_000, 1_000);
    let at_delay = -q.strength * random.between(1, 12) / random.between(1, 2);
    q.v = (q.vi + w * (at_delay + q.e * q.delay)).clamp(-10_000, 10_000);
    q.target = q.vi + w * random.pick(&[0, 1, 500, 1_500]);
    if q.sides == 2 {
        q.upper_target = q.target + w * random.between(0, 2_000);
    }
}

/// Stays within the puck without a limit, with slow targets on the intruder's side.
fn stay(random: &mut Random, q: &mut Question) {
    let w = if q.sense == 1 { 1 } else { -1 };
    q.c = 0;
    q.limit = NO_LIMIT;
    q.r = match random.below(4) {
        0 => q.p,
        1 => -q.p,
        _ => random.between(-q.p, q.p),
    };
    let slow = |random: &mut Random| match random.below(3) {
        0 => 1,
        1 => random.between(1, 5),
        _ => random.between(1, 400),
    };
    q.vi = q.vi.clamp(-9_000, 9_000);
    q.target = q.vi - w * slow(random);
    if random.chance(1, 2) {
        q.strength = random.pick(&[1, 2, 5, 10]);
    }
    if q.sides == 2 {
        q.upper_target = q.vi + w * slow(random);
        q.upper_strength = match random.below(3) {
            0 => q.strength,
            1 => (q.strength + 1).min(2_000),
            _ => random.between(q.strength, 2_000),
        };
        if random.chance(1, 4) {
            q.strength = 1;
            q.upper_strength = random.pick(&[1, 1, 2]);
            q.vi = w * 9_000;
            q.v = w * -random.between(5_000, 10_000);
            q.target = q.vi;
            q.upper_target = q.vi + w * slow(random);
        }
        match random.below(8) {
            0 => longest_above(random, q),
            1 => level_above(random, q),
            _ => {}
        }
    }
}

/// Away from the intruder at the greatest speed, turned by a grain/s² after a delay without
/// acceleration, then towards it by a grain a second.
fn longest_above(random: &mut Random, q: &mut Question) {
    let w = if q.sense == 1 { 1 } else { -1 };
    q.e = 0;
    q.delay = random.pick(&[0, 1, 59, 60]);
    q.v = -w * random.pick(&[10_000, 10_000, 9_999]);
    q.vi = w * 9_999;
    q.target = w * random.pick(&[-10_000, 9_998]);
    q.upper_target = w * 10_000;
    q.strength = 1;
    q.upper_strength = 1;
}

/// Never towards the intruder: the upper path sinks, and at last keeps level with it.
fn level_above(random: &mut Random, q: &mut Question) {
    let w = if q.sense == 1 { 1 } else { -1 };
    q.e = 0;
    q.v = q.vi - w * random.between(0, 300);
    q.upper_target = q.vi;
}

fn targets(random: &mut Random, q: &mut Question) {
    let w = if q.sense == 1 { 1 } else { -1 };
    let at_delay = q.v - w * q.e * q.delay;
    q.target = match random.below(8) {
        0 => random.edgy(RANGES[TARGET]),
        1 => q.vi,
        2 => q.vi + w * random.between(-3, 3),
        3 => at_delay + random.between(-1, 1),
        4 => q.v,
        5 => q.vi + w * random.between(-1_000, 1_000),
        _ => random.pick(&[0, 500, -500, 1_000, -1_000, 1_500, -1_500, 2_500, -2_500]),
    }
    .clamp(-10_000, 10_000);
    if q.sides == 1 {
        return;
    }
    let reached = q.v + w * q.e * q.delay;
    let wanted = match random.below(8) {
        0 | 1 => q.target,
        2 => q.v,
        3 => q.vi + w * random.between(-3, 3),
        4 => random.edgy(RANGES[TARGET]),
        5 => reached + random.between(-1, 1),
        6 => reached + w * random.between(0, 2_000),
        _ => q.target + w * random.between(0, 2_000),
    }
    .clamp(-10_000, 10_000);
    q.upper_target = w * (w * q.target).max(w * wanted);
    q.upper_strength = match random.below(4) {
        0 => q.strength,
        1 => q.strength + 1,
        2 => 2_000,
        _ => random.between(q.strength, 2_000),
    }
    .min(2_000);
}

/// Chooses c, limit and r, so that the window's ends fall before, at and after the instants at
/// which the paths change.
fn closing(random: &mut Random, q: &mut Question, favour: Favour) {
    q.limit = NO_LIMIT;
    q.c = match random.below(8) {
        0 | 1 => 0,
        2 => random.edgy(RANGES[C]),
        3 => into_range(C, i128::from(q.strength * random.between(1, 20))),
        4 => random.between(1, 50),
        5 => random.between(1_000, 30_000),
        _ => random.pick(&[1, 7_000, 10_000, 60_000, 150_000]),
    };
    let x = Accepted::of(q).expect("generated within limits");
    let straight = match x.upper {
        Some(upper) if random.chance(1, 2) => x.upper_straight_from(upper),
        _ => x.straight_from(),
    };
    let marks = [
        Ratio::ZERO,
        Ratio::whole(x.d),
        x.turning(),
        straight,
        Ratio::whole(i128::from(random.between(0, 60))),
        Ratio::new(i128::from(random.between(0, 6_000)), 7),
    ];
    let turning = favour == Favour::Turning && random.chance(1, 2);
    let mark = if turning {
        x.turning()
    } else {
        random.pick(&marks)
    };
    if q.c == 0 {
        q.r = match random.below(8) {
            0 => q.p,
            1 => -q.p,
            2 => q.p + 1,
            3 => -q.p - 1,
            4 => random.edgy(RANGES[R]),
            5 => 0,
            _ => random.between(-q.p, q.p),
        };
    } else {
        let travelled = if random.chance(1, 2) {
            (q.c as i128 * mark).floor()
        } else {
            (q.c as i128 * mark).ceil()
        };
        q.r = match random.below(10) {
            0 => random.pick(&[q.p, -q.p, q.p + 1, -q.p - 1, q.p - 1, 1 - q.p]),
            1 => random.edgy(RANGES[R]),
            2..=4 => into_range(R, travelled + i128::from(q.p)),
            5..=7 => into_range(R, travelled - i128::from(q.p)),
            8 => into_range(
                R,
                travelled + i128::from(q.p) * random.pick(&[1, -1]) + random.pick(&[1, -1]),
            ),
            _ => random.between(-q.p, q.p),
        };
    }
    if random.chance(1, 2) {
        return;
    }
    let mut ends = marks.to_vec();
    if q.c > 0 {
        ends.push(Ratio::new(i128::from(q.r - q.p), i128::from(q.c)));
        ends.push(Ratio::new(i128::from(q.r + q.p), i128::from(q.c)));
    }
    let end = if turning {
        x.turning()
    } else {
        random.pick(&ends)
    };
    q.limit = match random.below(8) {
        0 => random.edgy(RANGES[LIMIT]),
        1 => into_range(LIMIT, end.floor() - 1),
        2 | 3 => into_range(LIMIT, end.floor()),
        4 | 5 => into_range(LIMIT, end.ceil()),
        6 => into_range(LIMIT, end.ceil() + 1),
        _ => random.pick(&[0, 1, 600]),
    };
}

/// Chooses h: often such that a path meets the level at a listed instant, or misses it by a grain.
fn height(random: &mut Random, q: &mut Question, favour: Favour) {
    if random.chance(1, 8) {
        q.h = random.edgy(RANGES[H]);
        return;
    }
    let x = Accepted::of(q).expect("generated within limits");
    let Some(Window { start, end }) = x.window() else {
        q.h = random.edgy(RANGES[H]);
        return;
    };
    // without an end: far whole seconds too
    let second = {
        let size = random.below(29);
        Ratio::whole(i128::from(random.between(0, 1 << size)))
    };
    let end = end.unwrap_or(second);
    let level = x.upper.is_some_and(|upper| upper.q == 0);
    let t = match (favour, random.below(6)) {
        (Favour::NoEnd, _) if level => start,
        (Favour::Turning, 0..=3) => x.turning(),
        (Favour::NoEnd, 0..=3) => end,
        (_, 0 | 1) => start,
        (_, 2) => Ratio::whole(x.d),
        (_, 3) => x.turning(),
        _ => end,
    };
    let off = i128::from(random.pick(&[0, 0, 0, 1, -1, 2, -2]));
    let round = |height: Ratio, up: bool| {
        if up { height.ceil() } else { height.floor() }
    };
    let up = random.chance(1, 2);
    let sensed = match x.upper {
        Some(upper) if random.chance(1, 2) => round(x.upper_path(upper, t), up) + x.k,
        _ => round(x.lower_path(t), up) - x.k,
    } + off;
    let (from, to) = RANGES[H];
    let wanted = x.w * sensed;
    q.h = if i128::from(from) <= wanted && wanted <= i128::from(to) {
        wanted as i64
    } else if random.chance(1, 2) {
        into_range(H, wanted)
    } else {
        random.edgy(RANGES[H])
    };
}

/// A question with one to four faults.
pub fn spoiled(random: &mut Random, mut q: Question) -> Question {
    let count = if random.chance(1, 2) {
        1
    } else {
        random.between(2, 4)
    };
    for _ in 0..count {
        q = if random.chance(2, 5) {
            ill_advised(random, q)
        } else {
            let field = random.below(FIELDS as u64) as usize;
            with_outside(random, q, field)
        };
    }
    q
}

/// The question with a field outside its limits.
fn with_outside(random: &mut Random, q: Question, field: usize) -> Question {
    let mut n = q.numbers();
    n[field] = outside(random, field, n[field]);
    Question::from_numbers(n)
}

/// A fault of the advice or its times: refusals 5, 14, 15, 16 and 6.
fn ill_advised(random: &mut Random, q: Question) -> Question {
    if q.sides == 2 {
        return match random.below(8) {
            0 => {
                let field = random.pick(&[TARGET, UPPER_TARGET]);
                with_outside(random, q, field)
            }
            1 => {
                let field = random.pick(&[STRENGTH, UPPER_STRENGTH]);
                with_outside(random, q, field)
            }
            2 => weaker_above(random, q),
            3..=5 => behind(random, q),
            6 => Question { sides: 1, ..q },
            _ => {
                let field = random.pick(&[DELAY, DELAY, LIMIT]);
                with_outside(random, q, field)
            }
        };
    }
    match random.below(8) {
        0 => with_outside(random, q, TARGET),
        1 => with_outside(random, q, STRENGTH),
        2 => Question {
            upper_target: random.pick(&[1, -1, 10_000, 10_001, 20_000, i64::MIN, q.target]),
            ..q
        },
        3 => Question {
            upper_strength: random.pick(&[1, -1, 2_000, 2_001, i64::MAX, q.strength]),
            ..q
        },
        4 => with_outside(random, q, DELAY),
        5 => with_outside(random, q, LIMIT),
        6 => behind(
            random,
            Question {
                sides: 2,
                upper_strength: q.strength,
                ..q
            },
        ),
        _ => Question {
            sides: 2,
            upper_target: q.target,
            upper_strength: q.strength,
            delay: random.pick(&[61, -1]),
            ..q
        },
    }
}

/// b < a, often by one.
fn weaker_above(random: &mut Random, q: Question) -> Question {
    let strength = q.strength.clamp(2, 2_000);
    Question {
        strength,
        upper_strength: if random.chance(1, 2) {
            strength - 1
        } else {
            random.between(1, strength - 1)
        },
        ..q
    }
}

/// The upper target behind the target, often by one.
fn behind(random: &mut Random, q: Question) -> Question {
    let w = if q.sense == 1 { 1 } else { -1 };
    let by = match random.below(3) {
        0 | 1 => 1,
        _ => random.between(1, 5_000),
    };
    if random.chance(1, 2) {
        Question {
            target: q.upper_target.saturating_add(w * by).clamp(-10_000, 10_000),
            ..q
        }
    } else {
        Question {
            upper_target: q.target.saturating_sub(w * by).clamp(-10_000, 10_000),
            ..q
        }
    }
}

/// A number outside the limits of its field.
fn outside(random: &mut Random, field: usize, n: i64) -> i64 {
    if field == LIMIT && random.chance(1, 3) {
        return random.pick(&[NO_LIMIT - 1, NO_LIMIT + 1, 601, 65_536 + 5, -65_535]);
    }
    beyond(random, RANGES[field], n)
}

/// A number outside limits: next to them, a 64-bit extreme, or one that is within them when cut short.
pub fn beyond(random: &mut Random, (from, to): (i64, i64), n: i64) -> i64 {
    match random.below(12) {
        0..=2 => from - 1,
        3..=5 => to + 1,
        6 => i64::MIN,
        7 => i64::MAX,
        8 => n.wrapping_add(1 << 32),
        9 => n.wrapping_sub(1 << 32),
        10 => random.draw() as i64,
        _ => random.pick(&[
            i64::MIN + 1,
            i64::MAX - 1,
            1 << 31,
            (1 << 31) - 1,
            -(1 << 31),
            1 << 62,
            256 + n % 256,
        ]),
    }
}

/// What a sheet was made to be.
#[derive(Clone, Copy, Debug, PartialEq, Eq)]
pub enum SheetForm {
    Ordinary,
    Empty,
    QuestionsFirst,
    LongestButOne,
    Longest,
    TooLongByOne,
    TooLong,
    LargestAnswer,
    Cut,
    KindByteLast,
    UnknownKind,
    UnknownKindLast,
    UnknownThenCut,
    Damaged,
    Noise,
}

pub const SHEET_FORMS: [(SheetForm, &str); 15] = [
    (SheetForm::Ordinary, "ordinary"),
    (SheetForm::Empty, "empty"),
    (SheetForm::QuestionsFirst, "questions before an encounter"),
    (SheetForm::LongestButOne, "8,191 bytes"),
    (SheetForm::Longest, "8,192 bytes"),
    (SheetForm::TooLongByOne, "8,193 bytes"),
    (SheetForm::TooLong, "beyond 8,193 bytes"),
    (SheetForm::LargestAnswer, "largest answer"),
    (SheetForm::Cut, "cut"),
    (SheetForm::KindByteLast, "a kind byte without its body last"),
    (SheetForm::UnknownKind, "an unknown kind"),
    (SheetForm::UnknownKindLast, "an unknown kind last"),
    (SheetForm::UnknownThenCut, "an unknown kind in a cut sheet"),
    (SheetForm::Damaged, "bytes changed"),
    (SheetForm::Noise, "random bytes"),
];

/// How long the answer area is.
#[derive(Clone, Copy, Debug, PartialEq, Eq)]
pub enum AreaForm {
    Exact,
    OneShort,
    OneMore,
    Zero,
    Program,
    Any,
}

pub const AREA_FORMS: [(AreaForm, &str); 6] = [
    (AreaForm::Exact, "exactly the answer"),
    (AreaForm::OneShort, "one byte short"),
    (AreaForm::OneMore, "one byte more"),
    (AreaForm::Zero, "no bytes"),
    (AreaForm::Program, "65,536 bytes"),
    (AreaForm::Any, "any length"),
];

#[derive(Clone, Debug)]
pub struct SheetCase {
    pub form: SheetForm,
    pub sheet: Vec<u8>,
    pub area_form: AreaForm,
    /// What the area's length and first contents are drawn from.
    pub area_seed: u64,
}

impl SheetCase {
    /// The area before the call, for an answer of `answer` bytes (0 for a refused sheet).
    pub fn area(&self, answer: usize) -> Vec<u8> {
        let mut random = Random::new(self.area_seed);
        let length = match self.area_form {
            AreaForm::Exact => answer,
            AreaForm::OneShort => answer.saturating_sub(1),
            AreaForm::OneMore => answer + 1,
            AreaForm::Zero => 0,
            AreaForm::Program => 65_536,
            AreaForm::Any => random.below(2 * answer as u64 + 60) as usize,
        };
        let mut area = vec![0; length];
        for chunk in area.chunks_mut(8) {
            let bytes = random.draw().to_be_bytes();
            chunk.copy_from_slice(&bytes[..chunk.len()]);
        }
        area
    }
}

fn four(out: &mut Vec<u8>, n: i64) {
    let n = n.clamp(i64::from(i32::MIN), i64::from(i32::MAX)) as i32;
    out.extend_from_slice(&n.to_be_bytes());
}

fn two(out: &mut Vec<u8>, n: i64) {
    out.extend_from_slice(&(n.clamp(0, 65_535) as u16).to_be_bytes());
}

pub fn encounter_record(out: &mut Vec<u8>, q: &Question) {
    out.push(1);
    for n in [q.r, q.h, q.c, q.v, q.vi] {
        four(out, n);
    }
}

pub fn puck_record(out: &mut Vec<u8>, q: &Question) {
    out.push(2);
    four(out, q.p);
    four(out, q.k);
}

pub fn delay_acceleration_record(out: &mut Vec<u8>, q: &Question) {
    out.push(3);
    four(out, q.e);
}

pub fn coded_record(out: &mut Vec<u8>, code: u8, limit: i64) {
    out.extend_from_slice(&[4, code]);
    two(out, limit);
}

pub fn free_record(out: &mut Vec<u8>, q: &Question) {
    out.extend_from_slice(&[5, q.sides as u8, q.sense as u8]);
    for n in [q.target, q.upper_target, q.strength, q.upper_strength] {
        four(out, n);
    }
    two(out, q.delay);
    two(out, q.limit);
}

fn coded_question(random: &mut Random, out: &mut Vec<u8>) {
    let code = match random.below(8) {
        0 => random.pick(&[0, 17, 18, 19, 32, 255]),
        1 => random.draw() as u8,
        _ => random.between(1, 16) as u8,
    };
    let limit = match random.below(6) {
        0 => random.pick(&[600, 601, 65_534, 0]),
        1 | 2 => random.between(0, 40),
        _ => NO_LIMIT,
    };
    coded_record(out, code, limit);
}

/// One question with the settings it wants, or a part of them.
fn some_records(random: &mut Random, out: &mut Vec<u8>) {
    let mut q = accepted(random);
    if random.chance(1, 8) {
        q = spoiled(random, q);
    }
    if random.chance(3, 4) {
        encounter_record(out, &q);
    }
    if random.chance(1, 2) {
        puck_record(out, &q);
    }
    if random.chance(1, 2) {
        delay_acceleration_record(out, &q);
    }
    if random.chance(1, 3) {
        coded_question(random, out);
    }
    if random.chance(4, 5) {
        free_record(out, &q);
    }
}

fn sheet_of(random: &mut Random, count: u64) -> Vec<u8> {
    let mut sheet = Vec::new();
    for _ in 0..count {
        some_records(random, &mut sheet);
    }
    sheet
}

/// A sheet of whole records of just this length, at least 60.
pub fn sheet_of_length(random: &mut Random, length: usize) -> Vec<u8> {
    let mut sheet = Vec::new();
    loop {
        let before = sheet.len();
        some_records(random, &mut sheet);
        if sheet.len() + 12 > length {
            sheet.truncate(before);
            break;
        }
    }
    // Records of 4 and 5 bytes fill any length from 12 on.
    while sheet.len() < length {
        let left = length - sheet.len();
        if left.is_multiple_of(4) {
            coded_question(random, &mut sheet);
        } else {
            sheet.push(3);
            four(&mut sheet, random.between(0, 2_000));
        }
    }
    sheet
}

/// The sheet with the largest answer: one encounter, then coded conflicts of 13 bytes each.
pub fn largest_answer() -> Vec<u8> {
    let q = Question {
        h: -6_000,
        c: 10_000,
        ..Question::default()
    };
    let mut sheet = Vec::new();
    encounter_record(&mut sheet, &q);
    while sheet.len() + 4 <= LONGEST_SHEET {
        coded_record(&mut sheet, 12, NO_LIMIT);
    }
    sheet
}

/// The places at which the records of a whole sheet start.
fn starts(sheet: &[u8]) -> Vec<usize> {
    let mut at = 0;
    let mut found = Vec::new();
    while at < sheet.len() {
        found.push(at);
        at += 1 + crate::sheet::body_length(sheet[at]).expect("made of whole records");
    }
    found
}

fn unknown_kind(random: &mut Random) -> u8 {
    match random.below(3) {
        0 => random.pick(&[0, 6, 255]),
        1 => random.pick(&[7, 8, 9, 10, 64, 65, 128, 129]),
        _ => random.between(6, 255) as u8,
    }
}

/// Sheet number `index` of a seed.
pub fn sheet(seed: u64, index: u64) -> SheetCase {
    let mut random = Random::of_case(!seed, index);
    let form = match random.below(64) {
        0 => SheetForm::Empty,
        1..=4 => SheetForm::QuestionsFirst,
        5 => SheetForm::LongestButOne,
        6 => SheetForm::Longest,
        7 => SheetForm::TooLongByOne,
        8 => SheetForm::TooLong,
        9 => SheetForm::LargestAnswer,
        10..=14 => SheetForm::Cut,
        15..=16 => SheetForm::KindByteLast,
        17..=19 => SheetForm::UnknownKind,
        20 => SheetForm::UnknownKindLast,
        21..=22 => SheetForm::UnknownThenCut,
        23..=28 => SheetForm::Damaged,
        29 => SheetForm::Noise,
        _ => SheetForm::Ordinary,
    };
    let most = if random.chance(1, 8) { 40 } else { 6 };
    let count = 1 + random.below(most);
    let mut sheet = match form {
        SheetForm::Empty => Vec::new(),
        SheetForm::QuestionsFirst => {
            let mut sheet = Vec::new();
            for _ in 0..count {
                let q = accepted(&mut random);
                match random.below(3) {
                    0 => coded_question(&mut random, &mut sheet),
                    1 => free_record(&mut sheet, &spoiled(&mut random, q)),
                    _ => free_record(&mut sheet, &q),
                }
            }
            sheet.extend(sheet_of(&mut random, 2));
            sheet
        }
        SheetForm::LongestButOne => sheet_of_length(&mut random, LONGEST_SHEET - 1),
        SheetForm::Longest => sheet_of_length(&mut random, LONGEST_SHEET),
        SheetForm::TooLongByOne => sheet_of_length(&mut random, LONGEST_SHEET + 1),
        SheetForm::TooLong => {
            let more = random.below(3_000) as usize;
            sheet_of_length(&mut random, LONGEST_SHEET + 2 + more)
        }
        SheetForm::LargestAnswer => largest_answer(),
        SheetForm::Noise => {
            let length = random.below(200);
            (0..length).map(|_| random.draw() as u8 % 8).collect()
        }
        _ => {
            let mut sheet = sheet_of(&mut random, count);
            while sheet.len() < 2 {
                sheet = sheet_of(&mut random, count);
            }
            sheet
        }
    };
    match form {
        SheetForm::Cut => {
            // Within a body: never at a record's end.
            let at = random.pick(&starts(&sheet));
            let body = crate::sheet::body_length(sheet[at]).unwrap();
            sheet.truncate(at + 1 + random.below(body as u64) as usize);
        }
        SheetForm::KindByteLast => sheet.push(random.between(1, 5) as u8),
        SheetForm::UnknownKind => {
            let at = random.pick(&starts(&sheet));
            sheet[at] = unknown_kind(&mut random);
        }
        SheetForm::UnknownKindLast => sheet.push(unknown_kind(&mut random)),
        SheetForm::UnknownThenCut => {
            let at = random.pick(&starts(&sheet));
            sheet[at] = unknown_kind(&mut random);
            let length = at + 1 + random.below((sheet.len() - at) as u64) as usize;
            sheet.truncate(length);
        }
        SheetForm::Damaged => {
            for _ in 0..random.between(1, 3) {
                let at = random.below(sheet.len() as u64) as usize;
                match random.below(4) {
                    0 => sheet[at] = random.draw() as u8,
                    1 => sheet[at] ^= 1 << random.below(8),
                    2 => {
                        sheet.remove(at);
                    }
                    _ => sheet.insert(at, random.between(0, 6) as u8),
                }
            }
        }
        _ => {}
    }
    let area_form = match random.below(16) {
        0..=3 => AreaForm::Exact,
        4 | 5 => AreaForm::OneShort,
        6 | 7 => AreaForm::OneMore,
        8 => AreaForm::Zero,
        9 => AreaForm::Program,
        _ => AreaForm::Any,
    };
    SheetCase {
        form,
        sheet,
        area_form,
        area_seed: random.draw(),
    }
}
