//! The answer at an instant n/m that a candidate names, written from document 01, "Paths and conflict":
//! the refusals of plain numbers; out of reach; or whether the instant is in the window, and for each
//! side asked whether it is a conflict time.
//!
//! All is in exact fractions: n/m in lowest terms by Euclid's algorithm, the window by |r − c × t| ≤ p,
//! and the height of a path by `motion`, as the area under its speed.

use crate::exact::Ratio;
use crate::ffi::{InstantResult, JudgeResult};
use crate::generate::Random;
use crate::independent::{Accepted, NO_LIMIT, Question, Side, Upper};
use crate::motion;

/// A question and an instant as they are handed in, any 64-bit values.
#[derive(Clone, Copy, Debug, PartialEq, Eq)]
pub struct InstantCase {
    pub question: Question,
    pub n: u64,
    pub m: u64,
}

/// What holds at an instant. One-sided, the upper side is not asked.
#[derive(Clone, Copy, Debug, PartialEq, Eq)]
pub struct Standing {
    pub in_window: bool,
    pub lower: bool,
    pub upper: Option<bool>,
}

#[derive(Clone, Copy, Debug, PartialEq, Eq)]
pub enum Judged {
    OutOfReach,
    At(Standing),
}

/// What is said of an instant, or the refusal.
pub type InstantAnswer = Result<Judged, u8>;

/// The reach, of fractions in lowest terms: the greatest divisor and numerator, and the last whole second.
pub const DIVISOR: i128 = 150_000;
pub const NUMERATOR: i128 = 12_060_000;
pub const SECOND: i128 = 201_680_060;

fn wide(n: i64) -> Ratio {
    Ratio::whole(i128::from(n))
}

/// n/m in lowest terms, where it is a time.
fn lowest(n: u64, m: u64) -> Option<Ratio> {
    (m > 0).then(|| Ratio::new(i128::from(n), i128::from(m)).lowest())
}

fn in_reach(t: Ratio) -> bool {
    let whole = t.den == 1 && t.num <= SECOND;
    whole || t.den <= DIVISOR && t.num <= NUMERATOR
}

/// Within the puck's radius, edge included, and no later than the limit.
pub fn in_window(q: &Question, t: Ratio) -> bool {
    let ahead = wide(q.r) - i128::from(q.c) * t;
    let near = ahead <= wide(q.p) && -ahead <= wide(q.p);
    near && (q.limit == NO_LIMIT || t <= wide(q.limit))
}

/// The intruder's height in the sense, from the level in which the paths are given.
fn sensed_height(q: &Question) -> Ratio {
    wide(if q.sense == 1 { q.h } else { -q.h })
}

/// How far the intruder is beyond the puck below the lower path; on the edge 0, nearer or above it less.
fn beyond_lower(q: &Question, t: Ratio) -> Ratio {
    motion::lower_height(q, t) - wide(q.k) - sensed_height(q)
}

/// How far it is beyond the puck above the upper path.
fn beyond_upper(q: &Question, t: Ratio) -> Ratio {
    sensed_height(q) - wide(q.k) - motion::upper_height(q, t)
}

fn standing(q: &Question, t: Ratio) -> Standing {
    let in_window = in_window(q, t);
    Standing {
        in_window,
        lower: in_window && beyond_lower(q, t) <= Ratio::ZERO,
        upper: (q.sides == 2).then(|| in_window && beyond_upper(q, t) <= Ratio::ZERO),
    }
}

impl InstantCase {
    pub fn answer(&self) -> InstantAnswer {
        answer(&Known::of(&self.question), self)
    }
}

/// A question, with what is known of it without an instant.
pub struct Known {
    pub question: Question,
    accepted: Result<Accepted, u8>,
    lower: Option<Side>,
    upper: Option<Side>,
}

impl Known {
    pub fn of(question: &Question) -> Known {
        let accepted = Accepted::of(question);
        let lower = accepted.as_ref().ok().map(Accepted::lower_side);
        let upper = accepted.as_ref().ok();
        let upper = upper.and_then(|x| Some(x.upper_side(x.upper?)));
        Known {
            question: *question,
            accepted,
            lower,
            upper,
        }
    }

    fn lower_shown(&self) -> Option<Ratio> {
        Some(self.lower?.shown?.0.lowest())
    }

    fn upper_shown(&self) -> Option<Ratio> {
        Some(self.upper?.shown?.0.lowest())
    }

    fn upper_path(&self) -> Option<(&Accepted, Upper)> {
        let x = self.accepted.as_ref().ok()?;
        Some((x, x.upper?))
    }
}

/// The answer at an instant of the question that is known.
pub fn answer(known: &Known, case: &InstantCase) -> InstantAnswer {
    known.accepted?;
    let reached = lowest(case.n, case.m).filter(|t| in_reach(*t));
    Ok(reached.map_or(Judged::OutOfReach, |t| {
        Judged::At(standing(&case.question, t))
    }))
}

/// What is wrong with the times shown, if anything is: one is out of reach, or no conflict time on its side.
pub fn shown_unsound(known: &Known) -> Option<String> {
    let fault = |side: &str, shown: Option<Ratio>, conflict: fn(&Standing) -> bool| {
        let t = shown?;
        let case = case_at(&known.question, written(t, 1)?);
        match answer(known, &case) {
            Ok(Judged::At(found)) if conflict(&found) => None,
            _ => Some(format!("{side} side: {t} is shown, and no conflict time")),
        }
    };
    fault("lower", known.lower_shown(), |found| found.lower).or_else(|| {
        fault("upper", known.upper_shown(), |found| {
            found.upper == Some(true)
        })
    })
}

/// What is wrong with an answer, if anything is: by the paths as document 01 writes them; a conflict on a side
/// without a conflict time, or outside the window; two-sided, none on either side within it.
pub fn unsound(known: &Known, case: &InstantCase, answer: InstantAnswer) -> Option<String> {
    let Ok(Judged::At(found)) = answer else {
        return None;
    };
    let x = known.accepted.as_ref().ok()?;
    let t = lowest(case.n, case.m)?;
    let by_paths = Standing {
        in_window: x.in_window(t),
        lower: x.lower_conflict(t),
        upper: x.upper.map(|upper| x.upper_conflict(upper, t)),
    };
    if found != by_paths {
        return Some(format!("at {t}: {found:?}, by the paths {by_paths:?}"));
    }
    let conflict = [found.lower, found.upper == Some(true)];
    let exists = [known.lower, known.upper].map(|side| side.is_some_and(|side| side.exists));
    if conflict[0] && !exists[0] || conflict[1] && !exists[1] {
        return Some(format!("a conflict at {t} on a side without one"));
    }
    if !found.in_window && (conflict[0] || conflict[1]) {
        return Some(format!("a conflict at {t}, outside the window"));
    }
    // The upper path is never below the lower one, and so not beyond both.
    if found.in_window && found.upper == Some(false) && !found.lower {
        return Some(format!("beyond both paths at {t}"));
    }
    None
}

/// Whether a judge's own answers are against what is proved: a time shown is no conflict time on its side, or there is a
/// conflict time on a clear side.
pub fn breaks_theorem(verdict: &JudgeResult, (n, m): (u64, u64), found: &InstantResult) -> bool {
    let conflicts = found.conflicts();
    let same = |(x, y): (u64, u64)| {
        m > 0 && u128::from(x) * u128::from(m) == u128::from(n) * u128::from(y)
    };
    let clear = verdict.clear_sides().into_iter().zip(conflicts);
    let shown = verdict.shown().into_iter().zip(conflicts);
    clear.into_iter().any(|(clear, conflict)| clear && conflict)
        || shown
            .into_iter()
            .any(|(shown, conflict)| shown.is_some_and(same) && !conflict)
}

/// The two numbers of a fraction, each times k; none where they are no 64-bit numbers.
fn written(t: Ratio, k: u64) -> Option<(u64, u64)> {
    let times = |n: i128| u64::try_from(n.checked_mul(i128::from(k))?).ok();
    Some((times(t.num)?, times(t.den)?))
}

pub fn case_at(question: &Question, (n, m): (u64, u64)) -> InstantCase {
    InstantCase {
        question: *question,
        n,
        m,
    }
}

/// The instants at which an accepted question may change: the times shown first, then the window's ends, d, the turning
/// instant, where the paths become straight, the limit, 0.
fn marks(known: &Known) -> Vec<Ratio> {
    let Ok(x) = &known.accepted else {
        return vec![Ratio::ZERO, Ratio::whole(27)];
    };
    let window = x.window();
    let mut marks: Vec<Ratio> = Vec::new();
    marks.extend(known.lower_shown());
    marks.extend(known.upper_shown());
    marks.extend(window.map(|window| window.start));
    marks.extend(window.and_then(|window| window.end));
    marks.extend([Ratio::whole(x.d), x.turning(), x.straight_from()]);
    marks.extend(
        known
            .upper_path()
            .map(|(x, upper)| x.upper_straight_from(upper)),
    );
    marks.extend(x.limit.map(Ratio::whole));
    marks.push(Ratio::ZERO);
    marks.into_iter().map(Ratio::lowest).collect()
}

/// The factors with which a mark is written, so that it isn't in lowest terms; 0 stands for the greatest.
const FACTORS: [u64; 4] = [2, 3, 150_001, 0];

fn multiple(t: Ratio, factor: u64) -> Option<(u64, u64)> {
    let most = i128::from(u64::MAX) / t.num.max(t.den);
    let factor = if factor == 0 { most as u64 } else { factor };
    written(t, factor)
}

/// (n − 1)/m and (n + 1)/m.
fn beside(n: i128, m: i128) -> impl Iterator<Item = (u64, u64)> {
    [n - 1, n + 1]
        .into_iter()
        .filter_map(move |n| written(Ratio::new(n, m), 1))
}

/// One step of 1/m before and after n/m.
fn steps(t: Ratio) -> impl Iterator<Item = (u64, u64)> {
    beside(t.num, t.den)
}

/// The nearest such steps that are in reach: m is the greatest multiple of the divisor.
fn near_steps(t: Ratio) -> impl Iterator<Item = (u64, u64)> {
    let factor = (DIVISOR / t.den).min((NUMERATOR - 1) / t.num.max(1)).max(1);
    beside(t.num * factor, t.den * factor)
}

const MOST: u64 = u64::MAX;

/// The reach's edges, in lowest terms and not, and numbers at their ends.
pub const FIXED: [(u64, u64); 34] = [
    (0, 1),
    (0, 150_001),
    (0, MOST),
    (0, 0),
    (1, 0),
    (12_060_000, 0),
    (MOST, 0),
    (MOST, MOST),
    (MOST, 1),
    (1, MOST),
    (MOST, MOST - 1),
    (MOST - 1, MOST),
    // 2^64 − 1 is 3 × 5 × 17 × 257 × 641 × 65,537 × 6,700,417.
    (MOST, MOST / 15),
    (MOST / 15, MOST),
    (1, 150_000),
    (1, 150_001),
    (2, 300_000),
    (2, 300_001),
    (300_000, 300_000),
    (12_059_999, 150_000),
    (12_060_000, 149_999),
    (12_060_000, 7),
    (24_120_000, 14),
    (12_060_001, 2),
    (12_060_001, 150_000),
    (12_060_000, 1),
    (12_060_001, 1),
    (24_120_002, 2),
    (201_680_060, 1),
    (201_680_061, 1),
    (403_360_120, 2),
    (403_360_121, 2),
    (403_360_122, 2),
    (12_000_000, 1_000),
];

/// Every instant at an edge of a question, and the fixed ones.
pub fn edges(known: &Known) -> Vec<(u64, u64)> {
    let mut found = Vec::new();
    for t in marks(known) {
        found.extend(written(t, 1));
        found.extend(FACTORS.into_iter().filter_map(|factor| multiple(t, factor)));
        found.extend(steps(t));
        found.extend(near_steps(t));
    }
    found.extend(FIXED);
    found
}

/// How many instants are tried of a generated question.
pub const TRIED: usize = 8;

/// Instants to try of a question, one of each kind: a mark, often a time shown; a step and a near step from one; one not in
/// lowest terms; a fixed one; a decimal of three places; any fraction, often within the window; any numbers.
pub fn instants(known: &Known, random: &mut Random) -> [(u64, u64); TRIED] {
    let marks = marks(known);
    let mark = |random: &mut Random| {
        if random.chance(1, 3) {
            marks[0]
        } else {
            random.pick(&marks)
        }
    };
    let first = mark(random);
    let step: Vec<_> = steps(mark(random)).collect();
    let near: Vec<_> = near_steps(mark(random)).collect();
    let factor = random.pick(&FACTORS);
    let many = mark(random);
    [
        written(first, 1).unwrap_or((0, 1)),
        random.pick(&step),
        random.pick(&near),
        multiple(many, factor).unwrap_or((0, 2)),
        random.pick(&FIXED),
        decimal(known, random),
        any_fraction(known, random),
        any_numbers(random),
    ]
}

/// A time of the window, or any up to 1,000 s.
fn somewhere(known: &Known, random: &mut Random) -> Ratio {
    let x = known.accepted.as_ref().ok();
    let window = x.and_then(Accepted::window);
    let part = i128::from(random.below(1025));
    match window {
        Some(window) if random.chance(7, 8) => {
            let end = window.end.unwrap_or(Ratio::whole(100));
            (window.start + (part * (end - window.start)).over(1024)).lowest()
        }
        _ => Ratio::new(1_000 * part, 1024).lowest(),
    }
}

fn decimal(known: &Known, random: &mut Random) -> (u64, u64) {
    if random.chance(1, 4) {
        return (random.below(12_000_001), 1_000);
    }
    let t = 1_000 * somewhere(known, random);
    (t.floor() as u64 + random.below(2), 1_000)
}

fn any_fraction(known: &Known, random: &mut Random) -> (u64, u64) {
    let m = match random.below(3) {
        0 => random.between(1, 60),
        1 => random.between(1, 10_000),
        _ => random.between(1, DIVISOR as i64),
    };
    let t = i128::from(m) * somewhere(known, random);
    (t.floor() as u64 + random.below(2), m as u64)
}

fn any_numbers(random: &mut Random) -> (u64, u64) {
    let mut number = || random.draw() >> random.below(64);
    (number(), number())
}

/// An instant as a class sees it.
pub struct Seen<'a> {
    pub case: InstantCase,
    pub answer: InstantAnswer,
    known: &'a Known,
    /// In lowest terms, where it is judged.
    time: Option<Ratio>,
    found: Option<Standing>,
    start: Option<Ratio>,
    end: Option<Ratio>,
}

impl Seen<'_> {
    pub fn of(known: &Known, case: InstantCase, answer: InstantAnswer) -> Seen<'_> {
        let found = match answer {
            Ok(Judged::At(found)) => Some(found),
            _ => None,
        };
        let window = known.accepted.as_ref().ok().and_then(Accepted::window);
        Seen {
            case,
            answer,
            known,
            time: found.and_then(|_| lowest(case.n, case.m)),
            found,
            start: window.map(|window| window.start.lowest()),
            end: window.and_then(|window| window.end).map(Ratio::lowest),
        }
    }

    fn q(&self) -> &Question {
        &self.case.question
    }

    fn accepted(&self) -> Option<&Accepted> {
        self.known.accepted.as_ref().ok()
    }

    /// Within the window, with a conflict on each side or none; one-sided, the upper side is not asked.
    fn within(&self, lower: bool, upper: Option<bool>) -> bool {
        let in_window = true;
        self.found
            == Some(Standing {
                in_window,
                lower,
                upper,
            })
    }

    fn inside(&self) -> bool {
        self.found.is_some_and(|found| found.in_window)
    }

    fn outside(&self) -> bool {
        self.found.is_some_and(|found| !found.in_window)
    }

    fn lower(&self) -> bool {
        self.found.is_some_and(|found| found.lower)
    }

    fn upper(&self) -> bool {
        self.found.is_some_and(|found| found.upper == Some(true))
    }

    /// Judged, and at this instant.
    fn at(&self, t: Option<Ratio>) -> bool {
        self.time.is_some() && self.time == t
    }

    fn holds(&self, of: impl Fn(Ratio) -> bool) -> bool {
        self.time.is_some_and(of)
    }

    /// Less than a thousandth of a second after an instant.
    fn just_after(&self, t: Option<Ratio>) -> bool {
        let soon = |now: Ratio, t: Ratio| t < now && now - t < Ratio::new(1, 1_000);
        self.holds(|now| t.is_some_and(|t| soon(now, t)))
    }

    fn just_before(&self, t: Option<Ratio>) -> bool {
        let soon = |now: Ratio, t: Ratio| now < t && t - now < Ratio::new(1, 1_000);
        self.holds(|now| t.is_some_and(|t| soon(now, t)))
    }

    fn limit(&self) -> Option<Ratio> {
        self.accepted()?.limit.map(Ratio::whole)
    }

    /// Beyond the edge of the puck by less than a thousandth of a grain, within the window.
    fn just_beyond(&self, beyond: fn(&Question, Ratio) -> Ratio) -> bool {
        self.inside()
            && self.holds(|t| {
                let far = beyond(self.q(), t);
                Ratio::ZERO < far && far < Ratio::new(1, 1_000)
            })
    }

    fn on_edge(&self, beyond: fn(&Question, Ratio) -> Ratio) -> bool {
        self.inside() && self.holds(|t| beyond(self.q(), t) == Ratio::ZERO)
    }

    /// From when the lower path is straight; and the upper one.
    fn straight(&self) -> Option<Ratio> {
        Some(self.accepted()?.straight_from())
    }

    fn upper_straight(&self) -> Option<Ratio> {
        let (x, upper) = self.known.upper_path()?;
        Some(x.upper_straight_from(upper))
    }

    fn during_delay(&self) -> bool {
        self.inside() && self.holds(|t| t < wide(self.q().delay))
    }

    fn on_arc(&self, straight: Option<Ratio>) -> bool {
        let later = |t: Ratio| wide(self.q().delay) < t && straight.is_some_and(|from| t < from);
        self.inside() && self.holds(later)
    }

    fn on_straight(&self, straight: Option<Ratio>) -> bool {
        self.inside() && self.holds(|t| straight.is_some_and(|from| from < t))
    }

    /// Not written in lowest terms.
    fn multiple(&self) -> bool {
        self.holds(|t| i128::from(self.case.m) != t.den)
    }

    fn out(&self) -> bool {
        self.answer == Ok(Judged::OutOfReach)
    }

    /// Out of reach, and this fraction in lowest terms.
    fn out_at(&self, of: impl Fn(Ratio) -> bool) -> bool {
        self.out() && lowest(self.case.n, self.case.m).is_some_and(of)
    }

    fn refused(&self) -> bool {
        self.answer.is_err()
    }
}

/// A class of instants that a run must meet.
pub type InstantClass = (&'static str, fn(&Seen) -> bool);

pub const INSTANT_CLASSES: [InstantClass; 72] = [
    ("one-sided, conflict", |x| x.within(true, None)),
    ("one-sided, in the window, none", |x| x.within(false, None)),
    ("two-sided, lower alone", |x| x.within(true, Some(false))),
    ("two-sided, upper alone", |x| x.within(false, Some(true))),
    ("two-sided, both sides", |x| x.within(true, Some(true))),
    ("outside the window", |x| x.outside()),
    ("outside, two-sided", |x| x.outside() && x.q().sides == 2),
    ("outside, the lower path not beyond", |x| {
        x.outside() && x.holds(|t| beyond_lower(x.q(), t) <= Ratio::ZERO)
    }),
    ("outside, the upper path not beyond", |x| {
        x.outside() && x.q().sides == 2 && x.holds(|t| beyond_upper(x.q(), t) <= Ratio::ZERO)
    }),
    ("the window is empty", |x| {
        x.time.is_some() && x.start.is_none()
    }),
    ("the window's start, between seconds", |x| {
        x.at(x.start) && x.holds(|t| t.den > 1)
    }),
    ("one step before the window's start", |x| {
        let step = |t: Ratio| (t - Ratio::new(1, t.den)).lowest();
        x.outside() && x.at(x.start.map(step))
    }),
    ("one step after the window's start", |x| {
        let step = |t: Ratio| (t + Ratio::new(1, t.den)).lowest();
        x.inside() && x.at(x.start.map(step))
    }),
    ("just before the window's start", |x| x.just_before(x.start)),
    ("the window's end, between seconds", |x| {
        x.at(x.end) && x.holds(|t| t.den > 1)
    }),
    ("one step before the window's end", |x| {
        let step = |t: Ratio| (t - Ratio::new(1, t.den)).lowest();
        x.inside() && x.at(x.end.map(step))
    }),
    ("one step after the window's end", |x| {
        let step = |t: Ratio| (t + Ratio::new(1, t.den)).lowest();
        x.outside() && x.at(x.end.map(step))
    }),
    ("just after the window's end", |x| x.just_after(x.end)),
    ("the limit, in the window", |x| {
        x.inside() && x.at(x.limit())
    }),
    ("just past the limit, still near", |x| {
        let near = |t: Ratio| {
            let ahead = wide(x.q().r) - i128::from(x.q().c) * t;
            ahead <= wide(x.q().p) && -ahead <= wide(x.q().p)
        };
        x.just_after(x.limit()) && x.holds(near)
    }),
    ("a window without an end", |x| x.inside() && x.end.is_none()),
    (
        "a window without an end, after 12,060,000 s, conflict",
        |x| x.end.is_none() && x.lower() && x.holds(|t| t > Ratio::whole(NUMERATOR)),
    ),
    ("on the lower edge", |x| {
        x.on_edge(beyond_lower) && x.lower()
    }),
    ("on the lower edge, between seconds", |x| {
        x.on_edge(beyond_lower) && x.holds(|t| t.den > 1)
    }),
    ("just beyond the lower edge", |x| {
        x.just_beyond(beyond_lower) && !x.lower()
    }),
    ("on the upper edge", |x| {
        x.q().sides == 2 && x.on_edge(beyond_upper) && x.upper()
    }),
    ("on the upper edge, between seconds", |x| {
        x.q().sides == 2 && x.on_edge(beyond_upper) && x.holds(|t| t.den > 1)
    }),
    ("just beyond the upper edge", |x| {
        x.q().sides == 2 && x.just_beyond(beyond_upper) && !x.upper()
    }),
    ("the time shown, lower", |x| x.at(x.known.lower_shown())),
    ("the time shown, lower, not in lowest terms", |x| {
        x.at(x.known.lower_shown()) && x.multiple()
    }),
    ("the time shown, upper", |x| x.at(x.known.upper_shown())),
    ("the time shown, upper, not in lowest terms", |x| {
        x.at(x.known.upper_shown()) && x.multiple()
    }),
    ("a conflict before the time shown, lower", |x| {
        x.lower() && x.time < x.known.lower_shown()
    }),
    ("a conflict before the time shown, upper", |x| {
        x.upper() && x.time < x.known.upper_shown()
    }),
    ("none just before the time shown, lower", |x| {
        x.inside() && !x.lower() && x.just_before(x.known.lower_shown())
    }),
    ("none just after the time shown, lower", |x| {
        x.inside() && !x.lower() && x.just_after(x.known.lower_shown())
    }),
    ("lower side clear, in the window", |x| {
        x.inside() && x.known.lower.is_some_and(|side| !side.exists)
    }),
    ("upper side clear, in the window", |x| {
        x.inside() && x.known.upper.is_some_and(|side| !side.exists)
    }),
    ("0, in the window", |x| {
        x.inside() && x.at(Some(Ratio::ZERO))
    }),
    ("d, after 0, in the window", |x| {
        x.inside() && x.q().delay > 0 && x.at(Some(wide(x.q().delay)))
    }),
    ("the turning instant, between seconds", |x| {
        x.inside() && x.at(x.accepted().map(Accepted::turning)) && x.holds(|t| t.den > 1)
    }),
    ("lower path, in the delay", |x| x.during_delay()),
    ("lower path, on the arc", |x| x.on_arc(x.straight())),
    ("lower path, on the straight", |x| {
        x.on_straight(x.straight())
    }),
    ("upper path, in the delay", |x| {
        x.q().sides == 2 && x.during_delay()
    }),
    ("upper path, on the arc", |x| x.on_arc(x.upper_straight())),
    ("upper path, on the straight", |x| {
        x.on_straight(x.upper_straight())
    }),
    ("a decimal of three places", |x| {
        x.inside() && x.case.m == 1_000 && x.holds(|t| t.den == 1_000)
    }),
    ("12,000 s as a decimal of three places", |x| {
        x.found.is_some() && (x.case.n, x.case.m) == (12_000_000, 1_000)
    }),
    ("not in lowest terms by 150,001, in the window", |x| {
        x.inside() && x.case.m.is_multiple_of(150_001)
    }),
    (
        "not in lowest terms by a number above 32 bits, in the window",
        |x| x.inside() && x.holds(|t| i128::from(x.case.m) / t.den > 1 << 32 && t.num % t.den != 0),
    ),
    ("both numbers 2^64 - 1: 1 s", |x| {
        x.at(Some(Ratio::whole(1))) && x.case.n == MOST
    }),
    ("divisor 150,000, in reach", |x| {
        x.holds(|t| t.den == DIVISOR)
    }),
    ("numerator 12,060,000, no whole second, in reach", |x| {
        x.holds(|t| t.den > 1 && t.num == NUMERATOR)
    }),
    ("second 201,680,060, in reach", |x| {
        x.at(Some(Ratio::whole(SECOND)))
    }),
    ("divisor 150,001, out of reach", |x| {
        x.out_at(|t| t.den == DIVISOR + 1)
    }),
    ("numerator 12,060,001, no whole second, out of reach", |x| {
        x.out_at(|t| t.den > 1 && t.num == NUMERATOR + 1)
    }),
    ("second 201,680,061, out of reach", |x| {
        x.out_at(|t| t == Ratio::whole(SECOND + 1))
    }),
    ("m = 0, out of reach", |x| {
        x.out() && x.case.n > 0 && x.case.m == 0
    }),
    ("0/0, out of reach", |x| {
        x.out() && x.case.n == 0 && x.case.m == 0
    }),
    ("n = 2^64 - 1, out of reach", |x| {
        x.out() && x.case.n == MOST && x.case.m > 0
    }),
    ("m = 2^64 - 1, out of reach", |x| {
        x.out() && x.case.m == MOST
    }),
    ("instant refused, 1", |x| x.answer == Err(1)),
    ("instant refused, 2", |x| x.answer == Err(2)),
    ("instant refused, 3", |x| x.answer == Err(3)),
    ("instant refused, 4", |x| x.answer == Err(4)),
    ("instant refused, 5", |x| x.answer == Err(5)),
    ("instant refused, 14", |x| x.answer == Err(14)),
    ("instant refused, 15", |x| x.answer == Err(15)),
    ("instant refused, 16", |x| x.answer == Err(16)),
    ("instant refused, 6", |x| x.answer == Err(6)),
    ("refused, though out of reach", |x| {
        x.refused() && x.case.m == 0
    }),
];
