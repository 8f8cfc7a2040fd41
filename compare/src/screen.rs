//! The paths on the screen, written from document 02, "The path on the screen": the pieces of each, and
//! the point of a whole second.
//!
//! Heights are areas under the sensed speed, by `motion`. A piece's coefficients are found from three
//! exact heights within it, by divided differences; they must come out whole.

use crate::exact::Ratio;
use crate::independent::{Question, Time, refusal};
use crate::motion;

/// The last second that is drawn.
pub const LAST_SECOND: u64 = 600;

/// A path of a question: the lower, or the upper of a two-sided one.
#[derive(Clone, Copy, PartialEq, Eq)]
enum Path {
    Lower,
    Upper,
}

/// A stretch of path: 2 × a × height (of the upper path 2 × b × height) = x₂ t² + x₁ t + x₀ from a time on.
#[derive(Clone, Copy, Debug, PartialEq, Eq)]
pub struct Piece {
    pub from: Time,
    /// x₂, x₁, x₀.
    pub coefficients: [i64; 3],
}

impl Piece {
    pub fn is_straight(&self) -> bool {
        self.coefficients[0] == 0
    }
}

/// One to three pieces in time's order, or the refusal.
pub type Drawing = Result<Vec<Piece>, u8>;

/// The time and the height, or the refusal.
pub type Point = Result<(i64, i64), u8>;

/// The same of the upper path, which a one-sided question does not have.
pub type UpperDrawing = Result<Option<Vec<Piece>>, u8>;

pub type UpperPoint = Result<Option<(i64, i64)>, u8>;

/// The height of a path, times twice its strength.
fn scaled(path: Path, q: &Question, t: Ratio) -> Ratio {
    let (strength, height) = match path {
        Path::Lower => (q.strength, motion::lower_height(q, t)),
        Path::Upper => (q.upper_strength, motion::upper_height(q, t)),
    };
    (2 * i128::from(strength) * height).lowest()
}

fn quotient(x: Ratio, y: Ratio) -> Ratio {
    Ratio::new(x.num * y.den, x.den * y.num).lowest()
}

/// "Which makes every coefficient a whole number", and a float holds it.
fn whole(x: Ratio) -> i64 {
    assert!(x.is_whole(), "{x} is not whole");
    let n = x.floor();
    assert!(n.abs() < 1 << 53, "{n} is no float");
    n as i64
}

/// The coefficients of the parabola through the path's heights at three times.
fn through(path: Path, q: &Question, [t0, t1, t2]: [Ratio; 3]) -> [i64; 3] {
    let [y0, y1, y2] = [t0, t1, t2].map(|t| scaled(path, q, t));
    let rise = quotient(y1 - y0, t1 - t0);
    let x2 = quotient(quotient(y2 - y0, t2 - t0) - rise, t2 - t1);
    let x1 = (rise - x2 * (t0 + t1)).lowest();
    let x0 = y0 - (x2 * t0 + x1).lowest() * t0;
    [x2, x1, x0].map(whole)
}

/// "Pieces meet where the paths change rule; pieces of no length are left out."
fn pieces_of(path: Path, q: &Question) -> Vec<Piece> {
    let d = Ratio::whole(i128::from(q.delay));
    let reached = match path {
        Path::Lower => motion::target_reached(q).lowest(),
        Path::Upper => motion::upper_target_reached(q).lowest(),
    };
    let after = |seconds| (reached + Ratio::whole(seconds)).lowest();
    let stretches = [
        (Ratio::ZERO, d),
        (d, reached),
        // Without an end: any later time is on it.
        (reached, after(2)),
    ];
    let piece = |(from, to): (Ratio, Ratio)| {
        let middle = (from + to).over(2).lowest();
        Piece {
            from: Time::of(from),
            coefficients: through(path, q, [from, middle, to]),
        }
    };
    let long = |(from, to): &(Ratio, Ratio)| from < to;
    stretches.into_iter().filter(long).map(piece).collect()
}

pub fn drawing(q: &Question) -> Drawing {
    match refusal(q) {
        Some(number) => Err(number),
        None => Ok(pieces_of(Path::Lower, q)),
    }
}

pub fn upper_drawing(q: &Question) -> UpperDrawing {
    match refusal(q) {
        Some(number) => Err(number),
        None => Ok((q.sides == 2).then(|| pieces_of(Path::Upper, q))),
    }
}

/// "A second above 600 gets 6; the other refusals are those of the entry for plain numbers."
fn point_refusal(q: &Question, second: u64) -> Option<u8> {
    refusal(q).or((second > LAST_SECOND).then_some(6))
}

fn point_of(path: Path, q: &Question, second: u64) -> (i64, i64) {
    let t = Ratio::whole(i128::from(second));
    (second as i64, whole(scaled(path, q, t)))
}

pub fn point(q: &Question, second: u64) -> Point {
    match point_refusal(q, second) {
        Some(number) => Err(number),
        None => Ok(point_of(Path::Lower, q, second)),
    }
}

pub fn upper_point(q: &Question, second: u64) -> UpperPoint {
    match point_refusal(q, second) {
        Some(number) => Err(number),
        None => Ok((q.sides == 2).then(|| point_of(Path::Upper, q, second))),
    }
}

/// The seconds to draw of a question: the ends, around d and around where the target is reached, and
/// those that are refused; where the question is refused, any.
pub fn seconds(q: &Question, any: u64) -> [u64; 12] {
    let reached = || motion::target_reached(q).floor() as u64;
    seconds_around(q, reached, any)
}

/// The same of the upper path; of a one-sided question as of the lower.
pub fn upper_seconds(q: &Question, any: u64) -> [u64; 12] {
    if q.sides != 2 {
        return seconds(q, any);
    }
    let reached = || motion::upper_target_reached(q).floor() as u64;
    seconds_around(q, reached, any)
}

fn seconds_around(q: &Question, reached: impl FnOnce() -> u64, any: u64) -> [u64; 12] {
    let (d, reached) = match refusal(q) {
        None => (q.delay as u64, reached()),
        Some(_) => (0, 0),
    };
    [
        0,
        d,
        d + 1,
        d.saturating_sub(1),
        reached,
        reached + 1,
        any % (LAST_SECOND + 1),
        LAST_SECOND,
        LAST_SECOND + 1,
        any,
        1 << 63,
        u64::MAX,
    ]
}

/// A class of drawings that a run must meet.
pub type DrawingClass = (&'static str, fn(&Question, &Drawing) -> bool);

/// A class of points that a run must meet.
pub type PointClass = (&'static str, fn(&Question, u64, &Point) -> bool);

fn pieces(drawing: &Drawing) -> &[Piece] {
    drawing.as_deref().unwrap_or_default()
}

/// w × (v − target): how much the path is faster than the target at the start.
fn faster(q: &Question) -> i64 {
    if q.sense == 1 {
        q.v - q.target
    } else {
        q.target - q.v
    }
}

pub const DRAWING_CLASSES: [DrawingClass; 21] = [
    ("one piece: d = 0, G = 0", |q, x| {
        x.is_ok() && q.delay == 0 && pieces(x).len() == 1
    }),
    ("two pieces: d = 0", |q, x| {
        x.is_ok() && q.delay == 0 && pieces(x).len() == 2
    }),
    ("two pieces: G = 0", |q, x| {
        x.is_ok() && q.delay > 0 && pieces(x).len() == 2
    }),
    ("three pieces", |_, x| pieces(x).len() == 3),
    ("u_d = q", |q, x| x.is_ok() && faster(q) == q.e * q.delay),
    ("u_d > q", |q, x| x.is_ok() && faster(q) > q.e * q.delay),
    ("e = 0 in a delay: a straight", |q, x| {
        x.is_ok() && q.delay > 0 && q.e == 0 && pieces(x)[0].is_straight()
    }),
    ("two straights that continue each other", |_, x| {
        pieces(x)
            .windows(2)
            .any(|two| two[0].coefficients == two[1].coefficients)
    }),
    ("pieces meet between seconds", |_, x| {
        pieces(x).iter().any(|piece| piece.from.divisor > 1)
    }),
    ("pieces meet after 600", |_, x| {
        pieces(x).iter().any(|piece| piece.from.seconds >= 600)
    }),
    ("two-sided, d = 0", |q, x| {
        x.is_ok() && q.sides == 2 && q.delay == 0
    }),
    ("two-sided, d > 0", |q, x| {
        x.is_ok() && q.sides == 2 && q.delay > 0
    }),
    ("drawing refused, 1", |_, x| *x == Err(1)),
    ("drawing refused, 2", |_, x| *x == Err(2)),
    ("drawing refused, 3", |_, x| *x == Err(3)),
    ("drawing refused, 4", |_, x| *x == Err(4)),
    ("drawing refused, 5", |_, x| *x == Err(5)),
    ("drawing refused, 14", |_, x| *x == Err(14)),
    ("drawing refused, 15", |_, x| *x == Err(15)),
    ("drawing refused, 16", |_, x| *x == Err(16)),
    ("drawing refused, 6", |_, x| *x == Err(6)),
];

pub const POINT_CLASSES: [PointClass; 20] = [
    ("second 0", |_, t, x| x.is_ok() && t == 0),
    ("second d, d > 0", |q, t, x| {
        x.is_ok() && q.delay > 0 && t == q.delay as u64
    }),
    ("second d + 1", |q, t, x| {
        x.is_ok() && t == q.delay as u64 + 1
    }),
    ("a second of the delay", |q, t, x| {
        x.is_ok() && t < q.delay as u64
    }),
    ("second 600", |_, t, x| x.is_ok() && t == LAST_SECOND),
    ("height 0 after second 0", |_, t, x| {
        t > 0 && x.is_ok_and(|(_, height)| height == 0)
    }),
    ("height below 0", |_, _, x| {
        x.is_ok_and(|(_, height)| height < 0)
    }),
    ("height above 0", |_, _, x| {
        x.is_ok_and(|(_, height)| height > 0)
    }),
    ("second 601", |q, t, x| {
        refusal(q).is_none() && t == LAST_SECOND + 1 && *x == Err(6)
    }),
    ("second from 2^63 on", |q, t, x| {
        refusal(q).is_none() && t >= 1 << 63 && *x == Err(6)
    }),
    ("late, but another refusal", |_, t, x| {
        t > LAST_SECOND && x.is_err_and(|number| number != 6)
    }),
    ("point refused, 1", |_, _, x| *x == Err(1)),
    ("point refused, 2", |_, _, x| *x == Err(2)),
    ("point refused, 3", |_, _, x| *x == Err(3)),
    ("point refused, 4", |_, _, x| *x == Err(4)),
    ("point refused, 5", |_, _, x| *x == Err(5)),
    ("point refused, 14", |_, _, x| *x == Err(14)),
    ("point refused, 15", |_, _, x| *x == Err(15)),
    ("point refused, 16", |_, _, x| *x == Err(16)),
    ("point refused, 6", |_, t, x| {
        t <= LAST_SECOND && *x == Err(6)
    }),
];

/// A class of drawings of the upper path that a run must meet, and one of its points.
pub type UpperDrawingClass = (&'static str, fn(&Question, &UpperDrawing) -> bool);

pub type UpperPointClass = (&'static str, fn(&Question, u64, &UpperPoint) -> bool);

fn upper_pieces(drawing: &UpperDrawing) -> &[Piece] {
    match drawing {
        Ok(Some(pieces)) => pieces,
        _ => &[],
    }
}

/// w × (upper target − v): how much the upper path is slower than its target at the start.
fn slower(q: &Question) -> i64 {
    if q.sense == 1 {
        q.upper_target - q.v
    } else {
        q.v - q.upper_target
    }
}

pub const UPPER_DRAWING_CLASSES: [UpperDrawingClass; 12] = [
    ("upper: one-sided, none", |_, x| *x == Ok(None)),
    ("upper: one piece", |_, x| upper_pieces(x).len() == 1),
    ("upper: two pieces, d = 0", |q, x| {
        upper_pieces(x).len() == 2 && q.delay == 0
    }),
    ("upper: two pieces, d > 0", |q, x| {
        upper_pieces(x).len() == 2 && q.delay > 0
    }),
    ("upper: three pieces", |_, x| upper_pieces(x).len() == 3),
    (
        "upper: the delay bends towards the advice",
        |q, x| matches!(upper_pieces(x), [first, ..] if q.delay > 0 && first.coefficients[0] > 0),
    ),
    ("upper: the speed reached is above the target", |q, x| {
        !upper_pieces(x).is_empty() && slower(q) < q.e * q.delay
    }),
    ("upper: the speed reached is the target", |q, x| {
        !upper_pieces(x).is_empty() && slower(q) == q.e * q.delay
    }),
    ("upper: strengths differ", |q, x| {
        !upper_pieces(x).is_empty() && q.upper_strength > q.strength
    }),
    ("upper: descend", |q, x| {
        !upper_pieces(x).is_empty() && q.sense == 0
    }),
    ("upper: pieces meet between seconds", |_, x| {
        upper_pieces(x).iter().any(|piece| piece.from.divisor > 1)
    }),
    ("upper: refused", |_, x| x.is_err()),
];

pub const UPPER_POINT_CLASSES: [UpperPointClass; 8] = [
    ("upper: no point, one-sided", |_, _, x| *x == Ok(None)),
    ("upper: a second of the delay", |q, t, x| {
        matches!(x, Ok(Some(_))) && t < q.delay as u64
    }),
    ("upper: second d + 1", |q, t, x| {
        matches!(x, Ok(Some(_))) && t == q.delay as u64 + 1
    }),
    ("upper: second 600", |_, t, x| {
        matches!(x, Ok(Some(_))) && t == LAST_SECOND
    }),
    (
        "upper: height below 0",
        |_, _, x| matches!(x, Ok(Some((_, height))) if *height < 0),
    ),
    (
        "upper: height above 0",
        |_, _, x| matches!(x, Ok(Some((_, height))) if *height > 0),
    ),
    ("upper: second 601, one-sided", |q, t, x| {
        refusal(q).is_none() && q.sides == 1 && t == LAST_SECOND + 1 && *x == Err(6)
    }),
    ("upper: second 601, two-sided", |q, t, x| {
        refusal(q).is_none() && q.sides == 2 && t == LAST_SECOND + 1 && *x == Err(6)
    }),
];

#[cfg(test)]
mod tests {
    use super::*;
    use crate::generate;

    /// M10's question: code 12 climbs to 1,500 with 483 after 5 s, from v 0, with e 966.
    #[test]
    fn drawing_of_m10() {
        let q = Question {
            h: -42_225,
            p: 30_000,
            k: 6_000,
            e: 966,
            sides: 1,
            sense: 1,
            target: 1_500,
            strength: 483,
            delay: 5,
            limit: 65_535,
            ..Question::default()
        };
        let piece = |seconds, remainder, divisor, coefficients| Piece {
            from: Time {
                seconds,
                remainder,
                divisor,
            },
            coefficients,
        };
        let wanted = vec![
            piece(0, 0, 1, [-466_578, 0, 0]),
            piece(5, 0, 1, [233_289, -6_998_670, 17_496_675]),
            piece(18, 17, 161, [0, 1_449_000, -58_978_350]),
        ];
        assert_eq!(drawing(&q), Ok(wanted));
        assert_eq!(
            point(&q, 15),
            Ok((15, 233_289 * 225 - 6_998_670 * 15 + 17_496_675))
        );
        assert_eq!(point(&q, 601), Err(6));
    }

    /// A climb between 0 and 2,500, the upper path with 500 after 2 s, from v 0, with e 300.
    #[test]
    fn upper_drawing_worked_by_hand() {
        let q = Question {
            p: 30_000,
            k: 6_000,
            e: 300,
            sides: 2,
            sense: 1,
            upper_target: 2_500,
            strength: 400,
            upper_strength: 500,
            delay: 2,
            limit: 65_535,
            ..Question::default()
        };
        let piece = |seconds, remainder, divisor, coefficients| Piece {
            from: Time {
                seconds,
                remainder,
                divisor,
            },
            coefficients,
        };
        let wanted = vec![
            piece(0, 0, 1, [150_000, 0, 0]),
            piece(2, 0, 1, [250_000, -400_000, 400_000]),
            piece(5, 4, 5, [0, 2_500_000, -8_010_000]),
        ];
        assert_eq!(upper_drawing(&q), Ok(Some(wanted)));
        assert_eq!(upper_point(&q, 3), Ok(Some((3, 1_450_000))));
        // The speed reached, 600, is kept where it is above the target.
        let kept = Question {
            upper_target: 100,
            ..q
        };
        let wanted = vec![
            piece(0, 0, 1, [150_000, 0, 0]),
            piece(2, 0, 1, [0, 600_000, -600_000]),
        ];
        assert_eq!(upper_drawing(&kept), Ok(Some(wanted)));
    }

    /// At each whole second the piece that holds gives the point's height.
    #[test]
    fn points_are_on_the_drawing() {
        for i in 0..2_000 {
            let q = generate::question(7, i);
            let Ok(pieces) = drawing(&q) else {
                continue;
            };
            for second in seconds(&q, i * 7_919) {
                let Ok((_, height)) = point(&q, second) else {
                    continue;
                };
                let t = second as i128;
                let begun = |piece: &&Piece| piece.from.ratio() <= Ratio::whole(t);
                let holds = pieces.iter().rfind(begun).expect("the first begins at 0");
                let [x2, x1, x0] = holds.coefficients.map(i128::from);
                assert_eq!(
                    (x2 * t + x1) * t + x0,
                    i128::from(height),
                    "{q} at {second}"
                );
            }
        }
    }
}
