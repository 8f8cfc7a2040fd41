//! What an answer means: of a conflict time, which moment it is and where the intruder is then; of a clear side, how far
//! beyond its path the intruder is whenever it is within the puck's radius.
//!
//! All by fractions of the plain numbers: the moments by document 01's formulas; whether the intruder is within
//! the radius by |r − c × t| ≤ p; the height of a path by `motion`, as the area under its speed.

use crate::exact::Ratio;
use crate::independent::{Answer, NO_LIMIT, Question, Time};
use crate::instant::in_window;
use crate::motion;

#[derive(Clone, Copy, Debug, PartialEq, Eq)]
pub enum Side {
    Lower,
    Upper,
}

/// Why a time is shown.
#[derive(Clone, Copy, Debug, PartialEq, Eq)]
pub enum Moment {
    /// The window starts at 0, the intruder being within the radius already.
    Start,
    ComesWithin,
    DelayEnds,
    /// The lower path has the intruder's vertical speed.
    SameSpeed,
    Limit,
    LastWithin,
    WholeSecond,
}

/// How far from the ownship the intruder is, up or down.
#[derive(Clone, Copy, Debug, PartialEq, Eq)]
pub enum Gap {
    HalfHeight,
    None,
    BelowTenth,
    /// Tenths of a foot.
    Tenths(i128),
}

/// What that is to the puck.
#[derive(Clone, Copy, Debug, PartialEq, Eq)]
pub enum Relation {
    OnEdge,
    Closer,
    /// Beyond the puck, on the side where that is a conflict.
    WrongSide,
}

/// Where the intruder is at a time shown.
#[derive(Clone, Copy, Debug, PartialEq, Eq)]
pub struct Explained {
    pub side: Side,
    pub moment: Moment,
    pub gap: Gap,
    pub above: bool,
    pub relation: Relation,
}

/// A line of the meaning.
#[derive(Clone, Copy, Debug, PartialEq, Eq)]
pub enum Meaning {
    Conflict(Explained),
    NeverWithin,
    Clear(Side),
}

fn wide(n: i64) -> Ratio {
    Ratio::whole(i128::from(n))
}

/// +1 climb, −1 descend.
fn sign(q: &Question) -> i64 {
    if q.sense == 1 { 1 } else { -1 }
}

/// The first time within the radius, if there is one up to the limit.
fn comes_within(q: &Question) -> Option<Ratio> {
    let first = if q.c == 0 {
        Ratio::ZERO
    } else {
        Ratio::new((q.r - q.p).into(), q.c.into()).max(Ratio::ZERO)
    };
    in_window(q, first).then_some(first)
}

/// The limit, as a time.
fn limit(q: &Question) -> Option<Ratio> {
    (q.limit != NO_LIMIT).then(|| wide(q.limit))
}

/// The last time within the radius, whatever the limit.
fn leaves(q: &Question) -> Option<Ratio> {
    (q.c > 0).then(|| Ratio::new((q.r + q.p).into(), q.c.into()))
}

/// From when on the lower path does not sink towards the intruder's level any more, if its target allows: d if it does
/// not sink at d, else as soon as the strength has made up for the speed that it has there.
fn same_speed(q: &Question) -> Option<Ratio> {
    if sign(q) * (q.target - q.vi) < 0 {
        return None;
    }
    let sinks = q.e * q.delay - sign(q) * (q.v - q.vi);
    Some(wide(q.delay) + Ratio::new(sinks.max(0).into(), q.strength.into()))
}

/// The first of a side's moments that is at t.
fn moment(q: &Question, side: Side, t: Ratio) -> Moment {
    let lower = side == Side::Lower;
    if t == Ratio::ZERO {
        Moment::Start
    } else if comes_within(q) == Some(t) {
        Moment::ComesWithin
    } else if lower && wide(q.delay) == t {
        Moment::DelayEnds
    } else if lower && same_speed(q) == Some(t) {
        Moment::SameSpeed
    } else if limit(q) == Some(t) {
        Moment::Limit
    } else if leaves(q) == Some(t) {
        Moment::LastWithin
    } else {
        Moment::WholeSecond
    }
}

/// How far the intruder is above a path, in grains; below it less than 0.
fn above_path(q: &Question, side: Side, t: Ratio) -> Ratio {
    let sensed = match side {
        Side::Lower => motion::lower_height(q, t),
        Side::Upper => motion::upper_height(q, t),
    };
    wide(q.h) - i128::from(sign(q)) * sensed
}

/// Whether a side is clear above the puck, and not below it.
fn clear_above(q: &Question, side: Side) -> bool {
    (q.sense == 1) == (side == Side::Upper)
}

/// The nearest number of tenths of a foot, of two the greater; but of what is nearer than k never as much as k.
fn tenths(far: Ratio, k: Ratio) -> i128 {
    let nearest = (far + Ratio::whole(3)).over(6).floor();
    if far < k && Ratio::whole(6 * nearest) >= k {
        far.over(6).floor()
    } else {
        nearest
    }
}

fn explained(q: &Question, side: Side, time: Time) -> Meaning {
    let t = time.ratio();
    let height = above_path(q, side, t);
    let far = height.max(-height);
    let k = wide(q.k);
    let gap = if far == k {
        Gap::HalfHeight
    } else if far == Ratio::ZERO {
        Gap::None
    } else {
        match tenths(far, k) {
            0 => Gap::BelowTenth,
            tenths => Gap::Tenths(tenths),
        }
    };
    let relation = if far == k {
        Relation::OnEdge
    } else if far < k {
        Relation::Closer
    } else {
        Relation::WrongSide
    };
    Meaning::Conflict(Explained {
        side,
        moment: moment(q, side, t),
        gap,
        above: height > Ratio::ZERO,
        relation,
    })
}

/// What the answer to a question means; of a refusal nothing is said.
pub fn meanings(q: &Question, answer: &Answer) -> Vec<Meaning> {
    match *answer {
        Answer::Clear(_) if comes_within(q).is_none() => vec![Meaning::NeverWithin],
        Answer::Clear(1) => vec![Meaning::Clear(Side::Lower)],
        Answer::Clear(2) => vec![Meaning::Clear(Side::Upper)],
        Answer::Clear(_) => vec![Meaning::Clear(Side::Lower), Meaning::Clear(Side::Upper)],
        Answer::Conflict(t) => vec![explained(q, Side::Lower, t)],
        Answer::BothConflict(t, j) => {
            vec![explained(q, Side::Lower, t), explained(q, Side::Upper, j)]
        }
        Answer::Refused(_) => vec![],
    }
}

/// Grains in feet, of which each is 60.
fn feet(grains: i64) -> String {
    let feet = Ratio::new(grains.into(), 60).lowest();
    let (whole, rest) = (feet.num / feet.den, feet.num % feet.den);
    match (whole, rest) {
        (_, 0) => format!("{whole} ft"),
        (0, _) => format!("{rest}/{} ft", feet.den),
        _ => format!("{whole} {rest}/{} ft", feet.den),
    }
}

fn direction(above: bool) -> &'static str {
    if above { "above" } else { "below" }
}

impl Explained {
    fn moment_text(&self, p: &str) -> String {
        match self.moment {
            Moment::Start => "at the start".into(),
            Moment::ComesWithin => format!("as the intruder comes within {p}"),
            Moment::DelayEnds => "as the delay ends".into(),
            Moment::SameSpeed => "as the ownship's vertical speed comes to the intruder's".into(),
            Moment::Limit => "at the time limit".into(),
            Moment::LastWithin => format!("at the last instant within {p}"),
            Moment::WholeSecond => "the first whole second in conflict".into(),
        }
    }

    fn gap_text(&self, k: &str) -> String {
        let direction = direction(self.above);
        match self.gap {
            Gap::HalfHeight => format!("{k} {direction}"),
            Gap::None => "level with the ownship".into(),
            Gap::BelowTenth => format!("less than 0.1 ft {direction}"),
            Gap::Tenths(n) => format!("{}.{} ft {direction}", n / 10, n % 10),
        }
    }

    fn relation_text(&self, q: &Question) -> String {
        let k = feet(q.k);
        match self.relation {
            Relation::OnEdge => "on the puck's edge".into(),
            Relation::Closer => format!("closer than {k}"),
            Relation::WrongSide => format!(
                "where only more than {k} {} is clear",
                direction(clear_above(q, self.side))
            ),
        }
    }

    fn text(&self, q: &Question) -> String {
        let side = match (q.sides, self.side) {
            (1, _) => "",
            (_, Side::Lower) => "lower: ",
            (_, Side::Upper) => "upper: ",
        };
        let subject = match self.moment {
            Moment::ComesWithin => "it",
            _ => "the intruder",
        };
        format!(
            "{side}{}; {subject} is {}, {}",
            self.moment_text(&feet(q.p)),
            self.gap_text(&feet(q.k)),
            self.relation_text(q)
        )
    }
}

impl Meaning {
    /// The line, of a question.
    pub fn text(&self, q: &Question) -> String {
        let (p, limited) = (feet(q.p), q.limit != NO_LIMIT);
        match self {
            Meaning::Conflict(explained) => explained.text(q),
            Meaning::NeverWithin if limited => {
                format!("the intruder does not come within {p} up to the limit")
            }
            Meaning::NeverWithin => format!("the intruder never comes within {p}"),
            Meaning::Clear(side) => {
                let path = match (q.sides, side) {
                    (1, _) => "",
                    (_, Side::Lower) => " the lower path",
                    (_, Side::Upper) => " the upper path",
                };
                let until = if limited { ", up to the limit" } else { "" };
                format!(
                    "the intruder is more than {} {}{path} whenever it is within {p}{until}",
                    feet(q.k),
                    direction(clear_above(q, *side))
                )
            }
        }
    }
}

#[cfg(test)]
mod tests {
    use super::*;
    use crate::generate::{self, Random};
    use crate::independent::{self, Accepted, judge};

    /// The moment that the time rule found the time by.
    fn of_rule(moment: independent::Moment) -> &'static [Moment] {
        match moment {
            independent::Moment::Start => &[Moment::Start, Moment::ComesWithin],
            independent::Moment::EndOfDelay => &[Moment::DelayEnds],
            independent::Moment::Turning => &[Moment::SameSpeed],
            independent::Moment::End => &[Moment::Limit, Moment::LastWithin],
            independent::Moment::WholeSecond => &[Moment::WholeSecond],
        }
    }

    #[test]
    fn moments_are_those_of_the_time_rule() {
        for i in 0..100_000 {
            let q = generate::question(1, i);
            let Ok(x) = Accepted::of(&q) else { continue };
            for meaning in meanings(&q, &judge(&q)) {
                let Meaning::Conflict(found) = meaning else {
                    continue;
                };
                let shown = match found.side {
                    Side::Lower => x.lower_shown(),
                    Side::Upper => x.upper_shown(x.upper.unwrap()),
                };
                let rule = of_rule(shown.unwrap().1);
                assert!(rule.contains(&found.moment), "{q}: {found:?}");
            }
        }
    }

    /// Times of the window, its ends among them.
    fn times(q: &Question, random: &mut Random) -> Vec<Ratio> {
        let start = comes_within(q).unwrap();
        let ends = [limit(q), leaves(q), Some(start + Ratio::whole(100))];
        let end = ends.into_iter().flatten().min().unwrap();
        let parts = [0, 1024]
            .into_iter()
            .chain((0..4).map(|_| random.below(1025)));
        parts
            .map(|part| (start + (i128::from(part) * (end - start)).over(1024)).lowest())
            .collect()
    }

    #[test]
    fn what_is_said_of_a_clear_side_holds_at_times_of_the_window() {
        let mut random = Random::new(1);
        for i in 0..100_000 {
            let q = generate::question(2, i);
            for meaning in meanings(&q, &judge(&q)) {
                let Meaning::Clear(side) = meaning else {
                    continue;
                };
                let up = if clear_above(&q, side) { 1 } else { -1 };
                for t in times(&q, &mut random) {
                    let clear = up * above_path(&q, side, t);
                    assert!(clear > wide(q.k), "{q}: {side:?} at {t}");
                }
            }
        }
    }
}
