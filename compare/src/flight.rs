//! A candidate's flight, written from document 02, "Judging a candidate's flight": its refusals, whether
//! it obeys, and in which second it is first inside the puck.
//!
//! All is in upward numbers, as they are handed in. *Obeying* is decided for each stretch, cut at d: of a
//! speed that changes evenly the least is at an end. *Being inside* is decided for each second, cut to
//! the times at which the intruder is near: the exact extremes of the height difference there are held
//! against the band. Both give an instant as evidence, which `obeys_at` and `inside_at` test by what
//! document 02 says of a single instant.

use crate::exact::Ratio;
use crate::generate::Random;
use crate::independent::{Answer, NO_LIMIT, Question, judge, refusal};
use crate::motion;

/// The numbers handed in: the question is one-sided, its upper fields are 0.
#[derive(Clone, Debug, PartialEq, Eq)]
pub struct FlightCase {
    pub question: Question,
    /// Pairs of acceleration and seconds.
    pub flight: Vec<i64>,
}

/// Whether it obeys, and the second in which it is first inside.
#[derive(Clone, Copy, Debug, PartialEq, Eq)]
pub struct Flown {
    pub obeys: bool,
    pub inside: Option<u64>,
}

/// What is said of a flight, or the refusal.
pub type FlightAnswer = Result<Flown, u8>;

pub const ACCELERATION: (i64, i64) = (-2_000, 2_000);
pub const SECONDS: (i64, i64) = (1, 600);
pub const MOST_STRETCHES: usize = 64;
pub const MOST_SECONDS: i64 = 600;

/// Where in a second the flight is found inside.
#[derive(Clone, Copy, Debug, PartialEq, Eq)]
pub enum Place {
    /// The first instant of the second, or at which the intruder is near.
    Start,
    /// The instant at which the height difference turns.
    Turning,
    /// The last instant at which the intruder is near, or the flight's.
    End,
    /// Between these: at none of them, the band lies between two.
    Between,
}

/// A time inside the puck, of the first second that has one.
#[derive(Clone, Copy, Debug)]
pub struct Entry {
    pub second: i128,
    pub time: Ratio,
    pub place: Place,
}

/// One acceleration, from a whole second to another.
#[derive(Clone, Copy, Debug)]
struct Stretch {
    from: i128,
    to: i128,
    acceleration: i128,
    /// At its first instant.
    speed: i128,
    twice_height: i128,
}

/// An accepted flight.
#[derive(Clone, Debug)]
pub struct Flight {
    question: Question,
    stretches: Vec<Stretch>,
}

fn wide(n: i64) -> Ratio {
    Ratio::whole(i128::from(n))
}

/// "A flight outside these sizes."
fn outside_sizes(flight: &[i64]) -> bool {
    let within = |(from, to): (i64, i64), n: i64| from <= n && n <= to;
    let count = flight.len() / 2;
    let paired = flight.len() == 2 * count;
    let sound = |pair: &[i64]| within(ACCELERATION, pair[0]) && within(SECONDS, pair[1]);
    !paired
        || count == 0
        || count > MOST_STRETCHES
        || !flight.chunks(2).all(sound)
        || flight.chunks(2).map(|pair| pair[1]).sum::<i64>() > MOST_SECONDS
}

impl FlightCase {
    /// The refusal: "after the refusals of encounter, puck, e and advice".
    pub fn refusal(&self) -> Option<u8> {
        refusal(&self.question).or_else(|| outside_sizes(&self.flight).then_some(18))
    }

    pub fn answer(&self) -> FlightAnswer {
        Flight::of(self).map(|flight| flight.flown())
    }

    /// Climb for descend, with all heights and speeds turned over.
    pub fn turned_over(&self) -> FlightCase {
        let q = self.question;
        FlightCase {
            question: Question {
                sense: 1 - q.sense,
                h: -q.h,
                v: -q.v,
                vi: -q.vi,
                target: -q.target,
                ..q
            },
            flight: self.flight.chunks(2).flat_map(|x| [-x[0], x[1]]).collect(),
        }
    }
}

impl Flight {
    pub fn of(case: &FlightCase) -> Result<Flight, u8> {
        if let Some(number) = case.refusal() {
            return Err(number);
        }
        let mut stretches = Vec::new();
        let mut from = 0;
        let mut speed = i128::from(case.question.v);
        let mut twice_height = 0;
        for pair in case.flight.chunks(2) {
            let (acceleration, seconds) = (i128::from(pair[0]), i128::from(pair[1]));
            stretches.push(Stretch {
                from,
                to: from + seconds,
                acceleration,
                speed,
                twice_height,
            });
            from += seconds;
            twice_height += (2 * speed + acceleration * seconds) * seconds;
            speed += acceleration * seconds;
        }
        Ok(Flight {
            question: case.question,
            stretches,
        })
    }

    pub fn flown(&self) -> Flown {
        Flown {
            obeys: self.violation().is_none(),
            inside: self.entry(self.end()).map(|entry| entry.second as u64),
        }
    }

    /// The last instant.
    pub fn end(&self) -> Ratio {
        Ratio::whole(self.stretches.last().expect("one stretch at least").to)
    }

    fn sensed(&self, n: Ratio) -> Ratio {
        if self.question.sense == 1 { n } else { -n }
    }

    /// The stretch that owns t; for the flight's last instant the last one.
    fn stretch_at(&self, t: Ratio) -> &Stretch {
        let owns = |stretch: &&Stretch| t < Ratio::whole(stretch.to);
        let last = self.stretches.last().expect("one stretch at least");
        self.stretches.iter().find(owns).unwrap_or(last)
    }

    /// The upward speed at t.
    pub fn speed(&self, t: Ratio) -> Ratio {
        let x = self.stretch_at(t);
        Ratio::whole(x.speed) + x.acceleration * (t - Ratio::whole(x.from))
    }

    /// The height at t: the area under the speed.
    pub fn height(&self, t: Ratio) -> Ratio {
        let mut twice = Ratio::ZERO;
        for x in &self.stretches {
            let from = Ratio::whole(x.from);
            if t <= from {
                break;
            }
            let time = t.min(Ratio::whole(x.to)) - from;
            let ends = Ratio::whole(2 * x.speed) + x.acceleration * time;
            twice = (twice + (ends * time).lowest()).lowest();
        }
        twice.over(2)
    }

    /// "Inside the puck, edges included" at t.
    pub fn inside_at(&self, t: Ratio) -> bool {
        let q = &self.question;
        let ahead = wide(q.r) - i128::from(q.c) * t;
        let above = wide(q.h) + i128::from(q.vi) * t - self.height(t);
        let within = |x: Ratio, most: i64| x <= wide(most) && -x <= wide(most);
        within(ahead, q.p) && within(above, q.k)
    }

    /// Whether the instant t, before the end, obeys.
    pub fn obeys_at(&self, t: Ratio) -> bool {
        let q = &self.question;
        let acceleration = Ratio::whole(self.stretch_at(t).acceleration);
        if t < wide(q.delay) {
            return acceleration <= wide(q.e) && -acceleration <= wide(q.e);
        }
        self.sensed(self.speed(t)) >= self.sensed(wide(q.target))
            || self.sensed(acceleration) >= wide(q.strength)
    }

    /// An instant that does not obey.
    pub fn violation(&self) -> Option<Ratio> {
        self.stretches.iter().find_map(|x| self.violation_in(x))
    }

    /// "A stretch across the end of the delay must obey each rule on its side."
    fn violation_in(&self, x: &Stretch) -> Option<Ratio> {
        let q = &self.question;
        let d = i128::from(q.delay);
        if x.from < d && x.acceleration.abs() > i128::from(q.e) {
            return Some(Ratio::whole(x.from));
        }
        let from = x.from.max(d);
        let w = if q.sense == 1 { 1 } else { -1 };
        let (gain, target) = (w * x.acceleration, w * i128::from(q.target));
        if from >= x.to || gain >= i128::from(q.strength) {
            return None;
        }
        let speed_at = |t: i128| w * x.speed + gain * (t - x.from);
        if speed_at(from) < target {
            return Some(Ratio::whole(from));
        }
        // The last instant is not the stretch's, but a speed below the target there is a whole one
        // below, and already below it a little earlier.
        let earlier = Ratio::whole(x.to) - Ratio::new(1, gain.abs() + 1);
        (speed_at(x.to) < target).then_some(earlier)
    }

    /// From when to when the intruder is near, whatever the limit.
    fn near(&self) -> Option<(Ratio, Option<Ratio>)> {
        let q = &self.question;
        let [r, c, p] = [q.r, q.c, q.p].map(i128::from);
        if c == 0 {
            return (r.abs() <= p).then_some((Ratio::ZERO, None));
        }
        let (from, to) = (Ratio::new(r - p, c), Ratio::new(r + p, c));
        (to >= Ratio::ZERO).then_some((from.max(Ratio::ZERO), Some(to)))
    }

    /// The first second with a time inside that is no later than `until`.
    pub fn entry(&self, until: Ratio) -> Option<Entry> {
        let (start, leaves) = self.near()?;
        let until = until.min(self.end());
        let last = leaves.map_or(until, |leaves| leaves.min(until));
        if last < start {
            return None;
        }
        (start.floor()..=last.floor()).find_map(|second| {
            let from = start.max(Ratio::whole(second));
            let next = Ratio::whole(second + 1);
            // The second's end is the next one's.
            let part = if last < next {
                Part {
                    from,
                    to: last,
                    owned: true,
                }
            } else {
                Part {
                    from,
                    to: next,
                    owned: false,
                }
            };
            let (time, place) = self
                .difference(second)
                .within(part, i128::from(self.question.k))?;
            Some(Entry {
                second,
                time,
                place,
            })
        })
    }

    /// The height of the intruder above the flight during a second.
    fn difference(&self, second: i128) -> Difference {
        let q = &self.question;
        let x = self.stretch_at(Ratio::whole(second));
        let [h, vi] = [q.h, q.vi].map(i128::from);
        Difference {
            origin: x.from,
            coefficients: [
                -x.acceleration,
                2 * (vi - x.speed),
                2 * (h + vi * x.from) - x.twice_height,
            ],
        }
    }
}

/// A part of a second. Its first instant is its own; its last is, or not.
#[derive(Clone, Copy, Debug)]
struct Part {
    from: Ratio,
    to: Ratio,
    owned: bool,
}

/// Twice a height difference: x₂ s² + x₁ s + x₀ with s = t − origin.
#[derive(Clone, Copy, Debug)]
struct Difference {
    origin: i128,
    coefficients: [i128; 3],
}

impl Difference {
    fn at(&self, t: Ratio) -> Ratio {
        let [x2, x1, x0] = self.coefficients;
        let m = t.den;
        let n = t.num - self.origin * m;
        Ratio::new(x2 * n * n + x1 * n * m + x0 * m * m, m * m)
    }

    fn turning(&self) -> Option<Ratio> {
        let [x2, x1, _] = self.coefficients;
        (x2 != 0).then(|| Ratio::new(self.origin * 2 * x2 - x1, 2 * x2).lowest())
    }

    /// A time of the part at which the difference is at most k, if there is one.
    fn within(&self, part: Part, k: i128) -> Option<(Ratio, Place)> {
        let band = Ratio::whole(2 * k);
        let inside = |t: Ratio| self.at(t) <= band && -self.at(t) <= band;
        let turning = self.turning().filter(|t| part.from < *t && *t < part.to);
        let mut own = vec![(part.from, Place::Start)];
        own.extend(turning.map(|t| (t, Place::Turning)));
        if part.owned {
            own.push((part.to, Place::End));
        }
        if let Some(found) = own.iter().find(|(t, _)| inside(*t)) {
            return Some(*found);
        }
        // None of its own extremes is in the band. What lies on both sides of it passes through;
        // towards an end that is not its own it must get in before that end.
        let above = own.iter().find(|(t, _)| self.at(*t) > band);
        let below = own.iter().find(|(t, _)| -self.at(*t) > band);
        let far = match (above, below) {
            (Some((t, _)), Some((u, _))) => Some((*t, *u)),
            _ if part.owned => None,
            (Some((t, _)), None) => (self.at(part.to) < band).then_some((*t, part.to)),
            (None, Some((t, _))) => (-self.at(part.to) < band).then_some((*t, part.to)),
            (None, None) => unreachable!("the first instant is outside the band"),
        };
        far.map(|(t, u)| (self.between(t, u, band), Place::Between))
    }

    /// A time in the band between one outside it and one that is in it or beyond.
    fn between(&self, mut outside: Ratio, mut other: Ratio, band: Ratio) -> Ratio {
        let above = self.at(outside) > band;
        loop {
            let middle = (outside + other).over(2).lowest();
            let at = self.at(middle);
            if at <= band && -at <= band {
                return middle;
            }
            if (at > band) == above {
                outside = middle;
            } else {
                other = middle;
            }
        }
    }
}

/// The flight's end or the limit, whichever is earlier.
fn judged_until(q: &Question, flight: &Flight) -> Ratio {
    if q.limit == NO_LIMIT {
        flight.end()
    } else {
        flight.end().min(wide(q.limit))
    }
}

/// What is wrong with an answer, if anything is: its evidence; the answer to the flight turned over;
/// at sampled times both rules; and where it obeys, the lower path and the verdict.
pub fn unsound(case: &FlightCase, random: &mut Random) -> Option<String> {
    let flight = Flight::of(case).ok()?;
    let flown = flight.flown();
    let end = flight.end();
    if case.turned_over().answer() != Ok(flown) {
        return Some("turned over, it has another answer".into());
    }
    let violation = flight.violation();
    if let Some(t) = violation
        && (t >= end || flight.obeys_at(t))
    {
        return Some(format!("at {t} it obeys"));
    }
    let entry = flight.entry(end);
    if let Some(Entry { second, time, .. }) = entry
        && (time.floor() != second || time > end || !flight.inside_at(time))
    {
        return Some(format!(
            "at {time} it is not inside, or not in second {second}"
        ));
    }
    for t in sampled(case, &flight, random) {
        if violation.is_none() && t < end && !flight.obeys_at(t) {
            return Some(format!("at {t} it does not obey"));
        }
        if entry.is_none_or(|entry| t.floor() < entry.second) && flight.inside_at(t) {
            return Some(format!("at {t} it is inside"));
        }
        if violation.is_none() && below_path(&case.question, &flight, t) {
            return Some(format!("it obeys, and at {t} it is below the lower path"));
        }
    }
    let clear = matches!(judge(&case.question), Answer::Clear(_));
    let inside = flight.entry(judged_until(&case.question, &flight));
    match inside {
        Some(entry) if clear && violation.is_none() => {
            Some(format!("clear and obeying, but inside at {}", entry.time))
        }
        _ => None,
    }
}

/// Whether the sensed height, from a level that moves with the intruder, is below f.
fn below_path(q: &Question, flight: &Flight, t: Ratio) -> bool {
    let height = flight.sensed(flight.height(t) - i128::from(q.vi) * t);
    height.lowest() < motion::lower_height(q, t).lowest()
}

/// Times of the flight: its end, where the intruder comes near and leaves, d, whole seconds, any.
fn sampled(case: &FlightCase, flight: &Flight, random: &mut Random) -> Vec<Ratio> {
    let end = flight.end();
    let mut times = vec![Ratio::ZERO, end, wide(case.question.delay)];
    if let Some((start, leaves)) = flight.near() {
        times.push(start);
        times.extend(leaves);
        let last = leaves.map_or(end, |leaves| leaves.min(end));
        if start < last {
            let part = i128::from(random.below(65));
            times.push((start + (part * (last - start)).over(64)).lowest());
        }
    }
    let seconds = end.floor() as u64;
    for _ in 0..3 {
        times.push(Ratio::whole(i128::from(random.below(seconds))));
        let n = random.below(seconds * 60);
        times.push(Ratio::new(i128::from(n), 60).lowest());
    }
    times.retain(|t| *t <= end);
    times
}

/// Whether a judge's own answers are against what is proved: the verdict is clear, the flight obeys, and
/// it is inside before the limit.
pub fn breaks_theorem(q: &Question, clear: bool, answer: FlightAnswer) -> bool {
    let early = |second: u64| q.limit == NO_LIMIT || i128::from(second) < i128::from(q.limit);
    clear && answer.is_ok_and(|flown| flown.obeys && flown.inside.is_some_and(early))
}

/// A flight as a class sees it.
pub struct Seen<'a> {
    pub case: &'a FlightCase,
    pub answer: FlightAnswer,
    flight: Option<Flight>,
    entry: Option<Entry>,
    clear: bool,
    /// Inside no later than the limit.
    in_time: bool,
}

impl Seen<'_> {
    pub fn of(case: &FlightCase) -> Seen<'_> {
        let flight = Flight::of(case);
        let answer = flight.as_ref().map(Flight::flown).map_err(|number| *number);
        let flight = flight.ok();
        let entry = flight
            .as_ref()
            .and_then(|flight| flight.entry(flight.end()));
        let early = |flight: &Flight| flight.entry(judged_until(&case.question, flight)).is_some();
        Seen {
            case,
            answer,
            entry,
            clear: flight.is_some() && matches!(judge(&case.question), Answer::Clear(_)),
            in_time: flight.as_ref().is_some_and(early),
            flight,
        }
    }

    fn obeys(&self) -> bool {
        self.answer.is_ok_and(|flown| flown.obeys)
    }

    fn disobeys(&self) -> bool {
        self.answer.is_ok_and(|flown| !flown.obeys)
    }

    fn inside(&self) -> bool {
        self.entry.is_some()
    }

    fn never(&self) -> bool {
        self.answer.is_ok() && self.entry.is_none()
    }

    fn place(&self) -> Option<Place> {
        self.entry.map(|entry| entry.place)
    }

    fn seconds(&self) -> i64 {
        self.flight
            .as_ref()
            .map_or(0, |flight| flight.end().floor() as i64)
    }

    fn inside_in(&self, second: i64) -> bool {
        self.entry
            .is_some_and(|entry| entry.second == i128::from(second))
    }

    /// On the band's edge, upper or lower, at the time found.
    fn on_edge(&self) -> bool {
        let (Some(flight), Some(entry)) = (&self.flight, self.entry) else {
            return false;
        };
        let difference = flight.difference(entry.second).at(entry.time);
        let band = wide(2 * self.case.question.k);
        difference == band || -difference == band
    }

    /// On the edge of the puck's radius at the time found.
    fn on_rim(&self) -> bool {
        let q = &self.case.question;
        let ahead = |t: Ratio| wide(q.r) - i128::from(q.c) * t;
        self.entry.is_some_and(|entry| {
            let ahead = ahead(entry.time);
            ahead == wide(q.p) || -ahead == wide(q.p)
        })
    }

    fn any(&self, holds: impl Fn(&Question, &Stretch) -> bool) -> bool {
        let stretches = self.flight.iter().flat_map(|flight| &flight.stretches);
        stretches.into_iter().any(|x| holds(&self.case.question, x))
    }

    /// A stretch that slows to the target, or to one below it, at its end.
    fn slows_to(&self, below: i128) -> bool {
        self.any(|q, x| {
            let w = if q.sense == 1 { 1 } else { -1 };
            let at_end = w * (x.speed + x.acceleration * (x.to - x.from));
            x.from >= i128::from(q.delay)
                && w * x.acceleration < 0
                && at_end == w * i128::from(q.target) - below
        })
    }
}

/// A class of flights that a run must meet.
pub type FlightClass = (&'static str, fn(&Seen) -> bool);

pub const FLIGHT_CLASSES: [FlightClass; 62] = [
    ("obeys, never inside", |x| x.obeys() && x.never()),
    ("obeys, inside", |x| x.obeys() && x.inside()),
    ("does not obey, never inside", |x| x.disobeys() && x.never()),
    ("does not obey, inside", |x| x.disobeys() && x.inside()),
    ("clear, obeys", |x| x.clear && x.obeys()),
    ("clear, obeys, near within the limit", |x| {
        x.clear
            && x.obeys()
            && x.flight.as_ref().is_some_and(|flight| {
                flight
                    .near()
                    .is_some_and(|(start, _)| start <= judged_until(&x.case.question, flight))
            })
    }),
    ("clear, obeys, inside after the limit", |x| {
        x.clear && x.obeys() && x.inside()
    }),
    ("clear, does not obey, inside within the limit", |x| {
        x.clear && x.disobeys() && x.in_time
    }),
    ("conflict, obeys, inside within the limit", |x| {
        !x.clear && x.obeys() && x.in_time
    }),
    ("conflict, obeys, never inside", |x| {
        !x.clear && x.obeys() && x.never()
    }),
    ("climb, obeys", |x| x.case.question.sense == 1 && x.obeys()),
    ("descend, obeys", |x| {
        x.case.question.sense == 0 && x.obeys()
    }),
    ("inside in second 0", |x| x.inside_in(0)),
    ("inside in second 599", |x| x.inside_in(599)),
    ("inside in second 600", |x| x.inside_in(600)),
    ("inside at the flight's last instant alone", |x| {
        x.answer.is_ok() && x.inside_in(x.seconds())
    }),
    ("inside in the flight's last second", |x| {
        x.answer.is_ok() && x.inside_in(x.seconds() - 1)
    }),
    ("inside where near begins, between seconds", |x| {
        x.place() == Some(Place::Start) && x.entry.is_some_and(|entry| !entry.time.is_whole())
    }),
    ("touches at a turning instant alone", |x| {
        x.place() == Some(Place::Turning) && x.on_edge()
    }),
    ("deeper at a turning instant", |x| {
        x.place() == Some(Place::Turning) && !x.on_edge()
    }),
    ("enters between the instants tried", |x| {
        x.place() == Some(Place::Between)
    }),
    ("jumps over the band within a second", |x| {
        x.place() == Some(Place::Between)
            && x.flight.as_ref().is_some_and(|flight| {
                let second = x.entry.expect("found").second;
                let ends = [second, second + 1].map(Ratio::whole);
                ends.iter()
                    .all(|t| *t <= flight.end() && !flight.inside_at(*t))
            })
    }),
    ("inside where near ends alone", |x| {
        x.place() == Some(Place::End)
    }),
    ("on the band's edge at a whole second", |x| {
        x.place() == Some(Place::Start)
            && x.entry
                .is_some_and(|entry| entry.time.is_whole() && entry.second > 0)
            && x.on_edge()
    }),
    ("on the puck's rim", |x| x.on_rim()),
    ("on the puck's rim and the band's edge", |x| {
        x.on_rim() && x.on_edge()
    }),
    ("on the rim at the flight's last instant alone", |x| {
        x.on_rim() && x.answer.is_ok() && x.inside_in(x.seconds())
    }),
    ("c = 0, inside", |x| x.case.question.c == 0 && x.inside()),
    ("c = 0, r = p", |x| {
        x.inside() && x.case.question.c == 0 && x.case.question.r == x.case.question.p
    }),
    ("c = 0, r = −p", |x| {
        x.inside() && x.case.question.c == 0 && x.case.question.r == -x.case.question.p
    }),
    ("c = 0, r one beyond p", |x| {
        x.never() && x.case.question.c == 0 && x.case.question.r.abs() == x.case.question.p + 1
    }),
    ("p = 0, inside", |x| x.case.question.p == 0 && x.inside()),
    ("k = 1, inside", |x| x.case.question.k == 1 && x.inside()),
    ("a stretch ends at d, obeys", |x| {
        x.obeys() && x.any(|q, x| x.to == i128::from(q.delay))
    }),
    ("a stretch across d, obeys", |x| {
        x.obeys() && x.any(|q, x| x.from < i128::from(q.delay) && i128::from(q.delay) < x.to)
    }),
    ("a stretch across d, does not obey", |x| {
        x.disobeys() && x.any(|q, x| x.from < i128::from(q.delay) && i128::from(q.delay) < x.to)
    }),
    ("shorter than d, obeys", |x| {
        x.obeys() && x.seconds() < x.case.question.delay
    }),
    ("ends at d, obeys", |x| {
        x.obeys() && x.case.question.delay > 0 && x.seconds() == x.case.question.delay
    }),
    ("e before d, obeys", |x| {
        x.obeys()
            && x.any(|q, x| {
                x.from < i128::from(q.delay) && x.acceleration == i128::from(q.e) && q.e > 0
            })
    }),
    ("−e before d, obeys", |x| {
        x.obeys()
            && x.any(|q, x| {
                x.from < i128::from(q.delay) && x.acceleration == -i128::from(q.e) && q.e > 0
            })
    }),
    ("one more than e before d", |x| {
        x.disobeys()
            && x.any(|q, x| x.from < i128::from(q.delay) && x.acceleration == i128::from(q.e) + 1)
    }),
    ("one less than −e before d", |x| {
        x.disobeys()
            && x.any(|q, x| x.from < i128::from(q.delay) && x.acceleration == -i128::from(q.e) - 1)
    }),
    ("more than e from d on, obeys", |x| {
        x.obeys()
            && x.any(|q, x| x.from >= i128::from(q.delay) && x.acceleration.abs() > i128::from(q.e))
    }),
    ("just the strength, obeys", |x| {
        x.obeys()
            && x.any(|q, x| {
                let w = if q.sense == 1 { 1 } else { -1 };
                x.from >= i128::from(q.delay)
                    && w * x.acceleration == i128::from(q.strength)
                    && w * x.speed < w * i128::from(q.target)
            })
    }),
    ("one less than the strength, too slow", |x| {
        x.disobeys()
            && x.any(|q, x| {
                let w = if q.sense == 1 { 1 } else { -1 };
                x.from >= i128::from(q.delay)
                    && w * x.acceleration == i128::from(q.strength) - 1
                    && w * x.speed < w * i128::from(q.target)
            })
    }),
    ("slows to the target at a stretch's end, obeys", |x| {
        x.obeys() && x.slows_to(0)
    }),
    ("slows to one below the target", |x| {
        x.disobeys() && x.slows_to(1)
    }),
    ("64 stretches", |x| {
        x.answer.is_ok() && x.case.flight.len() == 128
    }),
    ("600 seconds in one stretch", |x| {
        x.seconds() == 600 && x.case.flight.len() == 2
    }),
    ("600 seconds, obeys", |x| x.seconds() == 600 && x.obeys()),
    ("one second", |x| x.seconds() == 1),
    ("flight refused, 1", |x| x.answer == Err(1)),
    ("flight refused, 2", |x| x.answer == Err(2)),
    ("flight refused, 3", |x| x.answer == Err(3)),
    ("flight refused, 4", |x| x.answer == Err(4)),
    ("flight refused, 5", |x| x.answer == Err(5)),
    ("flight refused, 14", |x| x.answer == Err(14)),
    ("flight refused, 6", |x| x.answer == Err(6)),
    ("flight refused, 18", |x| x.answer == Err(18)),
    ("18 after another refusal", |x| {
        x.answer.is_err_and(|number| number != 18) && outside_sizes(&x.case.flight)
    }),
    ("no number", |x| {
        x.answer == Err(18) && x.case.flight.is_empty()
    }),
    (
        "65 stretches within their limits, 600 seconds at most",
        |x| {
            let pairs: Vec<_> = x.case.flight.chunks(2).collect();
            x.answer == Err(18)
                && pairs.len() == MOST_STRETCHES + 1
                && pairs.iter().all(|pair| !outside_sizes(pair))
                && pairs.iter().map(|pair| pair[1]).sum::<i64>() <= MOST_SECONDS
        },
    ),
];
