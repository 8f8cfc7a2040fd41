//! Seeded flights, biased to edges: pilots who obey on purpose, who nearly do, and who fly as they like.
//! The intruder is then put where the flight meets the puck's edge, or misses it by a grain. Case number
//! i of a seed is always the same.

use crate::exact::Ratio;
use crate::flight::{ACCELERATION, Flight, FlightCase, MOST_SECONDS, MOST_STRETCHES, SECONDS};
use crate::generate::{self, Random, beyond};
use crate::independent::{Question, RANGES};

/// Flight number `index` of a seed. About one in eight is refused.
pub fn flight(seed: u64, index: u64) -> FlightCase {
    let mut random = Random::of_case(seed ^ 0xf117, index);
    let random = &mut random;
    let case = accepted(random);
    match random.below(24) {
        0 => ill_asked(random, case),
        1 => ill_flown(random, case),
        2 => {
            let case = ill_asked(random, case);
            ill_flown(random, case)
        }
        _ => case,
    }
}

/// A flight that is accepted.
pub fn accepted(random: &mut Random) -> FlightCase {
    let mut q = one_sided(generate::accepted(random));
    if random.chance(1, 3) {
        q.e = random.edgy(RANGES[7]);
        q.delay = random.edgy(RANGES[14]);
    }
    let flight = match random.below(16) {
        0 | 1 => any_flight(random),
        2 => hop(random, &mut q),
        3 => beside(random, &mut q),
        4..=6 => {
            let flight = obeying(random, &q);
            nearly(random, flight)
        }
        _ => obeying(random, &q),
    };
    let mut case = FlightCase {
        question: q,
        flight,
    };
    if random.chance(7, 8) {
        meet(random, &mut case);
    }
    case
}

/// The question asked one-sided.
fn one_sided(q: Question) -> Question {
    Question {
        sides: 1,
        upper_target: 0,
        upper_strength: 0,
        ..q
    }
}

/// How many seconds, and at most how many stretches.
fn sizes(random: &mut Random) -> (i64, usize) {
    let seconds = match random.below(8) {
        0 => random.pick(&[1, 2, MOST_SECONDS, MOST_SECONDS - 1]),
        1..=4 => random.between(1, 40),
        5 => random.between(1, 90),
        _ => random.between(SECONDS.0, SECONDS.1),
    };
    let stretches = match random.below(8) {
        0 => MOST_STRETCHES,
        1 => 1,
        2 => random.between(1, MOST_STRETCHES as i64) as usize,
        _ => random.between(1, 6) as usize,
    };
    (seconds, stretches)
}

/// Any accelerations.
fn any_flight(random: &mut Random) -> Vec<i64> {
    let (seconds, stretches) = sizes(random);
    let mut left = seconds;
    let mut flight = Vec::new();
    while left > 0 && flight.len() < 2 * stretches {
        let last = flight.len() + 2 == 2 * stretches;
        let length = if last { left } else { random.between(1, left) };
        flight.extend([random.edgy(ACCELERATION), length]);
        left -= length;
    }
    flight
}

/// A flight that turns, seen from the intruder, half-way through a second, at a whole height.
fn hop(random: &mut Random, q: &mut Question) -> Vec<i64> {
    let gain = 8 * random.between(1, 250) * random.pick(&[1, -1]);
    let seconds = random.between(0, 4);
    q.vi = random.between(-1_000, 1_000);
    q.v = q.vi - gain / 2 * (2 * seconds + 1);
    let w = if q.sense == 1 { 1 } else { -1 };
    let length = seconds + 1 + random.between(0, 1);
    let slowest = (w * q.v).min(w * (q.v + gain * length));
    q.target = w * slowest.max(-10_000);
    q.delay = 0;
    vec![gain, length]
}

/// A long flight that stays beside the intruder.
fn beside(random: &mut Random, q: &mut Question) -> Vec<i64> {
    q.v = q.vi;
    q.target = q.vi;
    q.c = random.between(0, 19_000);
    let seconds = MOST_SECONDS - random.pick(&[0, 0, 0, 1, 2]);
    let gain = within(random, (0, q.e)) * if q.sense == 1 { 1 } else { -1 };
    match random.below(3) {
        0 => vec![0, seconds],
        1 => vec![gain, 1, -gain, 1, 0, seconds - 2],
        _ => vec![0, seconds - 2, gain, 1, -gain, 1],
    }
}

/// A pilot who obeys: before d within e; then at least the strength until the target, and from there on
/// anything that keeps the speed.
fn obeying(random: &mut Random, q: &Question) -> Vec<i64> {
    let (seconds, stretches) = sizes(random);
    let w = if q.sense == 1 { 1 } else { -1 };
    let slow = q.target * w;
    // 64 stretches want short ones.
    let short = (2 * seconds / stretches as i64).max(1);
    let (mut now, mut speed) = (0, q.v * w);
    let mut flight = Vec::new();
    while now < seconds && flight.len() < 2 * stretches {
        let last = flight.len() + 2 == 2 * stretches;
        let most = if last {
            seconds - now
        } else {
            short.min(seconds - now)
        };
        let mut length = if last { most } else { random.between(1, most) };
        let before = now < q.delay;
        if before && random.chance(1, 2) {
            // up to d, or just past it
            length = (q.delay - now + random.pick(&[0, 0, 0, 1])).min(seconds - now);
        }
        let across = before && now + length > q.delay;
        let late = now + length - q.delay.max(now);
        let early = length - late;
        let mut gain = if before {
            w * within(random, (-q.e, q.e))
        } else {
            fast_enough(random, q.strength, slow, speed, length)
        };
        if across {
            let obeys = gain >= q.strength
                || (speed + gain * early >= slow && speed + gain * length >= slow);
            if !obeys && q.e >= q.strength {
                gain = random.between(q.strength, q.e);
            } else if !obeys {
                // not across then
                length = early;
            }
        }
        flight.extend([w * gain, length]);
        now += length;
        speed += gain * length;
    }
    flight
}

/// A number within limits, often at their ends or 0.
fn within(random: &mut Random, (from, to): (i64, i64)) -> i64 {
    match random.below(4) {
        0 => from,
        1 => to,
        2 => 0.clamp(from, to),
        _ => random.between(from, to),
    }
}

/// A sensed acceleration under the advice.
fn fast_enough(random: &mut Random, strength: i64, slow: i64, speed: i64, length: i64) -> i64 {
    let strong = |random: &mut Random| match random.below(3) {
        0 => strength,
        _ => within(random, (strength, ACCELERATION.1)),
    };
    if speed < slow {
        return strong(random);
    }
    // the least that keeps the speed, rounded up
    let least = -((speed - slow) / length);
    let from = least.clamp(ACCELERATION.0, ACCELERATION.1);
    match random.below(4) {
        0 | 1 => from,
        2 => strong(random),
        _ => within(random, (from, 0)),
    }
}

/// One number of one stretch changed a little.
fn nearly(random: &mut Random, mut flight: Vec<i64>) -> Vec<i64> {
    let i = random.below(flight.len() as u64 / 2) as usize;
    let seconds: i64 = flight.chunks(2).map(|pair| pair[1]).sum();
    if random.chance(2, 3) {
        let by = random.pick(&[1, -1, 1, -1, 2, -2, 100, -100]);
        flight[2 * i] = (flight[2 * i] + by).clamp(ACCELERATION.0, ACCELERATION.1);
    } else if random.chance(1, 2) && seconds < MOST_SECONDS {
        flight[2 * i + 1] += 1;
    } else if flight[2 * i + 1] > 1 {
        flight[2 * i + 1] -= 1;
    }
    flight
}

/// Puts the intruder where the flight meets it at a chosen time, at the puck's edge or a grain from it.
fn meet(random: &mut Random, case: &mut FlightCase) {
    let flight = Flight::of(case).expect("generated within limits");
    let end = flight.end();
    let seconds = end.floor() as i64;
    let second = Ratio::whole(i128::from(random.between(0, seconds)));
    let part = Ratio::new(i128::from(random.between(1, 6)), 7);
    let t = match random.below(8) {
        0 | 1 => end,
        2 => second,
        3 => (second + part).min(end),
        4 => (second + Ratio::new(1, 2)).min(end),
        5 => Ratio::whole(i128::from(case.question.delay)).min(end),
        _ => turning(random, &flight, &case.question).unwrap_or(second),
    };
    let q = &mut case.question;
    if random.chance(1, 3) {
        q.k = random.pick(&[1, 1, 2, 10, 100]);
    }
    if random.chance(3, 4) {
        ahead(random, q, t);
    }
    let height = flight.height(t) - i128::from(q.vi) * t;
    let height = if random.chance(1, 2) {
        height.floor()
    } else {
        height.ceil()
    };
    let off = match random.below(8) {
        0 => 0,
        1 => i128::from(random.between(-q.k, q.k)),
        2 => i128::from(q.k) + 1,
        3 => -i128::from(q.k) - 1,
        4 | 5 => i128::from(q.k),
        _ => -i128::from(q.k),
    };
    let (from, to) = RANGES[1];
    q.h = (height + off).clamp(i128::from(from), i128::from(to)) as i64;
}

/// The distance: at t the intruder comes near, or is leaving, or it is near all the time.
fn ahead(random: &mut Random, q: &mut Question, t: Ratio) {
    let (from, to) = RANGES[0];
    if random.chance(1, 4) {
        q.c = 0;
    }
    let travelled = i128::from(q.c) * t;
    let travelled = if random.chance(1, 2) {
        travelled.floor()
    } else {
        travelled.ceil()
    };
    let off = match random.below(8) {
        0 | 1 => q.p,
        2 | 3 => -q.p,
        4 => q.p + 1,
        5 => -q.p - 1,
        _ => random.between(-q.p, q.p),
    };
    q.r = (travelled + i128::from(off)).clamp(i128::from(from), i128::from(to)) as i64;
}

/// A time at which the flight is as fast as the intruder, if a drawn second has one.
fn turning(random: &mut Random, flight: &Flight, q: &Question) -> Option<Ratio> {
    let seconds = flight.end().floor() as u64;
    (0..12).find_map(|_| {
        let second = Ratio::whole(i128::from(random.below(seconds)));
        let speed = flight.speed(second) - Ratio::whole(i128::from(q.vi));
        let gain = flight.speed(second + Ratio::new(1, 2)) - flight.speed(second);
        let gain = (2 * gain).lowest().num;
        let t = (gain != 0).then(|| Ratio::new(-speed.num, speed.den * gain))?;
        (Ratio::ZERO <= t && t < Ratio::whole(1)).then(|| (second + t).lowest())
    })
}

/// A fault of the encounter, the puck, e or the advice.
fn ill_asked(random: &mut Random, case: FlightCase) -> FlightCase {
    FlightCase {
        question: one_sided(generate::spoiled(random, case.question)),
        ..case
    }
}

/// A fault of the flight.
pub fn ill_flown(random: &mut Random, mut case: FlightCase) -> FlightCase {
    let flight = &mut case.flight;
    let pairs = flight.len() / 2;
    let i = random.below(pairs as u64) as usize;
    match random.below(10) {
        0 => flight.clear(),
        // an odd number of them
        1 => {
            flight.pop();
        }
        2 => flight.push(random.edgy(ACCELERATION)),
        // too many, each within its limits
        3 => {
            let count = random_count(random);
            *flight = stretches(random, count);
        }
        4 => *flight = stretches(random, 2 * MOST_STRETCHES + 2),
        5 | 6 => flight[2 * i] = beyond(random, ACCELERATION, flight[2 * i]),
        7 | 8 => flight[2 * i + 1] = beyond(random, SECONDS, flight[2 * i + 1]),
        // a second too many
        _ => {
            let others: i64 = flight.chunks(2).map(|pair| pair[1]).sum::<i64>() - flight[2 * i + 1];
            flight[2 * i + 1] = MOST_SECONDS + 1 - others;
        }
    }
    case
}

/// A slice's length, next to the most that are accepted, or long.
fn random_count(random: &mut Random) -> usize {
    let count = random.between(131, 400) as usize;
    random.pick(&[1, 127, 129, 130, 131, 1 << 10, count])
}

/// So many numbers, of stretches of one to nine seconds.
pub fn stretches(random: &mut Random, count: usize) -> Vec<i64> {
    let number = |i: usize| {
        if i.is_multiple_of(2) {
            random.edgy(ACCELERATION)
        } else {
            random.between(1, 9)
        }
    };
    (0..count).map(number).collect()
}
