//! Flights worked by hand, in groups, each with its answer.

use crate::examples::BASE;
use crate::flight::{FlightAnswer, FlightCase, Flown};
use crate::independent::{NAMES, NO_LIMIT, Question};

/// Worked flights of one kind.
pub struct Group {
    /// A file's name.
    pub name: &'static str,
    /// What the flights are, in a line.
    pub about: &'static str,
    pub cases: Vec<(FlightCase, FlightAnswer)>,
}

fn case(question: Question, flight: &[i64], answer: FlightAnswer) -> (FlightCase, FlightAnswer) {
    let flight = flight.to_vec();
    (FlightCase { question, flight }, answer)
}

/// Climb for descend, with all heights and speeds turned over: the same answer.
fn both_senses(cases: Vec<(FlightCase, FlightAnswer)>) -> Vec<(FlightCase, FlightAnswer)> {
    let over: Vec<_> = cases
        .iter()
        .map(|(case, answer)| (case.turned_over(), *answer))
        .collect();
    cases.into_iter().chain(over).collect()
}

fn obeys(inside: Option<u64>) -> FlightAnswer {
    Ok(Flown {
        obeys: true,
        inside,
    })
}

fn disobeys(inside: Option<u64>) -> FlightAnswer {
    Ok(Flown {
        obeys: false,
        inside,
    })
}

/// M5's question: climb to 0 with 500 from −1,000, the intruder 7,000 below and near for 3 s. It is a
/// conflict at 2.
const M5: Question = Question {
    c: 10_000,
    v: -1_000,
    h: -7_000,
    ..BASE
};

/// M10's question as a free one: climb to 1,500 with 483 after 5 s, e 966; the intruder stays near.
const M10: Question = Question {
    h: -42_225,
    e: 966,
    target: 1_500,
    strength: 483,
    delay: 5,
    ..BASE
};

/// Near from 5 s to 11 s, level with a flight that climbs to 0.
const RIM: Question = Question {
    r: 80_000,
    c: 10_000,
    ..BASE
};

pub fn groups() -> Vec<Group> {
    vec![
        conflict(),
        limited(),
        delayed(),
        around_target(),
        rim(),
        within_second(),
        sizes(),
        lengths(),
        extremes(),
        several_refusals(),
    ]
}

fn conflict() -> Group {
    let cases = vec![
        // The path itself: 1,000 down at 2 s, where it touches.
        case(M5, &[500, 2, 0, 10], obeys(Some(2))),
        case(M5, &[500, 2], obeys(Some(2))),
        case(M5, &[500, 1], obeys(None)),
        // 250 down at the lowest.
        case(M5, &[2_000, 1, 0, 9], obeys(None)),
        case(M5, &[499, 2, 0, 10], disobeys(Some(1))),
        case(M5, &[0, 600], disobeys(Some(1))),
        // Still too slow at 1 s, 1,000 down at 3/2 s.
        case(M5, &[500, 1, 0, 1], disobeys(Some(1))),
        case(M5, &[0, 1, 2_000, 1], disobeys(Some(1))),
    ];
    Group {
        name: "M5",
        about: "M5, a conflict at 2: flights that obey, inside and not, and that don't; and turned over",
        cases: both_senses(cases),
    }
}

fn limited() -> Group {
    let h = |h: i64, limit: i64| Question { h, limit, ..M5 };
    // The lower path is 750 down at 1 s and 1,000 at 2 s.
    let path = [500, 2, 0, 8];
    let cases = vec![
        case(h(-6_751, 1), &path, obeys(Some(1))),
        case(h(-6_750, 1), &path, obeys(Some(1))),
        case(h(-6_749, 1), &path, obeys(Some(0))),
        case(h(-7_000, 0), &path, obeys(Some(2))),
        case(h(-7_000, 600), &path, obeys(Some(2))),
        case(h(-7_001, NO_LIMIT), &path, obeys(None)),
    ];
    Group {
        name: "limits",
        about: "limits do not cut being inside: M7, clear up to 1 s, has an obeying flight that is inside later",
        cases: both_senses(cases),
    }
}

fn delayed() -> Group {
    let deeper = Question { h: -42_226, ..M10 };
    // −e for 5 s and then the strength: 36,225 down at 15 s, and 6,000 above the intruder.
    let lowest = [-966, 5, 483, 14];
    let cases = vec![
        case(M10, &lowest, obeys(Some(15))),
        case(deeper, &lowest, obeys(None)),
        case(deeper, &[-967, 5, 483, 14], disobeys(Some(14))),
        case(M10, &[966, 5, 483, 1], obeys(None)),
        case(M10, &[967, 5, 483, 1], disobeys(None)),
        // Before d alone, up to d, across it.
        case(M10, &[966, 4], obeys(None)),
        case(M10, &[-966, 4], obeys(None)),
        case(M10, &[-967, 4], disobeys(None)),
        case(M10, &[-966, 5], obeys(None)),
        case(M10, &[-966, 6], disobeys(None)),
        case(M10, &[966, 6], obeys(None)),
        case(M10, &[483, 20], obeys(None)),
        case(M10, &[299, 6], disobeys(None)),
        case(M10, &[300, 6], obeys(None)),
        // As fast as the target at d, and not.
        case(M10, &[300, 5, 0, 1], obeys(None)),
        case(M10, &[299, 5, 482, 1], disobeys(None)),
        case(M10, &[299, 5, 483, 1], obeys(None)),
        // More than e from d on.
        case(M10, &[0, 5, 2_000, 1, -500, 1], obeys(None)),
        case(M10, &[0, 5, 2_000, 1, -501, 1], disobeys(None)),
    ];
    Group {
        name: "delay",
        about: "M10's advice after 5 s: e and one more, stretches up to d, across d, short of d; and turned over",
        cases: both_senses(cases),
    }
}

fn around_target() -> Group {
    let fast = Question {
        r: 12_000_000,
        v: 2_000,
        target: 1_000,
        ..BASE
    };
    let cases = vec![
        case(fast, &[-500, 2], obeys(None)),
        case(fast, &[-500, 3], disobeys(None)),
        case(fast, &[-333, 3], obeys(None)),
        case(fast, &[-334, 3], disobeys(None)),
        case(fast, &[-500, 2, 0, 598], obeys(None)),
        case(fast, &[-500, 2, -1, 1], disobeys(None)),
        case(fast, &[0, 1, -1_000, 1], obeys(None)),
        case(fast, &[0, 1, -1_001, 1], disobeys(None)),
        case(fast, &[-1_000, 1, 500, 1, -500, 1], obeys(None)),
        // A strong gain does not repair what was slow.
        case(fast, &[-1_001, 1, 2_000, 1], disobeys(None)),
        // Too slow at first: strong until the target, which a stretch's end may just miss.
        case(Question { v: 0, ..fast }, &[500, 2, 0, 1], obeys(None)),
        case(Question { v: 0, ..fast }, &[500, 1, 499, 1], disobeys(None)),
        case(Question { v: -1, ..fast }, &[500, 2, 0, 1], disobeys(None)),
    ];
    Group {
        name: "target",
        about: "slowing to the target at a stretch's end, and to one below; gaining with the strength; and turned over",
        cases: both_senses(cases),
    }
}

fn rim() -> Group {
    let h = |h: i64| Question { h, ..RIM };
    let r = |r: i64, c: i64| Question { r, c, ..BASE };
    let radius = |p: i64| Question { p, ..r(p, 0) };
    let cases = vec![
        case(RIM, &[0, 4], obeys(None)),
        case(RIM, &[0, 5], obeys(Some(5))),
        case(RIM, &[0, 6], obeys(Some(5))),
        case(h(6_000), &[0, 5], obeys(Some(5))),
        case(h(6_001), &[0, 600], obeys(None)),
        case(h(-6_000), &[0, 5], obeys(Some(5))),
        case(h(-6_001), &[0, 600], obeys(None)),
        case(r(80_001, 10_000), &[0, 5], obeys(None)),
        case(r(80_001, 10_000), &[0, 6], obeys(Some(5))),
        case(r(-30_000, 10_000), &[0, 1], obeys(Some(0))),
        case(r(-30_001, 10_000), &[0, 600], obeys(None)),
        case(r(30_000, 0), &[0, 1], obeys(Some(0))),
        case(r(-30_000, 0), &[0, 1], obeys(Some(0))),
        case(r(30_001, 0), &[0, 600], obeys(None)),
        case(r(-30_001, 0), &[0, 600], obeys(None)),
        case(radius(0), &[0, 1], obeys(Some(0))),
        // Near from 600 s on.
        case(
            r(30_000 + 600 * 19_940, 19_940),
            &[0, 600],
            obeys(Some(600)),
        ),
        case(r(30_001 + 600 * 19_940, 19_940), &[0, 600], obeys(None)),
        case(
            r(30_000 + 599 * 19_940, 19_940),
            &[0, 600],
            obeys(Some(599)),
        ),
        case(r(30_000 + 600 * 19_940, 19_940), &[0, 599], obeys(None)),
    ];
    Group {
        name: "rim",
        about: "flights that end on the puck's rim or just before, c = 0 with r at p and one beyond, seconds 599 and 600; and turned over",
        cases: both_senses(cases),
    }
}

fn within_second() -> Group {
    // The intruder passes at 20,000.
    let passing = |h: i64| Question {
        h,
        k: 1,
        v: -10_000,
        vi: 10_000,
        target: -10_000,
        ..BASE
    };
    // Near at 3/2 alone.
    let point = |h: i64| Question {
        r: 15_000,
        c: 10_000,
        p: 0,
        ..passing(h)
    };
    // 250 up at 1/2, the highest.
    let hop = |h: i64| Question {
        h,
        v: 1_000,
        target: -1_000,
        ..BASE
    };
    let climbing = |h: i64| Question {
        h,
        v: 1_000,
        ..BASE
    };
    let cases = vec![
        case(passing(-30_000), &[0, 10], obeys(Some(1))),
        case(passing(-30_001), &[0, 10], obeys(Some(1))),
        case(passing(-20_001), &[0, 10], obeys(Some(1))),
        case(passing(-20_001), &[0, 1], obeys(Some(1))),
        case(passing(-20_002), &[0, 1], obeys(None)),
        case(passing(-20_000), &[0, 1], obeys(Some(0))),
        case(point(-29_998), &[0, 2], obeys(None)),
        case(point(-29_999), &[0, 2], obeys(Some(1))),
        case(point(-30_001), &[0, 2], obeys(Some(1))),
        case(point(-30_002), &[0, 2], obeys(None)),
        case(point(-30_000), &[0, 1], obeys(None)),
        case(hop(6_250), &[-2_000, 1], obeys(Some(0))),
        case(hop(6_251), &[-2_000, 1], obeys(None)),
        case(hop(6_249), &[-2_000, 1], obeys(Some(0))),
        case(climbing(9_000), &[0, 3], obeys(Some(3))),
        case(climbing(9_001), &[0, 3], obeys(None)),
        case(climbing(9_001), &[0, 4], obeys(Some(3))),
        case(climbing(8_999), &[0, 3], obeys(Some(2))),
    ];
    Group {
        name: "within_a_second",
        about: "jumping over the band between seconds, touching at a turning instant, a second's end that is the next one's; and turned over",
        cases: both_senses(cases),
    }
}

fn sizes() -> Group {
    let refused = Err(18);
    let many = |count: usize, seconds: i64| [0, seconds].repeat(count);
    let cases = vec![
        case(M5, &many(64, 1), disobeys(Some(1))),
        case(M5, &many(65, 1), refused),
        case(M5, &many(60, 10), disobeys(Some(1))),
        case(M5, &many(61, 10), refused),
        case(M5, &[0, 600], disobeys(Some(1))),
        case(M5, &[0, 601], refused),
        case(M5, &[0, 600, 0, 1], refused),
        case(M5, &[0, 599, 0, 1], disobeys(Some(1))),
        case(M5, &[0, 0], refused),
        case(M5, &[0, -1], refused),
        case(M5, &[0, 600, 0, -1], refused),
        case(M5, &[0, 1, 0, 0], refused),
        case(M5, &[2_000, 1], obeys(None)),
        case(M5, &[2_001, 1], refused),
        case(M5, &[-2_000, 1], disobeys(Some(0))),
        case(M5, &[-2_001, 1], refused),
        case(M5, &[2_000, 1, -2_001, 1], refused),
    ];
    Group {
        name: "sizes",
        about: "64 and 65 stretches, 600 and 601 seconds in one and in all, no second, accelerations at their limits and one beyond",
        cases,
    }
}

fn lengths() -> Group {
    let refused = |length: usize| {
        case(
            M5,
            &[2_000, 1].repeat(length.div_ceil(2))[..length],
            Err(18),
        )
    };
    let mut cases: Vec<_> = [0, 1, 3, 127, 129, 130, 131, 256].map(refused).to_vec();
    cases.push(case(M5, &[2_000, 1], obeys(None)));
    cases.push(case(M5, &[2_000, 1].repeat(63), obeys(None)));
    cases.push(case(M5, &[2_000, 1].repeat(64), obeys(None)));
    for length in [127, 129, 1 << 10, (1 << 16) - 1, 1 << 16] {
        cases.push(case(M5, &vec![0; length], Err(18)));
    }
    let mut long = vec![0; 1 << 16];
    long[..4].copy_from_slice(&[500, 2, 0, 10]);
    cases.push(case(M5, &long, Err(18)));
    Group {
        name: "lengths",
        about: "slices of 0 to 65,536 numbers; those of 2, 126 and 128 are flights",
        cases,
    }
}

/// The fields of a flight's question, by their place among the plain numbers, each with its refusal.
const FIELD_REFUSALS: [(usize, u8); 13] = [
    (0, 1),
    (1, 1),
    (2, 1),
    (3, 1),
    (4, 1),
    (5, 2),
    (6, 2),
    (7, 3),
    (9, 4),
    (10, 5),
    (12, 14),
    (14, 6),
    (15, 6),
];

fn with_field(question: Question, field: usize, n: i64) -> Question {
    assert!(!NAMES[field].starts_with("upper") && NAMES[field] != "sides");
    let mut numbers = question.numbers();
    numbers[field] = n;
    Question::from_numbers(numbers)
}

fn extremes() -> Group {
    let ends = [i64::MIN, i64::MIN + 1, i64::MAX, i64::MAX - 1];
    let wrapped = [1 << 32, -(1 << 32), 1 << 62];
    let path = [500, 2, 0, 10];
    let mut cases = Vec::new();
    for n in ends.into_iter().chain(wrapped) {
        for (field, number) in FIELD_REFUSALS {
            cases.push(case(with_field(M5, field, n), &path, Err(number)));
        }
        for i in 0..path.len() {
            let mut flight = path;
            flight[i] = n;
            cases.push(case(M5, &flight, Err(18)));
        }
        cases.push(case(M5, &[n; 128], Err(18)));
        cases.push(case(M5, &[0, n].repeat(64), Err(18)));
        let all = Question::from_numbers([n; 16]);
        let all = Question {
            sides: 1,
            upper_target: 0,
            upper_strength: 0,
            ..all
        };
        cases.push(case(all, &[n; 2], Err(1)));
    }
    Group {
        name: "extremes",
        about: "64-bit extremes in every field of the encounter, the puck, e, the advice and the flight, alone and in all",
        cases,
    }
}

fn several_refusals() -> Group {
    let order = [1, 2, 3, 4, 5, 14, 6];
    let place = |number: u8| order.iter().position(|n| *n == number).unwrap();
    let mut cases = Vec::new();
    for (field, number) in FIELD_REFUSALS {
        let bad = with_field(M5, field, 20_000_000);
        for flight in [&[][..], &[0], &[0, 601], &[2_001, 1]] {
            cases.push(case(bad, flight, Err(number)));
        }
        for (other, later) in FIELD_REFUSALS {
            if place(later) > place(number) {
                let worse = with_field(bad, other, -20_000_000);
                cases.push(case(worse, &[0, 0], Err(number)));
            }
        }
    }
    Group {
        name: "several_refusals",
        about: "each refusal of encounter, puck, e and advice with each later one, and with 18",
        cases,
    }
}

#[cfg(test)]
mod tests {
    use super::*;
    use crate::flight::unsound;
    use crate::generate::Random;

    #[test]
    fn worked_flights_have_their_answers() {
        let mut random = Random::new(1);
        for group in groups() {
            for (i, (case, wanted)) in group.cases.iter().enumerate() {
                assert_eq!(case.answer(), *wanted, "{} {i}: {case:?}", group.name);
                assert_eq!(
                    unsound(case, &mut random),
                    None,
                    "{} {i}: {case:?}",
                    group.name
                );
            }
        }
    }
}
