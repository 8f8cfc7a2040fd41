//! Instants worked by hand, in groups, each with its answer.

use crate::examples::{BASE, TWO, marked};
use crate::independent::{NO_LIMIT, Question};
use crate::instant::{InstantAnswer, InstantCase, Judged, Standing};

/// Worked instants of one kind.
pub struct Group {
    /// A file's name.
    pub name: &'static str,
    /// What the instants are, in a line.
    pub about: &'static str,
    pub cases: Vec<(InstantCase, InstantAnswer)>,
}

type Case = (InstantCase, InstantAnswer);

fn case(question: Question, n: u64, m: u64, answer: InstantAnswer) -> Case {
    (InstantCase { question, n, m }, answer)
}

/// Climb for descend, with all heights and speeds turned over: the same answer.
fn turned_over(q: Question) -> Question {
    Question {
        sense: 1 - q.sense,
        h: -q.h,
        v: -q.v,
        vi: -q.vi,
        target: -q.target,
        upper_target: -q.upper_target,
        ..q
    }
}

fn both_senses(cases: Vec<Case>) -> Vec<Case> {
    let over = |(case, answer): &Case| {
        let question = turned_over(case.question);
        (InstantCase { question, ..*case }, *answer)
    };
    let over: Vec<Case> = cases.iter().map(over).collect();
    cases.into_iter().chain(over).collect()
}

const fn at(in_window: bool, lower: bool, upper: Option<bool>) -> InstantAnswer {
    Ok(Judged::At(Standing {
        in_window,
        lower,
        upper,
    }))
}

/// One-sided, within the window; and outside it.
const CONFLICT: InstantAnswer = at(true, true, None);
const NONE: InstantAnswer = at(true, false, None);
const OUTSIDE: InstantAnswer = at(false, false, None);

/// Two-sided.
const LOWER: InstantAnswer = at(true, true, Some(false));
const UPPER: InstantAnswer = at(true, false, Some(true));
const BOTH: InstantAnswer = at(true, true, Some(true));
const OUTSIDE_TWO: InstantAnswer = at(false, false, Some(false));

const FAR: InstantAnswer = Ok(Judged::OutOfReach);

/// One of document 01's marked examples.
fn example(name: &str) -> Question {
    let found = marked().into_iter().find(|(known, ..)| *known == name);
    found.expect("a marked example").1
}

pub fn groups() -> Vec<Group> {
    vec![
        puck_edge(),
        between(),
        delay(),
        window(),
        limit(),
        no_end(),
        two_sided(),
        same_value(),
        reach(),
        refused(),
    ]
}

/// The radius is entered at 27 s and left at 33; at 27 the ownship has climbed 38,250.
fn puck_edge() -> Group {
    let [m1, m2] = ["M1", "M2"].map(example);
    let cases = vec![
        case(m1, 27, 1, NONE),
        case(m1, 33, 1, NONE),
        case(m1, 26, 1, OUTSIDE),
        case(m2, 27, 1, CONFLICT),
        case(m2, 4_049_999, 150_000, OUTSIDE),
        case(m2, 4_050_001, 150_000, NONE),
        case(m2, 33, 1, NONE),
        case(m2, 34, 1, OUTSIDE),
        case(m2, 0, 1, OUTSIDE),
    ];
    Group {
        name: "M1_and_M2",
        about: "M1, clear, and M2, a conflict at 27 alone, where the puck's radius is entered; and turned over",
        cases: both_senses(cases),
    }
}

/// Climb to 0 with 500 from −1,000: at t, up to 2, the height is 250 t² − 1,000 t.
fn between() -> Group {
    let m5 = example("M5");
    let deep = Question { h: -6_500, ..m5 };
    let cases = vec![
        case(m5, 2, 1, CONFLICT),
        case(m5, 1_999, 1_000, NONE),
        case(m5, 2_001, 1_000, CONFLICT),
        case(m5, 3, 1, CONFLICT),
        case(m5, 3_001, 1_000, OUTSIDE),
        // The edge is at −500, reached at 2 − √2: before 0.586 and after 0.585.
        case(deep, 0, 1, NONE),
        case(deep, 585, 1_000, NONE),
        case(deep, 586, 1_000, CONFLICT),
        case(deep, 87_867, 150_000, NONE),
        case(deep, 87_868, 150_000, CONFLICT),
        case(deep, 1, 1, CONFLICT),
        case(deep, 2, 1, CONFLICT),
    ];
    Group {
        name: "M5",
        about: "M5, from 2 on the puck's edge; and the intruder 500 higher, a conflict from 2 - sqrt(2) on, before the 2 that is shown; and turned over",
        cases: both_senses(cases),
    }
}

/// 12,075 down at 5 s, and 36,225 down at 15, the lowest: the edge there.
fn delay() -> Group {
    let m10 = Question {
        h: -42_225,
        e: 966,
        target: 1_500,
        strength: 483,
        delay: 5,
        ..BASE
    };
    // On the edge at d.
    let at_delay = Question { h: -18_075, ..m10 };
    let cases = vec![
        case(m10, 15, 1, CONFLICT),
        case(m10, 2_249_999, 150_000, NONE),
        case(m10, 2_250_001, 150_000, NONE),
        case(m10, 5, 1, NONE),
        case(m10, 18, 1, NONE),
        case(at_delay, 5, 1, CONFLICT),
        case(at_delay, 4_999, 1_000, NONE),
        case(at_delay, 5_001, 1_000, CONFLICT),
        // At 25 the arc would be up there again; the straight, from 18 17/161 on, is lower.
        case(at_delay, 25, 1, CONFLICT),
        // The straight comes up to −12,075 where 1,449,000 t = 58,978,350 − 966 × 12,075, at 32.6528.
        case(at_delay, 3_265, 100, CONFLICT),
        case(at_delay, 3_266, 100, NONE),
    ];
    Group {
        name: "M10",
        about: "M10's question: on the puck's edge at the turning instant, 15, alone; at the end of the delay, 5, and until 32.65..; and turned over",
        cases: both_senses(cases),
    }
}

/// The intruder level with the ownship, and near from 10 s to 18 4/7.
fn window() -> Group {
    let near = Question {
        r: 100_000,
        c: 7_000,
        ..BASE
    };
    let point = Question { p: 0, ..near };
    let cases = vec![
        case(near, 10, 1, CONFLICT),
        case(near, 9_999, 1_000, OUTSIDE),
        case(near, 69, 7, OUTSIDE),
        case(near, 71, 7, CONFLICT),
        case(near, 129, 7, CONFLICT),
        case(near, 130, 7, CONFLICT),
        case(near, 131, 7, OUTSIDE),
        case(near, 18_571, 1_000, CONFLICT),
        case(near, 18_572, 1_000, OUTSIDE),
        case(near, 0, 1, OUTSIDE),
        // A puck without a radius, at 100/7 alone.
        case(point, 100, 7, CONFLICT),
        case(point, 1_499_999, 105_000, OUTSIDE),
        case(point, 1_500_001, 105_000, OUTSIDE),
        case(point, 14_286, 1_000, OUTSIDE),
        // Already passed.
        case(Question { r: -30_000, ..near }, 0, 1, CONFLICT),
        case(Question { r: -30_001, ..near }, 0, 1, OUTSIDE),
        case(Question { r: -30_000, ..near }, 1, 150_000, OUTSIDE),
    ];
    Group {
        name: "window",
        about: "the window's ends, 10 and 130/7, and one step of 1/7 and 1/1000 before and after; a puck of radius 0; an intruder that has passed; and turned over",
        cases: both_senses(cases),
    }
}

fn limit() -> Group {
    let m8 = example("M8");
    let still = |limit: i64| Question { limit, ..BASE };
    let cases = vec![
        case(m8, 1, 1, CONFLICT),
        case(m8, 999, 1_000, NONE),
        case(m8, 1_001, 1_000, OUTSIDE),
        case(example("M7"), 1, 1, NONE),
        case(example("M7"), 2, 1, OUTSIDE),
        case(still(0), 0, 1, CONFLICT),
        case(still(0), 1, 150_000, OUTSIDE),
        case(still(600), 600, 1, CONFLICT),
        case(still(600), 600_001, 1_000, OUTSIDE),
        case(still(600), 599_999, 1_000, CONFLICT),
    ];
    Group {
        name: "limit",
        about: "the limit itself and just past it: M7 and M8 with 1, limits 0 and 600; and turned over",
        cases: both_senses(cases),
    }
}

/// The intruder stays near. The path sinks by a grain a second from 0, and is at its height − k at 480,000 − 12,000.
fn no_end() -> Group {
    let sinking = Question {
        h: -480_000,
        v: -1,
        target: -1,
        k: 12_000,
        ..BASE
    };
    let level = BASE;
    let apart = Question { r: 30_001, ..BASE };
    let cases = vec![
        case(sinking, 467_999, 1, NONE),
        case(sinking, 468_000, 1, CONFLICT),
        case(sinking, 935_999, 2, NONE),
        case(sinking, 936_001, 2, CONFLICT),
        case(sinking, 201_680_060, 1, CONFLICT),
        case(level, 0, 1, CONFLICT),
        case(level, 12_060_000, 1, CONFLICT),
        case(apart, 0, 1, OUTSIDE),
        case(apart, 201_680_060, 1, OUTSIDE),
    ];
    Group {
        name: "no_end",
        about: "c = 0 and no limit: a window without an end, or none at all; and turned over",
        cases: both_senses(cases),
    }
}

/// Level, both paths at 0; and after 2 s of e on the one side and the other.
fn two_sided() -> Group {
    let at_height = |h: i64| Question { h, ..TWO };
    // e 100 for 2 s: 200 down and 200 up at 2 s, then back to 0, and on with 200.
    let slow = |h: i64| Question {
        h,
        e: 100,
        delay: 2,
        k: 1,
        ..TWO
    };
    let cases = vec![
        case(at_height(6_000), 0, 1, BOTH),
        case(at_height(6_000), 17, 2, BOTH),
        case(at_height(6_001), 0, 1, LOWER),
        case(at_height(-6_000), 0, 1, BOTH),
        case(at_height(-6_001), 0, 1, UPPER),
        case(slow(0), 0, 1, BOTH),
        case(slow(0), 1, 1, BOTH),
        // At 1 s the lower path is at −50, the upper at 50.
        case(slow(51), 1, 1, BOTH),
        case(slow(51), 149_999, 150_000, LOWER),
        case(slow(52), 1, 1, LOWER),
        case(slow(-51), 1, 1, BOTH),
        case(slow(-51), 149_999, 150_000, UPPER),
        case(slow(-52), 1, 1, UPPER),
        // At 2 s at −200 and 200.
        case(slow(201), 2, 1, BOTH),
        case(slow(202), 2, 1, LOWER),
        case(slow(-201), 2, 1, BOTH),
        case(slow(-202), 2, 1, UPPER),
        // At 12/5 s the lower path is level, at −240; the upper goes on with 200, at 280.
        case(slow(281), 12, 5, BOTH),
        case(slow(282), 12, 5, LOWER),
        case(slow(-241), 12, 5, BOTH),
        case(slow(-242), 12, 5, UPPER),
        case(slow(1_000), 6, 1, BOTH),
        case(slow(1_002), 6, 1, LOWER),
        case(slow(1_002), 12_011, 2_000, BOTH),
        case(Question { r: 30_001, ..TWO }, 1, 1, OUTSIDE_TWO),
        case(
            Question {
                limit: 1,
                ..slow(0)
            },
            3,
            2,
            OUTSIDE_TWO,
        ),
    ];
    Group {
        name: "two_sided",
        about: "two-sided: a conflict on the lower side, the upper, both, before the end of the delay, at it and after; outside the window; and turned over",
        cases: both_senses(cases),
    }
}

fn same_value() -> Group {
    let m2 = example("M2");
    let seven = Question {
        r: 100_000,
        c: 7_000,
        ..BASE
    };
    let most = u64::MAX;
    let cases = vec![
        case(m2, 54, 2, CONFLICT),
        case(m2, 81, 3, CONFLICT),
        case(m2, 27 * 150_001, 150_001, CONFLICT),
        case(m2, 27 << 59, 1 << 59, CONFLICT),
        case(m2, 27 * (most / 27), most / 27, CONFLICT),
        case(m2, 0, most, OUTSIDE),
        case(seven, 260, 14, CONFLICT),
        case(seven, 130 * 150_001, 7 * 150_001, CONFLICT),
        case(seven, 131 * 150_001, 7 * 150_001, OUTSIDE),
        case(seven, 130 * (most / 130), 7 * (most / 130), CONFLICT),
        case(seven, 131 * (most / 131), 7 * (most / 131), OUTSIDE),
        case(seven, 130 << 56, 7 << 56, CONFLICT),
        case(BASE, most, most, CONFLICT),
        case(BASE, most, most / 15, CONFLICT),
        case(BASE, most / 15, most, CONFLICT),
    ];
    Group {
        name: "same_value",
        about: "fractions that are not in lowest terms, by 2, 3, 150,001, a power of two, and as far as 64 bits go; and turned over",
        cases: both_senses(cases),
    }
}

fn reach() -> Group {
    let most = u64::MAX;
    let cases = vec![
        case(BASE, 1, 150_000, CONFLICT),
        case(BASE, 1, 150_001, FAR),
        case(BASE, 2, 300_000, CONFLICT),
        case(BASE, 2, 300_002, FAR),
        case(BASE, 12_059_999, 150_000, CONFLICT),
        case(BASE, 12_060_000, 7, CONFLICT),
        case(BASE, 24_120_000, 14, CONFLICT),
        case(BASE, 12_060_001, 7, FAR),
        case(BASE, 24_120_002, 14, FAR),
        case(BASE, 12_060_001, 2, FAR),
        case(BASE, 12_060_001, 1, CONFLICT),
        case(BASE, 201_680_060, 1, CONFLICT),
        case(BASE, 201_680_061, 1, FAR),
        case(BASE, 403_360_119, 2, FAR),
        case(BASE, 403_360_120, 2, CONFLICT),
        case(BASE, 403_360_121, 2, FAR),
        case(BASE, 403_360_122, 2, FAR),
        // Out of reach is said also where the instant is outside the window.
        case(Question { limit: 0, ..BASE }, 201_680_061, 1, FAR),
        case(Question { r: 30_001, ..BASE }, 1, 150_001, FAR),
        case(BASE, 0, 0, FAR),
        case(BASE, 1, 0, FAR),
        case(BASE, most, 0, FAR),
        case(BASE, most, 1, FAR),
        case(BASE, 1, most, FAR),
        case(BASE, most, most - 1, FAR),
        case(BASE, most - 1, most, FAR),
        case(TWO, 1, 0, FAR),
        case(TWO, 1, 150_001, FAR),
        // The decimals of three places up to 12,000 s.
        case(BASE, 0, 1_000, CONFLICT),
        case(BASE, 1, 1_000, CONFLICT),
        case(BASE, 11_999_999, 1_000, CONFLICT),
        case(BASE, 12_000_000, 1_000, CONFLICT),
    ];
    Group {
        name: "reach",
        about: "the reach's edges, in lowest terms and not: divisors, numerators, whole seconds, m = 0, 2^64 - 1; decimals of three places; and turned over",
        cases: both_senses(cases),
    }
}

/// Each refusal at an instant in reach, and at one that is not; the first that holds is said.
fn refused() -> Group {
    let questions = [
        (Question { vi: 10_001, ..BASE }, 1),
        (
            Question {
                r: i64::MIN,
                k: 0,
                ..BASE
            },
            1,
        ),
        (Question { k: 0, ..BASE }, 2),
        (Question { e: 2_001, ..BASE }, 3),
        (Question { sides: 3, ..BASE }, 4),
        (
            Question {
                sense: 2,
                strength: 0,
                ..BASE
            },
            4,
        ),
        (
            Question {
                target: 10_001,
                delay: 61,
                ..BASE
            },
            5,
        ),
        (
            Question {
                strength: 0,
                ..BASE
            },
            14,
        ),
        (
            Question {
                upper_strength: 499,
                ..TWO
            },
            14,
        ),
        (
            Question {
                upper_target: -1,
                delay: 61,
                ..TWO
            },
            15,
        ),
        (
            Question {
                upper_target: 1,
                ..BASE
            },
            16,
        ),
        (Question { delay: 61, ..BASE }, 6),
        (
            Question {
                limit: NO_LIMIT + 1,
                ..BASE
            },
            6,
        ),
    ];
    let instants = [(0, 1), (27, 1), (0, 0), (1, 150_001), (u64::MAX, 1)];
    let cases = questions.into_iter().flat_map(|(q, number)| {
        let at = move |(n, m)| case(q, n, m, Err(number));
        instants.into_iter().map(at)
    });
    Group {
        name: "refused",
        about: "refusals 1 to 6 and 14 to 16, at instants in reach and out of it",
        cases: cases.collect(),
    }
}

#[cfg(test)]
mod tests {
    use super::*;

    #[test]
    fn answers_are_those_worked_by_hand() {
        for group in groups() {
            for (case, wanted) in group.cases {
                assert_eq!(case.answer(), wanted, "{}: {case:?}", group.name);
            }
        }
    }
}
