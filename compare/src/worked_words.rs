//! What answers mean, worked by hand from document 01 in grains, and whole texts of sheets.

use crate::examples::{BASE, TWO, figure_14, hex, marked, section_7};
use crate::generate;
use crate::independent::Question;
use crate::words::Named;

/// A question, and the lines of what its answer means.
pub struct Worked {
    pub name: &'static str,
    pub question: Question,
    pub lines: &'static [&'static str],
}

impl Worked {
    /// The sheet that asks the question.
    pub fn sheet(&self) -> Vec<u8> {
        let mut sheet = Vec::new();
        generate::encounter_record(&mut sheet, &self.question);
        generate::puck_record(&mut sheet, &self.question);
        generate::delay_acceleration_record(&mut sheet, &self.question);
        generate::free_record(&mut sheet, &self.question);
        sheet
    }
}

type Cases = Vec<Worked>;

fn case(name: &'static str, question: Question, lines: &'static [&'static str]) -> Worked {
    Worked {
        name,
        question,
        lines,
    }
}

/// M5's, before the height: sinking by 1,000, levelled off at 2 s; near from 0 to 3 s.
const LEVEL_OFF: Question = Question {
    c: 10_000,
    v: -1_000,
    ..BASE
};

/// Level, and near from 38 4/7 s on, when a path of −1 has come to −38 4/7.
const SEVENTHS: Question = Question {
    r: 300_000,
    c: 7_000,
    v: -1,
    target: -1,
    ..BASE
};

/// Level, and near from 27 to 33 s; the upper path then is at 38,250 and 47,250.
const BAND: Question = Question {
    r: 300_000,
    c: 10_000,
    upper_target: 1_500,
    ..TWO
};

const BELOW: &str = "the intruder is more than 100 ft below whenever it is within 500 ft";
const ABOVE: &str = "the intruder is more than 100 ft above whenever it is within 500 ft";
const NEVER: &str = "the intruder never comes within 500 ft";
const EDGE_AT_START: &str = "at the start; the intruder is 100 ft below, on the puck's edge";

/// M1 to M15.
const MARKED: [&[&str]; 15] = [
    &[BELOW],
    &["as the intruder comes within 500 ft; it is 100 ft below, on the puck's edge"],
    &[ABOVE],
    &[BELOW],
    &[
        "as the ownship's vertical speed comes to the intruder's; the intruder is 100 ft below, on the puck's edge",
    ],
    &[EDGE_AT_START],
    &["the intruder is more than 100 ft below whenever it is within 500 ft, up to the limit"],
    &["at the time limit; the intruder is 100 ft below, on the puck's edge"],
    // At 1 s the path is at −100, and 5,950 grains are 99 1/6 ft.
    &["the first whole second in conflict; the intruder is 99.2 ft below, closer than 100 ft"],
    &[
        "as the ownship's vertical speed comes to the intruder's; the intruder is 100 ft below, on the puck's edge",
    ],
    &["as the intruder comes within 500 ft; it is level with the ownship, closer than 100 ft"],
    &["the intruder is more than 100 ft above the upper path whenever it is within 500 ft"],
    &[
        "lower: at the start; the intruder is 100 ft above, on the puck's edge",
        "upper: at the start; the intruder is 100 ft above, on the puck's edge",
    ],
    &[NEVER],
    &[EDGE_AT_START],
];

/// Figure 14 and what stands beside it, then section 7.
const ARTICLE: [&[&str]; 6] = [
    // At 17 1/2 s the intruder has sunk by 26,250, and the ownship has climbed by 30,308.4 beside it: 5,691.6 are left.
    &["as the intruder comes within 500 ft; it is 94.9 ft above, closer than 100 ft"],
    &[BELOW],
    &["at the start; the intruder is 100.0 ft above, where only more than 100 ft below is clear"],
    &[EDGE_AT_START],
    &[BELOW],
    &[NEVER],
];

fn papers() -> Cases {
    let marked = marked().into_iter();
    let mut cases: Cases = marked
        .zip(MARKED)
        .map(|((name, question, _), lines)| case(name, question, lines))
        .collect();
    let examples = [figure_14(), section_7()];
    let questions = examples.into_iter().flat_map(|example| {
        let beside = example.beside.into_iter();
        [(example.name, example.question)]
            .into_iter()
            .chain(beside.map(|(name, question, _)| (name, question)))
    });
    let article = questions.zip(ARTICLE);
    cases.extend(article.map(|((name, question), lines)| case(name, question, lines)));
    cases
}

fn delays() -> Cases {
    // The path is at −1,932 after 2 s, and sinks on; straight on, as the target is lower still, it would be there later.
    let sinking = Question {
        delay: 2,
        h: -7_932,
        ..BASE
    };
    let edge = &["as the delay ends; the intruder is 100 ft below, on the puck's edge"];
    vec![
        case("in conflict at d", sinking, edge),
        case(
            "the limit at d",
            Question {
                limit: 2,
                ..sinking
            },
            edge,
        ),
        case(
            "the limit after d, at the turning instant",
            Question {
                limit: 15,
                ..marked()[9].1
            },
            MARKED[9],
        ),
        case(
            "the window's start at d",
            Question {
                r: 30_000 + 2 * 10_000,
                c: 10_000,
                ..sinking
            },
            &["as the intruder comes within 500 ft; it is 100 ft below, on the puck's edge"],
        ),
    ]
}

fn ends() -> Cases {
    // The path sinks by 1,000 a second to the window's end, 3 s.
    let end = Question {
        target: -1_000,
        h: -9_000,
        ..LEVEL_OFF
    };
    let last =
        &["at the last instant within 500 ft; the intruder is 100 ft below, on the puck's edge"];
    vec![
        case("the window's end", end, last),
        case("the limit later", Question { limit: 4, ..end }, last),
        case(
            "the limit at the window's end",
            Question { limit: 3, ..end },
            &["at the time limit; the intruder is 100 ft below, on the puck's edge"],
        ),
    ]
}

fn others() -> Cases {
    vec![
        case(
            "the limit 0",
            Question {
                h: -6_000,
                limit: 0,
                ..BASE
            },
            &[EDGE_AT_START],
        ),
        // At 2 s the path, sinking for ever, is at −1,000.001; at 1 s at −750.
        case(
            "no turning instant, as the target sinks",
            Question {
                v: -1_000,
                target: -1,
                h: -7_000,
                ..BASE
            },
            &[
                "the first whole second in conflict; the intruder is 99.9 ft below, closer than 100 ft",
            ],
        ),
    ]
}

/// At the start, the ownship level: h, and what is said.
#[rustfmt::skip]
const GAPS: [(i64, &[&str]); 9] = [
    (6_000, &["at the start; the intruder is 100 ft above, on the puck's edge"]),
    (5_999, &["at the start; the intruder is 99.9 ft above, closer than 100 ft"]),
    // 99.98 ft are nearest to 100.0, which is no nearer than k, and so are cut; 94.98 ft are 95.0.
    (5_699, &["at the start; the intruder is 95.0 ft above, closer than 100 ft"]),
    (-5_640, &["at the start; the intruder is 94.0 ft below, closer than 100 ft"]),
    (0, &["at the start; the intruder is level with the ownship, closer than 100 ft"]),
    (1, &["at the start; the intruder is less than 0.1 ft above, closer than 100 ft"]),
    (-5, &["at the start; the intruder is 0.1 ft below, closer than 100 ft"]),
    (-6, &["at the start; the intruder is 0.1 ft below, closer than 100 ft"]),
    (480_000, &["at the start; the intruder is 8000.0 ft above, where only more than 100 ft below is clear"]),
];

fn gaps() -> Cases {
    let question = |h| Question { h, ..BASE };
    let gaps = GAPS.into_iter();
    gaps.map(|(h, lines)| case("a gap at the start", question(h), lines))
        .collect()
}

/// As the intruder comes within the radius, the path at −38 4/7: h, k, and what is said.
#[rustfmt::skip]
const FRACTIONS: [(i64, i64, &[&str]); 7] = [
    // 41 4/7 grains are 0.69 ft.
    (3, 6_000, &["as the intruder comes within 500 ft; it is 0.7 ft above, closer than 100 ft"]),
    (-33, 6_000, &["as the intruder comes within 500 ft; it is 0.1 ft above, closer than 100 ft"]),
    (-32, 6_000, &["as the intruder comes within 500 ft; it is 0.1 ft above, closer than 100 ft"]),
    (-44, 6_000, &["as the intruder comes within 500 ft; it is 0.1 ft below, closer than 100 ft"]),
    // 5 4/7 grains are more than 5, and less than 6.
    (-33, 5, &["as the intruder comes within 500 ft; it is 0.1 ft above, where only more than 1/12 ft below is clear"]),
    (-33, 6, &["as the intruder comes within 500 ft; it is less than 0.1 ft above, closer than 1/10 ft"]),
    // 5 3/7 grains below are more than 5; at 47 1/7 s the intruder is 3 1/7 above.
    (-44, 5, &["at the last instant within 500 ft; the intruder is less than 0.1 ft above, closer than 1/12 ft"]),
];

fn fractions() -> Cases {
    let question = |h, k| Question { h, k, ..SEVENTHS };
    let fractions = FRACTIONS.into_iter();
    let mut cases: Cases = fractions
        .map(|(h, k, lines)| case("a gap in sevenths", question(h, k), lines))
        .collect();
    cases.push(case(
        "k below at the limit",
        Question {
            limit: 39,
            ..question(-44, 5)
        },
        &["at the time limit; the intruder is 1/12 ft below, on the puck's edge"],
    ));
    cases
}

/// Level: p, r, and what is said.
#[rustfmt::skip]
const RADII: [(i64, i64, &[&str]); 3] = [
    (7_000, 277_000, &["as the intruder comes within 116 2/3 ft; it is level with the ownship, closer than 100 ft"]),
    (40, -41, &["the intruder never comes within 2/3 ft"]),
    (0, 10_000, &["as the intruder comes within 0 ft; it is level with the ownship, closer than 100 ft"]),
];

/// At the start, the ownship level: h, k, and what is said.
#[rustfmt::skip]
const HALF_HEIGHTS: [(i64, i64, &[&str]); 4] = [
    (-6_041, 6_041, &["at the start; the intruder is 100 41/60 ft below, on the puck's edge"]),
    (2, 2, &["at the start; the intruder is 1/30 ft above, on the puck's edge"]),
    (3, 2, &["at the start; the intruder is 0.1 ft above, where only more than 1/30 ft below is clear"]),
    (-1, 2, &["at the start; the intruder is less than 0.1 ft below, closer than 1/30 ft"]),
];

fn pucks() -> Cases {
    let passing = |p, r| Question {
        p,
        r,
        c: 10_000,
        ..BASE
    };
    let flat = |h, k| Question { h, k, ..BASE };
    let radii = RADII.into_iter();
    let radii = radii.map(|(p, r, lines)| case("a radius", passing(p, r), lines));
    let heights = HALF_HEIGHTS.into_iter();
    let heights = heights.map(|(h, k, lines)| case("a half height", flat(h, k), lines));
    radii.chain(heights).collect()
}

fn descending() -> Cases {
    vec![
        case(
            "M5 turned over",
            Question {
                sense: 0,
                v: 1_000,
                h: 7_000,
                ..LEVEL_OFF
            },
            &[
                "as the ownship's vertical speed comes to the intruder's; the intruder is 100 ft above, on the puck's edge",
            ],
        ),
        case(
            "on the other side of the puck",
            Question {
                sense: 0,
                h: -6_001,
                ..BASE
            },
            &[
                "at the start; the intruder is 100.0 ft below, where only more than 100 ft above is clear",
            ],
        ),
    ]
}

fn descending_two_sided() -> Cases {
    vec![
        case(
            "two-sided, clear of the lower path",
            Question {
                sense: 0,
                h: 6_001,
                ..TWO
            },
            &["the intruder is more than 100 ft above the lower path whenever it is within 500 ft"],
        ),
        case(
            "two-sided, clear of the upper path up to a limit",
            Question {
                sense: 0,
                h: -6_001,
                limit: 5,
                ..TWO
            },
            &[
                "the intruder is more than 100 ft below the upper path whenever it is within 500 ft, up to the limit",
            ],
        ),
        case(
            "two-sided, between the paths",
            Question {
                sense: 0,
                upper_target: -1_500,
                ..BAND
            },
            &[
                "lower: as the intruder comes within 500 ft; it is level with the ownship, closer than 100 ft",
                "upper: as the intruder comes within 500 ft; it is 637.5 ft above, where only more than 100 ft below is clear",
            ],
        ),
    ]
}

fn clear() -> Cases {
    vec![
        case(
            "the limit a second before the intruder comes",
            Question { limit: 26, ..BAND },
            &["the intruder does not come within 500 ft up to the limit"],
        ),
        case(
            "it stays beyond the radius",
            Question { r: 30_001, ..BASE },
            &[NEVER],
        ),
        case(
            "it has left, with a limit",
            Question {
                r: -30_001,
                c: 1,
                limit: 600,
                ..BASE
            },
            &["the intruder does not come within 500 ft up to the limit"],
        ),
        case(
            "two-sided, clear of the lower path",
            Question { h: -6_001, ..TWO },
            &["the intruder is more than 100 ft below the lower path whenever it is within 500 ft"],
        ),
        case(
            "two-sided, clear of the upper path up to a limit",
            Question {
                h: 6_001,
                limit: 0,
                ..TWO
            },
            &[
                "the intruder is more than 100 ft above the upper path whenever it is within 500 ft, up to the limit",
            ],
        ),
    ]
}

/// A puck of 2 grains: beyond it by a grain, on the side where that is a conflict.
fn flat() -> Cases {
    let flat = |h, target, upper_target| Question {
        h,
        k: 2,
        sense: 0,
        target,
        upper_target,
        ..TWO
    };
    let one_sided = Question {
        sides: 1,
        upper_strength: 0,
        ..flat(-3, 0, 0)
    };
    vec![
        case(
            "descend, 3 grains below",
            one_sided,
            &[
                "at the start; the intruder is 0.1 ft below, where only more than 1/30 ft above is clear",
            ],
        ),
        case(
            "descend, 3 grains below the lower path; at 1 s the upper path is 250 lower",
            flat(-3, 0, -1_500),
            &[
                "lower: at the start; the intruder is 0.1 ft below, where only more than 1/30 ft above is clear",
                "upper: the first whole second in conflict; the intruder is 4.1 ft above, where only more than 1/30 ft below is clear",
            ],
        ),
        case(
            "descend, 3 grains above the upper path; the lower one climbs a grain a second",
            flat(3, 1, 0),
            &[
                "lower: the first whole second in conflict; the intruder is 1/30 ft above, on the puck's edge",
                "upper: at the start; the intruder is 0.1 ft above, where only more than 1/30 ft below is clear",
            ],
        ),
    ]
}

/// The upper path takes 3 s to its speed, and is at 250, 1,000 and 2,250 by then; k above the level of 1.
fn rising() -> Cases {
    const LOWER: &str = "lower: at the start; the intruder is 100.0 ft above, where only more than 100 ft below is clear";
    let rising = Question {
        h: 6_001,
        upper_target: 1_500,
        ..TWO
    };
    vec![
        case(
            "upper, without an end",
            rising,
            &[
                LOWER,
                "upper: the first whole second in conflict; the intruder is 95.9 ft above, closer than 100 ft",
            ],
        ),
        case(
            "upper, the limit",
            Question { limit: 2, ..rising },
            &[
                LOWER,
                "upper: at the time limit; the intruder is 83.4 ft above, closer than 100 ft",
            ],
        ),
        case(
            "upper, the last instant",
            Question {
                c: 10_000,
                ..rising
            },
            &[
                LOWER,
                "upper: at the last instant within 500 ft; the intruder is 62.5 ft above, closer than 100 ft",
            ],
        ),
    ]
}

fn upper() -> Cases {
    vec![
        // e 966: the upper path is at 12,075 at d, the lower one at −12,075.
        case(
            "upper, d is no moment of its own",
            Question {
                h: 18_075,
                delay: 5,
                ..TWO
            },
            &[
                "lower: at the start; the intruder is 301.3 ft above, where only more than 100 ft below is clear",
                "upper: the first whole second in conflict; the intruder is 100 ft above, on the puck's edge",
            ],
        ),
        case(
            "upper, k above as the intruder comes",
            Question { h: 44_250, ..BAND },
            &[
                "lower: as the intruder comes within 500 ft; it is 737.5 ft above, where only more than 100 ft below is clear",
                "upper: as the intruder comes within 500 ft; it is 100 ft above, on the puck's edge",
            ],
        ),
        case(
            "upper, a grain higher",
            Question { h: 44_251, ..BAND },
            &[
                "lower: as the intruder comes within 500 ft; it is 737.5 ft above, where only more than 100 ft below is clear",
                "upper: at the last instant within 500 ft; the intruder is 50.0 ft below, closer than 100 ft",
            ],
        ),
        case(
            "level: far below the upper path",
            BAND,
            &[
                "lower: as the intruder comes within 500 ft; it is level with the ownship, closer than 100 ft",
                "upper: as the intruder comes within 500 ft; it is 637.5 ft below, where only more than 100 ft above is clear",
            ],
        ),
    ]
}

/// Every question worked by hand.
pub fn questions() -> Cases {
    [
        papers(),
        delays(),
        ends(),
        others(),
        gaps(),
        fractions(),
        pucks(),
        descending(),
        descending_two_sided(),
        clear(),
        flat(),
        rising(),
        upper(),
    ]
    .into_iter()
    .flatten()
    .collect()
}

/// A sheet, the instant named for it, and its whole text.
pub struct Told {
    pub name: &'static str,
    pub sheet: Vec<u8>,
    pub named: Named,
    pub text: &'static str,
}

fn told(name: &'static str, sheet: &str, named: Named, text: &'static str) -> Told {
    Told {
        name,
        sheet: hex(sheet),
        named,
        text,
    }
}

const WHOLE: &str = "01 00000000 FFFFE4A8 00002710 FFFFFC18 00000000 \
                     05 01 01 00000000 00000000 000001F4 00000000 0000 FFFF";

/// Every kind of record refused, and questions that are asked of what was before.
const REFUSALS: &str = "04 0C FFFF \
                        01 00B71B01 00000000 00000000 00000000 00000000 \
                        05 01 01 00000000 00000000 000001F4 00000000 0000 FFFF \
                        01 00000000 FFFF5B0F 00000000 00000000 00000000 \
                        02 0000EA61 00001770 \
                        03 FFFFFFFF \
                        04 0C 001E \
                        01 00000000 00000000 FFFFFFFF 00000000 00000000 \
                        04 13 FFFF \
                        02 00007530 00001770 \
                        05 03 02 FFFFFFFE 00000000 00000000 00000000 003D 0259";

const REFUSALS_TEXT: &str = "\
answer 1: refused, 7: no encounter was accepted before the question
    record 1 at byte 0, coded question: code 12 CL1500, no limit
answer 2: refused, 1: an encounter field is outside its limits
    record 2 at byte 4, encounter: r 12000001, h 0, c 0, v 0, vi 0
answer 3: refused, 7: no encounter was accepted before the question
    record 3 at byte 25, free question: one-sided, climb, target 0, upper target 0, strength 500, upper strength 0, delay 0 s, no limit
    warning: the encounter in record 2 was refused, and there is none before it
answer 4: refused, 2: the puck's radius or half height is outside its limits
    record 5 at byte 69, puck: p 60001, k 6000
answer 5: refused, 3: the delay acceleration is outside its limits
    record 6 at byte 78, delay acceleration: e -1
answer 6: conflict at 15 s
    as the ownship's vertical speed comes to the intruder's; the intruder is 100 ft below, on the puck's edge
    15 s is a conflict time; the judge shows 15 s
    record 7 at byte 83, coded question: code 12 CL1500, limit 30 s
    asked of the encounter in record 4: r 0, h -42225, c 0, v 0, vi 0
    warning: the puck in record 5 was refused, so the one before it holds
    warning: the delay acceleration in record 6 was refused, so the one before it holds
answer 7: refused, 1: an encounter field is outside its limits
    record 8 at byte 87, encounter: r 0, h 0, c -1, v 0, vi 0
answer 8: refused, 8: the code is not one of 1 to 18
    record 9 at byte 108, coded question: code 19, no limit
    asked of the encounter in record 4: r 0, h -42225, c 0, v 0, vi 0
    warning: the encounter in record 8 was refused, so the one before it holds
    warning: the puck in record 5 was refused, so the one before it holds
    warning: the delay acceleration in record 6 was refused, so the one before it holds
answer 9: refused, 4: the sides are not 1 or 2, or the sense is not 0 or 1
    record 11 at byte 121, free question: sides 3, sense 2, target -2, upper target 0, strength 0, upper strength 0, delay 61 s, limit 601 s
    asked of the encounter in record 4: r 0, h -42225, c 0, v 0, vi 0
    warning: the encounter in record 8 was refused, so the one before it holds
    warning: the delay acceleration in record 6 was refused, so the one before it holds
records 11, answers 9
";

/// Whole texts of sheets.
pub fn texts() -> Vec<Told> {
    vec![
        told(
            "the whole example",
            WHOLE,
            Some((5, 2)),
            "answer 1: conflict at 2 s\n    \
                 as the ownship's vertical speed comes to the intruder's; the intruder is 100 ft below, on the puck's edge\n    \
                 2 1/2 s is a conflict time; the judge shows 2 s\n    \
                 record 2 at byte 21, free question: one-sided, climb, target 0, upper target 0, strength 500, upper strength 0, delay 0 s, no limit\n    \
                 asked of the encounter in record 1: r 0, h -7000, c 10000, v -1000, vi 0\n\
             records 2, answers 1\n",
        ),
        told("refusals", REFUSALS, Some((30, 2)), REFUSALS_TEXT),
        told("an empty sheet", "", Some((1, 1)), "records 0, answers 0\n"),
        told(
            "an unknown kind",
            "03 000003C6 06 00",
            None,
            "sheet refused, 11: a record has an unknown kind\n    record 2 at byte 5\n",
        ),
        told(
            "a body cut short",
            "03 000003C6 03 000003C6 04 0C FF",
            None,
            "sheet refused, 12: a record is cut short\n    record 3 at byte 10\n",
        ),
        Told {
            name: "8,193 bytes",
            sheet: vec![0; 8_193],
            named: None,
            text: "sheet refused, 10: it is longer than 8192 bytes\n",
        },
    ]
}

#[cfg(test)]
mod tests {
    use super::*;
    use crate::independent::judge;
    use crate::meaning::meanings;
    use crate::words::text;

    #[test]
    fn questions_mean_what_was_worked_out() {
        for Worked {
            name,
            question,
            lines,
        } in questions()
        {
            let found = meanings(&question, &judge(&question));
            let found: Vec<String> = found.iter().map(|line| line.text(&question)).collect();
            assert_eq!(found, lines, "{name}: {question}");
        }
    }

    #[test]
    fn sheets_say_what_was_worked_out() {
        for told in texts() {
            assert_eq!(text(&told.sheet, told.named), told.text, "{}", told.name);
        }
    }
}
