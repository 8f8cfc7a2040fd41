//! The reader of question sheets, written from document 01 alone.

use crate::catalogue::{self, Target};
use crate::independent::{self, Answer, Question, judge};

pub const LONGEST_SHEET: usize = 8_192;

/// The settings that the records of a sheet change.
#[derive(Clone, Copy)]
struct Settings {
    puck: (i64, i64),
    delay_acceleration: i64,
    /// r, h, c, v, vi.
    encounter: Option<[i64; 5]>,
}

const AT_FIRST: Settings = Settings {
    puck: (30_000, 6_000),
    delay_acceleration: 966,
    encounter: None,
};

/// One record, its numbers read.
pub enum Record {
    Encounter([i64; 5]),
    Puck(i64, i64),
    DelayAcceleration(i64),
    Coded {
        code: u8,
        limit: i64,
    },
    /// sides, sense, target, upper target, strength, upper strength, delay, limit
    Free([i64; 8]),
}

/// The length of the body that a kind fixes.
pub fn body_length(kind: u8) -> Option<usize> {
    match kind {
        1 => Some(20),
        2 => Some(8),
        3 => Some(4),
        4 => Some(3),
        5 => Some(22),
        _ => None,
    }
}

/// Reads numbers off the front of a body.
struct Body<'a>(&'a [u8]);

impl Body<'_> {
    fn take<const N: usize>(&mut self) -> [u8; N] {
        let (front, rest) = self.0.split_first_chunk::<N>().unwrap();
        self.0 = rest;
        *front
    }

    fn byte(&mut self) -> u8 {
        self.take::<1>()[0]
    }

    fn two(&mut self) -> i64 {
        i64::from(u16::from_be_bytes(self.take()))
    }

    fn four(&mut self) -> i64 {
        i64::from(i32::from_be_bytes(self.take()))
    }
}

fn decode(kind: u8, body: &[u8]) -> Record {
    let mut body = Body(body);
    match kind {
        1 => Record::Encounter(std::array::from_fn(|_| body.four())),
        2 => Record::Puck(body.four(), body.four()),
        3 => Record::DelayAcceleration(body.four()),
        4 => Record::Coded {
            code: body.byte(),
            limit: body.two(),
        },
        _ => Record::Free([
            i64::from(body.byte()),
            i64::from(body.byte()),
            body.four(),
            body.four(),
            body.four(),
            body.four(),
            body.two(),
            body.two(),
        ]),
    }
}

/// Where a record stands: its number, from 1, and the position of its kind's byte, from 0.
#[derive(Clone, Copy, Debug, PartialEq, Eq)]
pub struct Place {
    pub record: usize,
    pub byte: usize,
}

/// Why a whole sheet is refused: 10, 11 or 12; and the record that is unknown or cut short.
#[derive(Clone, Copy, Debug, PartialEq, Eq)]
pub struct Fault {
    pub number: u8,
    pub place: Option<Place>,
}

/// The records of a sheet, or what is wrong with it.
fn records(sheet: &[u8]) -> Result<Vec<(Place, Record)>, Fault> {
    if sheet.len() > LONGEST_SHEET {
        return Err(Fault {
            number: 10,
            place: None,
        });
    }
    let mut found = Vec::new();
    let mut rest = sheet;
    while let Some((&kind, after)) = rest.split_first() {
        let place = Place {
            record: found.len() + 1,
            byte: sheet.len() - rest.len(),
        };
        let refused = |number| Fault {
            number,
            place: Some(place),
        };
        let length = body_length(kind).ok_or(refused(11))?;
        let (body, next) = after.split_at_checked(length).ok_or(refused(12))?;
        found.push((place, decode(kind, body)));
        rest = next;
    }
    Ok(found)
}

fn within(field: usize, n: i64) -> bool {
    independent::in_range(field, n)
}

/// The plain question under the settings; its advice is filled in by the caller.
fn under(settings: &Settings) -> Option<Question> {
    let [r, h, c, v, vi] = settings.encounter?;
    let (p, k) = settings.puck;
    Some(Question {
        r,
        h,
        c,
        v,
        vi,
        p,
        k,
        e: settings.delay_acceleration,
        ..Question::default()
    })
}

/// The free question that a code stands for, with the encounter, the settings and the limit of `q`; or
/// the refusal of the code.
pub fn coded_question(q: &Question, code: u8) -> Result<Question, u8> {
    let advice = catalogue::look_up(code)?;
    if advice.against(q.v) {
        return Err(17);
    }
    Ok(Question {
        sides: 1,
        sense: advice.sense,
        target: match advice.target {
            Target::Speed(speed) => speed,
            Target::Current => q.v,
        },
        upper_target: 0,
        strength: advice.strength,
        upper_strength: 0,
        delay: advice.delay,
        ..*q
    })
}

fn coded(settings: &Settings, code: u8, limit: i64) -> Result<Question, u8> {
    let q = under(settings).ok_or(7)?;
    coded_question(&Question { limit, ..q }, code)
}

fn free(settings: &Settings, fields: &[i64; 8]) -> Result<Question, u8> {
    let q = under(settings).ok_or(7)?;
    let [
        sides,
        sense,
        target,
        upper_target,
        strength,
        upper_strength,
        delay,
        limit,
    ] = *fields;
    Ok(Question {
        sides,
        sense,
        target,
        upper_target,
        strength,
        upper_strength,
        delay,
        limit,
        ..q
    })
}

/// A question that is accepted. Encounter, puck and e were tested when they were set.
fn accepted(q: Question) -> Result<Question, u8> {
    independent::question_refusal(&q).map_or(Ok(q), Err)
}

/// What comes of one record: the plain question that it asks, or its refusal; nothing of an accepted setting, which
/// changes the settings.
fn take(settings: &mut Settings, record: &Record) -> Option<Result<Question, u8>> {
    match record {
        Record::Encounter(fields) => {
            if !fields.iter().enumerate().all(|(i, &n)| within(i, n)) {
                return Some(Err(1));
            }
            settings.encounter = Some(*fields);
            None
        }
        Record::Puck(p, k) => {
            if !within(5, *p) || !within(6, *k) {
                return Some(Err(2));
            }
            settings.puck = (*p, *k);
            None
        }
        Record::DelayAcceleration(e) => {
            if !within(7, *e) {
                return Some(Err(3));
            }
            settings.delay_acceleration = *e;
            None
        }
        Record::Coded { code, limit } => Some(coded(settings, *code, *limit).and_then(accepted)),
        Record::Free(fields) => Some(free(settings, fields).and_then(accepted)),
    }
}

/// A record with its place, and what comes of it.
pub struct Step {
    pub place: Place,
    pub record: Record,
    pub asked: Option<Result<Question, u8>>,
}

/// The records of a sheet in order, or what is wrong with it.
pub fn steps(sheet: &[u8]) -> Result<Vec<Step>, Fault> {
    let mut settings = AT_FIRST;
    Ok(records(sheet)?
        .into_iter()
        .map(|(place, record)| Step {
            place,
            asked: take(&mut settings, &record),
            record,
        })
        .collect())
}

/// One answer, with the code for a coded question.
pub struct Response {
    pub answer: Answer,
    pub code: Option<u8>,
}

/// The answers of a sheet in order, or its refusal, 10 to 12.
pub fn responses(sheet: &[u8]) -> Result<Vec<Response>, u8> {
    let steps = steps(sheet).map_err(|fault| fault.number)?;
    let response = |step: &Step| {
        let code = match step.record {
            Record::Coded { code, .. } => Some(code),
            _ => None,
        };
        let answer = step.asked?.map_or_else(Answer::Refused, |q| judge(&q));
        Some(Response { answer, code })
    };
    Ok(steps.iter().filter_map(response).collect())
}

/// The whole answer of a sheet in bytes, or its refusal, 10 to 12.
pub fn answer_bytes(sheet: &[u8]) -> Result<Vec<u8>, u8> {
    let mut bytes = Vec::new();
    for response in responses(sheet)? {
        response.answer.record(&mut bytes);
    }
    Ok(bytes)
}

/// What the program writes: the whole answer, or kind 69 and the refusal.
pub fn program_bytes(sheet: &[u8]) -> Vec<u8> {
    answer_bytes(sheet).unwrap_or_else(|number| vec![69, number])
}

/// Writes the whole answer to the front of the area and gives its length, or gives the refusal, 10
/// to 13, and changes no byte.
pub fn answer_into(sheet: &[u8], area: &mut [u8]) -> Result<usize, u8> {
    let bytes = answer_bytes(sheet)?;
    match area.get_mut(..bytes.len()) {
        None => Err(13),
        Some(front) => {
            front.copy_from_slice(&bytes);
            Ok(bytes.len())
        }
    }
}
