//! What the WebAssembly module is asked, and what it must answer, as a stream of 64-bit numbers, little-endian, that `wasm.mjs` reads.
//!
//! An item is how many numbers follow, its kind, how many arguments and how many numbers its answer has, and these; then, if anything follows, how
//! many blocks of bytes are given and how many are written, and of each its length and its bytes, filled with zeros to a multiple of eight.
//! Kind 0 begins a part: its argument says how many of the part's items are wrong, its block is the part's name.

use crate::catalogue::Coded;
use crate::check::ExpectedSheet;
use crate::ffi::{
    DrawingResult, FlightResult, InstantResult, JudgeResult, PointResult, QuestionResult,
    SheetResult, UpperPointResult,
};
use crate::flight::{FlightAnswer, FlightCase};
use crate::independent::{Answer, Question};
use crate::instant::{InstantAnswer, InstantCase};
use crate::screen::{Drawing, Point, UpperDrawing, UpperPoint};
use std::io::{self, Write};

/// A function of the module, in the order of `wasm.mjs`.
#[derive(Clone, Copy)]
pub enum Function {
    Plain = 1,
    Drawing,
    Point,
    Instant,
    Flight,
    Sheet,
    Words,
    UpperDrawing,
    UpperPoint,
    Coded,
}

/// A call with what it must answer.
#[derive(Clone)]
pub struct Item {
    pub function: Function,
    pub arguments: Vec<u64>,
    pub answer: Vec<u64>,
    /// A flight's numbers; a sheet, and the area before; an argument, if there is one, and a sheet.
    pub given: Vec<Vec<u8>>,
    /// The area after; standard output and standard error.
    pub written: Vec<Vec<u8>>,
}

impl Item {
    pub fn of_numbers(function: Function, arguments: &[u64], answer: &[u64]) -> Item {
        Item {
            function,
            arguments: arguments.to_vec(),
            answer: answer.to_vec(),
            given: Vec::new(),
            written: Vec::new(),
        }
    }

    pub fn plain(q: &Question, answer: &Answer) -> Item {
        let answer = JudgeResult::of(answer).numbers();
        Item::of_numbers(Function::Plain, &numbers(q, &[]), &answer)
    }

    pub fn drawing(q: &Question, drawing: &Drawing) -> Item {
        let answer = DrawingResult::of(drawing).numbers();
        Item::of_numbers(Function::Drawing, &numbers(q, &[]), &answer)
    }

    pub fn point(q: &Question, second: u64, point: &Point) -> Item {
        let answer = PointResult::of(point).numbers();
        Item::of_numbers(Function::Point, &numbers(q, &[second]), &answer)
    }

    pub fn upper_drawing(q: &Question, drawing: &UpperDrawing) -> Item {
        let answer = DrawingResult::of_upper(drawing).numbers();
        Item::of_numbers(Function::UpperDrawing, &numbers(q, &[]), &answer)
    }

    pub fn upper_point(q: &Question, second: u64, point: &UpperPoint) -> Item {
        let answer = UpperPointResult::of(point).numbers();
        Item::of_numbers(Function::UpperPoint, &numbers(q, &[second]), &answer)
    }

    pub fn coded(code: u64, v: i64, limit: i64, coded: &Coded) -> Item {
        let answer = QuestionResult::of(coded, limit).numbers();
        Item::of_numbers(Function::Coded, &[code, v as u64, limit as u64], &answer)
    }

    pub fn instant(case: &InstantCase, answer: &InstantAnswer) -> Item {
        let InstantCase { question, n, m } = case;
        let answer = InstantResult::of(answer).numbers();
        Item::of_numbers(Function::Instant, &numbers(question, &[*n, *m]), &answer)
    }

    pub fn flight(case: &FlightCase, answer: &FlightAnswer) -> Item {
        let q = &case.question;
        let arguments = [
            q.r, q.h, q.c, q.v, q.vi, q.p, q.k, q.e, q.sense, q.target, q.strength, q.delay,
            q.limit,
        ];
        Item::of_flight(
            &arguments.map(|n| n as u64),
            &FlightResult::of(answer).numbers(),
            &case.flight,
        )
    }

    pub fn of_flight(arguments: &[u64], answer: &[u64], flight: &[i64]) -> Item {
        let bytes = flight.iter().flat_map(|n| n.to_le_bytes());
        Item {
            given: vec![bytes.collect()],
            ..Item::of_numbers(Function::Flight, arguments, answer)
        }
    }

    pub fn sheet(sheet: &[u8], expected: ExpectedSheet) -> Item {
        let SheetResult { refusal, length } = SheetResult::of(expected.outcome);
        Item {
            given: vec![sheet.to_vec(), expected.before],
            written: vec![expected.after],
            ..Item::of_numbers(Function::Sheet, &[], &[refusal, length])
        }
    }

    /// The item with each number of its answer wrong in turn, and each end of what it writes, by a bit.
    pub fn wrong(&self) -> Vec<Item> {
        let mut items = Vec::new();
        for i in 0..self.answer.len() {
            let mut item = self.clone();
            item.answer[i] ^= 1 << (7 * i % 64);
            items.push(item);
        }
        for i in 0..self.written.len() {
            for last in [false, true] {
                let mut item = self.clone();
                let bytes = &mut item.written[i];
                let byte = if last {
                    bytes.last_mut()
                } else {
                    bytes.first_mut()
                };
                if let Some(byte) = byte {
                    *byte ^= 1;
                    items.push(item);
                }
            }
        }
        items
    }
}

fn numbers(q: &Question, rest: &[u64]) -> Vec<u64> {
    [&q.numbers().map(|n| n as u64)[..], rest].concat()
}

/// The stream that is written.
pub struct Stream<W: Write> {
    to: W,
}

impl<W: Write> Stream<W> {
    pub fn new(to: W) -> Stream<W> {
        Stream { to }
    }

    /// Begins a part, of whose items so many are wrong.
    pub fn part(&mut self, name: &str, wrong: u64) -> io::Result<()> {
        self.write(0, &[wrong], &[], &[name.as_bytes().to_vec()], &[])
    }

    pub fn put(&mut self, item: &Item) -> io::Result<()> {
        self.write(
            item.function as u64,
            &item.arguments,
            &item.answer,
            &item.given,
            &item.written,
        )
    }

    fn write(
        &mut self,
        kind: u64,
        arguments: &[u64],
        answer: &[u64],
        given: &[Vec<u8>],
        written: &[Vec<u8>],
    ) -> io::Result<()> {
        let mut numbers = vec![0, kind, arguments.len() as u64, answer.len() as u64];
        numbers.extend(arguments);
        numbers.extend(answer);
        if given.len() + written.len() > 0 {
            numbers.extend([given.len() as u64, written.len() as u64]);
            given
                .iter()
                .chain(written)
                .for_each(|bytes| block(&mut numbers, bytes));
        }
        numbers[0] = numbers.len() as u64 - 1;
        let bytes: Vec<u8> = numbers.into_iter().flat_map(u64::to_le_bytes).collect();
        self.to.write_all(&bytes)
    }

    pub fn finish(mut self) -> io::Result<()> {
        self.to.flush()
    }
}

fn block(numbers: &mut Vec<u64>, bytes: &[u8]) {
    numbers.push(bytes.len() as u64);
    numbers.extend(bytes.chunks(8).map(|chunk| {
        let mut eight = [0; 8];
        eight[..chunk.len()].copy_from_slice(chunk);
        u64::from_le_bytes(eight)
    }));
}
