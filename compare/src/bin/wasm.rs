//! wasm CRATES WORDS [COUNT] [SEED]: writes to standard output what the WebAssembly module is asked and must answer, as src/stream.rs
//! lays it out: the files of the crates' folder; COUNT plain questions (1 million) with the drawing of each and four of its
//! seconds, the upper drawing and two, and three instants; every code; a tenth as many codes and flights and a hundredth as many
//! sheets; the words of the program WORDS on sheets; and wrong answers. Status 0 only if the independent decisions agree and every
//! required class was met.

use compare::check::{self, Tally, argument};
use compare::generate::{self, Random};
use compare::independent::Question;
use compare::instant::{self, Known, TRIED, case_at};
use compare::stream::{Item, Stream};
use compare::{files, pilots, screen, words_program};
use std::io::{self, BufWriter, Write};
use std::path::Path;
use std::process::ExitCode;

const SECONDS: usize = 4;
const INSTANTS: usize = 3;
/// Generated sheets that the words are compared on, at most.
const WORDS: u64 = 2_000;
/// How many items of each kind are made wrong.
const PLANTED: usize = 20;

/// The parts that a run has, and what it has counted.
struct Run<W: Write> {
    stream: Stream<W>,
    tally: Tally,
    random: Random,
    count: u64,
    seed: u64,
    /// Items to make wrong.
    kept: Vec<Item>,
}

impl<W: Write> Run<W> {
    /// Puts an item, and keeps it if it is to be made wrong too.
    fn put(&mut self, item: &Item, is_kept: bool) -> io::Result<()> {
        if is_kept {
            self.kept.push(item.clone());
        }
        self.stream.put(item)
    }

    fn files(&mut self, crates: &Path) -> io::Result<()> {
        for file in files::read(crates)? {
            self.stream.part(&file.name, file.wrong)?;
            for item in &file.items {
                self.stream.put(item)?;
            }
        }
        Ok(())
    }

    fn questions(&mut self) -> io::Result<()> {
        self.stream.part("questions, drawings and instants", 0)?;
        for i in 0..self.count {
            let q = generate::question(self.seed, i);
            let is_kept = i < PLANTED as u64;
            let answer = self.tally.question(&q, &mut self.random);
            self.put(&Item::plain(&q, &answer), is_kept)?;
            let drawing = self.tally.drawing(&q);
            self.put(&Item::drawing(&q, &drawing), is_kept)?;
            self.seconds(&q, i as usize, is_kept)?;
            self.upper(&q, i as usize, is_kept)?;
            self.instants(&q, i as usize, is_kept)?;
        }
        Ok(())
    }

    /// Of three questions in a row each kind of second.
    fn seconds(&mut self, q: &Question, i: usize, is_kept: bool) -> io::Result<()> {
        let seconds = screen::seconds(q, self.random.draw());
        for second in seconds
            .into_iter()
            .cycle()
            .skip(SECONDS * i % seconds.len())
            .take(SECONDS)
        {
            let point = self.tally.point(q, second);
            self.put(&Item::point(q, second, &point), is_kept)?;
        }
        Ok(())
    }

    /// The upper path's drawing, and of six questions in a row each kind of its seconds.
    fn upper(&mut self, q: &Question, i: usize, is_kept: bool) -> io::Result<()> {
        let drawing = self.tally.upper_drawing(q);
        self.put(&Item::upper_drawing(q, &drawing), is_kept)?;
        let seconds = screen::upper_seconds(q, self.random.draw());
        for second in seconds
            .into_iter()
            .cycle()
            .skip(2 * i % seconds.len())
            .take(2)
        {
            let point = self.tally.upper_point(q, second);
            self.put(&Item::upper_point(q, second, &point), is_kept)?;
        }
        Ok(())
    }

    /// Every code, each with speeds and limits at their edges and beyond, and generated ones.
    fn codes(&mut self) -> io::Result<()> {
        self.stream.part("codes", 0)?;
        let beyond = [1 << 8, 1 << 16, (1 << 32) + 9, 1 << 63, u64::MAX];
        for code in (0..300).chain(beyond) {
            for v in [i64::MIN, -10_001, -10_000, -1, 0, 1, 10_000, i64::MAX] {
                for limit in [i64::MIN, -1, 0, 600, 601, 65_535, i64::MAX] {
                    let coded = self.tally.coded(code, v);
                    let is_kept = code == 12 && limit == 600;
                    self.put(&Item::coded(code, v, limit, &coded), is_kept)?;
                }
            }
        }
        for i in 0..self.count.div_ceil(10) {
            let q = generate::question(self.seed, i);
            let code = self.random.below(20);
            let coded = self.tally.coded(code, q.v);
            self.put(&Item::coded(code, q.v, q.limit, &coded), false)?;
        }
        Ok(())
    }

    /// Of eight questions in a row three times each kind of instant.
    fn instants(&mut self, q: &Question, i: usize, is_kept: bool) -> io::Result<()> {
        let known = Known::of(q);
        let instants = instant::instants(&known, &mut self.random);
        for at in instants
            .into_iter()
            .cycle()
            .skip(INSTANTS * i % TRIED)
            .take(INSTANTS)
        {
            let case = case_at(q, at);
            let answer = self.tally.instant(&known, &case);
            self.put(&Item::instant(&case, &answer), is_kept)?;
        }
        Ok(())
    }

    fn flights(&mut self) -> io::Result<()> {
        self.stream.part("flights", 0)?;
        for i in 0..self.count.div_ceil(10) {
            let case = pilots::flight(self.seed, i);
            let answer = self.tally.flight(&case, &mut self.random);
            self.put(&Item::flight(&case, &answer), i < PLANTED as u64)?;
        }
        Ok(())
    }

    fn sheets(&mut self) -> io::Result<()> {
        self.stream.part("generated sheets", 0)?;
        for i in 0..self.count.div_ceil(100) {
            let case = generate::sheet(self.seed, i);
            let expected = self.tally.sheet(&case);
            self.put(&Item::sheet(&case.sheet, expected), i < PLANTED as u64)?;
        }
        Ok(())
    }

    fn words(&mut self, program: &Path) -> io::Result<()> {
        self.stream.part("words", 0)?;
        let cases = words_program::cases(self.seed, WORDS.min(self.count.div_ceil(100)));
        for (i, item) in words_program::items(program, &cases)?.iter().enumerate() {
            self.put(item, i < PLANTED)?;
        }
        Ok(())
    }

    fn planted(&mut self) -> io::Result<()> {
        let wrong: Vec<Item> = self.kept.iter().flat_map(Item::wrong).collect();
        self.stream.part("wrong answers", wrong.len() as u64)?;
        wrong.iter().try_for_each(|item| self.stream.put(item))
    }
}

fn run(crates: &Path, program: &Path) -> io::Result<Tally> {
    let seed = argument(4, 1);
    let mut run = Run {
        stream: Stream::new(BufWriter::with_capacity(1 << 20, io::stdout().lock())),
        tally: Tally::default(),
        random: Random::new(seed),
        count: argument(3, 1_000_000),
        seed,
        kept: Vec::new(),
    };
    check::examples(&mut run.tally);
    run.files(crates)?;
    run.questions()?;
    run.codes()?;
    run.flights()?;
    run.sheets()?;
    run.words(program)?;
    run.planted()?;
    run.stream.finish()?;
    Ok(run.tally)
}

fn main() -> ExitCode {
    let [crates, program] = [1, 2].map(|i| {
        std::env::args()
            .nth(i)
            .expect("wasm CRATES WORDS [COUNT] [SEED]")
    });
    match run(Path::new(&crates), Path::new(&program)) {
        Ok(tally) => ExitCode::from(tally.verdict()),
        Err(error) => {
            eprintln!("wasm: {error}");
            ExitCode::FAILURE
        }
    }
}
