//! What a run checks of each question, instant, flight and sheet without the proved judge, and what it counts.

use crate::catalogue::CATALOGUE;
use crate::catalogue::{self, Coded};
use crate::edges::{self, EDGES, POSITIONS};
use crate::exact::Ratio;
use crate::examples::Table1;
use crate::figures;
use crate::flight::{self, FLIGHT_CLASSES, FlightAnswer, FlightCase, Seen};
use crate::generate::{self, AREA_FORMS, AreaForm, Random, SHEET_FORMS, SheetCase, SheetForm};
use crate::independent::{
    Accepted, Answer, FIELDS, Moment, NAMES, Question, REFUSALS, Side, judge, judge_accepted,
};
use crate::instant::{self, INSTANT_CLASSES, InstantAnswer, InstantCase, Known};
use crate::motion;
use crate::screen::{
    self, DRAWING_CLASSES, Drawing, POINT_CLASSES, Point, UPPER_DRAWING_CLASSES,
    UPPER_POINT_CLASSES, UpperDrawing, UpperPoint,
};
use crate::sheet;
use std::fmt::Write;

const MOMENTS: [(Moment, &str); 5] = [
    (Moment::Start, "window start"),
    (Moment::EndOfDelay, "end of delay"),
    (Moment::Turning, "turning instant"),
    (Moment::End, "window end"),
    (Moment::WholeSecond, "first whole second"),
];

/// The refusals of a sheet's records.
const RECORD_REFUSALS: [u8; 13] = [1, 2, 3, 4, 5, 6, 7, 8, 9, 14, 15, 16, 17];

/// What a code may be answered by: a question, or a refusal.
const CODE_OUTCOMES: [u8; 4] = [0, 8, 9, 17];

/// Counts of one run, and its first difference.
pub struct Tally {
    questions: u64,
    verdicts: [u64; 6],
    refusals: [u64; REFUSALS.len()],
    lower_moments: [u64; 5],
    upper_moments: [u64; 5],
    edges: Vec<u64>,
    positions: [[u64; POSITIONS.len()]; FIELDS],
    figure3: [u64; 2],
    figure5: [u64; 2],
    existence: [u64; 2],
    sampled: u64,
    drawings: u64,
    drawing_classes: [u64; DRAWING_CLASSES.len()],
    points: u64,
    point_classes: [u64; POINT_CLASSES.len()],
    upper_drawing_classes: [u64; UPPER_DRAWING_CLASSES.len()],
    upper_point_classes: [u64; UPPER_POINT_CLASSES.len()],
    codes: u64,
    code_outcomes: [u64; CODE_OUTCOMES.len()],
    flights: u64,
    flight_classes: [u64; FLIGHT_CLASSES.len()],
    instants: u64,
    instant_classes: [u64; INSTANT_CLASSES.len()],
    sheets: u64,
    sheet_forms: [u64; SHEET_FORMS.len()],
    area_forms: [u64; AREA_FORMS.len()],
    sheet_outcomes: [u64; 5],
    sheet_answers: [u64; 3],
    sheet_clear: [u64; 3],
    sheet_refusals: [u64; RECORD_REFUSALS.len()],
    sheet_codes: [u64; 16],
    longest_answer: u64,
    sheet_bytes: u64,
    differences: u64,
    first_difference: Option<String>,
}

const VERDICTS: [&str; 6] = [
    "one-sided clear",
    "one-sided conflict",
    "two-sided, lower side clear",
    "two-sided, upper side clear",
    "two-sided, both sides clear",
    "two-sided conflict",
];

impl Default for Tally {
    fn default() -> Tally {
        Tally {
            questions: 0,
            verdicts: [0; 6],
            refusals: [0; REFUSALS.len()],
            lower_moments: [0; 5],
            upper_moments: [0; 5],
            edges: vec![0; EDGES.len()],
            positions: [[0; POSITIONS.len()]; FIELDS],
            figure3: [0; 2],
            figure5: [0; 2],
            existence: [0; 2],
            sampled: 0,
            drawings: 0,
            drawing_classes: [0; DRAWING_CLASSES.len()],
            points: 0,
            point_classes: [0; POINT_CLASSES.len()],
            upper_drawing_classes: [0; UPPER_DRAWING_CLASSES.len()],
            upper_point_classes: [0; UPPER_POINT_CLASSES.len()],
            codes: 0,
            code_outcomes: [0; CODE_OUTCOMES.len()],
            flights: 0,
            flight_classes: [0; FLIGHT_CLASSES.len()],
            instants: 0,
            instant_classes: [0; INSTANT_CLASSES.len()],
            sheets: 0,
            sheet_forms: [0; SHEET_FORMS.len()],
            area_forms: [0; AREA_FORMS.len()],
            sheet_outcomes: [0; 5],
            sheet_answers: [0; 3],
            sheet_clear: [0; 3],
            sheet_refusals: [0; RECORD_REFUSALS.len()],
            sheet_codes: [0; 16],
            longest_answer: 0,
            sheet_bytes: 0,
            differences: 0,
            first_difference: None,
        }
    }
}

/// The instants that the time rule lists for the lower side.
fn lower_listed(x: &Accepted) -> Vec<Ratio> {
    let mut listed = upper_listed(x);
    listed.push(Ratio::whole(x.d));
    if x.q >= 0 {
        listed.push(x.turning());
    }
    listed
}

/// The instants that the time rule lists for the upper side: the window's ends.
fn upper_listed(x: &Accepted) -> Vec<Ratio> {
    let window = x.window();
    let ends = window.map(|window| (Some(window.start), window.end));
    ends.into_iter()
        .flat_map(|(start, end)| [start, end])
        .flatten()
        .collect()
}

/// Adds one to the count of a refusal's number.
fn count_refusal(counts: &mut [u64], numbers: &[u8], number: u8) {
    counts[numbers.iter().position(|n| *n == number).unwrap()] += 1;
}

/// Adds one to the count of the entry that has this key.
fn count<K: PartialEq>(counts: &mut [u64], keys: &[(K, &str)], key: K) {
    let i = keys.iter().position(|(k, _)| *k == key).unwrap();
    counts[i] += 1;
}

impl Tally {
    pub fn differences(&self) -> u64 {
        self.differences
    }

    /// Notes a difference; the first is kept in full.
    pub fn differ(&mut self, describe: impl FnOnce() -> String) {
        self.differences += 1;
        if self.first_difference.is_none() {
            let text = describe();
            eprintln!("first difference:\n{text}");
            self.first_difference = Some(text);
        }
    }

    /// Counts a question, holds the independent decisions against each other, and gives the answer.
    pub fn question(&mut self, q: &Question, random: &mut Random) -> Answer {
        let accepted = Accepted::of(q);
        let ground = edges::grounds(q).iter().position(|ground| *ground);
        if accepted.err() != ground.map(|i| REFUSALS[i]) {
            self.differ(|| format!("question {q}\n  refusal against its grounds"));
        }
        let answer = match &accepted {
            Ok(x) => self.accepted(q, x, random),
            Err(number) => {
                count_refusal(&mut self.refusals, &REFUSALS, *number);
                Answer::Refused(*number)
            }
        };
        if answer != judge(q) {
            self.differ(|| format!("question {q}\n  two answers of the same entry"));
        }
        self.questions += 1;
        for edge in edges::of(q).iter() {
            self.edges[edge as usize] += 1;
        }
        for (field, position) in edges::positions(q, accepted.is_ok()) {
            count(&mut self.positions[field], &POSITIONS, position);
        }
        answer
    }

    fn accepted(&mut self, q: &Question, x: &Accepted, random: &mut Random) -> Answer {
        let lower = x.lower_side();
        let upper = x.upper.map(|upper| x.upper_side(upper));
        self.side(q, "lower", lower, &lower_listed(x), |t| x.lower_conflict(t));
        if let Some((_, moment)) = lower.shown {
            count(&mut self.lower_moments, &MOMENTS, moment);
        }
        if let (Some(path), Some(side)) = (x.upper, upper) {
            self.side(q, "upper", side, &upper_listed(x), |t| {
                x.upper_conflict(path, t)
            });
            if let Some((_, moment)) = side.shown {
                count(&mut self.upper_moments, &MOMENTS, moment);
            }
        }
        self.sample(q, x, lower, upper, random);
        self.figures(q, lower);
        let answer = judge_accepted(x);
        let verdict = match (answer, upper) {
            (Answer::Clear(1), None) => 0,
            (Answer::Conflict(_), None) => 1,
            (Answer::Clear(n), Some(_)) => 1 + usize::from(n),
            (Answer::BothConflict(..), Some(_)) => 5,
            _ => unreachable!("a verdict of the wrong form"),
        };
        self.verdicts[verdict] += 1;
        answer
    }

    /// A time is shown exactly if a conflict time exists, and it is a conflict time: the earliest of
    /// the listed instants that conflict, or, where none does, a whole second after one that does
    /// not.
    fn side(
        &mut self,
        q: &Question,
        name: &str,
        side: Side,
        listed: &[Ratio],
        conflict: impl Fn(Ratio) -> bool,
    ) {
        self.existence[usize::from(side.exists)] += 1;
        if side.exists != side.shown.is_some() {
            self.differ(|| {
                format!(
                    "question {q}\n  {name} side: existence {}, time shown {:?}",
                    side.exists,
                    side.shown.map(|(t, _)| t.to_string()),
                )
            });
        }
        let Some((t, moment)) = side.shown else {
            return;
        };
        if !conflict(t) {
            self.differ(|| format!("question {q}\n  {name} side: no conflict at {t}"));
        }
        let earliest = listed.iter().copied().filter(|t| conflict(*t)).min();
        let right = match earliest {
            Some(first) => t == first && moment != Moment::WholeSecond,
            None => moment == Moment::WholeSecond && t.is_whole() && !conflict(t - Ratio::whole(1)),
        };
        if !right {
            self.differ(|| format!("question {q}\n  {name} side: {t} is not the time to show"));
        }
    }

    /// At some times of the window: none conflicts on a side without a conflict time; before a
    /// first whole second no whole second does.
    fn sample(
        &mut self,
        q: &Question,
        x: &Accepted,
        lower: Side,
        upper: Option<Side>,
        random: &mut Random,
    ) {
        let Some(window) = x.window() else {
            return;
        };
        let end = window.end.unwrap_or(Ratio::whole(2_000_000));
        for i in 0..6 {
            // window start + (end − start) × n/64, or a whole second
            let t = if i < 3 {
                let part = i128::from(random.below(65));
                (window.start + (part * (end - window.start)).over(64)).lowest()
            } else {
                Ratio::whole(i128::from(random.below(70)))
            };
            if !x.in_window(t) {
                continue;
            }
            self.sampled += 1;
            let same = |height: Ratio, area: Ratio| height.lowest() == area.lowest();
            let sound = same(x.lower_path(t), motion::lower_height(q, t))
                && x.upper
                    .is_none_or(|upper| same(x.upper_path(upper, t), motion::upper_height(q, t)));
            if !sound {
                self.differ(|| format!("question {q}\n  a path is not its speed's area at {t}"));
            }
            let early = |side: Side| match side.shown {
                None => true,
                Some((first, Moment::WholeSecond)) => t.is_whole() && t < first,
                Some(_) => false,
            };
            if early(lower) && x.lower_conflict(t) {
                self.differ(|| format!("question {q}\n  lower side: unexpected conflict at {t}"));
            }
            if let (Some(path), Some(side)) = (x.upper, upper)
                && early(side)
                && x.upper_conflict(path, t)
            {
                self.differ(|| format!("question {q}\n  upper side: unexpected conflict at {t}"));
            }
        }
    }

    fn figures(&mut self, q: &Question, lower: Side) {
        let clear = lower.shown.is_none();
        for (figure, safe) in [(3, figures::figure3_safe(q)), (5, figures::figure5_safe(q))] {
            let Some(safe) = safe else {
                continue;
            };
            let counts = if figure == 3 {
                &mut self.figure3
            } else {
                &mut self.figure5
            };
            counts[usize::from(safe)] += 1;
            if safe != clear {
                self.differ(|| {
                    format!("question {q}\n  figure {figure} says safe: {safe}, the paths: {clear}")
                });
            }
        }
    }

    /// Counts a question's drawing, and gives it.
    pub fn drawing(&mut self, q: &Question) -> Drawing {
        let drawing = screen::drawing(q);
        self.drawings += 1;
        for (n, (_, holds)) in self.drawing_classes.iter_mut().zip(DRAWING_CLASSES) {
            *n += u64::from(holds(q, &drawing));
        }
        drawing
    }

    /// Counts a question's point at a second, and gives it.
    pub fn point(&mut self, q: &Question, second: u64) -> Point {
        let point = screen::point(q, second);
        self.points += 1;
        for (n, (_, holds)) in self.point_classes.iter_mut().zip(POINT_CLASSES) {
            *n += u64::from(holds(q, second, &point));
        }
        point
    }

    /// Counts the drawing of a question's upper path, and gives it.
    pub fn upper_drawing(&mut self, q: &Question) -> UpperDrawing {
        let drawing = screen::upper_drawing(q);
        for (n, (_, holds)) in self
            .upper_drawing_classes
            .iter_mut()
            .zip(UPPER_DRAWING_CLASSES)
        {
            *n += u64::from(holds(q, &drawing));
        }
        drawing
    }

    /// Counts a point of a question's upper path, and gives it.
    pub fn upper_point(&mut self, q: &Question, second: u64) -> UpperPoint {
        let point = screen::upper_point(q, second);
        for (n, (_, holds)) in self.upper_point_classes.iter_mut().zip(UPPER_POINT_CLASSES) {
            *n += u64::from(holds(q, second, &point));
        }
        point
    }

    /// Counts what a code asks, and gives it.
    pub fn coded(&mut self, code: u64, v: i64) -> Coded {
        let coded = catalogue::asked(code, v);
        self.codes += 1;
        let outcome = coded.as_ref().err().copied().unwrap_or(0);
        for (n, number) in self.code_outcomes.iter_mut().zip(CODE_OUTCOMES) {
            *n += u64::from(number == outcome);
        }
        coded
    }

    /// Counts a flight, holds its answer against what is said of each instant, and gives it.
    pub fn flight(&mut self, case: &FlightCase, random: &mut Random) -> FlightAnswer {
        if let Some(fault) = flight::unsound(case, random) {
            let FlightCase { question, flight } = case;
            self.differ(|| format!("question {question}\n  flight {flight:?}\n  {fault}"));
        }
        let seen = Seen::of(case);
        self.flights += 1;
        for (n, (_, holds)) in self.flight_classes.iter_mut().zip(FLIGHT_CLASSES) {
            *n += u64::from(holds(&seen));
        }
        seen.answer
    }

    /// That each time shown of a question is a conflict time.
    pub fn shown(&mut self, known: &Known) {
        if let Some(fault) = instant::shown_unsound(known) {
            self.differ(|| format!("question {}\n  {fault}", known.question));
        }
    }

    /// Counts an instant of a question, holds its answer against the other decisions, and gives it.
    pub fn instant(&mut self, known: &Known, case: &InstantCase) -> InstantAnswer {
        let answer = instant::answer(known, case);
        if let Some(fault) = instant::unsound(known, case, answer) {
            let InstantCase { question, n, m } = case;
            self.differ(|| format!("question {question}\n  instant {n}/{m}\n  {fault}"));
        }
        let seen = instant::Seen::of(known, *case, answer);
        self.instants += 1;
        for (n, (_, holds)) in self.instant_classes.iter_mut().zip(INSTANT_CLASSES) {
            *n += u64::from(holds(&seen));
        }
        answer
    }

    /// Counts a sheet, and gives its expected outcome and the area before and after.
    pub fn sheet(&mut self, case: &SheetCase) -> ExpectedSheet {
        let whole = sheet::answer_bytes(&case.sheet);
        let needed = whole.as_ref().map_or(0, Vec::len);
        let before = case.area(needed);
        let mut after = before.clone();
        let outcome = sheet::answer_into(&case.sheet, &mut after);
        let sound = match &outcome {
            Ok(length) => {
                whole.as_deref() == Ok(&after[..*length]) && after[*length..] == before[*length..]
            }
            Err(13) => whole.is_ok() && before.len() < needed && after == before,
            Err(number) => whole == Err(*number) && after == before,
        };
        if !sound {
            self.differ(|| format!("sheet {:02x?}\n  unsound outcome {outcome:?}", case.sheet));
        }
        self.sheets += 1;
        self.sheet_bytes += case.sheet.len() as u64;
        self.longest_answer = self.longest_answer.max(needed as u64);
        count(&mut self.sheet_forms, &SHEET_FORMS, case.form);
        count(&mut self.area_forms, &AREA_FORMS, case.area_form);
        match outcome {
            Ok(_) => self.sheet_outcomes[0] += 1,
            Err(number) => self.sheet_outcomes[usize::from(number) - 9] += 1,
        }
        for response in sheet::responses(&case.sheet).unwrap_or_default() {
            if let Some(code) = response.code
                && !matches!(response.answer, Answer::Refused(_))
            {
                self.sheet_codes[usize::from(code) - 1] += 1;
            }
            match response.answer {
                Answer::Clear(n) => {
                    self.sheet_answers[0] += 1;
                    self.sheet_clear[usize::from(n) - 1] += 1;
                }
                Answer::Conflict(_) => self.sheet_answers[1] += 1,
                Answer::BothConflict(..) => self.sheet_answers[2] += 1,
                Answer::Refused(n) => {
                    count_refusal(&mut self.sheet_refusals, &RECORD_REFUSALS, n);
                }
            }
        }
        ExpectedSheet {
            outcome,
            before,
            after,
        }
    }

    /// The counts as text, and the names of the required classes that were not met.
    pub fn report(&self) -> (String, Vec<String>) {
        let mut out = Report::default();
        if self.questions > 0 {
            self.report_questions(&mut out);
        }
        if self.drawings > 0 {
            self.report_screen(&mut out);
        }
        if self.instants > 0 {
            self.report_instants(&mut out);
        }
        if self.flights > 0 {
            self.report_flights(&mut out);
        }
        if self.sheets > 0 {
            self.report_sheets(&mut out);
        }
        (out.text, out.missing)
    }

    fn report_questions(&self, out: &mut Report) {
        out.title(&format!("plain questions: {}", self.questions));
        out.title("verdicts");
        for (n, text) in self.verdicts.iter().zip(VERDICTS) {
            out.line(*n, text);
        }
        out.title("refusals");
        for (n, number) in self.refusals.iter().zip(REFUSALS) {
            out.line(*n, &format!("refusal {number}"));
        }
        out.title("time shown, lower");
        for (n, (_, text)) in self.lower_moments.iter().zip(MOMENTS) {
            out.line(*n, &format!("lower: {text}"));
        }
        out.title("time shown, upper");
        for (n, (moment, text)) in self.upper_moments.iter().zip(MOMENTS) {
            if !matches!(moment, Moment::EndOfDelay | Moment::Turning) {
                out.line(*n, &format!("upper: {text}"));
            }
        }
        out.title("decisions held against each other");
        out.line(self.existence[0], "sides without a conflict time");
        out.line(self.existence[1], "sides with a conflict time");
        out.line(self.figure3[1], "figure 3: safe");
        out.line(self.figure3[0], "figure 3: not safe");
        out.line(self.figure5[1], "figure 5: safe");
        out.line(self.figure5[0], "figure 5: not safe");
        out.line(self.sampled, "sampled times");
        out.title("edges");
        for (n, (_, text)) in self.edges.iter().zip(EDGES) {
            out.line(*n, text);
        }
        out.title(
            "numbers at and next to the ends of their limits (outside: the only one outside)",
        );
        let heads: Vec<&str> = POSITIONS.iter().map(|(_, text)| *text).collect();
        out.row("", &heads.map_to_strings());
        for (field, counts) in self.positions.iter().enumerate() {
            out.row(NAMES[field], &counts.map(|n| n.to_string()));
            for (n, (_, text)) in counts.iter().zip(POSITIONS) {
                out.require(*n, &format!("{} {text}", NAMES[field]));
            }
        }
    }

    fn report_screen(&self, out: &mut Report) {
        out.title(&format!("drawings: {}", self.drawings));
        for (n, (text, _)) in self.drawing_classes.iter().zip(DRAWING_CLASSES) {
            out.line(*n, text);
        }
        out.title(&format!("screen points: {}", self.points));
        for (n, (text, _)) in self.point_classes.iter().zip(POINT_CLASSES) {
            out.line(*n, text);
        }
        out.title("the upper path");
        for (n, (text, _)) in self.upper_drawing_classes.iter().zip(UPPER_DRAWING_CLASSES) {
            out.line(*n, text);
        }
        for (n, (text, _)) in self.upper_point_classes.iter().zip(UPPER_POINT_CLASSES) {
            out.line(*n, text);
        }
        out.title(&format!("codes: {}", self.codes));
        for (n, number) in self.code_outcomes.iter().zip(CODE_OUTCOMES) {
            out.line(*n, &format!("code answered by {number}"));
        }
    }

    fn report_instants(&self, out: &mut Report) {
        out.title(&format!("instants: {}", self.instants));
        for (n, (text, _)) in self.instant_classes.iter().zip(INSTANT_CLASSES) {
            out.line(*n, text);
        }
    }

    fn report_flights(&self, out: &mut Report) {
        out.title(&format!("flights: {}", self.flights));
        for (n, (text, _)) in self.flight_classes.iter().zip(FLIGHT_CLASSES) {
            out.line(*n, text);
        }
    }

    fn report_sheets(&self, out: &mut Report) {
        out.title(&format!(
            "sheets: {}, {} bytes, longest answer {} bytes",
            self.sheets, self.sheet_bytes, self.longest_answer
        ));
        out.title("outcomes");
        out.line(self.sheet_outcomes[0], "sheets answered");
        for (i, n) in self.sheet_outcomes[1..].iter().enumerate() {
            out.line(*n, &format!("sheet refusal {}", i + 10));
        }
        out.title("answer records");
        for (i, n) in self.sheet_answers.iter().enumerate() {
            out.line(*n, &format!("kind {}", i + 65));
        }
        for (i, n) in self.sheet_clear.iter().enumerate() {
            out.line(*n, &format!("kind 65, sides {}", i + 1));
        }
        for (n, number) in self.sheet_refusals.iter().zip(RECORD_REFUSALS) {
            out.line(*n, &format!("kind 68, refusal {number}"));
        }
        out.title("coded questions judged");
        for (n, advice) in self.sheet_codes.iter().zip(CATALOGUE) {
            out.line(*n, &format!("code {} {}", advice.code, advice.name));
        }
        out.title("forms of sheets");
        for (n, (_, text)) in self.sheet_forms.iter().zip(SHEET_FORMS) {
            out.line(*n, text);
        }
        out.title("answer areas");
        for (n, (_, text)) in self.area_forms.iter().zip(AREA_FORMS) {
            out.line(*n, text);
        }
    }

    /// Prints the report and gives the exit status.
    pub fn finish(&self) -> u8 {
        print!("{}", self.report().0);
        if let Some(first) = &self.first_difference {
            println!("\nfirst difference:\n{first}");
        }
        println!("\n{} differences", self.differences);
        self.verdict()
    }

    /// The exit status: 0 if there is no difference and every required class was met. Names those that were not.
    pub fn verdict(&self) -> u8 {
        let (_, missing) = self.report();
        if !missing.is_empty() {
            eprintln!("\nnot met ({}):", missing.len());
            for name in &missing {
                eprintln!("  {name}");
            }
        }
        u8::from(self.differences > 0 || !missing.is_empty())
    }
}

trait MapToStrings {
    fn map_to_strings(&self) -> Vec<String>;
}

impl MapToStrings for Vec<&str> {
    fn map_to_strings(&self) -> Vec<String> {
        self.iter().map(|text| text.to_string()).collect()
    }
}

#[derive(Default)]
struct Report {
    text: String,
    missing: Vec<String>,
}

impl Report {
    fn title(&mut self, title: &str) {
        writeln!(self.text, "\n{title}").unwrap();
    }

    /// A count that must not be 0.
    fn line(&mut self, n: u64, name: &str) {
        writeln!(self.text, "  {n:>12}  {name}").unwrap();
        self.require(n, name);
    }

    fn row(&mut self, head: &str, cells: &[String]) {
        write!(self.text, "  {head:<16}").unwrap();
        for cell in cells {
            write!(self.text, "{cell:>10}").unwrap();
        }
        self.text.push('\n');
    }

    fn require(&mut self, n: u64, name: &str) {
        if n == 0 {
            self.missing.push(name.to_string());
        }
    }
}

/// What the independent reader does with a sheet and an area.
pub struct ExpectedSheet {
    pub outcome: Result<usize, u8>,
    pub before: Vec<u8>,
    pub after: Vec<u8>,
}

/// The examples of document 01 and the sheets worked by hand, against the independent
/// implementation. Gives the number of examples.
pub fn examples(tally: &mut Tally) -> usize {
    let mut number = 0;
    for (name, q, wanted) in crate::examples::marked() {
        number += 1;
        let found = judge(&q);
        if found != wanted {
            tally.differ(|| format!("{name}: {q}\n  wanted {wanted}, found {found}"));
        }
    }
    for (name, bytes, wanted) in crate::examples::sheets() {
        number += 1;
        let found = sheet::answer_bytes(&bytes);
        if found != wanted {
            tally.differ(|| format!("sheet, {name}\n  wanted {wanted:02x?}, found {found:02x?}"));
        }
    }
    for row in crate::examples::TABLE_1 {
        for i in 0..500 {
            number += 1;
            table_1(tally, row, &mut Random::of_case(1, i));
        }
    }
    number
}

/// A coded question on some encounter against the plain numbers of its row of Table 1, and against 17
/// where its code is never issued.
fn table_1(tally: &mut Tally, row: &Table1, random: &mut Random) {
    let drawn = generate::accepted(random);
    let q = Question {
        sides: 1,
        sense: row.sense,
        target: row.target.unwrap_or(drawn.v),
        upper_target: 0,
        strength: row.strength,
        upper_strength: 0,
        delay: row.delay,
        ..drawn
    };
    let mut bytes = Vec::new();
    generate::encounter_record(&mut bytes, &q);
    generate::puck_record(&mut bytes, &q);
    generate::delay_acceleration_record(&mut bytes, &q);
    generate::coded_record(&mut bytes, row.code, q.limit);
    // The draw is accepted, and so 17 comes before its limit alone.
    let mut wanted = Vec::new();
    match (row.code, q.v) {
        (10, ..0) | (9, 1..) => Answer::Refused(17).record(&mut wanted),
        _ => judge(&q).record(&mut wanted),
    }
    let found = sheet::answer_bytes(&bytes);
    if found.as_ref() != Ok(&wanted) {
        tally.differ(|| {
            format!(
                "code {} as {q}\n  wanted {wanted:02x?}, found {found:02x?}",
                row.code
            )
        });
    }
}

/// A whole-sheet case for a sheet given in bytes, with an area of just the answer's length.
pub fn plain_sheet_case(sheet: Vec<u8>) -> SheetCase {
    SheetCase {
        form: SheetForm::Ordinary,
        sheet,
        area_form: AreaForm::Exact,
        area_seed: 1,
    }
}

/// A positive number given as argument number `i`, or the default.
pub fn argument(i: usize, default: u64) -> u64 {
    match std::env::args().nth(i) {
        None => default,
        Some(text) => match text.replace('_', "").parse() {
            Ok(n) => n,
            Err(_) => {
                eprintln!("not a number: {text}");
                std::process::exit(2);
            }
        },
    }
}
