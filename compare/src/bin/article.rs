//! article [FILE]: the article's two worked encounters, judged by the proved judge and by the
//! independent implementation, and explained. The status is 0 only if every answer is the expected
//! one and, with the article's text as FILE, every quotation stands in it.

use compare::exact::Ratio;
use compare::examples::{ArticleExample, figure_14, section_7};
use compare::ffi::{self, JudgeResult};
use compare::figures;
use compare::independent::{Accepted, Answer, Moment, Question, judge};
use std::process::ExitCode;

/// What the article says of an encounter, with its place.
struct Quotation {
    place: &'static str,
    text: &'static str,
}

const FIGURE_14_SAYS: &[Quotation] = &[
    Quotation {
        place: "Fig. 14",
        text: "ownship responding to a do-not-climb (DNC) advisory issued by the ACAS X tables in \
               starting state: r = 4,000 ft, r_v = 200 ft/s, θ_v = 180°, h = 600 ft, \
               v = 1,980 ft/min, v_I = -1,500 ft/min.",
    },
    Quotation {
        place: "Sect. 8, Safety Analysis",
        text: "A typical example, found during checking against Corollary 1 (safe regions) with \
               δ = 0 and a^d = g/2, is shown in Fig. 14.",
    },
    Quotation {
        place: "Sect. 8, Safety Analysis",
        text: "The original path of the ownship does not lead to an NMAC. However, ACAS X issues a \
               Do-Not-Climb advisory. If the pilot follows this advisory immediately and stops \
               climbing, and if the initial advisory is not subsequently strengthened or reversed, \
               an NMAC will occur.",
    },
];

const SECTION_7_SAYS: &[Quotation] = &[
    Quotation {
        place: "Sect. 7",
        text: "The aircraft are diverging horizontally (e.g., θ_v = 0 and r_v > 0), the intruder is \
               sufficiently above the ownship in altitude, i.e., more than h_p above the ownship \
               (h > h_p), and the aircraft are horizontally separated by exactly the radius of the \
               puck, i.e., r = r_p.",
    },
    Quotation {
        place: "Sect. 7",
        text: "If considering an up-sense advisory, this geometry does not pass L_expl^-1 or \
               D_expl^d because the conditions have no exception for intruders over the exact edge \
               of the puck. However, NMAC would require the ownship to accelerate upward at an \
               infinite rate, so NMAC is not possible.",
    },
    Quotation {
        place: "Sect. 2, of Fig. 1",
        text: "Note that no safe region exists above the trajectory since the ownship could accelerate \
               vertically at greater than g/4 or climb more than +1500 ft/min, in accordance with \
               Table 1.",
    },
];

/// The article's text without its marks for formulas and emphasis, with single spaces.
fn plain(text: &str) -> String {
    let text = text
        .replace("\\theta", "θ")
        .replace("\\delta", "δ")
        .replace("^\\circ", "°")
        .replace("\\text", "");
    let kept: String = text
        .chars()
        .filter(|c| !matches!(c, '$' | '{' | '}' | '*'))
        .collect();
    kept.split_whitespace().collect::<Vec<_>>().join(" ")
}

/// A whole number with separators.
fn grouped(n: i128) -> String {
    let digits = n.unsigned_abs().to_string();
    let mut text = String::new();
    for (i, digit) in digits.chars().enumerate() {
        if i > 0 && (digits.len() - i).is_multiple_of(3) {
            text.push(',');
        }
        text.push(digit);
    }
    if n < 0 { format!("-{text}") } else { text }
}

/// To two decimals; whole numbers without any.
fn decimal(x: Ratio) -> String {
    if x.is_whole() {
        return grouped(x.floor());
    }
    let sign = if x < Ratio::ZERO { "-" } else { "" };
    let hundredths = (x.num.abs() * 200 / x.den + 1) / 2;
    format!(
        "{sign}{}.{:02}",
        grouped(hundredths / 100),
        hundredths % 100
    )
}

fn seconds(t: Ratio) -> String {
    let whole = t.floor();
    let rest = (t - Ratio::whole(whole)).lowest();
    if rest.num == 0 {
        format!("{whole} s")
    } else {
        format!("{whole} {rest} s")
    }
}

fn sixtieth(n: i64) -> Ratio {
    Ratio::new(i128::from(n), 60)
}

/// The numbers in both units. A grain is 1/60 foot, so 1 ft/min is a grain per second.
fn numbers(q: &Question, chosen: &[&str]) {
    let rows = [
        ("r", "r", q.r, "ft", "grains"),
        ("h", "h", q.h, "ft", "grains"),
        ("r_v", "c", q.c, "ft/s", "grains/s"),
        ("v", "v", q.v, "ft/min", "grains/s"),
        ("v_I", "vi", q.vi, "ft/min", "grains/s"),
        ("r_p", "p", q.p, "ft", "grains"),
        ("h_p", "k", q.k, "ft", "grains"),
        ("v_lo", "target", q.target, "ft/min", "grains/s"),
        ("a_lo", "a", q.strength, "ft/s²", "grains/s²"),
    ];
    println!(
        "  {:<8}{:>12} {:<10}{:<8}{:>12}",
        "article", "", "", "01", ""
    );
    for (theirs, ours, n, unit, grains) in rows {
        let number = if unit == "ft/min" {
            grouped(i128::from(n))
        } else {
            decimal(sixtieth(n))
        };
        let mark = if chosen.contains(&ours) {
            " (chosen)"
        } else {
            ""
        };
        println!(
            "  {theirs:<8}{number:>12} {unit:<10}{ours:<8}{:>12} {grains}{mark}",
            grouped(i128::from(n))
        );
    }
    let (w, sense) = if q.sense == 1 {
        ("+1", "climb")
    } else {
        ("-1", "descend")
    };
    println!("  {:<8}{w:>12} {:<10}{:<8}{sense:>12}", "w", "", "sense");
    println!("  one-sided, delay 0 s, no limit; e {} plays no part", q.e);
}

fn in_words(answer: &Answer) -> String {
    match *answer {
        Answer::Clear(_) => "clear".into(),
        Answer::Conflict(t) => format!("conflict at {}", seconds(t.ratio())),
        _ => format!("{answer}"),
    }
}

/// Both implementations' answers; whether both are the expected one.
fn judged(name: &str, q: &Question, wanted: &Answer) -> bool {
    let independent = judge(q);
    let proved = ffi::judge(q);
    let right = independent == *wanted && proved == JudgeResult::of(wanted);
    if right {
        println!("  {name}: {} (record {wanted}), by both", in_words(wanted));
    } else {
        println!(
            "  {name}: WANTED {wanted}, found {proved:?} by the judge, {independent} by the independent implementation"
        );
    }
    right
}

/// The window, and the comparisons at the instants up to the time shown.
fn steps(q: &Question) {
    let x = Accepted::of(q).expect("within limits");
    let window = x.window().expect("not empty");
    let end = window.end.expect("the closing speed is above 0");
    println!(
        "  window   |r - c × t| <= p from {} to {}",
        seconds(window.start),
        seconds(end)
    );
    println!(
        "  sensed   w × h = {}, edge w × h + k = {}, u = w × (v - vi) = {}, q = w × (target - vi) = {}",
        grouped(x.height),
        grouped(x.lower_level()),
        grouped(x.u),
        grouped(x.q)
    );
    let gap = x.missing_speed();
    println!(
        "  speed    G = max(0, q - u) = {}, made up after G/a = {} s",
        grouped(gap),
        decimal(x.straight_from())
    );
    let (t, moment) = x.lower_shown().expect("a conflict");
    assert!(moment == Moment::Start && t >= x.straight_from());
    let f = x.lower_path(t);
    let bend = Ratio::new(gap * gap, 2 * x.a);
    println!(
        "  height   at {}, the window's start: f = q × t - G²/(2 × a) = {} - {} = {}",
        seconds(t),
        decimal(x.q * t),
        decimal(bend),
        decimal(f)
    );
    let t = t.lowest();
    let scale = 2 * x.a * t.den;
    let scaled = (scale * f).lowest();
    assert!(scaled.den == 1);
    println!(
        "  decides  w × h + k >= f: {} >= {}, in whole numbers (times 2 × a × m = {}) {} >= {}: {}",
        grouped(x.lower_level()),
        decimal(f),
        grouped(scale),
        grouped(scale * x.lower_level()),
        grouped(scaled.num),
        x.lower_conflict(t)
    );
    let abreast = Ratio::new(x.r, x.c);
    for (t, place) in [
        (t, "the window's start"),
        (abreast, "closest horizontally, the figure's time 0"),
        (end, "the window's end"),
    ] {
        if x.in_window(t) && (t != window.start || place == "the window's start") {
            separation(&x, t, place);
        }
    }
}

/// How far above the ownship the intruder is at t, whatever the sense.
fn separation(x: &Accepted, t: Ratio, place: &str) {
    let above = x.w * (Ratio::whole(x.height) - x.lower_path(t));
    let inside = above <= Ratio::whole(x.k) && -above <= Ratio::whole(x.k);
    println!(
        "  apart    at {}, {place}: the intruder is {} grains ({} ft) above the ownship, {} the puck's half height",
        seconds(t),
        decimal(above),
        decimal(above.over(60)),
        if inside { "within" } else { "beyond" }
    );
}

/// One encounter; whether its answers are the expected ones.
fn encounter(
    example: &ArticleExample,
    chosen: &[&str],
    note: &str,
    says: &[Quotation],
    agree: &str,
) -> bool {
    let q = &example.question;
    println!("{}", example.name);
    numbers(q, chosen);
    println!("  {note}");
    let mut right = judged("answer", q, &example.answer);
    steps(q);
    let failing = figures::figure3_failing(q).expect("without delay and limit");
    match failing {
        Some(case) => println!("  Figure 3 L_expl fails: case {case} holds, bound {case} does not"),
        None => {
            println!("  Figure 3 L_expl HOLDS");
            right = false;
        }
    }
    for (name, q, wanted) in &example.beside {
        right &= judged(&format!("beside it, {name}"), q, wanted);
    }
    for quotation in says {
        println!("  article  {}: \"{}\"", quotation.place, quotation.text);
    }
    println!("  {agree}\n");
    right
}

/// Whether every quotation stands in the article's text.
fn quoted(path: &str) -> bool {
    let text = match std::fs::read_to_string(path) {
        Ok(text) => plain(&text),
        Err(error) => {
            println!("{path}: {error}");
            return false;
        }
    };
    let mut all = true;
    for quotation in FIGURE_14_SAYS.iter().chain(SECTION_7_SAYS) {
        if !text.contains(&plain(quotation.text)) {
            println!("not in the article: \"{}\"", quotation.text);
            all = false;
        }
    }
    if all {
        println!("every quotation stands in {path}");
    }
    all
}

fn main() -> ExitCode {
    let mut right = encounter(
        &figure_14(),
        &[],
        "the puck is section 1's, the strength g/4 that of DNC in Table 1",
        FIGURE_14_SAYS,
        "we agree: the advisory brings the intruder into the puck, the original path does not",
    );
    right &= encounter(
        &section_7(),
        &["h", "c", "v", "vi", "target", "a"],
        "θ_v = 0 and r = 500 ft is r = -500 ft head-on (Eq. (10)): already passed; what the article leaves open is chosen as in M15",
        SECTION_7_SAYS,
        "we agree: the condition fails, and our conflict is that failure; it is no NMAC, as the intruder is beyond the \
         puck and the window is over at once",
    );
    if let Some(path) = std::env::args().nth(1) {
        right &= quoted(&path);
    }
    println!(
        "{}",
        if right {
            "every answer is the expected one"
        } else {
            "NOT as expected"
        }
    );
    ExitCode::from(u8::from(!right))
}
