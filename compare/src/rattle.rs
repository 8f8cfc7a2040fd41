//! The judge's Rattle sources as plain Rust, and every comparison in them, so that a copy with one of
//! them turned can be built: the toolchain itself builds only what is proved.
//!
//! Rattle is Rust but for `ghost` lines, the `ghost` fields of structs and items of impls, contract
//! clauses, the attribute `tactic` and the derived `Drop`; and `unwrap` asks no `Debug` of an error, so
//! each `derive` gets it. A crate becomes a module of its name, and each further file of its folder a
//! module in that one; no line moves.

use std::fs;
use std::io;
use std::ops::Range;
use std::path::{Path, PathBuf};

/// A file of a crate, its contracts blanked.
pub struct Module {
    /// The crate's name, and for a file besides lib.rt its own after a slash.
    pub name: String,
    pub file: PathBuf,
    pub lines: Vec<String>,
}

/// One comparison, and how it is turned.
#[derive(Clone)]
pub struct Comparison {
    pub module: usize,
    /// From 0.
    pub line: usize,
    /// The bytes of the line that are replaced.
    at: Range<usize>,
    turned: String,
}

const TURNS: [(&str, &str); 6] = [
    (" < ", " <= "),
    (" <= ", " < "),
    (" > ", " >= "),
    (" >= ", " > "),
    (" == ", " != "),
    (" != ", " == "),
];

/// The crates that `top` reaches, by the lines `name: used used ..` of crates.txt, each once, in the
/// file's order. Where a name is followed by a word, that says what is built of the crate.
pub fn reached(crates: &str, top: &str) -> Vec<String> {
    let lines: Vec<(&str, Vec<&str>)> = crates
        .lines()
        .filter(|line| !line.starts_with('#'))
        .filter_map(|line| line.split_once(':'))
        .map(|(name, used)| (name.split_whitespace().next().unwrap_or(""), used))
        .map(|(name, used)| (name, used.split_whitespace().collect()))
        .collect();
    let mut wanted = vec![top];
    let mut at = 0;
    while at < wanted.len() {
        let next = wanted[at];
        for name in lines
            .iter()
            .filter(|line| line.0 == next)
            .flat_map(|line| &line.1)
        {
            if !wanted.contains(name) {
                wanted.push(name);
            }
        }
        at += 1;
    }
    lines
        .iter()
        .filter(|(name, _)| wanted.contains(name))
        .map(|(name, _)| name.to_string())
        .collect()
}

/// The modules of the crates that `top` reaches.
pub fn modules(root: &Path, top: &str) -> io::Result<Vec<Module>> {
    let names = reached(&fs::read_to_string(root.join("crates.txt"))?, top);
    let mut modules = Vec::new();
    for name in &names {
        let folder = PathBuf::from("crates").join(name).join("src");
        let entries = fs::read_dir(root.join(&folder))?;
        let mut files: Vec<PathBuf> = entries
            .map(|entry| Ok(folder.join(entry?.file_name())))
            .collect::<io::Result<_>>()?;
        files.sort();
        for file in files {
            let failed = |what: &str| io::Error::other(format!("{}: {what}", file.display()));
            let text = fs::read_to_string(root.join(&file)).map_err(|e| failed(&e.to_string()))?;
            let lines = as_rust(&text, name, &names).map_err(|error| failed(&error))?;
            let name = match file.file_name().and_then(|file| file.to_str()) {
                Some("lib.rt") => name.clone(),
                Some(other) if other.ends_with(".rt") => {
                    format!("{name}/{}", &other[..other.len() - 3])
                }
                _ => return Err(failed("no file of Rattle")),
            };
            modules.push(Module { name, file, lines });
        }
    }
    Ok(modules)
}

/// The lines of a file of the crate `own` as Rust, what is ghost, clauses and tactics blank.
fn as_rust(text: &str, own: &str, crates: &[String]) -> Result<Vec<String>, String> {
    let mut lines = Vec::new();
    let mut blanking = Blanking::Nothing;
    for line in text.lines() {
        if matches!(blanking, Blanking::Nothing) {
            blanking = Blanking::begun_by(line);
        }
        let blank = !matches!(blanking, Blanking::Nothing);
        blanking = blanking.after(line);
        lines.push(if blank {
            String::new()
        } else {
            adapted(line, own, crates)
        });
        if !code(&lines[lines.len() - 1]).is_ascii() {
            return Err(format!("line {}: not plain Rust: {line}", lines.len()));
        }
    }
    Ok(lines)
}

/// What is being left out.
enum Blanking {
    Nothing,
    /// A ghost line, field or item that has opened and closed so many braces: to the semicolon or comma
    /// that ends it.
    Ghost(usize, usize),
    /// To the next closing bracket.
    Tactic,
    /// A clause that has opened and not yet closed so many braces.
    Clause(usize, usize),
}

impl Blanking {
    fn begun_by(line: &str) -> Blanking {
        let mut words = line.split_whitespace();
        let first = match words.next() {
            Some(word) if word == "pub" || word.starts_with("pub(") => {
                words.next().filter(|word| *word == "ghost")
            }
            first => first,
        };
        match first {
            Some("ghost") => Blanking::Ghost(0, 0),
            Some(word) if word.starts_with("#![tactic(") || word.starts_with("#[tactic(") => {
                Blanking::Tactic
            }
            Some("requires" | "ensures" | "invariant" | "decreases") => Blanking::Clause(0, 0),
            _ => Blanking::Nothing,
        }
    }

    fn after(self, line: &str) -> Blanking {
        let opening = line.matches('{').count();
        let closing = line.matches('}').count();
        match self {
            Blanking::Ghost(opened, closed) => {
                let opened = opened + opening;
                let closed = closed + closing;
                if opened == closed && line.trim_end().ends_with([';', ',']) {
                    Blanking::Nothing
                } else {
                    Blanking::Ghost(opened, closed)
                }
            }
            Blanking::Tactic if line.contains(']') => Blanking::Nothing,
            Blanking::Clause(opened, closed) => {
                let opened = opened + opening;
                let closed = closed + closing;
                if opened > 0 && opened == closed {
                    Blanking::Nothing
                } else {
                    Blanking::Clause(opened, closed)
                }
            }
            same => same,
        }
    }
}

/// A line of the crate `own`, with the paths of the one library that the crates become.
fn adapted(line: &str, own: &str, crates: &[String]) -> String {
    let mut line = line
        .replace("#[derive(Drop)]", "")
        .replace("#[derive(", "#[derive(Debug, ")
        .replace("crate::", &format!("crate::{own}::"));
    for name in crates {
        let places: Vec<usize> = line
            .match_indices(&format!("{name}::"))
            .map(|(at, _)| at)
            .filter(|at| !line[..*at].ends_with(|x| is_name(x) || x == ':'))
            .collect();
        for at in places.into_iter().rev() {
            line.insert_str(at, "crate::");
        }
    }
    line
}

/// Whether a character may stand in a name.
fn is_name(x: char) -> bool {
    x.is_alphanumeric() || x == '_'
}

/// A line without its comment.
fn code(line: &str) -> &str {
    line.split("//").next().unwrap_or("")
}

/// Every comparison: by an operator, by a range with its last number (`low..=high`), and by a call of
/// `limits::within`, which is such a range. The formatter sets a space on either side of an operator,
/// and of nothing else that is written with these characters.
pub fn comparisons(modules: &[Module]) -> Vec<Comparison> {
    let mut found = Vec::new();
    for (module, source) in modules.iter().enumerate() {
        let mut add = |line, at, turned: &str| {
            found.push(Comparison {
                module,
                line,
                at,
                turned: turned.into(),
            });
        };
        for (line, text) in source.lines.iter().enumerate() {
            let text = code(text);
            for (operator, turned) in TURNS {
                for (at, _) in text.match_indices(operator) {
                    add(line, at..at + operator.len(), turned);
                }
            }
            for (at, _) in text.match_indices(RANGE) {
                let (first, turned) = one_more(&text[..at]);
                add(line, first..at, &turned);
                add(line, at..at + RANGE.len(), "..");
            }
            for (at, _) in text.match_indices("within(") {
                if text[..at].ends_with(|x| is_name(x) || x == '.') || text[..at].ends_with("fn ") {
                    continue;
                }
                let commas = commas(&source.lines, line, at + "within".len());
                if let [(low, low_at), (high, high_at), ..] = commas[..] {
                    add(low, low_at..low_at, " + 1");
                    add(high, high_at..high_at, " - 1");
                }
            }
        }
    }
    found.sort_by_key(|c| (c.module, c.line, c.at.start));
    found
}

const RANGE: &str = "..=";

/// Where the number or name at the end of a text begins, and the number after it. (In a pattern it must
/// be a number.)
fn one_more(text: &str) -> (usize, String) {
    let first = text.trim_end_matches(is_name).len();
    let turned = match text[first..].parse::<i64>() {
        Ok(number) => (number + 1).to_string(),
        Err(_) => format!("{} + 1", &text[first..]),
    };
    (first, turned)
}

/// The commas between the arguments of a call whose bracket opens here: their lines and places.
fn commas(lines: &[String], line: usize, at: usize) -> Vec<(usize, usize)> {
    let mut found = Vec::new();
    let mut depth = 0;
    for (i, text) in lines.iter().enumerate().skip(line) {
        let from = if i == line { at } else { 0 };
        for (place, x) in code(text).char_indices().filter(|(j, _)| from <= *j) {
            match x {
                '(' | '[' | '{' => depth += 1,
                ')' | ']' | '}' => depth -= 1,
                ',' if depth == 1 => found.push((i, place)),
                _ => {}
            }
            if depth == 0 {
                return found;
            }
        }
    }
    found
}

impl Comparison {
    /// The line with this comparison turned.
    pub fn turned_line(&self, modules: &[Module]) -> String {
        let mut line = modules[self.module].lines[self.line].clone();
        line.replace_range(self.at.clone(), &self.turned);
        line
    }

    /// The name of the function around it.
    pub fn function(&self, modules: &[Module]) -> String {
        let before = modules[self.module].lines[..=self.line].iter().rev();
        let mut names = before.filter_map(|line| code(line).split_once("fn "));
        let (_, after) = names.next().unwrap_or(("", ""));
        after.split('(').next().unwrap_or("").to_string()
    }
}

/// Writes the modules, with one comparison turned, as the sources of a library: `lib.rs` and a file
/// for each module. Where a check of Rust's fails (overflow, division, index), the library aborts.
pub fn write(folder: &Path, modules: &[Module], turned: Option<&Comparison>) -> io::Result<()> {
    let mut library = String::from(
        "#![no_std]\n\
         extern \"C\" { fn abort() -> !; }\n\
         #[panic_handler]\n\
         fn stop(_: &core::panic::PanicInfo) -> ! { unsafe { abort() } }\n\
         // Named by the compiled core library; nothing unwinds.\n\
         #[no_mangle]\n\
         extern \"C\" fn rust_eh_personality() {}\n",
    );
    for (i, module) in modules.iter().enumerate() {
        match module.name.split_once('/') {
            None => library += &format!("pub mod {};\n", module.name),
            Some((name, _)) => fs::create_dir_all(folder.join(name))?,
        }
        let mut lines = module.lines.clone();
        if let Some(comparison) = turned.filter(|comparison| comparison.module == i) {
            lines[comparison.line] = comparison.turned_line(modules);
        }
        fs::write(
            folder.join(format!("{}.rs", module.name)),
            lines.join("\n") + "\n",
        )?;
    }
    fs::write(folder.join("lib.rs"), library)
}

#[cfg(test)]
mod tests {
    use super::*;

    fn module(text: &str) -> Module {
        let crates = ["path".to_string(), "window".to_string()];
        Module {
            name: "window".into(),
            file: PathBuf::new(),
            lines: as_rust(text, "window", &crates).unwrap(),
        }
    }

    /// Each turned line and its function.
    fn turned(text: &str) -> Vec<String> {
        let modules = [module(text)];
        comparisons(&modules)
            .iter()
            .map(|c| (c.function(&modules), c.turned_line(&modules)))
            .map(|(function, line)| format!("{function}: {}", line.trim()))
            .collect()
    }

    #[test]
    fn contracts_are_left_out_and_comparisons_found() {
        let text = "#![tactic(auto)]\nghost use A.{◌<◌};\nuse path::Side;\n// a < b\n#[tactic(auto, unfolding(\n    crate::specs::A::b\n))]\n\
                    pub fn f(x: i64) -> bool\n    requires { x < 1 }\n    ensures big {\n    result ≡ x }\n{\n    (x < 3) & (x == 1)\n}\n\
                    #[derive(Clone, Copy)]\nenum E {\n    A,\n}";
        let wanted = "\n\nuse crate::path::Side;\n// a < b\n\n\n\npub fn f(x: i64) -> bool\n\n\n\n{\n    (x < 3) & (x == 1)\n}\n\
                      #[derive(Debug, Clone, Copy)]\nenum E {\n    A,\n}";
        assert_eq!(module(text).lines.join("\n"), wanted);
        assert_eq!(
            turned(text),
            ["f: (x <= 3) & (x == 1)", "f: (x < 3) & (x != 1)"]
        );
    }

    #[test]
    fn ghost_fields_and_items_are_left_out() {
        let text = "#[derive(Drop)]\npub struct S {\n    pub a: u64,\n    pub(crate) ghost b: {\n        a ≤ 1,\n    } by { c },\n    ghost d: { a < 2 },\n    e: u64,\n}\n\
                    impl Iterator for S {\n    ghost next_gives = { λ s. s.a };\n\n    type Item = u64;";
        let wanted = "\npub struct S {\n    pub a: u64,\n\n\n\n\n    e: u64,\n}\n\
                      impl Iterator for S {\n\n\n    type Item = u64;";
        assert_eq!(module(text).lines.join("\n"), wanted);
    }

    #[test]
    fn paths_lead_into_the_crates_module() {
        let text = "use crate::{A, B};\nuse crate::path::C;\npub(crate) fn f() { path::g(subpath::g, crate::h) }";
        let wanted = "use crate::window::{A, B};\nuse crate::window::path::C;\n\
                      pub(crate) fn f() { crate::path::g(subpath::g, crate::window::h) }";
        assert_eq!(module(text).lines.join("\n"), wanted);
    }

    #[test]
    fn ranges_are_turned_at_either_end() {
        let text = "pub fn within(low: i64, high: i64, x: i64) -> bool {\n(low..=high).contains(&x)\n}\nfn f() {\n1..=16 => y[1..],\n\
                    within(0, MAX, x[a, b])\nwithin(\n    g(1, 2),\n    MAX,\n    x,\n)";
        let wanted = [
            "within: (low + 1..=high).contains(&x)",
            "within: (low..high).contains(&x)",
            "f: 2..=16 => y[1..],",
            "f: 1..16 => y[1..],",
            "f: within(0 + 1, MAX, x[a, b])",
            "f: within(0, MAX - 1, x[a, b])",
            "f: g(1, 2) + 1,",
            "f: MAX - 1,",
        ];
        assert_eq!(turned(text), wanted);
    }

    #[test]
    fn crates_are_reached_through_others() {
        let crates = "# a comment\na:\nb: a\nc: a\nd staticlib: b io\n";
        assert_eq!(reached(crates, "d"), ["a", "b", "d"]);
    }
}
