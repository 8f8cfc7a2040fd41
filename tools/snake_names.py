#!/usr/bin/env python3
"""snake_names: brings the repository's own definitions and lemmas to snake case (types to camel case).

Run once, at the top, after port.py: `python3 tools/snake_names.py`. A name counts as the repository's own where a file of specs/ or proofs/ declares it
and the file at hand doesn't import it from a library. Comments keep their words, but for names between backticks. Prints names that fall together.
"""
import collections
import os
import re
import sys

TOK = re.compile(r"[^\s(){}\[\],;.:=→λ×⊎≡«»|↦⟦⟧\"`]+")
WORDS = {"use", "module", "open", "where", "infix", "infixl", "infixr", "unfolding", "let", "in", "elim", "pub", "abbrev", "unfoldable", "data", "record", "ruleset", "mod", "ghost"}
ODD = re.compile(r"[^\W_]-[^\W_]|[\w≤<≡]-[\w≤<≡]|^◌?[a-z]\w*[A-Z]")
# Lemmas that port.py had turned already, beside a function of the same name.
ALREADY = {"is_never", "same_number", "same_target"}
# Names that need a word of their own.
PICKED = {"targetTo": "target_below", "targetFrom": "target_above", "target-from": "target_from"}


def files(*kinds):
    for root, dirs, names in os.walk("crates"):
        dirs[:] = sorted(d for d in dirs if d != "out")
        for f in sorted(names):
            if f.endswith(kinds):
                yield os.path.join(root, f)


def generated(path):
    return os.path.basename(path) in ("Proof.antt", "Answers.antt", "Invariants.antt") and "specs" not in path.split(os.sep)


def own_crates():
    return set(os.listdir("crates"))


def imports(text, mine):
    """The names that a file takes from a library."""
    got = set()
    for m in re.finditer(r"^(?:pub |ghost )?use ([^\s;{]+)(?:\{([^}]*)\})?", text, re.M):
        parts = m[1].rstrip(".").split(".")
        if parts[0] == "Rattle" and len(parts) > 1 and parts[1] in mine:
            continue
        for w in (m[2] or "").split(","):
            got.update(w.split(" as ")[0:1] and [w.split(" as ")[0].strip()])
    return got


def declared(path):
    for line in open(path, encoding="utf-8"):
        s = line.strip()
        if s.startswith(("--", "use ", "pub use")) or (" : " not in s and "ruleset" not in s):
            continue
        words = s.split()
        i = 0
        while i < len(words) and words[i] in ("abbrev", "unfoldable", "pub", "data", "record", "ruleset"):
            i += 1
        if i < len(words) and words[i] not in WORDS and TOK.fullmatch(words[i]):
            yield words[i]


def turned(name):
    """The new spelling."""
    is_type = name[0].isupper() and len(re.match(r"[^\W\d_]*", name)[0]) > 1
    if is_type:
        return "".join(p[:1].upper() + p[1:] for p in name.split("-"))
    name = re.sub(r"(?<=[\w≤<≡ℕℤ])-(?=[\w≤<≡ℕℤ])", "_", name)
    name = re.sub(r"(?<=[a-z0-9])([A-Z])(?=[a-z0-9])", lambda m: "_" + m[1].lower(), name)
    name = re.sub(r"(?<=[a-z0-9])([A-Z])$", lambda m: "_" + m[1].lower(), name)
    return name


def main():
    mine = own_crates()
    names = collections.defaultdict(set)
    for p in files(".antt"):
        for n in declared(p):
            names[n].add(p)
    table = {}
    for n, where in names.items():
        if ODD.search(n) and not all(generated(p) for p in where):
            t = turned(n)
            if t != n:
                table[n] = t
    table.update(PICKED)
    by = collections.defaultdict(set)
    for n in names:
        by[table.get(n, n)].add(n)
    # A lemma that would have its function's name.
    for t, ns in list(by.items()):
        plain = [n for n in ns if "-" not in n]
        if len(ns) > 1 and plain:
            for n in ns:
                if "-" in n or (n in ALREADY and len(plain) > 1):
                    table[n] = t + "_lem"
                    by[t] = by[t] - {n}
                    by[table[n]].add(n)
    for t, ns in sorted(by.items()):
        if len(ns) > 1:
            print("fall together:", t, "<-", ", ".join(sorted(ns)), sorted({x for n in ns for x in names[n]})[:6])

    def words(text, skip):
        return TOK.sub(lambda m: table.get(m[0], m[0]) if m[0] not in skip else m[0], text)

    def ticks(text, skip):
        return re.sub(r"`[^`]*`", lambda m: words(m[0], skip), text)

    changed = 0
    for p in files(".antt", ".rt", ".edit"):
        text = open(p, encoding="utf-8").read()
        skip = imports(text, mine)
        mark = "//" if p.endswith(".rt") else "--"
        out = []
        for line in text.split("\n"):
            if p.endswith(".edit") and not re.match(r"(old|new): ", line):
                out.append(line)
                continue
            at = line.find(mark) if (mark == "//" or re.search(r"(^|\s)--(\s|$)", line)) else -1
            code, note = (line, "") if at < 0 else (line[:at], line[at:])
            pieces = re.split(r'("(?:[^"\\]|\\.)*")', code)
            out.append("".join(q if q.startswith('"') else words(q, skip) for q in pieces) + ticks(note, skip))
        new = "\n".join(out)
        if new != text:
            changed += 1
            open(p, "w", encoding="utf-8").write(new)
    for p in ["README.md"] + sorted(os.path.join(r, f) for r, _, fs in os.walk("docs") for f in fs if f.endswith(".md")):
        text = open(p, encoding="utf-8").read()
        new = ticks(text, set())
        if new != text:
            changed += 1
            open(p, "w", encoding="utf-8").write(new)
    print(len(table), "names,", changed, "files")


if __name__ == "__main__":
    # It takes no words, and writes: so one that asks for help must not start it.
    if len(sys.argv) > 1:
        sys.exit(__doc__)
    main()
