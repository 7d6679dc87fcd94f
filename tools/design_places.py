#!/usr/bin/env python3
"""Lists the places in crates/*/src (and the proof files) that docs/DESIGN-PASS.md counts, a section for each of its searches.

usage: tools/design_places.py [--counts] [ROOT]

ROOT is a checkout (here: the folder above this script's). --counts prints only how many places each search finds.
"""
import itertools
import pathlib
import re
import sys

FN = re.compile(r"(?:pub(?:\(crate\))? )?(?:const )?fn (\w+)")


class Item:
    """A function: where it begins, its signature with its clauses, and its body."""

    def __init__(self, path, line, name, head, body):
        self.path, self.line, self.name, self.head, self.body = path, line, name, head, body

    def __str__(self):
        return f"{self.path}:{self.line}: {self.name}"


def block(text, start):
    """The end of the braces that open at `start`."""
    depth = 0
    for i in range(start, len(text)):
        depth += {"{": 1, "}": -1}.get(text[i], 0)
        if depth == 0:
            return i + 1
    return len(text)


def functions(path, text):
    for m in FN.finditer(text):
        if text[: m.start()].rsplit("\n", 1)[-1].lstrip().startswith("//"):
            continue
        at = m.end()
        # past the clauses, each `requires NAME { .. }` or `ensures NAME { .. }`, to the body's brace or a semicolon
        while True:
            brace, semi = text.find("{", at), text.find(";", at)
            depth = text[m.end(): semi].count("[") - text[m.end(): semi].count("]") if semi >= 0 else 0
            if semi >= 0 and depth == 0 and (brace < 0 or semi < brace):
                yield Item(path, text.count("\n", 0, m.start()) + 1, m[1], text[m.start(): semi], "")
                break
            if brace < 0:
                break
            if re.search(r"(requires|ensures)( \w+)?\s*$", text[at:brace]):
                at = block(text, brace)
                continue
            end = block(text, brace)
            yield Item(path, text.count("\n", 0, m.start()) + 1, m[1], text[m.start(): brace], text[brace:end])
            break


def shape(text):
    """The text without its names, numbers and layout."""
    text = re.sub(r"//.*", "", text)
    keep = {"fn", "if", "else", "match", "for", "in", "while", "return", "let", "mut", "self", "Some", "None", "Ok", "Err", "true", "false", "pub", "as"}
    return re.sub(r"\w+", lambda w: w[0] if w[0] in keep else "n" if w[0][0].isdigit() else "w", re.sub(r"\s+|,(?=\s*[})\]])", "", text))


def lines(files, pattern):
    rx = re.compile(pattern)
    return [f"{p}:{i}: {l.strip()}" for p, t in files for i, l in enumerate(t.split("\n"), 1) if rx.search(l) and not l.strip().startswith(("//", "ghost use"))]


def groups(pairs, least):
    table = {}
    for key, item in pairs:
        table.setdefault(key, []).append(item)
    return [f"{key}: {len(set(v))}: " + ", ".join(sorted(set(v))) for key, v in table.items() if len(set(v)) >= least]


def main():
    words = [a for a in sys.argv[1:] if not a.startswith("--")]
    if any(a in ("-h", "--help") for a in sys.argv[1:]):
        print(__doc__.strip())
        return
    root = pathlib.Path(words[0]) if words else pathlib.Path(__file__).resolve().parent.parent
    files = [(str(p.relative_to(root)), p.read_text()) for p in sorted(root.glob("crates/*/src/**/*.rt"))]
    fns = [f for p, t in files for f in functions(p, t)]
    code = [(p, re.sub(r"(requires|ensures)( \w+)? \{.*\}", "", t)) for p, t in files]

    searches = {
        "options: own enums": lines(files, r"^\s*(pub(\(crate\))? )?enum "),
        "options: a bool that says whether a change was made": [str(f) for f in fns if re.search(r"-> bool", f.head) and "&mut" in f.head],
        "options: flags among fields": lines(files, r"^\s*(pub(\(crate\))? )?\w+: bool,"),
        "options: numbers that stand for kinds, codes or refusals": [str(f) for f in fns if re.search(r"\b(kind|code|number): u\d+|fn numbers?\(", f.head)] + lines(files, r"^\s*pub kind: u16") + lines(files, r"unwrap_or\(0\)"),
        "options: results passed on by hand": lines(code, r"(Ok\(\w+\) => Ok\(|Err\(\w+\) => (return )?Err\()"),
        "twins: functions of one shape": groups([(shape(f.body), str(f)) for f in fns if len(f.body) > 40], 2),
        "twins: functions that only call another of the same contract": [str(f) for f in fns if re.fullmatch(r"\{\s*(self\.)?\w+\([\w, &]*\)\s*\}", f.body)],
        "twins: types of one shape": groups([(re.sub(r"\s+", "", re.sub(r"//.*|pub(\(crate\))? ", "", m[2])), f"{p}: {m[1]}") for p, t in files for m in re.finditer(r"struct (\w+)(?:<[^>]*>)? (\{[^}]*\})", t)], 2),
        "loops: while and loop": lines(code, r"\b(while|loop)\b.*\{$"),
        "loops: for over a range": lines(code, r"\bfor \w+ in .*\.\."),
        "loops: for with enumerate": lines(code, r"\benumerate\(\)"),
        "loops: for that only looks for one": [str(f) for f in fns if re.search(r"\bfor\b", f.body) and re.search(r"return (true|false|None|Some)", f.body)],
        "conversions: comparisons, conversions and printing in impls": lines(files, r"^impl.* (PartialEq|Eq|PartialOrd|Ord|Clone|Copy|From|TryFrom|Display|fmt::Display)\b.* for "),
        "conversions: functions that compare, convert or print": [str(f) for f in fns if re.fullmatch(r"compare|keys|keys_before|ranks_before|of|numbers?|refuse_fault|line|\w+_line|next|digit|bytes_of|entry|event|ready|point", f.name)],
        "conversions: fields copied one by one": lines(files, r"^\s*(\w+): \w+\.\1,"),
        "conversions: limits compared by hand": lines(code, r"\b[\d_]+ <= [\w.\[\]]+ && [\w.\[\]]+ <= [\d_]+|== 0 \|\| \w+ > "),
        "together: clauses that stand in three functions": groups([(re.sub(r"\s+", " ", c), str(f)) for f in fns for c in re.findall(r"requires(?: \w+)? \{(.*)\}", f.head)], 3),
        "together: parameters that travel together": groups([(" ".join(pair), str(f)) for f in fns for pair in itertools.combinations(sorted(set(re.findall(r"\b\w+: &?(?:mut )?[\w\[\]; <>]+", re.sub(r"(requires|ensures)( \w+)? \{.*\}|<.*?>", "", f.head)))), 2)], 3),
        "buffers: arrays among fields and locals": lines(files, r"^\s*(pub(\(crate\))? )?\w+: \[.*; .*\],|let mut \w+ = \["),
        "buffers: counts beside what they count": lines(files, r"^\s*(pub(\(crate\))? )?(count|len|cells): usize,|\[T\], count: usize|let mut (count|len) = 0"),
        "steps: matches and tests that pick what to call": [str(f) for f in fns if len(re.findall(r"=> (self|draft)\.\w+\(", f.body)) >= 3] + lines(code, r"if self\.first\.known"),
        "steps: dyn and function pointers": lines(code, r"\bdyn\b|: fn\("),
    }
    proofs = sorted(root.glob("crates/*/proofs/**/*.antt"))
    answers = [p for p in proofs if p.name in ("Answers.antt", "Invariants.antt", "Proof.antt")]
    lemmas = [p for p in proofs if p not in answers and p.name != "Lib.antt"]
    searches["proofs: answers and invariants"] = [f"{p.relative_to(root)}: {sum(1 for l in p.read_text().split(chr(10)) if re.match(r'(abbrev )?pub ', l))}" for p in answers]
    searches["proofs: lemma files"] = [f"{p.relative_to(root)}: {len(p.read_text().split(chr(10)))} lines" for p in lemmas]

    for name, found in searches.items():
        print(f"{len(found):4}  {name}")
        if "--counts" not in sys.argv:
            for place in found:
                print(f"        {place}")


main()
