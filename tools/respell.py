#!/usr/bin/env python3
"""Spells the repository's own definitions and lemmas in today's way, over what port.py has turned.

usage: tools/respell.py     at the top of the repository, once, behind port.py

Words are in snake case (`countOf` and `count-of` become `count_of`), types in camel case (`Begin-array` becomes `BeginArray`).
What is turned is what a file of specs/ or proofs/ declares: definitions, lemmas, constructors and fields, wherever they are
cited, in specs/, proofs/, clauses, edits and the pages' code spans. Functions of src/, exported names, strings, inputs and
outputs keep their names, and so does a name in a file that imports it from a library. Names that would fall together are listed
and nothing is written, unless APART below says what each becomes.
"""
import glob
import os
import re
import sys

WORD = re.compile(r'[^\s(){}.;,@"«»]+')
# a string, a comment (antt's and Rattle's)
QUIET = re.compile(r'"(?:[^"\\\n]|\\.)*"|(?<![^\s(){}.;,@"«»])--[^\n]*')
QUIET_RT = re.compile(r'b?"(?:[^"\\\n]|\\.)*"|//[^\n]*')
SPAN = re.compile(r"`[^`\n]+`")
DECLARED = re.compile(
    r"(?m)^\s*(?:\|\s*)?((?:(?:pub|abbrev|unfoldable|record|data)\s+)*)([^\s(){}.;,@\"«»λ?|]+)((?:\s+\{[^{}\n]*\}|\s+\([^()\n]*\))*)\s*:(?:\s|$)"
)
ONE_LINE = re.compile(r"[{;|(]\s*([^\s(){}.;,@\"«»λ?|]+)((?:\s+[^\s(){}.;,@\"«»:]+)*)\s+:\s")
SEVERAL = re.compile(r"(?m)^\s+([a-z][^\s(){}.;,@\"«»λ?|=]*(?: [a-z][^\s(){}.;,@\"«»λ?|=]*)+) : [A-Z]\w*$")
ALIAS = re.compile(r"(?<= as )[a-z]+[A-Z]\w*")
SPEC = re.compile(r"`([a-z0-9_-]+)[-_]spec`")
GOAL = re.compile(r"(?m)^\s*(?:(?:pub|abbrev)\s+)*[^\s]+ : (?:(?:\{[^}]*\} |\([^)]*\) )?→ )?(?:tie\.|\+?\w*tie\.|statement|\{M : Type 1\}).*$")
USE = re.compile(r"(?m)^\s*(?:pub |unfoldable pub |abbrev pub )*use ([^\s;{]+)\{([^}]*)\}", re.S)
# Names that would fall together with another: a definition or a listed theorem keeps the plain spelling.
APART = {
    "all-levelled": "all_levelled_then",
    "at-end": "at_the_end",
    "bit-of": "bit_of_word",
    "cause-number": "cause_number_range",
    "deep-fields": "deep_fields_is",
    "deep-items": "deep_items_is",
    "end-in": "end_within",
    "faultNamed": "named_fault",
    "first-at": "first_at_is",
    "first-bad": "first_bad_is",
    "getD-listed": "get_or_listed",
    "guess-wrong": "guess_wrong_is",
    "in-range": "in_range_is",
    "is-blank": "is_blank_holds",
    "is-e": "is_e_holds",
    "is-hex": "is_hex_holds",
    "is-last": "is_last_true",
    "is-plain": "is_plain_holds",
    "is-short": "is_short_holds",
    "is-tail": "is_tail_holds",
    "isDIGIT": "is_digit",
    "item-at": "item_at_is",
    "level-word": "level_word_is",
    "levels-till": "levels_till_le",
    "line-number": "line_number_is",
    "lineTold": "told_line",
    "marks-till": "marks_till_le",
    "mask-bit": "mask_bit_is",
    "miss-number": "miss_number_range",
    "not-above": "not_above_is",
    "of-item": "of_item_step",
    "string-end": "string_end_next",
    "string-height": "string_height_is",
    "uXXXX": "u_xxxx",
    "value-at": "value_at_is",
}
# The same of names that port.py had put into snake case, in the files of a crate whose own they are.
APART_IN = {
    "blocks/proofs": {"inside_of": "inside_of_is"},
    "index/proofs/CheckLaws": {"settled_before": "settled_before_is"},
    "texts/": {"is_digit": "is_digit_holds"},
    "walks/proofs": {"trim_end": "trim_end_is", "trim_start": "trim_start_is"},
    "whole/proofs": {"all_right": "each_right"},
}
KEPT = set()


def apart_in(path):
    return {o: n for part, table in APART_IN.items() if path.startswith("crates/" + part) for o, n in table.items()}


def texts(kind):
    return sorted(glob.glob(f"crates/*/{kind}/**/*.antt", recursive=True))


def spelled(name):
    if name in APART:
        return APART[name]
    if name[0].isupper():
        parts = name.split("-")
        if len(parts) == 1:
            return name
        return "".join((p[0].upper() + (p[1:].lower() if p.isupper() or p == "UTF8" else p[1:])) for p in parts)
    words = re.sub(r"(?<=[a-z0-9])([A-Z])", lambda m: "_" + m[1].lower(), name)
    return words.replace("-", "_")


def read(path):
    with open(path, encoding="utf-8") as f:
        return f.read()


def declared_in(text):
    """The names that a text declares: at the head of a line, with their types. Not a function's goals, whose names are made."""
    code = GOAL.sub(" ", QUIET.sub(" ", text))
    found = {m[2] for m in DECLARED.finditer(code)}
    for m in SEVERAL.finditer(code):
        found |= set(m[1].split())
    return found - {"let", "in", "module", "use", "mod", "where", "elim", "="}


def from_library(code):
    """The names that a text brings in from a library, under the spelling used here."""
    out = set()
    for path, items in USE.findall(code):
        mine = path.startswith("Rattle.") and path.split(".")[1] not in ("std", "core", "c")
        if mine:
            continue
        for item in items.split(","):
            item = item.strip()
            if item:
                out.add(item.split(" as ")[-1].strip())
    return out


def turned(text, table):
    return WORD.sub(lambda m: table.get(m[0], m[0]), text)


def in_spans(text, table):
    return SPAN.sub(lambda m: turned(m[0], {**table, **{f"`{k}": f"`{v}" for k, v in table.items()}, **{f"{k}`": f"{v}`" for k, v in table.items()}, **{f"`{k}`": f"`{v}`" for k, v in table.items()}}), text)


def code_turned(text, table, quiet):
    """The code with each name of the table turned; of a comment its code spans alone; strings stay."""
    out, at = [], 0
    spans = None
    for m in quiet.finditer(text):
        out.append(turned(text[at : m.start()], table))
        if m[0].startswith(("--", "//")):
            out.append(in_spans(m[0], table) if "`" in m[0] else m[0])
        else:
            out.append(m[0])
        at = m.end()
    out.append(turned(text[at:], table))
    return "".join(out)


def main():
    sources = texts("specs") + texts("proofs")
    loaded = {p: read(p) for p in sources}
    declared = set()
    for p in sources:
        declared |= declared_in(loaded[p])
    names = {n: spelled(n) for n in declared if spelled(n) != n and n not in KEPT and not n.endswith(":")}
    clashes = []
    turns = {}
    for p, text in loaded.items():
        code = QUIET.sub(" ", text)
        library = from_library(code)
        words = set(WORD.findall(code))
        table = {o: n for o, n in names.items() if o not in library} | apart_in(p)
        met = {}
        for w in words:
            met.setdefault(table.get(w, w), set()).add(w)
        for new, olds in met.items():
            # in a walk by hand a function's own label may be spelled like a definition
            if len(olds) > 1 and not p.endswith("/Proof.antt"):
                clashes.append((p, new, sorted(olds)))
        turns[p] = table
    if clashes and "--force" not in sys.argv:
        for p, new, olds in clashes:
            print(f"{p}: {' and '.join(olds)} would both be {new}")
        raise SystemExit(1)
    if "--list" in sys.argv:
        for o, n in sorted(names.items()):
            print(o, n)
        return
    for p, text in loaded.items():
        new = code_turned(text, turns[p], QUIET)
        if new != text:
            with open(p, "w", encoding="utf-8") as f:
                f.write(new)
    for p in sorted(glob.glob("crates/*/src/**/*.rt", recursive=True)):
        text = read(p)
        aliases = {it: spelled(it) for it in ALIAS.findall(text)}
        new = code_turned(text, names | aliases, QUIET_RT)
        if new != text:
            with open(p, "w", encoding="utf-8") as f:
                f.write(new)
    # what port.py has turned in the code is still to turn in edits and pages
    final = {names.get(n, n) for n in declared}
    stale = lambda text: {w: spelled(w) for w in WORD.findall(text.replace("`", " ")) if w not in declared and spelled(w) in final}
    for p in sorted(glob.glob("crates/*/must-fail/*.edit")):
        text = read(p)
        table = stale(text) | names
        new = "".join(l if not l.startswith(("old:", "new:")) else turned(l, table) for l in text.splitlines(keepends=True))
        if new != text:
            with open(p, "w", encoding="utf-8") as f:
                f.write(new)
    for p in ["README.md"] + sorted(glob.glob("docs/**/*.md", recursive=True)):
        text = read(p)
        new = SPEC.sub(r"`\1_spec`", in_spans(text, stale(text) | names))
        new = SPEC.sub(lambda m: m[0].replace("-", "_"), new)
        if new != text:
            with open(p, "w", encoding="utf-8") as f:
                f.write(new)
    print(f"respell: {len(names)} names")


main()
