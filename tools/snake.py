#!/usr/bin/env python3
"""Spells the definitions, lemmas and fields that specs/ and proofs/ declare in snake case, as the toolchain's own now are: pick-ap and lessSigned become
pick_ap and less_signed. Types, modules and the manual's names (Status, EXL) keep their capitals. It goes over the crates, their must-fail edits and the
code spans of the pages.

usage: python3 tools/snake.py [--check]      at the top of the repository; --check writes nothing and lists the names that would fall together
"""

import collections
import glob
import re
import sys

DECLARED = re.compile(r"^( *)((?:unfoldable |abbrev |pub |private )*)(record |data |ruleset |module )?([^\s(){}.;,@\"«»]+)((?: [^\s:]\S*)*) :(?: (.*))?$")
WORD = re.compile(r'[^\s(){}.;,@"«»`|]+')
USE = re.compile(r"\buse ([^\s;{]+?)(?:\.?\{([^}]*)\})?(?: as (\S+?))?;?[ \t]*$", re.M)
CHECK = "--check" in sys.argv
# Names that would meet a definition of theirs: a lemma gets _lem, a field another word. By crate; the second table is of lemmas that were in snake case already.
APART = {
    "cp0": {"status-returned": "status_returned_lem"},
    "demands": {"if-linked": "if_linked_lem", "in-range": "is_in_range"},
    "image": {"in-range": "is_in_range"},
    "isolation": {"in-user": "in_user_lem"},
    "mills": {"through-slot": "through_slot_lem"},
    "place": {"text-made": "text_made_lem"},
    "tlb": {"hi-in-range": "hi_in_range_lem", "lo-in-range": "lo_in_range_lem"},
    "word": {"below-zero": "below_zero_lem", "less-signed": "less_signed_lem"},
}
BESIDE = {
    "cp0/proofs/KeepsMoves.antt": ("move_in", "moveIn"),
    "demands/proofs/Fields.antt": ("slot_read", "slotRead"),
    "word/specs/": ("by_zero", "byZero"),
    "word/proofs/": ("by_zero", "byZero"),
}
BESIDE_NAMES = {("word", "by-zero"): "by_zero_lem"}


def snake(name):
    name = re.sub(r"(?<=[a-z0-9'])[A-Z]", lambda m: "_" + m[0].lower(), name)
    return re.sub(r"(?<=[\w'?])-(?=\w)", "_", name)


def read(path):
    with open(path, encoding="utf-8") as f:
        return f.read()


def texts():
    return sorted(glob.glob("crates/*/specs/**/*.antt", recursive=True) + glob.glob("crates/*/proofs/**/*.antt", recursive=True))


crates = {p.split("/")[1] for p in glob.glob("crates/*/src/*.rt")}
table, fields, where = {}, set(), collections.defaultdict(set)
for path in texts():
    for line in read(path).splitlines():
        m = DECLARED.match(line)
        if not m or m[3] and m[3].strip() in ("module", "record", "data") or (m[6] or "").startswith(("tie.", "goal.")):
            continue
        if re.search(r"[=λ]|\blet\b", m[5]):
            continue
        for name in [m[4]] + [w for w in m[5].split() if re.fullmatch(r"[a-z][\w'?₀-₉-]*", w)]:
            if not name[0].islower() or name in ("let", "in", "λ", "use", "as") or path.endswith(("Answers.antt", "Invariants.antt")) and f"goal.{name}" in read(path):
                continue
            where[name].add(path)
            if snake(name) != name:
                table[name] = snake(name)
                if m[1]:
                    fields.add(name)


def own(path):
    steps = path.split(".")
    return steps[0] == "Rattle" and len(steps) > 1 and steps[1] in crates


def turn(text, proof=False, spans=False, crate="", page=False):
    """The words of text that the table has, but for those that a library gives this file, and fields of what a check makes."""
    lent, alias = set(), {}
    for m in USE.finditer(text):
        if m[3]:
            alias[m[3]] = own(m[1])
        if m[2] and not own(m[1]):
            lent |= {w.split(" as ")[-1].strip() for w in m[2].split(",")}

    def one(m):
        word, at = m[0], m.start()
        if word in APART.get(crate, {}):
            return APART[crate][word]
        if page and word not in table and snake(word) in where:
            return BESIDE_NAMES.get((crate, word), snake(word))
        if word not in table or word in lent:
            return word
        if at and text[at - 1] == ".":
            chain = re.search(r"[^\s(){};,@\"«»`]*$", text[:at])[0].split(".")
            if chain[0] != "goal" and (own(".".join(chain)) or alias.get(chain[0])):
                return table[word]
            if word not in fields or chain[0] == "goal" or proof and chain[0] in ("c", "tie", "l") or chain[0] in alias:
                return word
        return table[word]

    if spans:
        return re.sub(r"`[^`\n]+`", lambda s: turn(s[0], crate=re.match(r"`(\w*)", s[0])[1], page=True), text)
    return WORD.sub(one, text)


changed = 0
for path in texts() + sorted(glob.glob("crates/*/src/**/*.rt", recursive=True) + glob.glob("crates/*/must-fail/*.edit") + glob.glob("docs/**/*.md", recursive=True) + glob.glob("*.md")):
    if path == "docs/PORT.md":
        continue
    old = read(path)
    new = old
    for place, (word, theirs) in BESIDE.items():
        if theirs in table and path.startswith("crates/" + place) and path.endswith(".antt"):
            new = re.sub(rf"(?<![\w.'?-]){word}(?![\w'?-])", word + "_lem", new)
    new = turn(new, proof=path.endswith(("Proof.antt", "Answers.antt", "Invariants.antt")), spans=path.endswith(".md"), crate=path.split("/")[1] if path.startswith("crates/") else "")
    if CHECK and path.endswith((".antt", ".rt")):
        words = set(WORD.findall(old))
        for word in sorted(words & set(table)):
            if table[word] in words:
                print(f"together: {path}: {word} and {table[word]}")
    if new != old:
        changed += 1
        if not CHECK:
            with open(path, "w", encoding="utf-8") as f:
                f.write(new)
by = collections.defaultdict(set)
for name in list(table) + [n for n in where if n not in table]:
    by[table.get(name, name)].add(name)
for name, olds in sorted(by.items()):
    if len(olds) > 1:
        places = [{p.split("/")[1] for p in where[o]} for o in olds]
        print(f"one name: {name}: {', '.join(sorted(olds))} in {', '.join(sorted(set().union(*places)))}")
print(f"{len(table)} names, {changed} files")
