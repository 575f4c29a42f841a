#!/usr/bin/env python3
"""Respells the repository's own definitions, lemmas and record fields: words in snake case.

Run once at the top, after the toolchain's own scripts. It reads which names specs/ and proofs/ declare, and rewrites
them in those files and in the clauses of src/. Names that the prover makes (goals, invariants, steps) keep their
spelling, and so do the functions of src/. It stops, with nothing written, where two names would fall together.
"""
import glob
import re
import sys

# Names whose spelling by rule would be another name's, or says nothing.
CHOSEN = {
    "getD-below": "get_or_below",
    "getD-by-prefix": "get_or_by_prefix",
    "first-from": "first_passing_from",
    "rowBefore": "digit_before",
    "digit-above": "digit_above_lem",
    "no-digits": "no_digits_lem",
    "faure-tables-have-t-zero": "faure_tables_have_t_zero_spec",
    "orders-permute-blocks": "orders_permute_blocks_spec",
    "scramblers-permute-cells": "scramblers_permute_cells_spec",
    "single-sobol-tables-have-t-zero": "single_sobol_tables_have_t_zero_spec",
}

TOKEN = re.compile(r"[^\s(){}\[\];,.⌜⌝\"«»]+")
HEAD = re.compile(r"^(?:pub |abbrev |unfoldable |data |record )*([^\s:(){}]+)(?: [^:]*)? :(?: |$)")
FIELD = re.compile(r"^  (?:pub )?([^\s:(){}]+) :(?: |$)")


def files():
    return sorted(glob.glob("crates/*/specs/**/*.antt", recursive=True) + glob.glob("crates/*/proofs/**/*.antt", recursive=True))


def snake(name):
    if name in CHOSEN:
        return CHOSEN[name]
    name = name.replace("-", "_")
    return re.sub(r"(?<=[a-z0-9])([A-Z])", lambda m: "_" + m.group(1).lower(), name)


def imported(text):
    """The names that a file takes from the toolchain's modules, and from the modules of goals that the prover makes."""
    names = set()
    for line in text.split("\n"):
        use = re.match(r"^\s*use ([^\s{]+?)\.?\{(.*)\}", line)
        if use and (not re.match(r"Rattle\.(?!std\b)", use.group(1)) or re.search(r"\.(Goals|Given)$", use.group(1))):
            names |= set(re.split(r"[,\s]+", use.group(2)))
    return names


def declared():
    """The names that specs/ and proofs/ declare or bind, and which of them are fields of records."""
    names, fields, foreign = set(), set(), set()
    for path in files():
        text = open(path, encoding="utf-8").read()
        foreign |= imported(text)
        goals = path.endswith(("/Invariants.antt", "/Choices.antt"))
        answers = {m.group(1) for m in re.finditer(r"^(?:pub |abbrev )*(\S+) : (?:goal|need|the)\.", text, re.M)}
        inside = False
        for line in text.split("\n"):
            if line.startswith(("use ", "--", "mod ", "pub mod ", "open ", "unfolding ")):
                continue
            head = HEAD.match(line)
            if head and not line.startswith(" "):
                inside = bool(re.match(r"^(?:pub )?(?:record|data) ", line))
                if not goals and head.group(1) not in answers and not inside:
                    names.add(head.group(1))
            field = FIELD.match(line)
            if field and inside:
                names.add(field.group(1))
                fields.add(field.group(1))
            if not line.startswith(" ") and not head:
                inside = False
            names |= set(re.findall(r"^\s+(?:pub )?([^\s:(){}]+) :(?: |$)", line))
            names |= set(re.findall(r"\blet ([^\s:(){}=]+) (?:[:=]|[a-z])", line))
            for group in re.findall(r"[({]([^(){}:=]+?) : ", line):
                names |= set(group.split())
            for group in re.findall(r"λ ([^.]+)\.(?: |$)", line):
                names |= set(re.split(r"[\s(),]+", group))
            # the arguments in front of a case's `=`
            case = re.match(r"^\s*([^\s:(){}]+(?: [^\s:=]+)*) =(?: |$)", line)
            if case:
                names |= set(re.split(r"[\s(),{}∷]+", case.group(1))) - answers
        names -= answers
    return {n for n in names - foreign if "." not in n}, fields


def main():
    names, fields = declared()
    turn = {n: snake(n) for n in names if re.match(r"^[a-z]", n) and snake(n) != n}
    clash = False
    by_new = {}
    for old, new in sorted(turn.items()):
        if new in names and new not in turn:
            print(f"{old} would be {new}, which is declared")
            clash = True
        if new in by_new:
            print(f"{old} and {by_new[new]} would both be {new}")
            clash = True
        by_new[new] = old
    texts = {}
    for path in files() + sorted(glob.glob("crates/*/src/**/*.rt", recursive=True)):
        texts[path] = open(path, encoding="utf-8").read()
    for path, text in texts.items():
        code = re.sub(r"--[^\n]*", "", text) if path.endswith(".antt") else clauses(text)
        found = set(TOKEN.findall(code))
        for new in sorted(found & set(by_new)):
            old = by_new[new]
            if old in found:
                print(f"{path}: {old} would be {new}, which is a name there already")
                clash = True
    if clash:
        sys.exit(1)
    for path, text in texts.items():
        done = turned(text, turn, fields) if path.endswith(".antt") else turned_clauses(text, turn, fields)
        if done != text:
            open(path, "w", encoding="utf-8").write(done)
    for old, new in sorted(turn.items()):
        print(f"{old} {new}")


def turned(text, turn, fields):
    lines = []
    for line in text.split("\n"):
        if line.lstrip().startswith("--"):
            lines.append(line)
            continue

        def one(m):
            word = m.group(0)
            behind_dot = m.start() > 0 and line[m.start() - 1] == "."
            if word in turn and (not behind_dot or word in fields):
                return turn[word]
            return word

        lines.append(TOKEN.sub(one, line))
    return "\n".join(lines)


def spans(text):
    """Which lines of a source file are ghost imports, clauses or ghost fields; a clause goes on to its closing brace."""
    depth, out = 0, []
    for line in text.split("\n"):
        bare = line.split("//")[0]
        starts = re.match(r"^\s*(pub )?(ghost|requires|ensures)\b", bare)
        if depth > 0 or starts:
            out.append(True)
            depth += bare.count("{") - bare.count("}")
            depth = max(depth, 0)
        else:
            out.append(False)
    return out


def clauses(text):
    return "\n".join(l for l, s in zip(text.split("\n"), spans(text)) if s)


def turned_clauses(text, turn, fields):
    lines = []
    for line, inside in zip(text.split("\n"), spans(text)):
        lines.append(turned(line, turn, fields) if inside else line)
    return "\n".join(lines)


if __name__ == "__main__":
    main()
