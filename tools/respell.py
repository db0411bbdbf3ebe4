#!/usr/bin/env python3
"""Brings the repository's own definitions and lemmas to today's spelling, after the kit's port.py.

usage: tools/respell.py [FOLDER]        rewrites the files of FOLDER (default: the current one) in place

- A name with dashes that specs/ or a lemma file of proofs/ uses and no library gives gets underscores, everywhere.
- A definition whose values are facts or types gets upper camel case (the list TYPES).
- In .rt files only `ghost use` items, clauses and comments' code spans are touched; in .md files only code spans; in must-fail
  edits the path and both texts, where the words of clauses and operators are brought over too.
A second run changes nothing more.
"""

import os
import re
import sys

WORD = re.compile(r'[^\s(){}.;,@"«»`]+')
# Definitions that give facts or types; the second group only in files that declare them or import them from the module named.
TYPES = {
    "allowed": "Allowed",
    "args-in-scope": "ArgsInScope",
    "argument-fits": "ArgumentFits",
    "arguments-fit": "ArgumentsFit",
    "bits_below": "BitsBelow",
    "calls-below": "CallsBelow",
    "cells-bound": "CellsBound",
    "cond-in-scope": "CondInScope",
    "data-in-scope": "DataInScope",
    "domains-defined": "DomainsDefined",
    "earlier": "EarlierStep",
    "machine": "Machine",
    "mask_fits": "MaskFits",
    "plain-args": "PlainArgs",
    "plain-cond": "PlainCond",
    "plain-data": "PlainData",
    "source-earlier": "EarlierSourceStep",
    "well-formed-action": "WellFormedAction",
    "well-formed-trace": "WellFormedTrace",
    "words-of-16": "WordsOf16",
    "Demand-1-order": "Demand1Order",
    "Demand-1-refusals": "Demand1Refusals",
    "Demand-1-space": "Demand1Space",
    "Demand-2": "Demand2",
    "P1-to-P4": "P1ToP4",
    "P5-to-P12": "P5ToP12",
    "Examples-on-bytes": "ExamplesOnBytes",
    "Start-is-run": "StartIsRun",
    "Demand-3": "Demand3",
    "Both-in": "BothIn",
    "Every-code-on-bytes": "EveryCodeOnBytes",
    "Refusals-hold": "RefusalsHold",
    "Order-holds": "OrderHolds",
    "Space-holds": "SpaceHolds",
    "Demand-2-holds": "Demand2Holds",
    "Demand-3-holds": "Demand3Holds",
    "Ends-with": "EndsWith",
    "K10-holds": "K10Holds",
    "K10-on-bytes-holds": "K10OnBytesHolds",
    "One-more-holds": "OneMoreHolds",
    "Run-then-move-holds": "RunThenMoveHolds",
    "Steps-are-the-run-holds": "StepsAreTheRunHolds",
    "Accepted-again-holds": "AcceptedAgainHolds",
    "Running-to": "RunningTo",
    "Shared-to": "SharedTo",
}
# Names that a file may also use for a field or a variable: turned only where they stand as a definition of the module named.
LOCAL_TYPES = {
    "lower": ("LowerCalls", "eb3/specs/Laws/SourceTerms", "Rattle.eb3.specs.Laws.SourceTerms"),
    "plain": ("PlainExpression", "unfold/specs/Instantiation", "Rattle.unfold.specs.Instantiation"),
    "no_arguments": ("NoArguments", "unfold/specs/Instantiation", "Rattle.unfold.specs.Instantiation"),
    "well-formed": ("WellFormedTerm", "eb3/specs/WellFormedness", "Rattle.eb3.specs.WellFormedness"),
    "either": ("Either", "unfold/proofs/Shapes", "Rattle.unfold.proofs.Shapes"),
}
FIELD_AFTER = re.compile(r" *(?:=(?!=)|:)(?= |$)")
OF_LIBRARY = re.compile(r"(?m)^(?:ghost )?use (?!Rattle\.(?!std\b))([^\s{;]+)\.?(\{[^}]*\})?")
DECLARED = re.compile(
    r'(?m)^ *(?:(?:abbrev|unfoldable|pub|data|record) )*([^\s(){}.;,@"«»]+)((?: (?:\{[^{}]*\}|\([^()]*\)))*) :(?= |$)'
)
RULES = re.compile(r"(?m)^ *(?:pub )?ruleset ([^\s(){}.;,]+)")
OWN = set()
COMMENT = re.compile(r"(?<![^\s(){}.;,])--[^\n]*")
SPAN = re.compile(r"(`+)([^`\n]+)\1")
CLAUSE = re.compile(r"\b(?:requires|ensures)\*? *(?:\w+ *)?\{|\bghost +(?:\w+ *: *)?\{|\bghost use [^;]*;")


def files(top):
    for folder, dirs, names in os.walk(top):
        dirs[:] = sorted(d for d in dirs if d not in ("out", "target", ".git"))
        for name in sorted(names):
            yield os.path.join(folder, name)


def generated(path):
    """A proof of a function: its names are Rattle's."""
    return "/proofs/" in path.replace(os.sep, "/") and os.path.basename(path) in ("Proof.antt", "Answers.antt", "Invariants.antt")


def declared(top):
    """The words with dashes that specs/ and the lemma files use and no library gives."""
    found, of_library = set(), set()
    for path in files(os.path.join(top, "crates")):
        if path.endswith((".antt", ".rt")):
            with open(path, encoding="utf-8") as f:
                text = f.read()
            for m in OF_LIBRARY.finditer(text):
                of_library |= set(WORD.findall(m[2] or ""))
            if path.endswith(".antt") and not generated(path):
                code = COMMENT.sub("", text)
                found |= {m[0] for m in WORD.finditer(code)}
                own = {m[1] for m in DECLARED.finditer(code)} | {m[1] for m in RULES.finditer(code)}
                OWN.update(n for n in own if "-" in n)
    found = {n for n in found if n not in of_library} | OWN
    return {n for n in found if re.search("[-·]", n) and re.match(r"[A-Za-z]", n) and "->" not in n}


def table(top):
    rows = {n: re.sub("[-·]", "_", n) for n in declared(top)}
    # Both the old name and the one that underscores give.
    for old, new in TYPES.items():
        rows[old] = new
        if "-" in old:
            rows[old.replace("-", "_")] = new
    return rows


def turn(code, rows, kept, local):
    """Turns the words of a text of antt."""

    def one(m):
        w = m[0]
        if w in local:
            field = code[m.start() - 1 : m.start()] == "." or FIELD_AFTER.match(code, m.end())
            declares = re.search(r"(?:^|\n) *(?:abbrev |unfoldable )+pub $", code[: m.start()][-60:])
            own = re.search(r"(?:^|\n)(?:abbrev )?$", code[: m.start()][-20:])
            if declares or own or not field:
                return local[w]
        if w in kept:
            return w
        return rows.get(w, w)

    return WORD.sub(one, code)


def in_file(path, text, rows):
    kept = set()
    for m in OF_LIBRARY.finditer(text):
        kept |= set(WORD.findall(m[2] or ""))
    local = {}
    for old, (new, place, module) in LOCAL_TYPES.items():
        names = {old, old.replace("-", "_")}
        here = path.replace(os.sep, "/").endswith(place + ".antt")
        imported = any(
            names & set(WORD.findall(m[1]))
            for m in re.finditer(re.escape(module) + r"\.\{([^}]*)\}", text)
        )
        if here or imported:
            local |= {n: new for n in names}
    return kept, local


def antt(path, text, rows):
    kept, local = in_file(path, text, rows)
    out, at = [], 0
    for m in COMMENT.finditer(text):
        out.append(turn(text[at : m.start()], rows, kept, local))
        out.append(SPAN.sub(lambda s: s[1] + turn(s[2], rows, kept, local) + s[1], m[0]))
        at = m.end()
    return "".join(out) + turn(text[at:], rows, kept, local)


def rt(path, text, rows):
    kept, local = in_file(path, text, rows)
    out, at = [], 0
    for m in CLAUSE.finditer(text):
        if m.start() < at:
            continue
        end = m.end()
        if m[0].endswith("{"):
            depth = 1
            while depth:
                depth += {"{": 1, "}": -1}.get(text[end], 0)
                end += 1
        out.append(text[at : m.start()])
        out.append(turn(text[m.start() : end], rows, kept, local))
        at = end
    return "".join(out) + text[at:]


def markdown(text, rows):
    # A word without a dash may be plain English or code of another language.
    dashed = {k: v for k, v in rows.items() if re.search("[-·]", k)}
    return SPAN.sub(lambda s: s[1] + turn(s[2], dashed, set(), {}) + s[1], text)


def edit(path, text, rows):
    lines = []
    crate = os.path.dirname(os.path.dirname(path))
    target, whole = "", ""
    for line in text.split("\n"):
        if line.startswith("file:"):
            target = line[5:].strip()
            whole = os.path.join(crate, target)
            lines.append(line)
        elif line.startswith(("old:", "new:")):
            source = ""
            if os.path.isfile(whole):
                with open(whole, encoding="utf-8") as f:
                    source = f.read()
            kept, local = in_file(whole, source, rows)
            # The target has the new names already where it was turned first.
            for old, (new, place, module) in LOCAL_TYPES.items():
                if new in source:
                    local |= {old: new, old.replace("-", "_"): new}
            body = line[4:]
            if target.endswith(".antt") or "ensures" in body or "requires" in body or "⌜" in body:
                body = turn(body, rows, kept, local).replace("′", "'")
            lines.append(line[:4] + body)
        else:
            lines.append(line)
    return "\n".join(lines)


def main(argv):
    top = argv[0] if argv else "."
    rows = table(top)
    taken = {}
    for old, new in rows.items():
        if new in taken and re.sub("[-·]", "_", taken[new]) != re.sub("[-·]", "_", old):
            print(f"respell: {old} and {taken[new]} would both be {new}")
            return 1
        taken[new] = old
    changed = 0
    for path in list(files(top)):
        turner = None
        if path.endswith(".antt"):
            turner = lambda t: antt(path, t, rows)
        elif path.endswith(".rt"):
            turner = lambda t: rt(path, t, rows)
        elif path.endswith(".edit"):
            turner = lambda t: edit(path, t, rows)
        elif path.endswith(".md"):
            turner = lambda t: markdown(t, rows)
        if not turner:
            continue
        with open(path, encoding="utf-8") as f:
            old = f.read()
        new = turner(old)
        if new != old:
            with open(path, "w", encoding="utf-8") as f:
                f.write(new)
            changed += 1
    print(f"respell: {len(rows)} names, {changed} files changed")
    return 0


if __name__ == "__main__":
    raise SystemExit(main(sys.argv[1:]))
