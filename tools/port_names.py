#!/usr/bin/env python3
"""Brings the repository's own definitions and lemmas to the spelling of today's Rattle: snake case.

usage: tools/port_names.py [--list]

Run once, at the top of the repository, right after the toolchain's port.py. A name that specs/ or proofs/ declares and that
holds a dash or a capital after a small first letter gets underscores and small letters: millisOf is millis_of, number-only is
number_only. It is changed in .antt files, and in the ghost use lines and clauses of .rt files. Names of src/, of types and
modules, strings, and the names that Rattle makes (of goals and steps) stay. A name that the library has too stays in the
files that bring it from there. --list only prints the names.
"""
import os
import re
import sys

W = r"[^\s(){}.;,@\"«»\[\]\\]+"
TOKEN = re.compile(r"--[^\n]*|\"(?:[^\"\\]|\\.)*\"|«[^»]*»|" + W)
DECLARES = re.compile(r"^[ \t]*(?:(?:abbrev|unfoldable|pub|private) +)*((?:" + W + r" +)*?" + W + r") :(?=\s)")
# Names that would fall together with another in a file: a lemma on a definition of that name, and a function beside its table.
APART = {
    "by-tag": "by_tag_lem",
    "command-trace": "command_trace_lem",
    "descriptor-at": "descriptor_at_lem",
    "event-at": "event_at_lem",
    "is-tag": "is_tag_lem",
    "length-for": "length_for_lem",
    "plan-for": "plan_for_lem",
    "sheet-row": "sheet_row_lem",
    "sweep-on": "sweep_on_lem",
    "times-on": "times_on_lem",
    "to-section": "to_section_lem",
    "to-sheet": "to_sheet_lem",
    "upid-bytes": "upid_bytes_lem",
    "segmentationEnd": "segmentation_end_at",
}
# Facts, by the module that declares them: a fact is spelled as a type.
FACTS = {
    "Rattle.command_events.specs.Places": {"eventIs": "EventIs"},
    "Rattle.grammar.specs.Traces": {"spans": "Spans", "keeps": "Keeps", "namedSpans": "NamedSpans", "alike": "Alike"},
    "Rattle.known_walk.specs.Places": {"placed_at": "PlacedAt", "placed": "Placed"},
    "Rattle.section.specs.Accept": {"grammatical": "IsGrammatical"},
    "Rattle.grammar.proofs.Traces": {"fits": "Fits"},
}
KEYWORDS = {"use", "module", "record", "data", "let", "in", "where", "elim", "unfolding", "mod", "as", "λ", "field", "open"}
# what Rattle makes: parts of the names of goals and steps in the proof of a function
MADE = re.compile(r"^(returns|overflow|nonzero|bounds|slice_bounds|offset_bounds|shared[-_]slice|struct[-_]known|enum[-_]told|in-|if-|then-|else-|loop|invariant[-_]|decreases[-_])|(-requires(-\d+)?|-spec)$")


SINGLE = {old for facts in FACTS.values() for old in facts}


def facts_in(path, text):
    """The facts that a file declares or brings in, with their new names."""
    found = {}
    for module, facts in FACTS.items():
        if path == "crates/" + module[len("Rattle."):].replace(".", "/") + ".antt":
            found |= facts
        for group in re.findall(r"use " + re.escape(module) + r"\.\{([^{}]*)\}", text):
            found |= {old: facts[old] for old in (it.split()[0] for it in group.split(",") if it.strip()) if old in facts}
    return found


def texts(kinds):
    for folder, folders, files in os.walk("crates"):
        folders[:] = sorted(f for f in folders if f != "out")
        for f in sorted(files):
            if f.endswith(kinds):
                yield os.path.join(folder, f)


def read(path):
    with open(path, encoding="utf-8", newline="") as f:
        return f.read()


def of_a_function(path):
    """Whether the file is the proof of one function, whose needs bear names that Rattle made."""
    return path.endswith("/Proof.antt") or path.endswith("/Answers.antt") or path.endswith("/Invariants.antt")


def declared():
    names = set()
    for path in texts(".antt"):
        for line in read(path).split("\n"):
            line = re.sub(r"\"(?:[^\"\\]|\\.)*\"", "", line)
            if line.lstrip().startswith("--"):
                continue
            group = DECLARES.match(line)
            if not group:
                continue
            words = group[1].split()
            if KEYWORDS & set(words):
                continue
            if of_a_function(path) and (": tie." in line or line.startswith(" ") or MADE.search(words[0])):
                continue
            names.update(words)
    return names


def imported():
    """The names that come from the library, by file."""
    found = {}
    for path in texts((".antt", ".rt")):
        names = set()
        for m, group in re.findall(r"^ *(?:pub |ghost )*use ([^\s{}]+)\.\{([^{}]*)\}", read(path), re.M):
            if m.startswith("Rattle.") and not m.startswith("Rattle.std."):
                continue
            for it in group.split(","):
                names.update(it.split()[:1])
        found[path] = names
    return found


def snake(name):
    name = re.sub(r"([a-z0-9₀-₉])([A-Z])", r"\1_\2", name).replace("-", "_").lower()
    return None if re.search("[^a-z0-9_'₀-₉]", name) else name


def table():
    found = {}
    for name in declared() - SINGLE:
        if not re.match("[a-z]", name) or not re.search("[A-Z]|-", name):
            continue
        new = APART.get(name) or snake(name)
        if new and new != name:
            found[name] = new
    return found


def turned(text, names, keep):
    def word(m):
        it = m[0]
        if it.startswith("--"):
            return re.sub(r"`([^`\s]+)`", lambda g: "`" + names.get(g[1], g[1]) + "`", re.sub(r"\b[a-z]+[A-Z]\w*\b", lambda g: names.get(g[0], g[0]), it))
        if it[0] in "\"«" or it in keep or (it in SINGLE and m.start() and text[m.start() - 1] == "."):
            return it
        return names.get(it, it)

    return TOKEN.sub(word, text)


def turn_source(text, names, keep):
    """The ghost use lines and the clauses of a source file, and what its comments name in camel case."""
    lines, ghost, depth = [], False, 0
    for line in text.split("\n"):
        begins = re.match(r"\s*(ghost use |requires\b|ensures\b|ghost \w+:)", line)
        if begins and not ghost:
            ghost, depth = True, 0
        if ghost:
            line = turned(line, names, keep)
            depth += line.count("{") - line.count("}")
            if depth <= 0 and ("}" in line or line.rstrip().endswith(";")):
                ghost = False
        elif line.lstrip().startswith("//"):
            line = re.sub(r"\b[a-z]+[A-Z]\w*\b", lambda g: names.get(g[0], g[0]), line)
        lines.append(line)
    return "\n".join(lines)


def main():
    names = table()
    if "--list" in sys.argv:
        for old in sorted(names):
            print(old, names[old])
        return
    library = imported()
    for path in texts((".antt", ".rt")):
        old = read(path)
        own = names | facts_in(path, old)
        if path.endswith(".rt"):
            new = turn_source(old, own, library[path])
        else:
            new = turned(old, own, library[path])
        if new != old:
            with open(path, "w", encoding="utf-8", newline="") as f:
                f.write(new)


main()
