#!/usr/bin/env python3
"""Spells this repository's own antt names in snake case: definitions, lemmas, fields and the variables bound in their files.

usage: python3 tools/snake_names.py        at the top, once, behind the kit's port.py (docs/PORT.md says why)

A lemma that would fall together with a definition gets `_is` behind it. A name is the repository's own if a file of specs/ or a lemma file of proofs/ declares or binds it, and no library is asked for it.
It turns in the antt files, in the clauses and ghost items of .rt files, in must-fail edits and in the code spans of comments and pages.
Names of Rust code, types, modules and the names that Rattle makes stay. It stops where two names would fall together.
"""

import collections
import os
import re
import sys

TOKEN = re.compile(r"[^\s(){}.;,@\"«»]+")
QUIET = re.compile(r'"(?:[^"\\\n]|\\.)*"|(?<![^\s(){}.;,@"«»])--[^\n]*')
DECLARED = re.compile(r"(?m)^\s*(?:(?:pub|abbrev|unfoldable|opaque|private)\s+)*([^\s(){}.;,@\"«»:]+)(?:\s*\{[^{}\n]*\})*\s+:(?=\s|$)")
USE = re.compile(r"(?m)^\s*(?:pub )?use ([^\s;{]+?)\.?\{([^}]*)\}")
LIBRARY = re.compile(r"Rattle\.(std|core|libc|os|io)\b|(?!Rattle)")
# a function's own proof, whose names Rattle made
OF_FUNCTION = re.compile(r"/(Proof|Answers|Invariants|Needs)\.antt$")
# names whose new form another name has already
OTHERWISE = {"isOpen": "is_open_call", "tailOf": "tail_of_extents", "readNumber": "number_of_read", "last-start": "last_start_written"}
# Rattle makes a module `specs.contracts` in each crate, so this one's file of that name gets another
MOVED = ("crates/contracts/specs/Contracts.antt", "crates/contracts/specs/Promises.antt")
RENAMED = (("contracts.specs.Contracts", "contracts.specs.Promises"), ("specs/Contracts.antt", "specs/Promises.antt"))
SPAN = re.compile(r"`[^`\n]+`")
CAMEL = re.compile(r"(?<![\w'-])[a-z][a-z0-9]*(?:[A-Z][A-Za-z0-9]*)+'*(?![\w-])")


def texts(ends):
    for top in ("crates", "docs", "compare", "README.md"):
        if os.path.isfile(top):
            yield top
        for folder, dirs, files in os.walk(top):
            dirs[:] = sorted(d for d in dirs if d != "out")
            for f in sorted(files):
                if f.endswith(ends):
                    yield os.path.join(folder, f)


def read(path):
    with open(path, encoding="utf-8") as f:
        return f.read()


def old_form(name):
    """In dashes or camel case, or a constant with a dash."""
    return re.match(r"[a-z]", name) and ("-" in name.strip("-") or re.search(r"[a-z0-9][A-Z]", name)) or re.fullmatch(r"[A-Z]+(-[A-Z]+)+", name)


def snake(name):
    if name.isupper():
        return name.replace("-", "_")
    return re.sub(r"(?<=[a-z0-9])[A-Z]", lambda m: "_" + m[0].lower(), name).replace("-", "_").lower()


def own_names(files):
    """The names to turn, each with its new form."""
    asked, bound, declared = set(), set(), set()
    for path, text in files.items():
        code = QUIET.sub("", text)
        for head, items in USE.findall(code):
            if LIBRARY.match(head):
                asked.update(re.split(r"\s+as\s+", i.strip())[0] for i in items.split(","))
        if OF_FUNCTION.search(path):
            continue
        declared.update(DECLARED.findall(code))
        bound.update(t for t in TOKEN.findall(USE.sub("", code)) if old_form(t))
    here = {n for n in declared if old_form(n)} | bound
    names = {n: OTHERWISE.get(n, snake(n)) for n in sorted(here - (asked - declared))}
    # a lemma on a definition of the same words says so
    camel = {new for old, new in names.items() if "-" not in old}
    spelled = {n for n in declared if not old_form(n)}
    return {old: new + "_is" if "-" in old and new in camel | spelled else new for old, new in names.items()}


def fall_together(names, files):
    """Pairs that would meet in a file, one of which stood there under the new form before."""
    met = collections.defaultdict(set)
    for old, new in names.items():
        met[new].add(old)
    bad = [sorted(olds) for olds in met.values() if len(olds) > 1]
    for path, text in files.items():
        if OF_FUNCTION.search(path):
            continue
        tokens = set(TOKEN.findall(QUIET.sub("", text)))
        bad += [[old, new, path] for old, new in names.items() if old in tokens and new in tokens]
    return bad


def turn_words(code, names):
    return TOKEN.sub(lambda m: names.get(m[0], m[0]), code)


def turn_prose(text, names):
    text = SPAN.sub(lambda m: "`" + ":".join(turn_words(part, names) for part in m[0][1:-1].split(":")) + "`", text)
    return CAMEL.sub(lambda m: names.get(m[0], m[0]), text)


def turn_antt(text, names):
    out, at = [], 0
    for m in QUIET.finditer(text):
        out += [turn_words(text[at:m.start()], names), m[0] if m[0].startswith('"') else turn_prose(m[0], names)]
        at = m.end()
    return "".join(out) + turn_words(text[at:], names)


def turn_rust(text, names):
    """Rust code has neither dashes nor camel case in a name, so each line turns but for comments and strings."""
    parts = re.split(r'(//[^\n]*|"(?:[^"\\\n]|\\.)*")', text)
    return "".join(p if p.startswith('"') else turn_prose(p, names) if p.startswith("//") else turn_words(p, names) for p in parts)


def main():
    if not os.path.isfile("crates.txt"):
        sys.exit("snake_names: run it at the top of the repository")
    files = {p: read(p) for p in texts(".antt")}
    names = own_names(files)
    bad = fall_together(names, files)
    if bad:
        sys.exit("snake_names: fall together: " + "; ".join(map(str, bad)))
    turned = 0
    # the kit's script turned some names already, but in neither edits nor pages
    words = {t for text in files.values() for t in TOKEN.findall(QUIET.sub("", text))}
    for path in texts((".antt", ".rt", ".edit", ".md")):
        old = read(path)
        if path.endswith((".edit", ".md")):
            names |= {t: snake(t) for t in TOKEN.findall(re.sub("[`:]", " ", old)) if t not in names and old_form(t) and snake(t) in words and t not in words}
        form = turn_antt if path.endswith(".antt") else turn_prose if path.endswith(".md") else turn_rust
        new = form(old, names)
        for was, now in RENAMED:
            new = new.replace(was, now)
        if path == "crates/contracts/specs/Lib.antt":
            new = new.replace("pub mod Contracts\n", "pub mod Promises\n")
        if new != old:
            turned += 1
            with open(path, "w", encoding="utf-8") as f:
                f.write(new)
    os.rename(*MOVED)
    print(f"snake_names: {len(names)} names turned in {turned} files")


if __name__ == "__main__":
    main()
