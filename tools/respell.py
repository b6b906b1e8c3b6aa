#!/usr/bin/env python3
"""Spells the repository's own definitions and lemmas as today's Rattle spells words: in snake case.

usage: tools/respell.py [--check] [FOLDER]

A name that specs/ or proofs/ declare turns wherever it stands in antt, in clauses, in must-fail edits, and in the code spans
of comments and pages: `isMask` to `is_mask`, `has-low` to `has_low`. Names of types and modules, of the functions of src/, of
the libraries and of what Rattle makes for a proof stay. Two names that would fall together are printed, and nothing is written.
--check prints the table and writes nothing. It was run once, on what the kit's port.py had turned.
"""

import os
import re
import sys

WORD = re.compile(r'[^\s(){}.;,@"«»\[\]|]+')
DECLARED = re.compile(r"^ *(?:(?:abbrev|unfoldable|pub) )*((?:[^\s(){}.;,@\"«»\[\]|:]+ )*?)([^\s(){}.;,@\"«»\[\]|:]+) :(?= |$)", re.M)
CASE = re.compile(r"^ *\| ([^\s(){}.;,@\"«»\[\]|:]+) :(?= |$)", re.M)
COMMENT = re.compile(r'"(?:[^"\\\n]|\\.)*"|(?<![^\s(){}.;,@"])--[^\n]*')
RUST = re.compile(r"""b?"(?:\\.|[^"\\])*"|b?'(?:\\.|[^'\\\n])'|//[^\n]*""")
USE = re.compile(r"\buse ((?:\w|[.·'])+)\.\{([^}]*)\}")
SPAN = re.compile(r"`[^`\n]+`")
# where the names of libraries come from; any other path leads into the repository
LIBRARIES = re.compile(r"Rattle\.(std|core|io|os|libc)\b|Prim\b|[a-z]")
# words of the library in the names of lemmas, by their spelling there
LIBRARY = {"getD": "get_or"}
# a lemma that is in snake case and has its definition's name
LEMMAS = {"all_yes": "allYes"}
# a field that no file names beside the definition of its name
APART = {"at_level"}
KEEP = re.compile(r"returns(-|$)|.*-requires(-|$)|(invariant|decreases|loop)-")


def read(path):
    with open(path, encoding="utf-8") as it:
        return it.read()


def files(root, ends):
    for folder, dirs, names in os.walk(root):
        dirs[:] = sorted(d for d in dirs if d not in ("out", "target", ".git") and not os.path.islink(os.path.join(folder, d)))
        for name in sorted(names):
            path = os.path.join(folder, name)
            if name.endswith(ends) and not os.path.islink(path):
                yield path


def bare(text):
    return COMMENT.sub("", text)


def snake(name):
    for old, new in LIBRARY.items():
        name = re.sub(rf"(?<![\w]){old}(?![\w])", new, name)
    words = re.sub(r"(?<=[a-z0-9])[A-Z](?=[a-z])", lambda m: "_" + m[0].lower(), name)
    return re.sub(r"(?<=[\w'⊆<≤])-(?=[\w⊆<≤])", "_", words)


def of_a_function(path):
    """A proof of a function of src/: what it declares are goals, under names that Rattle makes."""
    folder, name = os.path.split(path)
    return name == "Proof.antt" or (name in ("Answers.antt", "Invariants.antt") and os.path.basename(folder) != "proofs")


def table(root):
    declared, imported = {}, {}
    for path in files(os.path.join(root, "crates"), (".antt", ".rt")):
        text = read(path)
        for module, names in USE.findall(bare(text)):
            if LIBRARIES.match(module):
                for name in names.split(","):
                    imported.setdefault(name.split(" as ")[0].strip(), path)
        if path.endswith(".antt"):
            text = bare(text)
            if not of_a_function(path):
                found = [m[2] for m in DECLARED.finditer(text)] + CASE.findall(text)
                for name in found:
                    declared.setdefault(name, path)
    rows = {}
    for name in declared:
        if name[:1].isupper() and "-" not in name:
            continue
        new = snake(name)
        if new != name and name not in imported and not KEEP.match(name):
            rows[name] = new
    # of a definition and its lemma that would have one name, the lemma gets _lem
    taken = {new for old, new in rows.items() if "-" not in old} | {name for name in declared if name not in rows}
    for old, new in rows.items():
        if new in taken and "-" in old:
            rows[old] = new + "_lem"
    for name, definition in LEMMAS.items():
        if name in declared and definition in declared:
            rows[name] = name + "_lem"
    news = {}
    for old, new in rows.items():
        news.setdefault(new, []).append(old)
    clash = [f"{new}: {', '.join(olds)}" for new, olds in news.items() if len(olds) > 1 or (new in declared and new not in rows and new not in APART)]
    return rows, clash


def turn_words(text, rows, after_dot=True):
    def new(m):
        if m[0] not in rows or (not after_dot and m.start() and text[m.start() - 1] == "."):
            return m[0]
        return rows[m[0]]

    return WORD.sub(new, text)


def turn_spans(text, rows):
    return SPAN.sub(lambda m: turn_words(m[0][1:-1], rows).join("``"), text)


def turn_antt(text, rows, after_dot):
    out, at = [], 0
    for m in COMMENT.finditer(text):
        out.append(turn_words(text[at : m.start()], rows, after_dot))
        out.append(m[0] if m[0].startswith('"') else turn_spans(m[0], rows))
        at = m.end()
    return "".join(out) + turn_words(text[at:], rows, after_dot)


def turn_rust(text, rows):
    out, at = [], 0
    for m in RUST.finditer(text):
        out.append(turn_words(text[at : m.start()], rows))
        out.append(turn_spans(m[0], rows) if m[0].startswith("//") else m[0])
        at = m.end()
    return "".join(out) + turn_words(text[at:], rows)


def main(argv):
    check = "--check" in argv
    root = next((a for a in argv if not a.startswith("-")), ".")
    rows, clash = table(root)
    if check:
        print("\n".join(f"{old}\t{new}" for old, new in sorted(rows.items())))
    if clash:
        print("names that would fall together:\n" + "\n".join(sorted(clash)), file=sys.stderr)
        if not check:
            return 1
    if check:
        return 0
    changed = 0
    for path in files(root, (".antt", ".rt", ".edit", ".md")):
        old = read(path)
        if path.endswith(".antt"):
            new = turn_antt(old, rows, not of_a_function(path))
        elif path.endswith(".md"):
            new = turn_spans(old, rows)
        else:
            new = turn_rust(old, rows)
        if new != old:
            with open(path, "w", encoding="utf-8") as out:
                out.write(new)
            changed += 1
    print(f"{len(rows)} names, {changed} files")
    return 0


if __name__ == "__main__":
    sys.exit(main(sys.argv[1:]))
