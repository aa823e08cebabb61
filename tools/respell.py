#!/usr/bin/env python3
"""Spells the repository's own definitions and lemmas in snake case: usage: respell.py [--check] [FOLDER]

It reads the names that the files of specs/ and the lemma files of proofs/ declare, makes `sum_over` of `sumOver` and `tally_deep` of `tally-deep`, and turns whole
words alone: in .antt files, in clauses, `ghost use` items and comments of .rt files, in the texts of must-fail edits, and in code spans of pages. Types and modules
keep their capitals; functions of src/, names that C sees, strings, inputs and outputs are not touched. A name with a dash that Rattle makes (in proofs/FUNCTION/)
is none of these, and a name that a file imports from a library of the kit stays in that file. A lemma that would get its definition's name ends in `_lem`. Where a name would meet another word of the proofs, KEPT says what it is called.
"""

import os
import re
import sys

ATOM = r"[^\s(){}.;,@\"«»`\[\]]+"
DECLARED = re.compile(r"(?m)^ *(?:(?:abbrev|unfoldable|pub) )*([a-z][\w']*(?:-[\w']+)*)(?: \{[^}\n]*\})* :(?!=)")
WORD = re.compile(r"(?<![\w'’\-◌])[a-z][\w']*(?:-[\w']+)*(?![\w'\-◌])")
CLAUSE = re.compile(r"(?:requires|ensures)\s*\*?\s*(?:\w+\s*)?\{|ghost\s*\w*\s*:?\s*\{")
GHOST_USE = re.compile(r"ghost\s+use\b[^;]*;")
SPAN = re.compile(r"`[^`\n]*`")
OF_A_LIBRARY = re.compile(r"(?m)^use (?!Rattle\.(?!std\b))[\w.]+\.\{([^}]*)\}")
OF_A_FUNCTION = ("Proof.antt", "Answers.antt", "Invariants.antt")

# Names that would meet another word, and what they are called.
KEPT = {"getD-" + n: "get_or_" + n for n in ("from", "mapped", "none", "padded")} | {"getD-listFrom": "get_or_list_from"}


def snake(name):
    words = re.sub(r"(?<=[a-z0-9'])[A-Z]", lambda m: "_" + m[0].lower(), name)
    return words.replace("-", "_")


def files(root, ends):
    for top in ("crates", "docs", "README.md", "bindings", "reference", "examples"):
        at = os.path.join(root, top)
        if os.path.isfile(at):
            yield at
        for folder, dirs, names in os.walk(at):
            dirs[:] = sorted(d for d in dirs if d not in ("out", "target", ".git"))
            for name in sorted(names):
                if name.endswith(ends):
                    yield os.path.join(folder, name)


def read(path):
    with open(path, encoding="utf-8") as f:
        return f.read()


def declared(root):
    found = set()
    for path in files(root, ".antt"):
        here = set(DECLARED.findall(read(path)))
        if os.path.basename(path) in OF_A_FUNCTION:
            here = {n for n in here if "-" not in n}
        found |= {n for n in here if n != snake(n)}
    return found


def bare(text):
    """The words of a proof file that stand behind no dot and in no `use` line."""
    code = "\n".join(l.partition("--")[0] for l in text.split("\n") if not l.startswith("use "))
    return {m[0] for m in WORD.finditer(code) if code[m.start() - 1 : m.start()] != "."}


def table(root):
    names = declared(root)
    words, plain = {}, set()
    for path in files(root, ".antt"):
        text = read(path)
        if os.path.basename(path) not in OF_A_FUNCTION:
            plain |= {n for n in DECLARED.findall(text) if n == snake(n)}
        for w in bare(text):
            words.setdefault(w, set()).add(path)
    rows, meets = {}, {}
    taken = {snake(n) for n in names if "-" not in n}
    for n in sorted(names):
        new = KEPT.get(n, snake(n))
        if "-" in n and n not in KEPT and (new in taken or new in plain):
            new += "_lem"
        rows[n] = new
    for n in sorted(plain & taken):
        rows[n] = KEPT.get(n, n + "_lem")
    spelled = {}
    for n, new in rows.items():
        spelled.setdefault(new, set()).add(n)
    for n, new in sorted(rows.items()):
        if len(spelled[new]) > 1 or (new in words and new not in rows and n not in KEPT):
            meets[n] = (new, sorted(spelled[new] - {n}), sorted(words.get(new, ()))[:4])
    return rows, meets


def turned(text, rows, of_a_function=False):
    def one(m):
        behind_dot = text[m.start() - 1 : m.start()] == "."
        return m[0] if of_a_function and behind_dot and "-" in m[0] else rows.get(m[0], m[0])

    return WORD.sub(one, text)


def block_end(text, at):
    deep = 1
    while at < len(text) and deep:
        deep += (text[at] == "{") - (text[at] == "}")
        at += 1
    return at


def turned_rt(text, rows):
    spots = [(m.start(), m.end()) for m in GHOST_USE.finditer(text)]
    spots += [(m.end(), block_end(text, m.end())) for m in CLAUSE.finditer(text)]
    spots += [(m.start(), m.end()) for m in re.finditer(r"//[^\n]*", text)]
    out, at = [], 0
    for a, b in sorted(spots):
        if a < at:
            continue
        part = text[a:b]
        if part.startswith("//"):
            plain = {k: v for k, v in rows.items() if "-" not in k}
            part = turned(part, plain)
        else:
            part = turned(part, rows)
        out += [text[at:a], part]
        at = b
    return "".join(out) + text[at:]


def turned_antt(text, rows, of_a_function):
    foreign = {n.strip() for names in OF_A_LIBRARY.findall(text) for n in names.split(",")}
    rows = {k: v for k, v in rows.items() if k not in foreign}
    plain = {k: v for k, v in rows.items() if "-" not in k}
    out = []
    for line in text.split("\n"):
        code, dashes, said = line.partition("-- ") if not line.startswith("--") else ("", line, "")
        out.append(turned(code, rows, of_a_function) + turned(dashes, plain) + SPAN.sub(lambda m: turned(m[0], rows), turned(said, plain)))
    return "\n".join(out)


def main(args):
    check = "--check" in args
    args = [a for a in args if a != "--check"]
    root = args[0] if args else "."
    rows, meets = table(root)
    for n, (new, other, where) in sorted(meets.items()):
        print(f"meets: {n} -> {new}: {other} {where}")
    print(f"{len(rows)} names, {len(meets)} meet another")
    if check or meets:
        return 1 if meets else 0
    respelled = {n: new for n, new in rows.items() if n != snake(n)}
    for path in files(root, (".antt", ".rt", ".edit", ".md")):
        text = read(path)
        if path.endswith(".antt"):
            new = turned_antt(text, rows, os.path.basename(path) in OF_A_FUNCTION)
        elif path.endswith(".rt"):
            new = turned_rt(text, respelled)
        elif path.endswith(".edit"):
            new = "\n".join(turned(l, rows) if re.match(r"(old|new): ", l) else l for l in text.split("\n"))
        else:
            new = SPAN.sub(lambda m: turned(m[0], respelled), text)
        if new != text:
            with open(path, "w", encoding="utf-8") as f:
                f.write(new)
    return 0


if __name__ == "__main__":
    sys.exit(main(sys.argv[1:]))
