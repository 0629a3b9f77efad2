#!/usr/bin/env python3
"""Spells the repository's own definitions and lemmas as today's Rattle does: words in snake case (majorityMark: majority_mark; count-step: count_step).

usage: python3 tools/port/respell.py [FOLDER]     FOLDER: the top of the repository (default: the current folder); run once, behind port.py

It turns each name that a file of specs/ or a lemma file of proofs/ declares, wherever it stands: in .antt files, in the clauses of .rt files and, between
backquotes, in the pages. Functions of src/, exported names, strings, inputs and outputs keep their names. A lemma that would meet a definition's name gets
'_lem' at its end. It prints what would meet another name of its file.
"""

import collections
import os
import re
import sys

TOKEN = r'[^\s(){}.;,@"«»`]+'
DECLARED = re.compile(r'^( *)((?:(?:pub|abbrev|unfoldable|ruleset) )*)((?:[^\s(){}.;,@"«»:λ]+)(?: [^\s(){}.;,@"«»:λ]+)*) :(?= |$)', re.M)
LOCAL = {"module", "where", "record", "data", "use", "let", "in", "mod", "elim", "rw", "→", "×", "--"}
OF_A_FUNCTION = re.compile(r"/proofs/.+/(Proof|Answers|Invariants)\.antt$")
SKIPPED = {".git", "out", "target", "must-fail"}


def files(root, ends):
    for folder, dirs, names in os.walk(root):
        dirs[:] = sorted(d for d in dirs if d not in SKIPPED)
        for name in sorted(names):
            if name.endswith(ends):
                yield os.path.join(folder, name)


def read(path):
    with open(path, encoding="utf-8") as f:
        return f.read()


def code_of(line, mark):
    """A line's code and its comment."""
    i = line.find(mark)
    return (line, "") if i < 0 else (line[:i], line[i:])


def declared(root):
    """What files of specs/ and lemma files declare, and which of it are fields of records."""
    names, fields = set(), set()
    for path in files(os.path.join(root, "crates"), ".antt"):
        if OF_A_FUNCTION.search(path):
            continue
        text = "\n".join(code_of(l, "--")[0] for l in read(path).split("\n"))
        inside = None
        for line in text.split("\n"):
            head = re.match(r"( *)(?:pub )?(record|data) ", line)
            if head:
                inside = len(head[1])
            elif line.strip() and inside is not None and len(line) - len(line.lstrip()) <= inside:
                inside = None
            m = DECLARED.match(line)
            if m:
                for n in m[3].split():
                    if n not in LOCAL:
                        names.add(n)
                        if inside is not None:
                            fields.add(n)
    return names, fields


def snake(name):
    words = re.sub(r"(?<=[a-z0-9])[A-Z]+", lambda m: "_" + m[0].lower(), name)
    return words.replace("-", "_")


def is_old(name):
    return bool(re.match(r"[a-z]", name)) and (("-" in name and not name.endswith("-")) or bool(re.search(r"[A-Z]", name)))


def make_room(root, names):
    """A lemma that has a definition's new spelling already gets '_lem', where it is declared and in each file that imports it from there."""
    wanted = {snake(n) for n in names if is_old(n) and "-" not in n}
    met = {n for n in names if not is_old(n)} & wanted
    inside = os.path.join(root, "crates")
    for name in sorted(met):
        word = re.compile(rf"(?<![^\s(){{}};,@«»`]){re.escape(name)}(?![^\s(){{}}.;,@\"«»`])")
        homes = []
        for path in files(inside, ".antt"):
            if not OF_A_FUNCTION.search(path) and re.search(rf"(?m)^ *(?:(?:pub|abbrev|unfoldable) )*{re.escape(name)} :", read(path)):
                homes.append(path)
        for path in files(inside, ".antt"):
            text = read(path)
            here = path in homes
            for home in homes:
                module = "Rattle." + os.path.relpath(home, inside)[: -len(".antt")].replace(os.sep, ".")
                here = here or bool(re.search(rf"use {re.escape(module)}\.\{{[^}}]*(?<![\w-]){re.escape(name)}(?![\w-])", text))
            if here:
                with open(path, "w", encoding="utf-8") as f:
                    f.write(word.sub(name + "_lem", text))
    return {n + "_lem" if n in met else n for n in names}


def new_names(names):
    """The new spelling of each, with no two alike: a definition (it was in camel case) has the plain word, a lemma '_lem'."""
    kept = {n for n in names if not is_old(n)}
    out, taken = {}, set(kept)
    for n in sorted((n for n in names if is_old(n)), key=lambda n: ("-" in n, n)):
        to = snake(n)
        while to in taken:
            to += "_lem"
        taken.add(to)
        out[n] = to
    return out


def turn_code(text, table, fields, of_function):
    def one(m):
        word = m[0]
        if word not in table:
            return word
        behind_dot = m.start() > 0 and text[m.start() - 1] == "."
        # Behind a dot in a function's proof a word with a dash is one that Rattle makes, unless it is a field of a record of our own.
        if of_function and behind_dot and "-" in word and word not in fields:
            path = re.search(r"[^\s(){};,]*$", text[: m.start()])[0]
            if not path.startswith("Rattle."):
                return word
        return table[word]

    return re.sub(TOKEN, one, text)


def turn_comment(text, table):
    plain = {k: v for k, v in table.items() if "-" not in k}
    text = re.sub(r"`[^`\n]*`", lambda m: re.sub(TOKEN, lambda w: table.get(w[0], w[0]), m[0]), text)
    return re.sub(r"(?<![\w-])[a-z]\w*[A-Z]\w*(?![\w-])", lambda w: plain.get(w[0], w[0]), text)


def turn_antt(text, table, fields, of_function):
    lines = []
    for line in text.split("\n"):
        code, comment = code_of(line, "--")
        lines.append(turn_code(code, table, fields, of_function) + turn_comment(comment, table))
    return "\n".join(lines)


CLAUSE = re.compile(r"^ *(?:requires|ensures|ghost|invariant)\b")


def turn_rt(text, table):
    """Clauses and ghost items, which may go over several lines, and comments."""
    lines, deep = [], None
    for line in text.split("\n"):
        code, comment = code_of(line, "//")
        if deep is None and CLAUSE.match(code):
            deep = 0
        if deep is not None:
            code = turn_code(code, table, set(), False)
            deep += code.count("{") - code.count("}")
            if deep <= 0 and (code.rstrip().endswith("}") or code.rstrip().endswith(";")):
                deep = None
        lines.append(code + turn_comment(comment, table))
    return "\n".join(lines)


def of_libraries(root, text):
    """What a file imports from libraries that are not of this repository: those names stay."""
    own = set(os.listdir(os.path.join(root, "crates")))
    out = set()
    for m in re.finditer(r"use ([^\s{;]+)\.\{([^}]*)\}", text):
        steps = m[1].split(".")
        if steps[0] != "Rattle" or steps[1] not in own:
            out |= set(re.findall(TOKEN, m[2]))
    return out


def main(argv):
    root = argv[0] if argv else "."
    names, fields = declared(root)
    names = make_room(root, names)
    table = new_names(names)
    met = collections.Counter()
    for path in files(os.path.join(root, "crates"), (".antt", ".rt")):
        text = read(path)
        before = set(re.findall(TOKEN, text))
        theirs = of_libraries(root, text)
        mine = {k: v for k, v in table.items() if k not in theirs}
        if path.endswith(".rt"):
            to = turn_rt(text, mine)
        else:
            to = turn_antt(text, mine, fields, bool(OF_A_FUNCTION.search(path)))
        if to != text:
            with open(path, "w", encoding="utf-8") as f:
                f.write(to)
        after = set(re.findall(TOKEN, to))
        for old, new in table.items():
            if old in before and new in before and new in after:
                print(f"look: {os.path.relpath(path, root)}: {old} is {new} now, which the file had")
                met[new] += 1
    for path in files(root, ".md"):
        text = read(path)
        to = re.sub(r"`[^`\n]*`", lambda m: re.sub(TOKEN, lambda w: table.get(w[0], w[0]), m[0]), text)
        if to != text:
            with open(path, "w", encoding="utf-8") as f:
                f.write(to)
    clashes = [f"{k} {v}" for k, v in sorted(table.items()) if v.endswith("_lem")]
    print("lemmas that would have met another name: " + "; ".join(clashes))
    print(f"{len(table)} names")
    return 0


if __name__ == "__main__":
    raise SystemExit(main(sys.argv[1:]))
