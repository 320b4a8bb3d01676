#!/usr/bin/env python3
"""Spells the names that the crates' specs and proofs declare in snake case: sameAt and same-at become same_at.

usage: tools/snake_names.py [--check]

Run at the top of the repository, once, after the kit's port.py. It turns whole words: in .antt files, in the clauses and ghost items of
.rt files and in must-fail edits. In comments a word turns where it is written in lower camel case, or where the file has it in its code. Names of goals and of functions' proofs stay as they are. --check writes nothing and
prints the names that would meet another. The exit status is 1 if there are any that OTHER does not part.
"""

import os
import re
import sys

WORD = re.compile(r"[^\s(){}.;,@\"«»\[\]`]+")
DECLARED = re.compile(
    r"^\s*(?:(?:abbrev|pub|opaque|unfoldable)\s+)*([^\s(){}.;,@\"«»]+)(?:\s*\{[^{}\n]*\}|\s*\([^()\n]*\))*\s*:(?:\s(.*))?$"
)
CLAUSE = re.compile(r"(?:requires|ensures)\s*\*?\s*(?:\w+\s*)?\{|ghost\s+use\b[^;]*;|ghost\s*(?:\w+\s*(?::\s*)?)?\{")
# Lemmas whose plain snake case a definition has: the definition keeps it.
LEMMAS = """age-in before-in bit-or bool-byte bytes-from earlier-in free-by key-from miss-by place-in runs-in same-numbers same-states
sheet-refusal state-bytes state-in step-tick table-again table-fault table-refusal task-at task-of tasks-bytes tight-job unless-refused write-out""".split()
# Lemmas that port.py spelled so, as a definition is to be spelled: they turn as long as the definition has its old spelling.
TURNED = {"four_bytes": "fourBytes", "full_by": "fullBy", "key_in": "keyIn", "mark_set": "markSet", "place_at": "placeAt"}
# The files of a function's proof, in which goals have names of Rattle's own.
OF_FUNCTIONS = ("Proof.antt", "Answers.antt", "Invariants.antt")
OTHER = {it: it.replace("-", "_") + "_lem" for it in LEMMAS + list(TURNED)}


def texts(top):
    for folder, dirs, files in os.walk(os.path.join(top, "crates")):
        dirs[:] = sorted(d for d in dirs if d not in ("out", "target"))
        for it in sorted(files):
            if it.endswith((".antt", ".rt", ".edit")):
                yield os.path.join(folder, it)


def read(path):
    with open(path, encoding="utf-8") as it:
        return it.read()


def is_odd(name):
    return name[0].isalpha() and ("-" in name or (name[0].islower() and re.search(r"[a-z0-9][A-Z]", name)))


def snake(name):
    if name in OTHER:
        return OTHER[name]
    return re.sub(r"(?<=[a-z0-9])[A-Z]", lambda m: "_" + m[0].lower(), name).replace("-", "_")


def declared(paths):
    names = set()
    for path in paths:
        if not path.endswith(".antt"):
            continue
        lines = read(path).splitlines() + [""]
        for i, line in enumerate(lines):
            found = DECLARED.match(line)
            if not found or line.lstrip().startswith("--") or not is_odd(found[1]):
                continue
            said = found[2] or lines[i + 1]
            if os.path.basename(path) in OF_FUNCTIONS and ("tie." in said or "goal." in said or "statement" in said):
                continue
            names.add(found[1])
    return names


def turned(text, table):
    def word(m):
        # Of the names in TURNED, a function's path and a step of its proof keep theirs.
        held = m[0] in TURNED and text[: m.start()].endswith((".", ":"))
        return m[0] if held else table.get(m[0], m[0])

    return WORD.sub(word, text)


def split(line, mark):
    """The code and the comment of a line."""
    at = re.search(r"(?<![^\s(){};,])" + mark, line)
    return (line[: at.start()], line[at.start() :]) if at else (line, "")


def turned_comment(text, table, known):
    keeps = lambda it: it not in table or it in TURNED or ("-" in it and it not in known)
    return WORD.sub(lambda m: m[0] if keeps(m[0]) else table[m[0]], text)


def turned_lines(text, mark, table):
    lines = text.split("\n")
    known = {w for line in lines for w in WORD.findall(split(line, mark)[0])}
    out = []
    for line in lines:
        code, comment = split(line, mark)
        out.append(turned(code, table) + turned_comment(comment, table, known))
    return "\n".join(out)


def closing(text, at):
    """The index after the brace that closes the one before at."""
    deep = 1
    while deep:
        deep += {"{": 1, "}": -1}.get(text[at], 0)
        at += 1
    return at


def turned_rust(text, table):
    out, at = [], 0
    known = set()
    spans = []
    for found in CLAUSE.finditer(text):
        if found.start() < at:
            continue
        line = text.rfind("\n", 0, found.start()) + 1
        if text[line : found.start()].lstrip().startswith("//"):
            continue
        at = found.end() if found[0].endswith(";") else closing(text, found.end())
        spans.append((found.start(), at))
        known |= set(WORD.findall(text[found.start() : at]))
    at = 0
    comment = lambda part: re.sub(r"//[^\n]*", lambda m: turned_comment(m[0], table, known), part)
    for start, end in spans:
        out += [comment(text[at:start]), turned(text[start:end], table)]
        at = end
    return "".join(out) + comment(text[at:])


def turned_text(path, text, table):
    if path.endswith(".antt"):
        return turned_lines(text, "--", table)
    if path.endswith(".rt"):
        return turned_rust(text, {old: new for old, new in table.items() if old not in TURNED})
    return "\n".join(turned(x, table) if x.startswith(("old:", "new:")) else x for x in text.split("\n"))


def meetings(paths, table):
    """The words of the files that are already spelled as a name would be."""
    new = {}
    for old, it in table.items():
        new.setdefault(it, set()).add(old)
    found = {it: olds for it, olds in new.items() if len(olds) > 1}
    for path in paths:
        if path.endswith(".edit"):
            continue
        text = read(path)
        if path.endswith(".rt"):
            text = "\n".join(m[0] for m in re.finditer(r"ghost\s+use\b[^;]*;", text))
        for line in text.splitlines():
            code = split(line, "--")[0]
            for m in WORD.finditer(code):
                behind = m.start() and code[m.start() - 1] == "." and not re.match(r"\s*(?:pub )?use|ghost", code)
                part = re.match(r"\s*(?:pub )?use [^{]*$", code[: m.start()])
                if m[0] in new and not behind and not part and m[0] not in table:
                    found.setdefault(m[0], set()).update(new[m[0]] | {path})
    return found


def main(argv):
    top = os.getcwd()
    paths = list(texts(top))
    names = declared(paths)
    names |= {it for it, old in TURNED.items() if old in names}
    table = {it: snake(it) for it in names}
    met = {it: olds for it, olds in meetings(paths, table).items() if it not in TURNED}
    for it in sorted(met):
        print(it, sorted(met[it]))
    if "--check" in argv:
        print(len(table), "names,", len(met), "of them meet another")
    if met:
        return 1
    if "--check" in argv:
        return 0
    for path in paths:
        text = read(path)
        new = turned_text(path, text, table)
        if new != text:
            with open(path, "w", encoding="utf-8") as it:
                it.write(new)
    return 0


if __name__ == "__main__":
    sys.exit(main(sys.argv[1:]))
