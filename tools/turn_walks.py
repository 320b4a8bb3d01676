#!/usr/bin/env python3
"""Turns functions' proofs that close an older kit's tie into the invariants and answers that today's kit reads.

usage: tools/turn_walks.py CRATE..
       tools/turn_walks.py --names FILE CRATE

Run at the top of the repository, after the kit's port.py and tools/snake_names.py, and for a crate once those below it are proved. It has
`rt check --generated .. --old-names` list, in crates/CRATE, what the goals and their contexts were called and are called now; --names
takes the names.json of such a run. Then each crates/CRATE/proofs/**/Proof.antt that ends in `tie.close (tie.spec ..)` makes way for

  Invariants.antt   the loops' invariants and measures, over one record l in place of the variables one by one
  Answers.antt      the goals' answers, over one context c in place of the chain c.before.before. An answer that is `search rules` alone
                    is left out: the kit finds it

What is printed is to be looked at by hand: proofs that stay as they are; goals and loops with no counterpart; goals that were paired by
their order though their names differ; helpers that were written out where they were used, or that still take a context. The files are
text that a check has yet to read: `rt check` says what else is left. The exit status is 1 where a crate's names cannot be had.
"""

import argparse
import collections
import json
import os
import re
import subprocess
import sys
import tempfile

WORD = r"[^\s(){}.;,@\"«»\[\]]+"
TOKEN = re.compile(r"\s+|[(){}.;,@\[\]]|«[^»]*»|\"[^\"]*\"|" + WORD)
# Stands before a context whose names are today's already.
DONE = "\0"
# Where a word starts that is behind no dot, and where a word or a name behind a dot ends.
START = r"(?<![\w.'\0-])"
END = r"(?![\w-])"
# What a call leaves in its arguments: once a place in nested pairs, as .new.1.1.0.
RESULT = r"\.(?P<kind>new|auto)(?P<place>(?:\.1)*)\.0" + END
# What ends a let on one line, with the space behind it.
IN = r" in ?\n? *"
# A fact of `if !x`, which once was that of x turned round by a lemma.
NEGATED = re.compile(r"\bnot-(true|false) (?:_|[\w.-]+|\([^()]*\)) (c\.if-not-[^\s(){},;]+?\.\1)" + END)
# What a wrapping operation of std ensures, which is a record today.
WRAPPING = re.compile(r"(\.wrapping_\w+[\w-]*\.ensures)(?!\.)" + END)
DEEPER = {"(": 1, "{": 1, ")": -1, "}": -1}
MODIFIERS = ("pub", "abbrev", "unfoldable", "opaque")
TIE = ".Tie as tie"

# The names that a binder has bound, the depth of brackets that it stands at, and whether it is a let whose `in` is yet to come.
Scope = collections.namedtuple("Scope", "names depth is_open")


def read(path):
    with open(path, encoding="utf-8") as it:
        return it.read()


def write(path, parts):
    """Writes the parts with an empty line between each two."""
    with open(path, "w", encoding="utf-8") as it:
        it.write("\n\n".join(parts) + "\n")


def loose(name):
    """A name without what the two kits spell differently in it."""
    return re.sub(r"[-_]|overflow|nonzero", "", name).lower()


def is_word(token):
    return re.fullmatch(WORD, token) is not None


def words(tokens):
    return list(filter(is_word, tokens))


def replaced(pattern, new, text):
    """The text with new, as it stands, in the place of each match."""
    return re.sub(pattern, lambda _: new, text)


class Substitution:
    """Puts texts for words in an expression, where the words are free and behind no dot."""

    def __init__(self, text, table):
        self.tokens = TOKEN.findall(text)
        self.table = table
        self.out = []
        self.depth = 0
        self.scopes = []

    def text(self):
        at = 0
        while at < len(self.tokens):
            at = self.token(at)
        return "".join(self.out)

    # token, copy, let, bracket, binder, function and free_word write the token at a place, or more of them, and return the next place.

    def token(self, at):
        token = self.tokens[at]
        if token == "(":
            return self.binder(at) or self.bracket(at)
        if token in ("[", "{"):
            return self.bracket(at)
        if token in (")", "]", "}"):
            self.leave()
            self.depth -= 1
            return self.copy(at, at + 1)
        if token in (";", "|"):
            self.leave()
            return self.copy(at, at + 1)
        if token == "let":
            return self.let(at)
        if token == "in":
            self.close_let()
            return self.copy(at, at + 1)
        if token == "λ":
            return self.function(at)
        if self.is_projection(at) or token not in self.table or self.is_bound(token):
            return self.copy(at, at + 1)
        return self.free_word(at)

    def copy(self, at, end):
        self.out.append("".join(self.tokens[at:end]))
        return end

    def find(self, at, wanted):
        """The place of the first of the wanted tokens, or the end."""
        while at < len(self.tokens) and self.tokens[at] not in wanted:
            at += 1
        return at

    def is_at(self, at, token):
        return at < len(self.tokens) and self.tokens[at] == token

    def is_projection(self, at):
        """Whether the word is behind a dot that no space is before."""
        return at > 0 and self.tokens[at - 1] == "." and not (at > 1 and self.tokens[at - 2].isspace())

    def is_bound(self, word):
        return any(word in it.names for it in self.scopes if not it.is_open)

    def bind(self, at, end, is_open=False):
        self.scopes.append(Scope(words(self.tokens[at:end]), self.depth, is_open))

    def leave(self):
        """Ends what was bound since the innermost bracket opened."""
        self.scopes = [it for it in self.scopes if it.depth < self.depth]

    def close_let(self):
        """From its `in` on, the innermost let binds its names, and what was bound in its value ends."""
        for i in reversed(range(len(self.scopes))):
            it = self.scopes[i]
            if it.is_open and it.depth == self.depth:
                self.scopes[i:] = [it._replace(is_open=False)]
                return

    def let(self, at):
        """Writes a let and its names."""
        end = self.find(at + 1, ("=", ":"))
        self.bind(at + 1, end, is_open=True)
        return self.copy(at, end)

    def bracket(self, at):
        self.depth += 1
        return self.copy(at, at + 1)

    def binder(self, at):
        """Writes a binder (x y : T) of a type, or returns None where the bracket opens something else."""
        colon = at + 1
        while colon < len(self.tokens) and self.tokens[colon] != ":" and (self.tokens[colon].isspace() or is_word(self.tokens[colon])):
            colon += 1
        if not self.is_at(colon, ":") or not words(self.tokens[at + 1 : colon]):
            return None
        end, depth = colon, 1
        while end < len(self.tokens) and depth:
            depth += DEEPER.get(self.tokens[end], 0)
            end += 1
        if not "".join(self.tokens[end : end + 3]).strip().startswith(("→", "×", "(")):
            return None
        self.copy(at, colon)
        free = {word: text for word, text in self.table.items() if not self.is_bound(word)}
        self.out.append(substituted("".join(self.tokens[colon:end]), free))
        self.bind(at + 1, colon)
        return end

    def function(self, at):
        """Writes a λ, its binders and its dot."""
        end, depth = at + 1, 0
        while end < len(self.tokens) and not (self.tokens[end] == "." and depth == 0):
            depth += DEEPER.get(self.tokens[end], 0)
            end += 1
        self.bind(at + 1, end)
        return self.copy(at, end + 1)

    def free_word(self, at):
        """Writes the text for a word of the table, unless it is bound here, as a pattern before ↦, or is the name of a record's field."""
        arrow = self.find(at, ("↦", "|", "]", "[", ";", "("))
        if self.is_at(arrow, "↦"):
            self.bind(at, arrow)
            return self.copy(at, arrow)
        if self.is_field(at):
            return self.copy(at, at + 1)
        self.out.append(self.table[self.tokens[at]])
        return at + 1

    def is_field(self, at):
        behind = "".join(self.tokens[at + 1 : at + 3]).strip()
        before = next((it.rstrip()[-1] for it in reversed(self.out) if it.strip()), "")
        return behind.startswith("=") and not behind.startswith("==") and self.depth != 0 and before in ("{", ";")


def substituted(text, table):
    return Substitution(text, table).text()


def without_let(text, found, meant):
    """The text without the let that was found, and with what it meant in the place of its name."""
    return text[: found.start()] + substituted(text[found.end() :], {found[1]: meant})


def without_before(text):
    return re.sub(START + r"c(\.before)+" + END, "c", text)


def without_mark(step):
    """A step's name without the _lem that tools/snake_names.py put behind the names that lemmas share with definitions."""
    return step[:-4] if step.endswith("_lem") else step


class Contexts:
    """What a function's goals are given: the steps on the way to them and their facts, once c.before.step.fact and today c.step.fact."""

    def __init__(self, entry):
        # The arguments that had numbers for names: .args.t1 and the like, and then .t1 wherever else it stands.
        self.args = [(old.replace(" ", ""), new.replace(" ", "")) for old, new in entry["args"]]
        self.args += [(old.split()[1], "." + new.split(".")[-1]) for old, new in entry["args"] if re.fullmatch(r"\.args \.t\d+", old)]
        # The facts of a match's arms, by the step that they were of and the path to them there.
        self.facts = {}
        for arm in filter(None, entry["arms"]):
            self.facts.update({(loose(old), tuple(path)): f"c.{arm[0]}.{new}" for new, old, path in arm[2] if path})
        self.steps, self.callees = {}, {}
        for _, _, (old, new), callee, _ in entry["places"]:
            if old:
                self.steps.setdefault(loose(old), new)
            if callee:
                self.callees[new] = callee
        self.params = entry["params"]
        # The contexts' types.
        self.types = {loose(place[0]): new for place, new in zip(entry["places"], entry["places_by_name"])}

    def over(self, context, text):
        """An expression over the context of this name as one over c, by today's names."""
        alias = re.compile(rf"let (\S+) = {re.escape(context)}(?:\.before)*" + IN)
        while found := alias.search(text):
            text = without_let(text, found, "c")
        if context != "c":
            text = substituted(text, {context: "c"})
        text = without_before(text)
        while found := self.arm_alias(text):
            text = without_let(text, found, "c." + found[2])
        return self.renamed(text)

    def arm_alias(self, text):
        """A let that names a step of a match's arm and by which its facts are cited, or None."""
        steps = {step for step, _ in self.facts}
        for found in re.finditer(rf"let (\S+) = c\.({WORD})" + IN, text):
            if loose(found[2]) in steps and re.search(START + re.escape(found[1]) + r"\.given", text[found.end() :]):
                return found
        return None

    def renamed(self, text):
        """An expression over c by today's names."""
        text = without_before(text)
        for old, new in self.args:
            text = replaced(re.escape(old) + END, new, text)
        text = re.sub(START + rf"c(?:\.{WORD})+", self.fact, text)
        text = re.sub(START + rf"c\.({WORD})", self.step, text)
        text = self.with_results(text).replace(DONE, "").replace(".type-inv", ".type_inv")
        return WRAPPING.sub(r"\1.value", NEGATED.sub(r"\2", text))

    def fact(self, found):
        """A fact of a match's arm, which was part of what a step was given, or what was found, where it is none."""
        _, step, *path = found[0].split(".")
        for end in range(len(path), 0, -1):
            fact = self.facts.get((loose(without_mark(step)), tuple(path[:end])))
            if fact:
                return ".".join([DONE + fact] + path[end:])
        return found[0]

    def step(self, found):
        """A step of c by its name of today."""
        step = without_mark(found[1])
        return "c." + self.steps.get(loose(step), step)

    def with_results(self, text):
        """Names the results of calls by the calls' parameters, of c.call and of what a let calls it."""
        text = re.sub(START + rf"c\.({WORD})" + RESULT, lambda found: self.result(found, "c." + found[1], found[1]), text)
        for name, call in re.findall(rf"let (\S+) = c\.({WORD}) in", text):
            text = re.sub(START + re.escape(name) + RESULT, lambda found: self.result(found, name, call), text)
        return text

    def result(self, found, step, call):
        """What a call leaves in one of its arguments, by the parameter's name."""
        params = self.params.get(self.callees.get(call), [])
        place = found["place"].count("1")
        return f"{step}.{found['kind']}.{params[place]}" if place < len(params) else found[0]


class Declaration:
    """A declaration of a proof's file, with the comments above it."""

    def __init__(self, name, line, comments):
        self.name = name
        self.lines = [line]
        self.comments = comments

    @property
    def text(self):
        return "\n".join(self.lines)

    @property
    def type(self):
        return self.lines[0].partition(" : ")[2]

    @property
    def unfoldings(self):
        return [it for it in self.lines[1:] if it.startswith("unfolding")]

    def clause(self):
        """The patterns of the one clause and what it is, or None where there is no clause."""
        left, mark, body = "\n".join(it for it in self.lines[1:] if not it.startswith("unfolding")).partition("=")
        return (left.split()[1:], body) if mark else None

    def is_answer(self):
        return self.type.startswith("tie.Need")

    def goal(self):
        """The goal that it answers, as its type has it."""
        return self.type.split()[0][len("tie.") :].replace("Need-", "")

    def goes_between_contexts(self):
        """Whether it leads from one context to another: today there is one for all."""
        said = self.text.split(f"\n{self.name} ", 1)[0]
        return re.search(r": tie\.[^→]*→ tie\.[^→\n]*$", said) or re.search(r"\(\w+ : tie\.[^→]*\) → tie\.[^→\n]*$", said)

    def over_context(self):
        """Of a helper over a context alone: the context in its type, its type, `unfolding`, the context in its clause, what it is."""
        name = re.escape(self.name)
        typed = rf"(?:abbrev )?(?:pub )?{name} :\s+\((\w+) : tie\.[^()]*\)\s*→\s*(.*?)\n"
        found = re.match(typed + rf"((?:unfolding .*\n)?){name} (\w+) =(.*)$", self.text, re.S) if "tie." in self.text else None
        return found.groups() if found and not re.match(r"[({]\w+ :", found[2]) else None


def parsed(text):
    """A file's imports, the comments above them, and its declarations."""
    uses, head, declarations, comments = [], [], [], []
    for line in filter(str.strip, text.split("\n")):
        last = declarations[-1] if declarations else None
        goes_on = line[0].isspace() or line[0] in ")]}"
        if line.startswith("use "):
            uses.append(line)
            head += comments
            comments = []
        elif line.startswith("--") or (goes_on and not last):
            comments.append(line)
        elif goes_on:
            last.lines.append(line)
        else:
            name = next(it for it in line.split() if it not in MODIFIERS)
            if last and name in ("unfolding", last.name):
                last.lines.append(line)
            else:
                declarations.append(Declaration(name, line, comments))
                comments = []
    return uses, head, declarations


class Walk:
    """A function's proof by the old names, and what names.json has for it."""

    def __init__(self, path, entry):
        self.path = path
        self.needs = entry["needs"]
        self.contexts = Contexts(entry)
        # By loop: its name today, its variables, and which of them it changes.
        self.loops = {}
        for ((old, new), variables), changed in zip(entry["loops"], entry["changed"]):
            self.loops.setdefault(loose(old), (new, variables, changed))
        self.uses, self.head, self.declarations = parsed(read(path))
        # What closes the proof, and the names that it gives to tie.spec: invariants and measures, and then the answers, in order.
        self.close = next((it for it in self.declarations if "tie.spec" in it.text), None)
        self.given = words(TOKEN.findall(re.search(r"tie\.spec\b(.*)", self.close.text, re.S)[1])) if self.close else []

    def say(self, text):
        print(f"{self.path}: {text}")

    def helpers(self):
        return [it for it in self.declarations if it is not self.close and it.name not in self.given]

    def turn(self):
        """Writes the new files."""
        self.drop_between_contexts()
        by_name = {it.name: it for it in self.declarations}
        for name in self.given:
            if name not in by_name:
                self.say(f"{name} of tie.spec is no declaration")
        given = [by_name[name] for name in self.given if name in by_name]
        goals = self.goals([it for it in given if it.is_answer()])
        invariants = [self.invariant(it) for it in given if not it.is_answer()]
        written_out = self.written_out()
        answers = [self.answer(it, goal, written_out) for it, goal in goals]
        self.write(list(filter(None, invariants)), [self.helper(it) for it in self.helpers()], list(filter(None, answers)))

    def drop_between_contexts(self):
        """Drops the helpers that lead from one context to another, and puts their arguments in the place of their calls."""
        for helper in self.helpers():
            if not helper.goes_between_contexts():
                continue
            self.declarations.remove(helper)
            self.say(f"wrote out {helper.name}")
            name = re.escape(helper.name)
            for it in self.declarations:
                text = re.sub(rf"\({name} (\S+?)\)", r"\1", it.text)
                it.lines = re.sub(START + name + r" ([^\s(){}.,;]+)", r"\1", text).split("\n")

    def goals(self, answers):
        """The answers with today's names of their goals: by their order, or by their names where there are not as many as before."""
        if len(answers) == len(self.needs):
            for it, (old, _) in zip(answers, self.needs):
                if loose(it.goal()) != loose(old):
                    self.say(f"{it.name} answered {it.goal()}, and was taken for {old}")
            return [(it, new) for it, (_, new) in zip(answers, self.needs)]
        self.say(f"{len(answers)} goals before, {len(self.needs)} now")
        goals = {loose(old): new for old, new in self.needs}
        for it in answers:
            if loose(it.goal()) not in goals:
                self.say(f"{it.name} answered {it.goal()}, which is no goal now")
        return [(it, goals[loose(it.goal())]) for it in answers if loose(it.goal()) in goals]

    def invariant(self, it):
        """An invariant or a measure over the record l of a loop's variables, or None where there is no such loop."""
        found = re.match(r"tie\.(invariant|decreases)-(\S+)", it.type)
        loop = found and self.loops.get(loose(found[2]))
        clause = it.clause()
        if not loop or not clause:
            self.say(f"no loop for {it.name} : {it.type}" if clause else f"{it.name} has no clause")
            return None
        name, variables, changed = loop
        # The variables as the loop begins, and then those that it changes as they are now.
        now = [f"l.initial.{v}" if does else f"l.{v}" for v, does in zip(variables, changed)]
        now += [f"l.{v}" for v, does in zip(variables, changed) if does]
        patterns, body = clause
        if len(patterns) != len(now):
            self.say(f"{it.name} has {len(patterns)} arguments, {len(now)} now: {' '.join(now)}")
        body = substituted(body, {pattern: text for pattern, text in zip(patterns, now) if pattern != "_"})
        name = f"{found[1]}-{name}"
        return "\n".join(it.comments + [f"abbrev pub {name} : goal.{name}"] + it.unfoldings + [f"{name} l ={body}"])

    def written_out(self):
        """Takes the helpers over a context alone from the declarations: by name, what stands for their calls with c."""
        out = {}
        for it in self.helpers():
            parts = it.over_context()
            if parts and parts[2]:
                self.say(f"{it.name} unfolds")
            elif parts:
                typed, result, _, context, body = parts
                said, meant = self.contexts.over(typed, result).strip(), self.contexts.over(context, body).strip()
                out[it.name] = f"(let it : {said} = {meant} in it)"
                self.declarations.remove(it)
        # Helpers call each other, to a depth of three.
        for _ in range(3):
            for name in out:
                for other in filter(lambda it: it != name, out):
                    out[name] = replaced(START + r"\(?" + re.escape(other) + r" c\b\)?", out[other], out[name])
        if out:
            self.say(f"wrote out {' '.join(out)}")
        return out

    def answer(self, it, goal, written_out):
        """The answer to a goal, or None where the kit finds it."""
        clause = it.clause()
        if not clause:
            self.say(f"{it.name} has no clause")
            return None
        patterns, body = [pattern for pattern in clause[0] if pattern != "κs"], clause[1]
        if body.strip() in ("search rules", "search needs") and not it.unfoldings:
            return None
        body = self.contexts.over(patterns[-1] if patterns else "c", body)
        for name, text in written_out.items():
            body = replaced(rf"\({re.escape(name)} c\)", text, body)
            body = replaced(START + re.escape(name) + r" c(?![\w.'-])", text, body)
        body = body.rstrip()
        space = "" if body.startswith(("\n", " ")) else " "
        left = " ".join([goal] + patterns[:-1] + ["c"])
        return "\n".join(it.comments + [f"pub {goal} : goal.{goal}"] + it.unfoldings + [f"{left} ={space}{body}"])

    def helper(self, it):
        text = "\n".join(it.comments + it.lines)
        if "tie." not in text:
            return text
        self.say(f"the helper {it.name} takes a context")
        types = self.contexts.types
        return self.contexts.renamed(re.sub(r"\btie\.([\w-]+)", lambda m: "goal." + types.get(loose(m[1]), m[1]), text))

    def write(self, invariants, helpers, answers):
        folder = os.path.dirname(self.path)
        module = next(it for it in self.uses if it.endswith(TIE))[len("use ") : -len(TIE)]
        uses = [it for it in self.uses if not it.endswith(TIE[1:]) and ".Statement." not in it]
        if invariants:
            top = "\n".join(self.head + uses + [f"use {module}.Given as goal"])
            write(os.path.join(folder, "Invariants.antt"), [top] + self.shared(invariants) + invariants)
        if answers:
            top = "\n".join(([] if invariants else self.head) + uses + [f"use {module}.Goals as goal"])
            write(os.path.join(folder, "Answers.antt"), [top] + helpers + answers)

    def shared(self, invariants):
        """The helpers that the invariants use."""
        text = "\n\n".join(invariants)
        used = [it for it in self.helpers() if re.search(START + re.escape(it.name) + END, text)]
        if used:
            self.say(f"the invariants use {' '.join(it.name for it in used)}")
        return ["\n".join(it.comments + [("" if it.text.startswith("pub") else "pub ") + it.text]) for it in used]


def names_of(crate):
    """The old and new names of the crate, or None where rt does not list them."""
    with tempfile.TemporaryDirectory() as temporary:
        folder = os.path.join(temporary, "generated")
        command = ["rt", "check", "--generated", folder, "--old-names"]
        run = subprocess.run(command, cwd=crate, stdout=subprocess.PIPE, stderr=subprocess.STDOUT, encoding="utf-8")
        listed = os.path.join(folder, "names.json")
        if not os.path.isfile(listed):
            print(f"{run.stdout}{crate}: {' '.join(command)} listed no names", file=sys.stderr)
            return None
        return json.loads(read(listed))


def turn_proof(path, entry):
    """Turns a proof by what names.json has for its function, and returns whether it could."""
    walk = entry and Walk(path, entry)
    if not walk or not walk.close:
        print(f"{path}: stays, with no {'tie.spec' if walk else 'names listed for it'}")
        return False
    walk.turn()
    os.remove(path)
    return True


def turn_crate(crate, names):
    """Turns the crate's proofs, and returns how many it turned."""
    turned = 0
    proofs = os.path.join(crate, "proofs")
    for folder, folders, files in os.walk(proofs):
        folders.sort()
        if "Proof.antt" not in files:
            continue
        path = os.path.join(folder, "Proof.antt")
        module = os.path.relpath(folder, proofs).replace(os.sep, ".")
        try:
            turned += turn_proof(path, names.get(f"Rattle-{os.path.basename(crate)}-proofs.{module}.Lts"))
        except Exception:
            print(f"{path}: failed", file=sys.stderr)
            raise
    return turned


def main():
    layout = argparse.RawDescriptionHelpFormatter
    parser = argparse.ArgumentParser(description=__doc__, usage=argparse.SUPPRESS, formatter_class=layout)
    parser.add_argument("crates", metavar="CRATE", nargs="+")
    parser.add_argument("--names", metavar="FILE")
    given = parser.parse_args()
    if given.names and len(given.crates) > 1:
        parser.error("--names is for one crate")
    status = 0
    for name in given.crates:
        crate = os.path.normpath(os.path.join("crates", name))
        if not os.path.isdir(crate):
            parser.error(f"no folder {crate} here: run it at the top of the repository")
        names = json.loads(read(given.names)) if given.names else names_of(crate)
        if names is None:
            status = 1
        else:
            print(f"{name}: {turn_crate(crate, names)} turned")
    return status


if __name__ == "__main__":
    sys.exit(main())
