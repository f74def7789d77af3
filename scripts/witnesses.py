"""Runs the witnesses of wrong bodies: scripts that a program answers otherwise with the body in it. One program without any proof has all the
bodies beside the right ones, and its environment says by a number which of them is carried out: it is built once, and not once for each body."""
import contextlib
import functools
import glob
import importlib.machinery
import importlib.util
import os
import re
import shutil
import subprocess
import tempfile
import threading
from collections import namedtuple
from pathlib import Path

from kit import PROGRAM, ROOT

# Comments, and texts and characters in quotes: in these no brace counts.
QUOTED = re.compile(r"//[^\n]*|b?'(?:\\.|[^'\\])'|\"(?:\\.|[^\"\\])*\"", re.DOTALL)
CLAUSE = re.compile(r"\b(?:requires|ensures)\b[^{}]*$")
FUNCTION = re.compile(r"(?:pub(?:\([^)]*\))? )?(?:(?:const|unsafe) )*\bfn (\w+)")
# A script that is not answered within so many seconds has no answer.
SECONDS = 60
# Asks of a body's number whether that body is carried out.
ASKS = 'unsafe extern "C" { safe fn oe_turned(number: u32) -> bool; }\n'
TELLS = """char *getenv(const char *);
int atoi(const char *);
_Bool oe_turned(unsigned number)
{
    static int turned = -1;
    if (turned < 0) {
        const char *told = getenv("OE_TURNED");
        turned = told ? atoi(told) : 0;
    }
    return turned == (int)number;
}
"""

# A function of a source: its name, where it begins, where its body does, and where that ends.
Function = namedtuple("Function", "name start body end")
# What a body makes of a source: for each function that it turns the new body, by where the function begins; and functions of its own, each with the
# place where it goes.
Turn = namedtuple("Turn", "bodies own")
# What a program prints, what it says on standard error, and its status, which is None if it had no end.
Answers = namedtuple("Answers", "printed told status")


def closing(text, start):
    """Returns the place after the brace that closes the one at `start`."""
    depth = 0
    for found in re.compile(r"[{}]").finditer(text, start):
        depth += 1 if found[0] == "{" else -1
        if not depth:
            return found.end()
    return len(text)


def end_of_head(text, start):
    """Returns where the head of a function ends that begins at `start`, its clauses among it: at its body's brace, or after a semicolon."""
    at, since, brackets = start, start, 0
    while at < len(text):
        if text[at] == "{":
            if not CLAUSE.search(text, since, at):
                return at
            at = since = closing(text, at)
            continue
        brackets += (text[at] in "[(") - (text[at] in "])")
        if text[at] == ";" and not brackets:
            return at + 1
        at += 1
    return at


@functools.lru_cache(16)
def plain(text):
    """Returns a source with blanks for its comments, and for what stands in quotes."""
    return QUOTED.sub(lambda found: re.sub(r"[^\n]", " ", found[0]), text)


@functools.lru_cache(16)
def functions_of(text):
    """Returns the functions of a source that have bodies, but for those within bodies."""
    found, at, text = [], 0, plain(text)
    for it in FUNCTION.finditer(text):
        if it.start() < at:
            continue
        body = end_of_head(text, it.start())
        at = closing(text, body) if text[body : body + 1] == "{" else body
        if at > body:
            found.append(Function(it[1], it.start(), body, at))
    return found


def head_of(text, function):
    """Returns a function's head without blanks."""
    return "".join(plain(text)[function.start : function.body].split())


def between(text, functions):
    """Returns what a source has between its functions, without blanks and without their attributes."""
    starts, ends = [*(it.start for it in functions), len(text)], [0, *(it.end for it in functions)]
    gaps = [re.sub(r"(?:#\[[^\]]*\]\s*)+$", "", plain(text)[end:start]) for end, start in zip(ends, starts)]
    return "".join("".join(gaps).split())


def is_of_tests(text, function):
    """Tells whether tests alone have a function, so that no program has it. (An edit makes it of a right body whose place a wrong one takes.)"""
    return bool(re.search(r"#\[cfg\(test\)\]\s*(?:#\[[^\]]*\]\s*)*$", plain(text)[: function.start]))


def turn_of(old, new, number):
    """Returns what the body of a number makes of a source; None if it changes more than bodies, or a function that can be called for a constant."""
    before, after, kept, own = [it for it in functions_of(old) if not is_of_tests(old, it)], functions_of(new), [], []
    for it in after:
        is_kept = len(kept) < len(before) and not is_of_tests(new, it) and head_of(new, it) == head_of(old, before[len(kept)])
        (kept if is_kept else own).append(it)
    if len(kept) < len(before) or between(old, functions_of(old)) != between(new, after):
        return None
    named = lambda it, start: renamed(new[start : it.end], [other.name for other in own if not is_of_tests(new, other)], number)
    turned = [place for place, (was, it) in enumerate(zip(before, kept)) if old[was.body : was.end] != new[it.body : it.end]]
    if any(re.search(r"\bconst fn\b", old[before[it].start : before[it].body]) for it in turned):
        return None
    added = [(place_of(old, before, new, kept, it), named(it, it.start)) for it in own if not is_of_tests(new, it)]
    return Turn({before[it].start: named(kept[it], kept[it].body) for it in turned}, added)


def place_of(old, before, new, kept, function):
    """Returns where in the old source a function goes that a body adds: at the end, or within the block in which the body has it."""
    text = plain(new)[: function.start]
    if text.count("{") == text.count("}"):
        return len(old)
    count = sum(it.start < function.start for it in kept)
    place, since = (before[count - 1].end, kept[count - 1].end) if count else (0, 0)
    for _ in range(text.count("{", since)):
        place = plain(old).index("{", place) + 1
    return place


def renamed(text, names, number):
    """Returns a text in which calls of these functions have the number behind their names."""
    for name in names:
        text = re.sub(rf"\b{name}\b(?=\s*(?:\(|::<|<))", f"{name}_{number}", text)
    return text


def with_turns(text, turns):
    """Returns a source with all these turns, each by its body's number, beside what it has."""
    changes = []
    for it in functions_of(text):
        bodies = [(number, turn.bodies[it.start]) for number, turn in turns.items() if it.start in turn.bodies]
        if bodies:
            asked = "".join(f"if crate::oe_turned({number}) {body} else " for number, body in bodies)
            changes.append((it.body, it.end, f"{{\n{asked}{text[it.body:it.end]}\n}}"))
    changes += [(place, place, f"\n// of body {number}\n{own}\n") for number, turn in turns.items() for place, own in turn.own]
    for start, end, new in sorted(changes, reverse=True):
        text = text[:start] + new + text[end:]
    return text


def source(path):
    """Returns the right text of a source."""
    return Path(ROOT, path).read_text(encoding="utf-8")


class Programs:
    """The programs of a kind, which is `scripts` or `whole`, that run the witnesses of some bodies, each given with its crate and the texts that it
    makes of it. One has the right sources with all bodies beside; a body that can't stand so, as it changes more than functions, has its own."""

    def __init__(self, rt, room, kind, tasks):
        self.rt, self.room, self.kind, self.lock = rt, room, kind, threading.Lock()
        self.tasks, self.turns, self.shared, self.alone = dict(enumerate(tasks, 1)), {}, None, {}
        loader = importlib.machinery.SourceFileLoader("build_unproved", f"{ROOT}/scripts/build-unproved")
        self.maker = importlib.util.module_from_spec(importlib.util.spec_from_loader("build_unproved", loader))
        loader.exec_module(self.maker)

    def right(self):
        """Returns the right program, whose environment turns no body."""
        with self.lock:
            self.shared = self.shared or self.built_shared()
        return self.shared

    def of(self, body):
        """Returns a program that has this body in it, and the number by which it is turned there; 0 if it has no other."""
        number = next(number for number, (_, it, _) in self.tasks.items() if it is body)
        shared = self.right()
        if any(number in turns for turns in self.turns.values()):
            return shared, number
        with self.lock:
            if number not in self.alone:
                crate, _, texts = self.tasks[number]
                self.alone[number] = self.built({f"crates/{crate.name}/{path}": text for path, text in texts.items()})
        return self.alone[number], 0

    def built_shared(self):
        """Returns a program with the bodies of all tasks beside the right ones, but for those that the front end refuses there."""
        for number, (crate, body, texts) in self.tasks.items():
            made = {it: turn_of(source(f"crates/{crate.name}/{it}"), texts[it], number) for it in {path for path, _, _ in body.pairs}}
            for path, turn in made.items() if None not in made.values() else ():
                self.turns.setdefault(f"crates/{crate.name}/{path}", {})[number] = turn
        while True:
            texts = {path: with_turns(source(path), turns) for path, turns in self.turns.items()}
            for name in {it.split("/")[1] for it in texts}:
                top = f"crates/{name}/src/lib.rt"
                texts[top] = texts.get(top, source(top)) + ASKS
            try:
                return self.built(texts)
            except OSError as error:
                number = blamed(str(error), texts)
                if number is None:
                    raise
                self.turns = {path: {it: turn for it, turn in turns.items() if it != number} for path, turns in self.turns.items()}

    def named(self, line):
        """Returns the libraries that bodies name of the crate of a line of crates.txt, and which that line lacks."""
        own = [(crate, body) for crate, body, _ in self.tasks.values() if crate.name == re.match(r"\w*", line)[0]]
        words = {word for _, body in own for _, _, new in body.pairs for word in re.findall(r"\b(\w+)::", new)}
        return "".join(f" {it.name}" for crate, _ in own[:1] for it in crate.below() if it.name in words.difference(line.split()))

    def built(self, texts):
        """Returns a program of the right sources but for these texts."""
        root, room = tempfile.mkdtemp(dir=self.room), tempfile.mkdtemp(dir=self.room)
        os.mkdir(f"{root}/.git")
        shutil.copy(f"{ROOT}/HANDLES", root)
        Path(root, "crates.txt").write_text("".join(f"{it}{self.named(it)}\n" for it in source("crates.txt").split("\n")), encoding="utf-8")
        for path in glob.glob(f"{ROOT}/crates/*/s[rp]*/"):
            shutil.copytree(path, f"{root}/{os.path.relpath(path, ROOT)}")
        for path, text in texts.items():
            with open(f"{root}/{path}", "w", encoding="utf-8") as file:
                file.write(text)
        with open(f"{room}/turned.c", "w", encoding="utf-8") as file:
            file.write(TELLS)
        subprocess.run([f"{self.rt.KIT}/toolchain/bin/clang", "-fPIC", "-c", f"{room}/turned.c", "-o", f"{room}/turned.o"], check=True)
        made, said = self.maker, []
        made.say = said.append
        made.archives = lambda kit: [f"{kit}/c/libos_c.a", f"{kit}/c/liblibc_c.a", f"{room}/turned.o"]
        try:
            crates = self.rt.rtlib.crates_below(root)
            crate = made.script_alone(crates, room) if self.kind == "scripts" else next(it for it in crates if it.name == PROGRAM)
            return made.build(self.rt, crate, room, 0)
        except SystemExit:
            raise OSError(" ".join(said)) from None


def blamed(said, texts):
    """Returns the number of the body at which the front end found an error; None if it is none's."""
    for name, path, line in re.findall(r"(?:crates|\.\.)/(\w+)/(src/\S+?\.rt):(\d+):\d+: error", said):
        before = "\n".join(texts.get(f"crates/{name}/{path}", "").split("\n")[: int(line)])
        numbers = re.findall(r"crate::oe_turned\((\d+)\)|// of body (\d+)$", before, re.MULTILINE)
        if numbers:
            return int("".join(numbers[-1]))
    return None


def answers_of(program, number, words, io, given):
    """Returns what a program answers to a command with the body of this number in it, if this is what it is given to read."""
    with contextlib.ExitStack() as stack:
        # (of a file each read gives as much as is asked for, which a pipe does not)
        reader = os.open("/", os.O_RDONLY) if io == "< / " else stack.enter_context(tempfile.TemporaryFile())
        writer = stack.enter_context(open("/dev/full", "wb")) if io == "> /dev/full " else subprocess.PIPE
        if io == "< / ":
            stack.callback(os.close, reader)
        else:
            reader.write(given.encode())
            reader.seek(0)
        how = {"stdin": reader, "stdout": writer, "stderr": subprocess.PIPE, "timeout": SECONDS, "env": {**os.environ, "OE_TURNED": str(number)}}
        try:
            ran = subprocess.run([program, *words.split()], cwd=ROOT, check=False, **how)
        except subprocess.TimeoutExpired:
            return Answers("", "", None)
    return Answers((ran.stdout or b"").decode(errors="replace"), ran.stderr.decode(errors="replace"), ran.returncode)
