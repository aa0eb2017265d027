"""Wrong bodies that are tried together. A folder of tests, or a program, is compiled once with all of them in it, each behind its number;
and each runs in a copy of that program in which its number is written. So a body costs a run, not a compilation.

In a function with wrong bodies, `match` chooses among these and the right one. What such a function would ask is a constant of its
crate, which is made a variable before the program is optimized: else only the right body would be left."""
import itertools
import os
import re
import struct
import subprocess
import tempfile
import threading
import time

import copies
import form
import unproved

# What the variable begins with, and so can be found by in the program.
MARK = (0x5A17C0DE, 0x0BADF00D, 0x7E57AB1E)
MARKED = struct.pack("<3I", *MARK)
MODULE = "wrong_bodies"
SOURCE = f"""// Which wrong body is at work; 0 for the right ones.

static CHOSEN: [u32; 4] = [{', '.join(map(str, MARK))}, 0];

pub(crate) fn chosen() -> u32 {{
    CHOSEN[3]
}}
"""
# A test has so many seconds, or so often what it takes with the right body.
SECONDS, TIMES = 60, 20


def opening(text, function):
    """Where the body of a function begins in its file, behind the brace; None where it can't be told or must be known as it is compiled."""
    lines, starts = text.split("\n"), form.starts_of(text)
    head = next(row for row in range(function.first - 1, function.last) if form.FN.match(lines[row]))
    if re.match(r"\s*(?:pub(?:\([^)]*\))? )?const ", lines[head]):
        return None
    indent = lines[head][: len(lines[head]) - len(lines[head].lstrip())]
    for row in range(head, function.last):
        if lines[row] == indent + "{" or row == head and lines[row].endswith(("{", "}")):
            return starts[row] + lines[row].index("{") + 1
    # (a head of several lines without clauses)
    for row in range(head, function.last):
        if lines[row].startswith(indent + ")") and lines[row].endswith(" {"):
            return starts[row] + len(lines[row])
    return None


class Bodies:
    """Functions with their wrong bodies, and those of the bodies that can't be tried with others."""

    def __init__(self, crates, bodies):
        self.crates, self.alone, self.numbers = crates, [], {}
        # By the function: where its body begins and ends, and what each number puts in its stead.
        self.inner = {}
        for number, body in enumerate(bodies, 1):
            if self.add(number, body):
                self.numbers[body.name] = number
            else:
                self.alone.append(body)

    def add(self, number, body):
        """Whether the body is one of functions alone."""
        spots, why = body.spots(self.crates)
        if why:
            return False
        found = {}
        for spot in spots:
            place = self.place_of(spot)
            if place is None:
                return False
            found.setdefault(place, []).append(spot)
        for (crate, file, start, end), spots in found.items():
            text = self.crates.of(crate)[file]
            made = text[start:end]
            for it in sorted(spots, key=lambda it: -it.start):
                made = made[: it.start - start] + it.text + made[it.end - start :]
            self.inner.setdefault((crate, file, start, end), {})[number] = made
        return True

    def place_of(self, spot):
        """The body that a spot is in; None where it is in none, or in one that has another in it."""
        if spot.function is None:
            return None
        text = self.crates.of(spot.crate)[spot.file]
        start, end = opening(text, spot.function), text.rindex("}", 0, spot.function.span(text)[1])
        if start is None or not start <= spot.start <= spot.end <= end:
            return None
        place = spot.crate, spot.file, start, end
        others = [it for it in self.inner if it[:2] == place[:2] and it != place and it[2] < end and start < it[3]]
        return None if others else place

    def texts(self):
        """The files with all bodies in them."""
        made = {}
        for crate, file, start, end in sorted(self.inner, key=lambda it: -it[2]):
            text = made.get((crate, file), self.crates.of(crate)[file])
            arms = "".join(f"{number} => {{\n{it}\n}}\n" for number, it in self.inner[crate, file, start, end].items())
            chosen = f"\nmatch crate::{MODULE}::chosen() {{\n{arms}_ => {{\n{text[start:end]}\n}}\n}}\n"
            made[crate, file] = text[:start] + chosen + text[end:]
        for crate in {it[0] for it in self.inner}:
            root = next(file for file in ("src/lib.rt", "src/main.rt") if file in self.crates.of(crate))
            made[crate, root] = made.get((crate, root), self.crates.of(crate)[root]) + f"\nmod {MODULE};\n"
            made[crate, f"src/{MODULE}.rt"] = SOURCE
        return made


def as_variables(text):
    """The module for LLVM in which what is chosen may be another than is written there."""
    marked = "".join(f"\\\\{it:02X}" if not 32 <= it < 127 or it in b'\\"' else re.escape(chr(it)) for it in MARKED)
    return re.sub(rf'^(@static\.\d+) = private unnamed_addr constant (\[16 x i8\] c"{marked})', r"\1 = global \2", text, flags=re.M)


def compile_together(copy, name, path, kept, *flags):
    """The program of a folder with all bodies in it, or with `--test` of its tests; what is said where there is none."""
    with tempfile.TemporaryDirectory(prefix="half-", dir=kept) as folder, unproved.Group() as group:
        try:
            module, text, code = (os.path.join(folder, it) for it in (unproved.MODULE, "module.ll", "program.o"))
            unproved.catch_module(group, copy.crate(name), folder, module, *flags)
            clang = f"{unproved.kit()}/toolchain/bin/clang"
            group.run([clang, f"--target={unproved.TARGET}", "-x", "ir", module, "-S", "-emit-llvm", "-O0", "-Xclang", "-disable-llvm-passes", "-o", text], folder)
            with open(text, encoding="utf-8") as file:
                made = as_variables(file.read())
            copies.write(text, made)
            group.run([clang, *unproved.CLANG, text, "-o", code], folder)
            unproved.link(group, code, path, folder)
        except unproved.Failed as why:
            return str(why)
    return None


class Program:
    """A program with all bodies in it."""

    # A file that is open to be written in a child that was just forked can't be run.
    lock = threading.Lock()

    def __init__(self, path):
        self.path, self.count = path, itertools.count()
        with open(path, "rb") as file:
            self.code = file.read()
        self.places = [it.end() for it in re.finditer(re.escape(MARKED), self.code)]
        # What each test takes with the right bodies.
        self.seconds = {}

    def copy_with(self, number):
        """A copy in which this body is at work."""
        path, code = f"{self.path}.{next(self.count)}", bytearray(self.code)
        for place in self.places:
            code[place : place + 4] = struct.pack("<I", number)
        with open(path, "wb") as file:
            file.write(code)
        os.chmod(path, 0o755)
        return path

    def begin(self, number, test):
        """Runs a test with this body."""
        with self.lock:
            path = self.copy_with(number)
            how = {"stdin": subprocess.DEVNULL, "stdout": subprocess.DEVNULL, "stderr": subprocess.DEVNULL}
            return path, subprocess.Popen([path, test], **how)

    def run(self, number, test):
        """What became of a test: passed, failed, did not end, or stopped at a fault; and the seconds."""
        begun, limit = time.monotonic(), max(SECONDS, TIMES * self.seconds.get(test, 0))
        path, process = self.begin(number, test)
        try:
            status = process.wait(limit)
        except subprocess.TimeoutExpired:
            return "did not end", limit
        finally:
            process.kill()
            process.wait()
            os.unlink(path)
        return "passed" if status == 0 else "stopped at a fault" if status < 0 else "failed", time.monotonic() - begun
