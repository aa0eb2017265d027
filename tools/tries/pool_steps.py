"""The script `pool-steps`."""
import glob
import os
import re
import select
import subprocess
import tempfile
import time

import stand_in
from tally import TOP, Tally

TALLY = Tally("pool-steps")
check = TALLY.check
SCRIPT = os.path.join(TOP, "pool-steps")
PROGRAM = os.path.join(TOP, "crates", "pool_steps", "out", "pool_steps")
# The newest section of the changelog has a version, and says after a comma when it was released.
with open(os.path.join(TOP, "CHANGELOG.md"), encoding="utf-8") as changes:
    NEWEST = re.search(r"^## (\d+\.\d+\.\d+\S*), ", changes.read(), re.M)[1]
LIMITS = "limits 1 - - - 30000 30000\n"
# The first words and fields of the lines, as `pool-steps` says them.
FORMS = ["limits MAX MIN LIFE IDLE TIMEOUT RATE [ORDER]", "take T", "want T", "begin T", "number K", "admit T ID V", "fail T K [TEXT]",
         "return T ID V", "broken T ID V", "bad T ID [TEXT]", "reap T", "error", "close", "state"]


def run(words, given=b""):
    """Status, output and errors of a run on a pipe."""
    done = subprocess.run([SCRIPT] + words, input=given, stdout=subprocess.PIPE, stderr=subprocess.PIPE, timeout=60)
    return done.returncode, done.stdout.decode(), done.stderr.decode()


def runs(what, words, given, status, output, *errors):
    """Holds a run against what is wanted: its status, all of its output, and the lines on standard error."""
    seen = run(words, given if isinstance(given, bytes) else given.encode())
    wanted = (status, output, "".join(line + "\n" for line in errors))
    check(what, seen == wanted, seen)


def try_words():
    status, output, errors = run(["--help"])
    lines = [line.strip() for line in output.splitlines()]
    absent = [form for form in FORMS if not any(line.startswith(form + " ") for line in lines)]
    check("--help names each line", (status, errors, absent) == (0, "", []), (status, errors, absent))
    # Each line has its example beside it: played in a row, none of them is at fault.
    steps = [next(line for line in lines if line.startswith(form + " "))[len(form):].strip() for form in FORMS]
    examples = "".join(step.split("  ")[0] + "\n" for step in steps)
    status, output, errors = run([], examples.encode())
    check("the examples of --help are steps", (status, errors, len(output.splitlines())) == (0, "", 13), (examples, errors))
    status, output, errors = run(["--version"])
    lines = output.splitlines()
    check("--version", status == 0 and len(lines) == 3 and lines[0] == f"pool-steps {NEWEST}, by the rules of r2d2 0.8.10", output)
    runs("an unknown word", ["--fast"], "", 5, "", "pool-steps: usage: pool-steps [FILE]; --help says more")
    runs("two files", ["a", "b"], "", 5, "", "pool-steps: usage: pool-steps [FILE]; --help says more")
    runs("a file that is missing", ["/nowhere/at.all"], "", 3, "", "pool-steps: read failed: /nowhere/at.all: No such file or directory")


def try_lines():
    for line in [b"tkae 5", b" take 5", b"take \xff"]:
        runs(f"the line {line!r}", [], LIMITS.encode() + b"state\n" + line + b"\nstate\n", 1, "state 0 0 1\n", "line 3: not a step")
    runs("a text with spaces", [], LIMITS + "begin 0\nfail 5 0  a  b \nerror\n", 0, "open 0\nretry 405\nerror  a  b \n")
    runs("no line at all", [], "", 1, "", "line 1: not a step")
    runs("another first line", [], "take 5\n", 1, "", "line 1: not a step")
    crlf = "not a step: it ends in a carriage return, as lines of Windows do"
    runs("a line of Windows", [], LIMITS + "# one\nstate\ntake 5\r\nstate\n", 1, "state 0 0 1\n", f"line 4: {crlf}")
    runs("a script of Windows", [], LIMITS.replace("\n", "\r\n") + "state\r\n", 1, "", f"line 1: {crlf}")
    runs("a text that ends so", [], LIMITS + "begin 0\nfail 5 0 a\r\nbegin 5 \n", 1, "open 0\nretry 405\n", "line 4: not a step")
    for fields, why in [("2 3 - - 3 3", "MIN is above MAX"), ("0 - - - 3 3", "MAX is 0"), ("1 0 0 - 3 3", "LIFE is 0"), ("1 - - 0 3 3", "IDLE is 0"),
                        ("1 - - - 0 3", "TIMEOUT is 0"), ("1 - 1 1 1 0", "RATE is 0"), ("1 2 - - 3 3 oldest", "MIN is above MAX")]:
        runs(f"limits {fields}", [], f"limits {fields}\nstate\n", 1, "", f"line 1: limits refused: {why}")
    runs("a size that no memory holds", [], "limits 4294967295 - - - 3 3\n", 2, "",
         "out of memory: the first line takes all memory for MAX, 4294967295, connections")


def try_files(folder):
    def file(text):
        path = os.path.join(folder, "a.steps")
        with open(path, "wb") as out:
            out.write(text.encode())
        return path

    steps = f"# a pool for one\n\n{LIMITS}# what is there\nstate\n\nstate\n"
    wrong = steps + "# wrong:\ntake  5\nstate\n"
    runs("a file with comments", [file(steps)], "", 0, "state 0 0 1\nstate 0 0 1\n")
    runs("a fault behind comments", [file(wrong)], "", 1, "state 0 0 1\nstate 0 0 1\n", "line 9: not a step")
    runs("the same on standard input", [], wrong, 1, "state 0 0 1\nstate 0 0 1\n", "line 9: not a step")
    runs("a last line without its feed", [file("# one\n" + LIMITS + "state\ntake x")], "", 1, "state 0 0 1\n", "line 4: not a step")
    runs("limits behind comments", [file("\n# none\nlimits 0 - - - 1 1\n")], "", 1, "", "line 3: limits refused: MAX is 0")
    runs("comments alone", [file("# one\n\n")], "", 1, "", "line 3: not a step")
    runs("a text that begins like a comment", [file(LIMITS + "begin 0\nfail 5 0 # why\nerror\n")], "", 0,
         "open 0\nretry 405\nerror # why\n")
    runs("a space is no empty line", [file(LIMITS + " \nstate\n")], "", 1, "", "line 2: not a step")
    with open(file("ignored\n" + LIMITS + "state\ntake\n"), "rb") as given:
        # Whoever redirects may have read the beginning.
        os.lseek(given.fileno(), len("ignored\n"), os.SEEK_SET)
        done = subprocess.run([SCRIPT], stdin=given, stdout=subprocess.PIPE, stderr=subprocess.PIPE, timeout=60)
    seen = (done.returncode, done.stdout, done.stderr)
    check("a file that is redirected", seen == (1, b"state 0 0 1\n", b"line 3: not a step\n"), seen)
    for path in sorted(glob.glob(os.path.join(TOP, "scripts", "*.steps"))):
        with open(path[: -len("steps")] + "answers", encoding="utf-8") as answers:
            runs(os.path.basename(path), [path], "", 0, answers.read())


def try_streams():
    # A fault that is followed by more than a pipe holds.
    many = 700_000
    given = LIMITS + "state\n" * many + "stat\n" + "state\n" * many
    runs("a long stream", [], given, 1, "state 0 0 1\n" * many, f"line {many + 2}: not a step")
    runs("a long line of a stream", [], LIMITS + "state\ntake 5 " + "x" * 100_000_000 + "\n", 1, "state 0 0 1\n", "line 3: not a step")
    talk = subprocess.Popen([SCRIPT], stdin=subprocess.PIPE, stdout=subprocess.PIPE, stderr=subprocess.PIPE, bufsize=0)
    talk.stdin.write((LIMITS + "state\n").encode())
    first = talk.stdout.readline() if select.select([talk.stdout], [], [], 60)[0] else b""
    talk.stdin.write(b"begin 0\ntake")
    second = talk.stdout.readline() if select.select([talk.stdout], [], [], 60)[0] else b""
    # The input stays open: the fault alone ends the script.
    talk.stdin.write(b"\n")
    try:
        seen = (first, second, talk.wait(timeout=60))
    except subprocess.TimeoutExpired:
        talk.kill()
        seen = (first, second, None)
    check("a talk", seen == (b"state 0 0 1\n", b"open 0\n", 1), seen)
    with open("/dev/full", "wb") as full:
        done = subprocess.run([SCRIPT], input=(LIMITS + "state\n").encode(), stdout=full, stderr=subprocess.PIPE, timeout=60)
    check("a full disk", (done.returncode, done.stderr) == (3, b"write failed\n"), (done.returncode, done.stderr))
    folder = os.open(TOP, os.O_RDONLY)
    done = subprocess.run([SCRIPT], stdin=folder, stdout=subprocess.PIPE, stderr=subprocess.PIPE, timeout=60)
    os.close(folder)
    check("a folder is no input", (done.returncode, done.stdout, done.stderr) == (3, b"", b"read failed\n"), done)
    done = subprocess.run(f"{SCRIPT} <&-", shell=True, stdout=subprocess.PIPE, stderr=subprocess.PIPE, timeout=60)
    check("closed input", (done.returncode, done.stdout, done.stderr) == (3, b"", b"read failed\n"), done)
    with open("/dev/null", "rb") as nothing:
        done = subprocess.run([SCRIPT], stdin=nothing, stdout=subprocess.PIPE, stderr=subprocess.PIPE, timeout=60)
    check("/dev/null", done.returncode == 1 and done.stderr.startswith(b"line 1: not a step\n"), done.stderr)


def try_the_program():
    """The program plays its input whatever its arguments."""
    def holds(what, words, given, *wanted):
        done = subprocess.run([PROGRAM, *words], input=given.encode(), stdout=subprocess.PIPE, stderr=subprocess.PIPE, timeout=60)
        seen = (done.returncode, done.stdout.decode(), done.stderr.decode())
        check(f"the program {what}", seen == wanted, seen)

    for words in [[], ["--help"], ["-"], [""], ["/nowhere/at.all"], ["take 5", "--", "x"], [b"\xff"]]:
        holds(f"with the arguments {words}", words, LIMITS + "state\n", 0, "state 0 0 1\n", "")
        holds(f"with the arguments {words} at a fault", words, LIMITS + "jump\n", 1, "", "line 2: not a step\n")


def try_a_build(folder):
    """The build, with a stand-in for the toolchain in a copy of the repository."""
    copy = stand_in.Copy(folder, "pool-steps", "pool_steps")

    def holds(what, words, status, output, *errors):
        told = "".join(line if line.endswith("\n") else f"pool-steps: {line}\n" for line in errors)
        seen = copy.run(*words, given=(LIMITS + "state\n").encode())
        check(what, seen == (status, output, told), seen)

    log = "crates/pool_steps/out/build.log"
    progress = f"proving and building; {log} shows how far it is"
    first, later = stand_in.first("pool-steps"), stand_in.later("pool-steps")
    toolchain = os.path.join(folder, "kit", "bin", "rt")
    os.rename(toolchain, toolchain + ".gone")
    holds("no rt", ["--build"], 4, "", progress, "not built: rt is missing")
    holds("no rt for an answer", [], 4, "", first, "not built: rt is missing")
    os.rename(toolchain + ".gone", toolchain)
    copy.write("fails", "no proof\n")
    holds("a build that fails", ["--build"], 4, "", progress, f"not built: {log} says why")
    with open(os.path.join(folder, log), encoding="utf-8") as told:
        check("the log of a build", told.read().endswith("\nno proof\n"), log)
    holds("a source that is refused", [], 4, "", first, "not built: no proof")
    os.unlink(os.path.join(folder, "fails"))
    copy.write("clang-fails", "no code\n")
    holds("a module that is refused", [], 4, "", first, "not built: no code")
    check("nothing is kept of these", copy.kept() == [], copy.kept())
    os.unlink(os.path.join(folder, "clang-fails"))
    copy.program("cat > /dev/null; echo state 0 0 1; echo 'line 2: not a step' >&2; exit 1")
    holds("a first answer", [], 1, "state 0 0 1\n", first, "line 2: not a step\n")
    tries = copy.tries()
    holds("a second answer", [], 1, "state 0 0 1\n", later, "line 2: not a step\n")
    check("it runs what the first one made", copy.tries() == tries and len(copy.kept()) == 1, (copy.tries(), copy.kept()))
    # It reads a script of its own, and not what the build's caller was given.
    copy.write("kit/bin/rt", f'#!/bin/sh\n[ "$1" = run ] && [ "$(cat)" = "{LIMITS.strip()}" ] && cp "{PROGRAM}" out/pool_steps\n')
    holds("a build", ["--build"], 0, "", progress)
    holds("no second build", ["--build"], 0, "")
    holds("a run", [], 0, "state 0 0 1\n")
    soon = time.time() + 10
    os.utime(copy.source, (soon, soon))
    holds("a build after a change", ["--build"], 0, "", progress)


def tried():
    # This builds the program, where it is missing.
    build = subprocess.run([SCRIPT, "--build"], input=LIMITS.encode())
    check("the program is built", build.returncode == 0, build.returncode)
    if build.returncode == 0:
        try_words()
        try_lines()
        try_the_program()
        with tempfile.TemporaryDirectory() as folder:
            try_files(folder)
        with tempfile.TemporaryDirectory() as folder:
            try_a_build(folder)
        try_streams()
        TALLY.check_runs_of("TOOLS.md")
    return TALLY
