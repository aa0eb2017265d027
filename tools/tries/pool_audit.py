"""The script `pool-audit`, as a person uses it. What the program itself says is tested in its crate."""
import gzip
import json
import os
import re
import shutil
import signal
import subprocess
import tempfile
import time

import stand_in
from tally import TOP, Tally

FIND = " (--find looks for reports within the lines of a log)\n"
TALLY = Tally("pool-audit")
check = TALLY.check
SCRIPT = os.path.join(TOP, "pool-audit")
SAMPLE = os.path.join(TOP, "crates", "pool_audit", "stdin")


def runs(what, words, given, status, output, errors=""):
    """Holds a run against what is wanted: its status, and all that it writes."""
    done = subprocess.run([SCRIPT] + words, input=given, stdout=subprocess.PIPE, stderr=subprocess.PIPE, timeout=60)
    seen = (done.returncode, done.stdout.decode(), done.stderr.decode())
    check(what, seen == (status, output, errors), seen)


def read(*path):
    with open(os.path.join(TOP, *path), "rb") as file:
        return file.read()


def try_words():
    help = subprocess.run([SCRIPT, "--help"], stdout=subprocess.PIPE, timeout=60)
    check("--help", help.returncode == 0 and b"--json" in help.stdout, help)
    # A name of its own in the table of concerns, and in the code that makes one.
    named = re.findall(r"^    ([a-z_]+) {3,}", help.stdout.decode(), re.M)
    made = re.findall(r"Told::of\(\s*\"(\w+)\"", read("crates", "pool_audit", "src", "concerns.rt").decode())
    check("--help names each concern", sorted(named) == sorted(made) and len(made) == 11, (named, made))
    version = subprocess.run([SCRIPT, "--version"], stdout=subprocess.PIPE, timeout=60)
    check("--version", version.returncode == 0 and re.match(rb"pool-audit \d+\.\d+\.\d+\S*, by the rules of", version.stdout), version)
    unknown = "pool-audit: usage: pool-audit [--find] [--pool NAME] [--json] [--html PAGE] [FILE]; --help says more\n"
    for words in [["--pool"], ["a", "b"], ["--fast"], ["--json", "--json"], ["--text"], ["--svg", "a"], ["--html"], ["--html", "a", "--html", "b"]]:
        runs(f"the words {words}", words, b"", 5, "", unknown)
    runs("a file that is missing", ["/nowhere/at.all"], b"", 3, "",
         "pool-audit: read failed: /nowhere/at.all: No such file or directory\n")


def try_reports():
    lines = read("crates", "pool_audit", "stdin").splitlines(keepends=True)
    wanted = read("crates", "pool_audit", "stdout").decode()
    runs("a file", [SAMPLE], b"", 1, wanted)
    runs("standard input", [], b"".join(lines), 1, wanted)
    runs("standard input as -", ["-"], b"".join(lines), 1, wanted)
    first = wanted[:wanted.index("line 3")]
    runs("a sound report with a concern", [], lines[0], 7, first)
    calm = lines[0].replace(b'"connection_timeout":5', b'"connection_timeout":50')
    done = subprocess.run([SCRIPT], input=calm, stdout=subprocess.PIPE, timeout=60)
    check("one without", (done.returncode, b"nothing stands out" in done.stdout) == (0, True), done)
    runs("no report", [], b"", 0, "no report\n")
    runs("a line that is none", [], lines[0] + b"{}\n" + lines[0], 6, first,
         "line 2: version: missing" + FIND)
    log = b"2026-01-31 INFO started {}\n2026-01-31 INFO " + lines[0] + b'{"level":"INFO","report":' + lines[0].strip() + b"}\n"
    found = first.replace("line 1", "line 2") + first.replace("line 1", "line 3") + "lines without a report: 1\n"
    runs("a log", ["--find"], log, 7, found)
    cut = b"INFO " + lines[0][:300] + b"\n"
    damaged = "line 1: damaged: a part of it is missing, or it stands in too many others\n"
    runs("a damaged report in a log", ["--find"], cut + lines[0], 6, damaged + first.replace("line 1", "line 2") + "lines without a report: 0\n",
         "damaged reports: 1\n")
    try_lines_that_are_none(lines[0], first)
    named = lines[0].replace(b'"limits"', b'"name":"orders","limits"', 1)
    runs("the pool that is asked for", ["--pool", "orders"], lines[0] + named, 7,
         first.replace("line 1:", 'line 2, pool "orders":') + "reports of other pools: 1\n")
    for words in [["--pool", "order"], ["--pool", "orders2"], ["--find", "--pool", "order"]]:
        none = "no report\nreports of other pools: 2\n" + "lines without a report: 0\n" * ("--find" in words)
        runs(f"{words}, a pool that none is of", words, lines[0] + named, 6, none,
             f'no report of pool "{words[-1]}"; there are one without a name, "orders"\n')
    told = subprocess.run([SCRIPT, "--json", SAMPLE], stdout=subprocess.PIPE, timeout=60).stdout.decode().splitlines()
    seen = [json.loads(line) for line in told]
    check("--json", [line["line"] for line in seen] == [1, 3, 5, 6] and [line["sound"] for line in seen] == [True] + [False] * 3, told)
    check("--json tells the state", [line["state"] for line in seen] == ["concerned"] + ["unsound"] * 3, told)
    check("--json names the record", [line.get("record") for line in seen] == [None, 1, None, None], told)


def try_lines_that_are_none(report, words):
    """Each line that is none is told for itself, and a way out only where there is one."""
    jq = "an object that does not end there: write each report on one line (jq -c . FILE)\n"
    pretty = json.dumps(json.loads(report), indent=2).encode() + b"\n"
    fewer, takes = report.replace(b'"lost":9,', b""), report.index(b'"takes"')
    for what, given, told in [
        ("of another version", report.replace(b'"version":1', b'"version":2'), "version: 2 is not one that can be read\n"),
        ("without a field", fewer, f"missing field `lost` at column {len(fewer.strip())}\n"),
        ("with another field", report[:takes] + b'"lots":9,' + report[takes:], f'unknown field at column {takes + 1}: "lots":9\n'),
        ("of a log", b"INFO " + report, "not JSON at column 1" + FIND),
        ("within another object", b'{"report":' + report.strip() + b"}", "version: missing" + FIND),
        ("that breaks off", report[:200], "not JSON at column 200\n"),
        ("that goes on after its first field", report.replace(b",", b",\n", 1), jq),
        ("over several lines that breaks off", pretty[:300], jq),
    ]:
        runs(f"a report {what}", [], given, 6, "", "line 1: " + told)
    runs("a report over several lines", [], b"\n" + pretty + report, 7, words.replace("line 1", "line 2")
         + words.replace("line 1", f"line {len(pretty.splitlines()) + 2}"))
    runs("one in a log", ["--find"], b"INFO\n" + pretty, 7, words.replace("line 1", "line 2") + "lines without a report: 1\n")
    behind = "line 4: damaged: a report over several lines behind other text: write it on one line\n"
    done = subprocess.run([SCRIPT, "--find"], input=b"INFO report " + pretty, stdout=subprocess.PIPE, stderr=subprocess.PIPE, timeout=60)
    check("one behind other text", (done.returncode, done.stdout.decode().splitlines(keepends=True)[:2]) == (6, [behind, "no report\n"]), done)
    with tempfile.TemporaryDirectory() as folder:
        empty, packed = os.path.join(folder, "empty"), os.path.join(folder, "packed.gz")
        with open(empty, "wb"), gzip.open(packed, "wb") as file:
            file.write(report)
        runs("an empty file", [empty], b"", 0, "no report\n", f"pool-audit: {empty} is an empty file\n")
        for words in [[], ["--find"]]:
            runs(f"a compressed file {words}", [*words, packed], b"", 6, "", "the input is compressed: gzip -dc FILE | pool-audit\n")
    runs("bytes that are no text", [], b"\xff\n", 6, "", "line 1: not UTF-8\n")


# What a page is made of, and what the program says for it.
PAGE = "<!doctype html>\n<script id=\"data\">/*DATA*/null</script>\n<p>/*DATA*/null\n"
DATA = '{"pools":[{"name":"a</script>","reports":[{"line":1}]}]}'
# It says so where it is asked for a page, ends with a status, and says another word where it is not.
SAYS = """for word; do [ "$word" = --html ] && {{ cat > /dev/null; printf '%s\\n' '{data}'; echo aside >&2; exit {status}; }}; done
cat; echo told >&2; exit {status}"""


def try_a_page():
    """The page is the template with the data in its place, and is written as a whole or not at all."""
    with tempfile.TemporaryDirectory() as folder:
        copy = stand_in.Copy(folder, "pool-audit", "pool_audit")
        template, page = os.path.join(copy.crate, "page.html"), os.path.join(folder, "page")
        copy.write(template, PAGE)

        def writes(what, words, status, errors, wanted, data=DATA, ends=0):
            copy.build(SAYS.format(data=data, status=ends))
            before = set(os.listdir(folder))
            seen = copy.run(*words, "--html", page, given=b"report\n")
            check(what, seen == (status, "report\n", "told\n" + errors), seen)
            check(f"the page, {what}", (read(page).decode() if os.path.exists(page) else None) == wanted, wanted)
            check(f"{what} leaves no other file", set(os.listdir(folder)) - before <= {"page"}, os.listdir(folder))

        none = "pool-audit: there is no report for a page\n"
        writes("no report", [], 3, none, None, '{"pools":[]}')
        writes("no report of the pool", ["--find", "--pool", "b"], 6, none, None, "", 6)
        writes("a line that is no report", [], 6, "", None, DATA, 6)
        made = PAGE.replace("/*DATA*/null", DATA.replace("<", "\\u003c"), 1)
        for words, ends in [([], 0), (["--json"], 1), ([], 7), (["--find"], 6)]:
            writes(f"a page {words}", words, ends, "", made, DATA, ends)
            os.unlink(page)
        copy.write(page, "before\n")
        writes("no memory", [], 2, "", "before\n", DATA, 2)
        copy.write(template, "nothing\n")
        writes("a page without a place", [], 3, f"pool-audit: read failed: {template}: it has no /*DATA*/null\n", "before\n")
        os.unlink(template)
        writes("no template", [], 3, f"pool-audit: read failed: {template}: No such file or directory\n", "before\n")
        copy.write(template, PAGE)
        seen = copy.run("--html", "/nowhere/at.all", given=b"report\n")
        check("a page that has no place", seen == (3, "report\n", "told\npool-audit: write failed: /nowhere/at.all: No such file or directory\n"), seen)


def try_files_that_would_be_lost(report):
    """A page is not written over the reports."""
    with tempfile.TemporaryDirectory() as folder:
        path, link = os.path.join(folder, "reports"), os.path.join(folder, "link")
        with open(path, "wb") as file:
            file.write(report)
        os.symlink(path, link)
        lost = "pool-audit: {} holds the reports: give the page another file\n"
        runs("a page over its input", ["--html", path, path], b"", 5, "", lost.format(path))
        runs("a page over its input by another name", ["--html", link, path], b"", 5, "", lost.format(link))
        with open(path, "rb") as given:
            done = subprocess.run([SCRIPT, "--html", path], stdin=given, stdout=subprocess.PIPE, stderr=subprocess.PIPE, timeout=60)
        check("a page over its standard input", (done.returncode, done.stderr.decode()) == (5, lost.format(path)), done)
        check("the reports stay", read(path) == report, read(path))


def try_closed_output():
    for words in [["--help"], ["--version"], [SAMPLE]]:
        for how in [">&-", "| true"]:
            told = subprocess.run(f"{SCRIPT} {' '.join(words)} {how}", shell=True, stdout=subprocess.PIPE, stderr=subprocess.PIPE, timeout=60).stderr
            check(f"no traceback of {words} {how}", b"Traceback" not in told, told)
    done = subprocess.run(f"{SCRIPT} {SAMPLE} >&-", shell=True, stderr=subprocess.PIPE, timeout=60)
    check("closed output", (done.returncode, done.stderr) == (3, b"write failed\n"), done)


def try_streams():
    try_closed_output()
    with open("/dev/full", "wb") as full:
        done = subprocess.run([SCRIPT, SAMPLE], stdout=full, stderr=subprocess.PIPE, timeout=60)
    check("a full disk", (done.returncode, done.stderr) == (3, b"write failed\n"), done)
    folder = "it is a folder, not a file\n"
    runs("a folder", [TOP], b"", 3, "", f"pool-audit: read failed: {TOP}: {folder}")
    done = subprocess.run(f"{SCRIPT} < {TOP}", shell=True, stdout=subprocess.PIPE, stderr=subprocess.PIPE, timeout=60)
    check("a folder as its input", (done.returncode, done.stderr.decode()) == (3, f"pool-audit: read failed: standard input: {folder}"), done)
    done = subprocess.run(f"{SCRIPT} <&-", shell=True, stdout=subprocess.PIPE, stderr=subprocess.PIPE, timeout=60)
    check("closed input", (done.returncode, done.stdout, done.stderr) == (3, b"", b"read failed\n"), done)
    talk = subprocess.Popen([SCRIPT], stdin=subprocess.PIPE, stdout=subprocess.PIPE, bufsize=0)
    talk.stdin.write(read("crates", "pool_audit", "stdin").splitlines(keepends=True)[0])
    check("an answer while the input is open", talk.stdout.readline() == b"line 1: sound\n", "")
    talk.stdin.close()
    check("the end of the input", talk.wait(timeout=60) == 7, talk.returncode)


# A build that takes long, until it is called once more: then it builds a program that says so.
BUILD = """[ "$1" = run ] && {
    [ -e ../../again ] && { echo 'echo built' > out/pool_audit; chmod +x out/pool_audit; sed -i '1i #!/bin/sh' out/pool_audit; exit 0; }
    echo $$ > ../../again; touch out/pool_audit; sleep 60; }"""
FIRST, LATER = stand_in.first("pool-audit"), stand_in.later("pool-audit")


def has_ended(group):
    """Whether no process of a group is left, within some seconds."""
    return comes(lambda: not is_alive(group))


def is_alive(group):
    try:
        os.killpg(group, 0)
    except OSError:
        return False
    return True


def comes(what):
    """Whether it holds, within some seconds."""
    for _ in range(500):
        if what():
            return True
        time.sleep(0.02)
    return False


def try_an_interrupt(number, status):
    """The first build, in a copy, is ended by a signal, and the next one builds."""
    with tempfile.TemporaryDirectory() as folder:
        copy = stand_in.Copy(folder, "pool-audit", "pool_audit", BUILD)
        first = copy.start("--build")
        again, program = os.path.join(folder, "again"), os.path.join(copy.crate, "out", "pool_audit")
        comes(lambda: os.path.exists(program))
        log = read(copy.crate, "out", "build.log")
        check("the log of a build from its first second", log.startswith(b"proving pool_machine, "), log)
        first.send_signal(number)
        told = first.communicate(timeout=30)[1]
        check(f"the signal {number}", first.returncode == status and b"interrupted: the program is not built" in told, (first.returncode, told))
        check("what it leaves", not os.path.exists(program), "")
        check("what it leaves running", has_ended(int(read(again))), read(again))
        then = copy.run("--build")
        check("the next build", then[0] == 0, then)
        then = copy.run()
        check("the next call", then == (0, "built\n", ""), then)


def try_an_interrupted_compile(number, status):
    """The first answer without a proof is ended by a signal while the program is compiled."""
    with tempfile.TemporaryDirectory() as folder:
        copy = stand_in.Copy(folder, "pool-audit", "pool_audit")
        copy.program("cat; echo compiled")
        copy.write("long", "")
        long = os.path.join(folder, "long")
        first = copy.start()
        comes(lambda: read(long))
        first.send_signal(number)
        told = first.communicate(timeout=30)[1].decode()
        wanted = FIRST + "pool-audit: interrupted: nothing is kept; the next call compiles it\n"
        check(f"the signal {number} while it compiles", (first.returncode, told) == (status, wanted), (first.returncode, told))
        check("no half of it is kept", copy.kept() == [], copy.kept())
        check("nothing of it runs on", has_ended(int(read(long))), read(long))
        os.unlink(long)
        then = copy.run(given=b"a\n")
        check("the next call compiles", then == (0, "a\ncompiled\n", FIRST), then)


def try_what_is_kept():
    """What the first answer compiled is run later, until a source changes; two calls at a time do not spoil each other's."""
    with tempfile.TemporaryDirectory() as folder:
        copy = stand_in.Copy(folder, "pool-audit", "pool_audit")
        copy.program("echo compiled")
        calls = [copy.start() for _ in range(3)]
        ends = [(call.communicate(timeout=60), call.returncode) for call in calls]
        # One may begin when another one has ended.
        wanted = [((b"compiled\n", told.encode()), 0) for told in (FIRST, LATER)]
        check("three calls at a time", all(end in wanted for end in ends) and wanted[0] in ends, ends)
        check("one program is kept of theirs", len(copy.kept()) == 1, copy.kept())
        tries, kept = copy.tries(), copy.kept()
        again = [copy.run() for _ in range(2)]
        check("later calls run it", again == [(0, "compiled\n", LATER)] * 2 and copy.tries() == tries, (again, copy.tries()))
        os.utime(copy.source)
        check("a file that was only touched is the same", copy.run() == (0, "compiled\n", LATER), copy.tries())
        copy.write(copy.source, "another\n")
        copy.program("echo another")
        then = copy.run()
        check("a source that changed", then == (0, "another\n", FIRST) and copy.tries() == tries + 1, then)
        check("the program of the old source goes", len(copy.kept()) == 1 and copy.kept() != kept, copy.kept())


def try_a_folder_that_takes_nothing():
    """A build, in a copy, whose folder can't be made, since a file stands there; and no toolchain."""
    with tempfile.TemporaryDirectory() as copy:
        shutil.copytree(os.path.join(TOP, "tools"), os.path.join(copy, "tools"))
        os.makedirs(os.path.join(copy, "crates"))
        for path in ["crates/pool_audit", "crates.txt"]:
            with open(os.path.join(copy, path), "x", encoding="utf-8") as file:
                file.write("none\n")
        shutil.copy(SCRIPT, copy)
        done = subprocess.run(["./pool-audit", "--build"], cwd=copy, stdout=subprocess.PIPE, stderr=subprocess.PIPE, timeout=30)
        check("a folder that can't be written", done.returncode == 4 and done.stderr.endswith(b": Not a directory\n"), done)


def tried():
    try_an_interrupt(signal.SIGINT, 130)
    try_an_interrupt(signal.SIGTERM, 143)
    try_an_interrupted_compile(signal.SIGINT, 130)
    try_an_interrupted_compile(signal.SIGTERM, 143)
    try_what_is_kept()
    try_a_page()
    try_a_folder_that_takes_nothing()
    # This builds the program, where it is missing.
    build = subprocess.run([SCRIPT, "--build"], input=b"")
    check("the program is built", build.returncode == 0, build.returncode)
    if build.returncode == 0:
        try_words()
        try_reports()
        try_files_that_would_be_lost(read("crates", "pool_audit", "stdin").splitlines(keepends=True)[0])
        try_streams()
        TALLY.check_runs_of("OPERATING.md")
    return TALLY
