"""A program of this repository as a script of its own. Where it was proved and built since its sources changed, that is run; else
one that is compiled from the same sources with checks, and not proved. `tools/play`, `tools/audit` and `tools/times` have it in common."""
import contextlib
import os
import shutil
import signal
import subprocess
import sys
import time

import copies
import unproved

TOP = os.path.dirname(os.path.dirname(os.path.realpath(__file__)))
NOT_BUILT, NOT_UNDERSTOOD, READ_FAILED, WRITE_FAILED = 4, 5, 3, 3
# The word by which a script proves and builds its program.
BUILD = "--build"
# Where the script at the top hands standard input over.
INPUT = 3


class Ended(BaseException):
    """The script was ended by a signal."""


class NotBuilt(Exception):
    """There is no program to run."""


# What was started, each the first of a group of its own.
RUNNING = []


def stop_all():
    """Ends all that was started. What has not ended in ten seconds is killed."""
    for process in RUNNING:
        with contextlib.suppress(OSError):
            os.killpg(process.pid, signal.SIGTERM)
    for process in RUNNING:
        try:
            process.wait(10)
        except subprocess.TimeoutExpired:
            os.killpg(process.pid, signal.SIGKILL)
            process.wait()


class Program:
    """The program of a crate, under the name of its script. `sample` is what a run of it may read once it is built."""

    def __init__(self, script, crate, libraries, sample):
        self.script = script
        self.crates = libraries + [crate]
        self.folder = os.path.join(TOP, "crates", crate)
        self.path = os.path.join(self.folder, "out", crate)
        self.log = os.path.join(self.folder, "out", "build.log")
        self.sample = sample
        # What is run, once that is known.
        self.command = None

    def say(self, text):
        try:
            print(f"{self.script}: {text}", file=sys.stderr, flush=True)
        except OSError:
            pass

    def sources(self):
        yield os.path.join(TOP, "crates.txt")
        for crate in self.crates:
            for kind in ["src", "specs", "proofs"]:
                for folder, _, files in os.walk(os.path.join(TOP, "crates", crate, kind)):
                    for file in files:
                        yield os.path.join(folder, file)

    def is_built(self):
        if not os.access(self.path, os.X_OK):
            return False
        built = os.stat(self.path).st_mtime_ns
        return all(os.stat(source).st_mtime_ns <= built for source in self.sources())

    def build(self):
        """Proves and builds the program. `rt run` ends in a run of it, which gets the sample, and not what the script was given."""
        log = os.path.relpath(self.log)
        self.say(f"proving and building; {log} shows how far it is")
        begun = time.time_ns()
        try:
            os.makedirs(os.path.dirname(self.log), exist_ok=True)
            with open(self.log, "wb", buffering=0) as out, self.place() as folder:
                out.write(f"proving {', '.join(self.crates)}; each says how many of its functions are checked\n".encode())
                self.run_build(out, folder)
            # A source that was edited meanwhile is newer than the program.
            os.utime(self.path, ns=(begun, begun))
        except FileNotFoundError as error:
            self.say(f"not built: {error.filename} is missing")
            return False
        except subprocess.CalledProcessError:
            self.say(f"not built: {log} says why")
            return False
        except OSError as error:
            self.say(f"not built: {error.filename}: {error.strerror}")
            return False
        return True

    @contextlib.contextmanager
    def place(self):
        """The folder of the crate, in which `rt` builds it."""
        yield self.folder

    def run_build(self, out, folder):
        """Runs `rt`, in a group of its own: a signal ends all of it, and leaves no program that is half written."""
        words = ["rt", "run"]
        process = subprocess.Popen(words, cwd=folder, stdin=subprocess.PIPE, stdout=out, stderr=out, start_new_session=True)
        RUNNING.append(process)
        try:
            process.communicate(self.sample)
        except (KeyboardInterrupt, Ended):
            stop_all()
            if os.path.exists(self.path):
                os.unlink(self.path)
            self.say("interrupted: the program is not built; the next call goes on with what is proved so far")
            raise
        RUNNING.remove(process)
        if process.returncode != 0:
            raise subprocess.CalledProcessError(process.returncode, words)
        if folder != self.folder:
            shutil.copy(os.path.join(folder, "out", self.crates[-1]), self.path)

    def is_ready(self):
        return self.is_built() or self.build()

    def compiled(self):
        """The program that is not proved, compiled where no earlier call has done that for these sources."""
        path = os.path.join(self.folder, "out", "unproved", unproved.stamp(self.sources(), TOP))
        build = f"{self.script} {BUILD} proves and builds it"
        if os.access(path, os.X_OK):
            self.say(f"not proved: this runs what was compiled from the source, with checks; {build}")
            return path
        self.say(f"not proved: this compiles the program from its source, with checks, in a minute or two; until the source changes, "
                 f"later calls run that at once; {build}")
        try:
            unproved.compile_program(self.folder, path)
        except (KeyboardInterrupt, Ended):
            self.say("interrupted: nothing is kept; the next call compiles it")
            raise
        except unproved.Failed as error:
            raise NotBuilt(f"not built: {error}") from error
        except FileNotFoundError as error:
            raise NotBuilt(f"not built: {error.filename} is missing") from error
        except (OSError, subprocess.CalledProcessError) as error:
            raise NotBuilt(f"not built: {error}") from error
        return path

    def as_proved(self):
        """The path of a program that is not proved, but compiled as a proved one is, so that it is as fast."""
        path = os.path.join(self.folder, "out", "as-proved", unproved.stamp(self.sources(), TOP))
        if not os.access(path, os.X_OK):
            self.say(f"compiling {self.crates[-1]} as for a proved build, without the proofs")
            try:
                with self.place() as folder:
                    unproved.compile_program(folder, path, unproved.as_proved)
            except (unproved.Failed, OSError) as error:
                raise NotBuilt(f"not built: {error}") from error
        return path

    def start(self, words, **streams):
        """Starts the program. What it says on standard error is for `ended`."""
        if self.command is None:
            self.command = self.path if self.is_built() else self.compiled()
        process = subprocess.Popen([self.command] + words, bufsize=0, stderr=subprocess.PIPE, start_new_session=True, **streams)
        RUNNING.append(process)
        return process

    def ended(self, process):
        """The status of the program once it has ended, as a shell tells it, and what it said on standard error."""
        said = process.stderr.read()
        process.wait()
        RUNNING.remove(process)
        return process.returncode if process.returncode >= 0 else 128 - process.returncode, said

    def version(self):
        def first_line(*words):
            try:
                done = subprocess.run(words, cwd=TOP, stdout=subprocess.PIPE, stderr=subprocess.DEVNULL, check=True)
                return done.stdout.decode().splitlines()[0]
            except (OSError, subprocess.CalledProcessError, IndexError):
                return "unknown"

        print(f"{self.script} {newest_version()}, by the rules of r2d2 0.8.10")
        print("commit:", first_line("git", "log", "-1", "--format=%h of %cs"))
        print("toolchain:", first_line("rt", "version"))


class OfTests(Program):
    """A program of tests/, which no gate proves: it is built in a copy of the repository, over what the folders out/ keep of the proofs of
    its libraries."""

    def __init__(self, script, name, libraries):
        super().__init__(script, name, libraries, b"")
        self.folder = os.path.join(copies.TESTS, name)
        self.path = os.path.join(self.folder, "out", name)
        self.log = os.path.join(self.folder, "out", "build.log")

    def sources(self):
        yield from super().sources()
        for folder, folders, files in os.walk(self.folder):
            folders[:] = [it for it in folders if it != "out"]
            yield from (os.path.join(folder, file) for file in files)

    @contextlib.contextmanager
    def place(self):
        with copies.copied() as copy:
            for crate in self.crates:
                kept = os.path.join("crates", crate, "out", "incremental")
                if os.path.isdir(os.path.join(TOP, kept)):
                    shutil.copytree(os.path.join(TOP, kept), os.path.join(copy.folder, kept))
            yield copy.crate(self.crates[-1])


def pool_steps(script):
    """The program of scripts, for a script of this name."""
    return Program(script, "pool_steps", ["pool_machine", "r2d2_core", "pool_lines"], b"limits 1 - - - 30000 30000\n")


# Where `pool_audit` judged each report: whether or not all are sound, and have a concern.
JUDGED = [0, 1, 7]


def pool_audit(script):
    """The program that audits reports, for a script of this name."""
    return Program(script, "pool_audit", ["pool_machine", "r2d2_core", "pool_reports"], b"")


def examples(script):
    """The program of examples, for a script of this name."""
    return Program(script, "examples", ["pool_machine", "r2d2_core", "pool_state", "r2d2", "pool_reports", "pool_lines", "pool_metrics"], b"")


def newest_version():
    """The version of the first section of the changelog."""
    try:
        with open(os.path.join(TOP, "CHANGELOG.md"), encoding="utf-8") as file:
            return next(line.removeprefix("## ").rstrip().partition(",")[0] for line in file if line.startswith("## "))
    except (OSError, StopIteration):
        return "of an unknown version"


def raise_ended(number, _):
    raise Ended(128 + number)


def hold_streams():
    """Opens each of the three streams that is closed, so that no other file comes to be one of them; to write there fails as before."""
    for number in range(3):
        try:
            os.fstat(number)
        except OSError:
            os.open(os.devnull, os.O_RDONLY)


def end_with(script, main):
    """Ends the script with the status of its `main`."""
    hold_streams()
    for number in (signal.SIGTERM, signal.SIGHUP):
        signal.signal(number, raise_ended)
    try:
        status = main(sys.argv[1:])
        if sys.stdout:
            sys.stdout.flush()
    except KeyboardInterrupt:
        status = 130
    except Ended as ended:
        status = ended.args[0]
    except NotBuilt as error:
        script.say(error)
        status = NOT_BUILT
    except OSError as error:
        script.say(f"write failed: {error.strerror}")
        status = WRITE_FAILED
    stop_all()
    # A thread may still wait for a line.
    os._exit(status)
