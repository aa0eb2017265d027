"""A program that is not proved, kept for later calls: `tools/programs.py` runs it where the proved one is not built.

`rt try` compiles a program with checks of each index, sum and cast, and keeps nothing of it. Its module for LLVM, which it hands its
clang, is caught here as soon as clang reads it, and compiled once more: by the same clang, with the same checks, but optimized, and
without the sanitizer, which makes it hundreds of times slower."""
import contextlib
import hashlib
import os
import signal
import subprocess
import tempfile
import threading
import time

import unchecked
from trying import command, kit

# The sanitizer's options are a module too, of less than this; a program's has more.
LEAST = 1 << 16
TARGET = "x86_64-unknown-linux-gnu"
CLANG = [f"--target={TARGET}", "-march=x86-64", "--no-default-config", "-mllvm", "-trap-unreachable", "-O1", "-fPIE", "-c", "-x", "ir"]
MODULE = "module.bc"


class Failed(Exception):
    """There is no program, and why."""


def stamp(sources, top):
    """What tells these sources from any others."""
    digest = hashlib.sha256()
    for source in sorted(sources):
        with open(source, "rb") as file:
            text = file.read()
        digest.update(b"%s\0%d\0" % (os.path.relpath(source, top).encode(), len(text)) + text)
    return digest.hexdigest()[:16]


class Group:
    """Programs that were started, also by several threads, each the first of a group of its own: all are ended where this is left."""

    def __init__(self):
        self.started, self.lock, self.is_over = [], threading.Lock(), False

    def __enter__(self):
        return self

    def start(self, words, folder, **how):
        with self.lock:
            if self.is_over:
                raise Failed("stopped")
            process = subprocess.Popen(words, cwd=folder, stdin=subprocess.DEVNULL, stdout=subprocess.PIPE, stderr=subprocess.STDOUT,
                                       start_new_session=True, **how)
            self.started.append(process)
        return process

    def ran(self, words, folder):
        """Runs a program to its end: its status, and what it says. What it puts aside is in the folder."""
        process = self.start(words, folder, env={**os.environ, "TMPDIR": folder})
        said, _ = process.communicate()
        return process.returncode, said.decode(errors="replace")

    def run(self, words, folder):
        """Runs a program to its end, and fails with what it says where it fails."""
        status, said = self.ran(words, folder)
        if status != 0:
            raise Failed(said.strip() or f"{words[0]} failed")

    def stop(self):
        """Ends what runs, for another thread, which waits for it. Nothing else begins."""
        with self.lock:
            self.is_over = True
            for process in self.started:
                if process.poll() is None:
                    with contextlib.suppress(OSError):
                        os.killpg(process.pid, signal.SIGTERM)

    def __exit__(self, *_):
        for process in self.started:
            if process.poll() is None:
                with contextlib.suppress(OSError):
                    os.killpg(process.pid, signal.SIGTERM)
                with contextlib.suppress(subprocess.TimeoutExpired):
                    process.wait(10)
            # What it has started itself, and left.
            with contextlib.suppress(OSError):
                os.killpg(process.pid, signal.SIGKILL)
            process.stdout.close()
            process.wait()


def modules_being_read(folder):
    """The modules below a folder that clang reads already, so that they are whole: beside each stands what it writes."""
    for place, _, files in os.walk(folder):
        if MODULE in files and any(file.startswith("module") and file != MODULE for file in files):
            yield os.path.join(place, MODULE)


def caught(folder, module):
    """Whether the module of the program is there by now: then it gets a name that stays."""
    for found in modules_being_read(folder):
        with contextlib.suppress(FileNotFoundError):
            if os.path.getsize(found) >= LEAST:
                os.link(found, module)
                return True
    return False


def catch_module(group, crate, folder, module, *flags):
    """Tries the crate until the module of its program is there, or with `--test` that of its tests."""
    aside = os.path.join(folder, "aside")
    os.mkdir(aside)
    tried = group.start(command(*flags), crate, env={**os.environ, "TMPDIR": aside})
    while not caught(aside, module):
        if tried.poll() is not None:
            raise Failed(tried.stdout.read().decode(errors="replace").strip() or "the compiler left no module")
        time.sleep(0.02)
    os.killpg(tried.pid, signal.SIGTERM)
    tried.communicate()


def with_checks(group, crate, folder, code):
    """Compiles the module as it is."""
    group.run([f"{kit()}/toolchain/bin/clang", *CLANG, os.path.join(folder, MODULE), "-o", code], folder)


def in_haste(group, crate, folder, code):
    """Compiles the module as it is, in a fifth of the time: for what runs once, not a second long."""
    group.run([f"{kit()}/toolchain/bin/clang", *CLANG, "-O0", os.path.join(folder, MODULE), "-o", code], folder)


def as_proved(group, crate, folder, code):
    """Compiles the module as a proved build would have it: with no checks, and as fast."""
    tools, text = kit(), os.path.join(folder, "module.ll")
    clang = [f"{tools}/toolchain/bin/clang", f"--target={TARGET}", f"--sysroot={tools}/toolchain"]
    group.run([*clang, "-x", "ir", MODULE, "-S", "-emit-llvm", "-O0", "-Xclang", "-disable-llvm-passes", "-o", text], folder)
    hints = unchecked.Hints([os.path.dirname(crate), os.path.join(tools, "rattle")])
    with open(text, encoding="utf-8") as file:
        proved = unchecked.as_proved(file.read(), hints)
    with open(text, "w", encoding="utf-8") as file:
        file.write(proved)
    flags = [word for it in unchecked.FOR_LLVM for word in ("-mllvm", it)]
    group.run([*clang, *unchecked.FLAGS, *flags, "-c", "-x", "ir", text, "-o", code], folder)


def link(group, code, program, folder):
    """Makes a program of what was compiled."""
    tools = kit()
    group.run([f"{tools}/bin/rattle-link", "--target", TARGET, "--toolchain", f"{tools}/toolchain", "-o", program, code,
               f"{tools}/c/libos_c.a", f"{tools}/c/liblibc_c.a"], folder)


def compile_by(group, crate, path, compiled, *flags):
    """Compiles the program of a crate into a file, which is there only once it is whole; with `--test` the program of its tests."""
    with tempfile.TemporaryDirectory(prefix="half-", dir=os.path.dirname(path)) as folder:
        module, code, program = (os.path.join(folder, name) for name in (MODULE, "program.o", "program"))
        catch_module(group, crate, folder, module, *flags)
        compiled(group, crate, folder, code)
        link(group, code, program, folder)
        os.replace(program, path)


def compile_program(crate, path, compiled=with_checks):
    """Compiles the program of a crate, and leaves nothing else beside it. Others may do the same."""
    kept = os.path.dirname(path)
    os.makedirs(kept, exist_ok=True)
    with Group() as group:
        compile_by(group, crate, path, compiled)
    for other in os.listdir(kept):
        if other != os.path.basename(path) and not other.startswith("half-"):
            # Another call may do the same.
            with contextlib.suppress(FileNotFoundError):
                os.unlink(os.path.join(kept, other))
