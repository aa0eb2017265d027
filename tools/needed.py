"""What the parts of `./prove` run beside the toolchain and Python: which programs, and which packages of Debian have them."""
import contextlib
import glob
import os
import shutil
import signal
import subprocess

# A program, and the packages that bring it. Debian keeps those of a PostgreSQL server off the PATH.
PACKAGES = {
    "git": ["git"],
    "gcc": ["gcc", "libc6-dev"],
    "objdump": ["binutils"],
    "spin": ["spin"],
    "promtool": ["prometheus"],
    "redis-server": ["redis-server"],
    "redis-sentinel": ["redis-sentinel"],
    "initdb": ["postgresql"],
    "pgbouncer": ["pgbouncer"],
    "chromium": ["chromium"],
    "wrk": ["wrk"],
}
OFF_THE_PATH = {"initdb": "/usr/lib/postgresql/*/bin/initdb", "pgbouncer": "/usr/sbin/pgbouncer"}
# How apt-get asks nothing, takes no more than it has to, and gives up soon where there is no network.
QUICK = ["-q", "-y", "-o", "Acquire::Retries=0", "-o", "Acquire::http::Timeout=15", "-o", "Acquire::https::Timeout=15", "-o", "DPkg::Lock::Timeout=60"]
SECONDS = 600
# Where it is there, and answers 101, no service of a package is started as that is installed.
POLICY = "/usr/sbin/policy-rc.d"


def is_there(program):
    return shutil.which(program) is not None or bool(glob.glob(OFF_THE_PATH.get(program, "")))


def missing(programs):
    return [it for it in programs if not is_there(it)]


def how_to_install(program):
    return f"On Debian, as root: apt-get install {' '.join(PACKAGES[program])}"


def lacking(top, rt="rt"):
    """What keeps every tool from running in this folder, and what to do; None where nothing does."""
    if not is_there(rt):
        return "rt is missing: put the folder bin/ of the toolchain on the PATH"
    if not is_there("git"):
        return f"git is missing. {how_to_install('git')}"
    asked = subprocess.run(["git", "-C", top, "ls-files", "--error-unmatch", "crates.txt"], capture_output=True, text=True)
    if asked.returncode != 0:
        why = asked.stderr.strip().splitlines()[0]
        return f"git, which the tools ask what belongs to the repository, does not read it as a clone of yours: {why}"
    return None


def packages(programs):
    return [package for program in programs for package in PACKAGES[program]]


def can_install():
    return os.geteuid() == 0 and shutil.which("apt-get") is not None


@contextlib.contextmanager
def no_service_begins():
    """Packages are wanted for their programs alone: what is tried starts servers of its own."""
    if os.path.lexists(POLICY):
        yield
        return
    try:
        with open(POLICY, "x", encoding="utf-8") as it:
            it.write("#!/bin/sh\nexit 101\n")
        os.chmod(POLICY, 0o755)
        yield
    finally:
        with contextlib.suppress(FileNotFoundError):
            os.unlink(POLICY)


def ended(number, _frame):
    raise SystemExit(128 + number)


def apt_get(*words):
    """Whether apt-get did it. It is not cut short by Ctrl-C, which would leave packages half installed."""
    how = {"stdin": subprocess.DEVNULL, "stdout": subprocess.DEVNULL, "stderr": subprocess.DEVNULL, "start_new_session": True}
    with contextlib.suppress(subprocess.TimeoutExpired):
        settings = {**os.environ, "DEBIAN_FRONTEND": "noninteractive"}
        return subprocess.run(["apt-get", *QUICK, *words], env=settings, timeout=SECONDS, **how).returncode == 0
    return False


def install(programs):
    """Installs them. One package that cannot be had keeps none of the others from coming."""
    before = {it: signal.signal(it, ended) for it in (signal.SIGINT, signal.SIGTERM)}
    try:
        with no_service_begins():
            apt_get("update")
            for program in programs:
                apt_get("install", "--no-install-recommends", *PACKAGES[program])
    finally:
        for it, handler in before.items():
            signal.signal(it, handler)


def provide(programs, say):
    """Installs what is missing of these, where that can be done, and names what is missing still."""
    wanted = missing(programs)
    if wanted and can_install():
        say(f"installing {' '.join(packages(wanted))} by apt-get, for {', '.join(wanted)}")
        install(wanted)
    for program in missing(programs):
        say(f"{program} is missing, so what needs it is skipped. {how_to_install(program)}")
