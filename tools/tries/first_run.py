"""The first command of the README: what it prints is what docs/TOOLS.md shows. Where no program is proved and built, it compiles one."""
import os
import re
import subprocess

from tally import TOP, Tally

TALLY = Tally("first-run")
SCRIPT = "./pool-steps"
# How long it may take, in seconds: on a busy machine the compiler takes minutes.
LONGEST = 900


def text_of(*path):
    with open(os.path.join(TOP, *path), encoding="utf-8") as file:
        return file.read()


def tried():
    command = re.search(rf"^({SCRIPT} \S+)", text_of("README.md"), re.M)[1]
    shown = re.search(rf"^```console\n\$ {re.escape(command)}\n((?:.*\n)*?)```$", text_of("docs", "TOOLS.md"), re.M)
    TALLY.check("TOOLS.md shows it", shown is not None, command)
    for what in ("the first run", "the second run") if shown else ():
        done = subprocess.run(command.split(), cwd=TOP, stdin=subprocess.DEVNULL, stdout=subprocess.PIPE, stderr=subprocess.PIPE, timeout=LONGEST)
        TALLY.check(what, (done.returncode, done.stdout.decode()) == (0, shown[1]), done)
    return TALLY
