"""The log of the examples, one of whose managers fails twice. The gate knows a program's standard output alone."""
import subprocess

from programs import examples
from tally import Tally

LINE = "[ERROR r2d2] the database is starting up\n"


def tried():
    tally, program = Tally("log"), examples("log")
    if not program.is_ready():
        tally.check("the examples are built", False)
        return tally
    done = subprocess.run([program.path], stdin=subprocess.DEVNULL, capture_output=True, text=True)
    tally.check("the examples run", done.returncode == 0, done.stdout[-2000:])
    tally.check("one line for each failure", done.stderr == LINE * 2, done.stderr)
    return tally
