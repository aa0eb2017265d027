"""How many checks of a thing passed and failed, and how many could not be made."""
import os
import re
import subprocess

TOP = os.path.dirname(os.path.dirname(os.path.dirname(os.path.realpath(__file__))))


class Tally:
    def __init__(self, name):
        self.name, self.passed, self.failed, self.skipped = name, 0, 0, 0

    def check(self, what, holds, seen=""):
        """Counts a check. What was seen is told of one that fails."""
        if holds:
            self.passed += 1
        else:
            self.failed += 1
            print(f"{self.name}, {what}: FAILED with {seen!r}", flush=True)

    def skip(self, why):
        """Counts a check that cannot be made here."""
        self.skipped += 1
        print(f"{self.name}: skipped, {why}", flush=True)

    def check_runs_of(self, document):
        """What that one of docs/ shows of a run is what the run looks like."""
        with open(os.path.join(TOP, "docs", document), encoding="utf-8") as file:
            runs = re.findall(r"^```console\n\$ (.*)\n((?:.*\n)*?)```$", file.read(), re.MULTILINE)
        self.check("the document shows runs", len(runs) > 0, len(runs))
        for command, wanted in runs:
            done = subprocess.run(command, shell=True, cwd=TOP, stdout=subprocess.PIPE, stderr=subprocess.STDOUT, timeout=60)
            self.check(f"the document's {command!r}", done.stdout.decode() == wanted, done.stdout.decode())
