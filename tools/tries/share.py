"""A share of a ledger can't be cloned: a crate that clones one is refused for that, and the same crate passes where the other
share is an empty one."""
import os
import subprocess
import tempfile

from tally import Tally

CODE = """//! Two shares from one.
#![tactic(auto)]

use std::sync::ledger::{Ledger, Share};

/// The share, and another one.
pub fn two<L: Ledger>(mut share: Share<L>) -> (Share<L>, Share<L>) {
    let other = %s;
    (share, other)
}
"""


def checked(place, other):
    """What the prover says of a crate whose second share is made by this call."""
    crate = os.path.join(place, "crates", "shares")
    os.makedirs(os.path.join(crate, "src"), exist_ok=True)
    with open(os.path.join(crate, "src", "lib.rt"), "w", encoding="utf-8") as out:
        out.write(CODE % other)
    return subprocess.run(["rt", "check"], cwd=crate, stdout=subprocess.PIPE, stderr=subprocess.STDOUT, text=True)


def tried():
    tally = Tally("share")
    with tempfile.TemporaryDirectory() as place:
        subprocess.run(["git", "init", "-q", place], check=True)
        with open(os.path.join(place, "crates.txt"), "w", encoding="utf-8") as out:
            out.write("shares:\n")
        empty, clone = checked(place, "share.empty()"), checked(place, "share.clone()")
    tally.check("an empty one passes", empty.returncode == 0, empty.stdout[-2000:])
    tally.check("a clone is refused", clone.returncode != 0)
    is_named = "error[unknown-method]: the method `clone`" in clone.stdout
    tally.check("it is refused as a clone", is_named, clone.stdout[-2000:])
    return tally
