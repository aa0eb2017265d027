"""How wrong bodies are found again where their function has changed: tools/wrong/form.py, over a small file; and how many the gate tries."""
import os
import sys
import tempfile
import types

from tally import TOP, Tally

sys.path.insert(0, os.path.join(TOP, "tools", "wrong"))
import form
import prover

SOURCE = """impl<B, M> Shared<B, M> {
    fn settle(&self, id: u64) -> bool {
        let mut guarded = self.lock();
        // A comment that says why.
        let wakes = guarded.fail(id, self.moment());
        guarded.note(id);
        drop(guarded);
        self.wake(wakes)
    }

    fn give_up(&self) -> bool {
        let mut guarded = self.lock();
        guarded.give_up();
        guarded.status();
        true
    }
}

impl<P, C> Guarded<PoolState<P, C>> {
    fn give_up(&mut self) {
        self.timeouts += 1;
    }
}
"""
SETTLES = """the lock is let go before the step
seen by: prover
in: pool fn room::Shared::settle
old:
    // A comment that says why.
    let wakes = guarded.fail(id, self.moment());
    guarded.note(id);
new:
    // A comment that says why.
    let wakes = Wakes::none();
    guarded.note(id);
"""
GIVES_UP = """who gives up is not counted
seen by: test pool status::timeouts
in: pool fn room::Shared::give_up
old: guarded.give_up();
new: guarded.status();
"""


def made(place, body, source):
    """The source with the body made in it, by its words; None where it cannot be made."""
    folder, file = os.path.join(place, "crates", "pool", "src"), os.path.join(place, "wrong", "pool", "a_body")
    for path, text in ((os.path.join(folder, "room.rt"), source), (file, body)):
        os.makedirs(os.path.dirname(path), exist_ok=True)
        with open(path, "w", encoding="utf-8") as it:
            it.write(text)
    crates = form.Crates(place)
    spots, _ = form.Body(file).spots(crates)
    return spots and [it.text for it in form.tokens_of(crates.with_spots(spots)["pool", "src/room.rt"])]


def told(place, body, source):
    """What is said of where the body changes the source."""
    made(place, body, source)
    it = form.Body(os.path.join(place, "wrong", "pool", "a_body"))
    return list(it.astray(it.spots(form.Crates(place))[0]))


def tries(tally):
    """How many are tried of a crate, by what wrong/tried says of it: in the gate no fewer than otherwise."""
    bodies = prover.of_crates()["pool_state"]
    for is_known, is_gate, wanted in ((True, True, prover.DRAWN), (False, True, len(bodies)), (True, False, prover.DRAWN), (False, False, len(bodies))):
        given = types.SimpleNamespace(all=False, proved=is_gate, seed="one")
        count = len(prover.chosen_of("pool_state", bodies, is_known, given))
        tally.check(f"of one that is {'' if is_known else 'not '}known, {'in the gate' if is_gate else 'by hand'}", count == wanted, count)


def words(text):
    return [it.text for it in form.tokens_of(text)]


def tried():
    tally = Tally("wrong")
    with tempfile.TemporaryDirectory(prefix="wrong-") as place:
        def finds(name, body, source, old, new):
            tally.check(name, made(place, body, source) == words(source.replace(old, new, 1)), made(place, body, source))

        step, none = "guarded.fail(id, self.moment())", "Wakes::none()"
        finds("its words", SETTLES, SOURCE, step, none)
        finds("no comment", SETTLES, SOURCE.replace("        // A comment that says why.\n", ""), step, none)
        finds("other lines", SETTLES, SOURCE.replace("fail(id, self", "fail(\n            id,\n            self"), "guarded.fail(\n            id,\n            self.moment())", none)
        finds("a local of another name", SETTLES, SOURCE.replace("guarded", "locked"), "locked.fail(id, self.moment())", none)
        finds("a method of another name", SETTLES, SOURCE.replace("fail(", "fail_once("), "guarded.fail_once(id, self.moment())", none)
        finds("another line beside it", SETTLES, SOURCE.replace("guarded.note(id);", "guarded.count();"), step, none)
        finds("its function of another name", SETTLES, SOURCE.replace("fn settle", "fn settle_failure"), step, none)
        finds("the nearest name", GIVES_UP, SOURCE.replace("give_up", "give_up_late"), "guarded.give_up_late();", "guarded.status();")
        twice = SOURCE.replace("guarded.status();\n", "guarded.give_up();\n")
        tally.check("what stands there twice is not chosen from", made(place, GIVES_UP, twice) is None, made(place, GIVES_UP, twice))
        gone = SOURCE.replace("let wakes = guarded.fail(id, self.moment());", "let wakes = 0;")
        tally.check("what is gone is not found", made(place, SETTLES, gone) is None, made(place, SETTLES, gone))
        tally.check("nothing is told of one that is where it says", told(place, GIVES_UP, SOURCE) == [], told(place, GIVES_UP, SOURCE))
        moved = told(place, GIVES_UP, SOURCE.replace("fn give_up(&self)", "fn end(&self)"))
        tally.check("one that landed elsewhere is told of", moved[0].endswith("it changes room::Shared::end"), moved)
        paths = ["::".join(it.path) for it in form.functions_of("src/room.rt", SOURCE)]
        tries(tally)
        tally.check("functions as the prover names them", paths == ["Shared::settle", "Shared::give_up", "Guarded+PoolState+P+C::give_up"], paths)
    return tally
