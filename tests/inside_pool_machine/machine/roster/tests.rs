// How often a list looks at the ids in it, which is what its steps cost.

use super::*;
use std::cell::Cell;
use std::test::Fail;

/// An id that counts the looks at it.
#[derive(Drop)]
struct Watched<'a> {
    id: u64,
    looks: &'a Cell<u64>,
}

impl HasId for Watched<'_> {
    ghost id_of = { λ watched. watched.id };

    fn id(&self) -> u64 {
        self.looks.set(self.looks.get().saturating_add(1));
        self.id
    }
}

const ROOM: u64 = 1000;

const STEPS: u64 = 10_000;

// How many looks it takes to remove one from a full list and to add the next, so many times. Those
// that were put in before `first` stay in it.
fn looks_of_turns(alloc: Global, first: u64) -> Result<u64, Fail> {
    let looks = Cell::new(0);
    let mut list = Roster::new(alloc, ROOM as usize)?;
    for id in 0..ROOM {
        list.add(Watched { id, looks: &looks });
    }
    looks.set(0);
    for step in 0..STEPS {
        drop(list.remove(first.saturating_add(step)).ok_or("it is there")?);
        let id = ROOM.saturating_add(step);
        list.add(Watched { id, looks: &looks });
    }
    Ok(looks.get())
}

// One at its removal and one as it is added; and what the others cost as the holes are taken out,
// shared among as many steps as there are slots beside the room.
#[test]
fn a_turn_costs_a_few_looks_however_many_there_are(rt: HostRuntime) -> Result<(), Fail> {
    for first in [0, 500, 999] {
        let looks = looks_of_turns(rt.alloc(), first)?;
        assert!(rt; STEPS <= looks && looks <= 10 * STEPS, "from {first}: {looks}");
    }
    Ok(())
}
