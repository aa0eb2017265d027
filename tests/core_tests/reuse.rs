// Newest-first and oldest-first beside other choices. Moments are in milliseconds. No clause says
// that `compare` answers where memory is there; each of these calls does.

use r2d2_core::reuse::{Move, compare, is_in_order};
use std::alloc::{AllocError, Global};
use std::process::Abort;
use std::time::Duration;

fn ms(moment: u64) -> Duration {
    Duration::from_millis(moment)
}

type Expired = Option<(usize, usize, usize)>;

// What is expired where the newest is lent first, where the oldest is, and by the picks.
fn compared<R: Abort + AllocGlobal>(
    rt: &R,
    idle: &[Duration],
    moves: &[Move],
    picks: &[usize],
    now: u64,
    limit: u64,
) -> Expired {
    assert!(rt; is_in_order(idle));
    let answer = compare(rt.alloc(), idle, moves, picks, ms(now), ms(limit));
    answer
        .expect(rt, "an answer")
        .map(|c| (c.newest_first, c.oldest_first, c.other))
}

#[test]
fn a_list_in_order_never_falls(rt: HostRuntime) {
    assert!(rt; is_in_order(&[]));
    assert!(rt; is_in_order(&[ms(1), ms(1)]));
    assert!(rt; is_in_order(&[ms(0), ms(10), ms(20)]));
    assert!(rt; !is_in_order(&[ms(1), ms(0)]));
}

#[test]
fn worked_rows(rt: HostRuntime) {
    let take = |moment: u64| Move::Take(ms(moment));
    let add = |moment: u64| Move::Add(ms(moment));
    let (five, two) = ([ms(0), ms(10), ms(20), ms(30), ms(40)], [ms(0), ms(100)]);
    let (mixed, twice) = ([take(25), add(26)], [take(25), take(25)]);
    let turns = [take(50), add(60), take(70), add(80)];
    for (idle, moves, picks, now, limit, wanted) in [
        (&five[..3], &mixed[..], &[0][..], 110, 100, Some((2, 1, 1))),
        (&five[..3], &mixed, &[], 110, 100, None),
        (&five[..3], &mixed, &[3], 110, 100, None),
        // A take on an empty list uses no pick.
        (&[], &[take(5)], &[], 10, 1, Some((0, 0, 0))),
        // Moments that run backwards count as the latest so far, and a pick that is left over is
        // ignored.
        (&two, &[add(50)], &[9], 150, 50, Some((3, 3, 3))),
        (&two, &[], &[], 40, 100, Some((1, 1, 1))),
        // Two of three are lent. Whether the oldest of all stays is for the picks to say.
        (&five[..3], &twice, &[0, 1], 110, 100, Some((1, 0, 1))),
        (&five[..3], &twice, &[1, 0], 110, 100, Some((1, 0, 0))),
        // The oldest first is strictly behind; to pick the first place each time is to lend it.
        (&five, &turns, &[0, 0], 110, 80, Some((4, 2, 2))),
        (&five, &turns, &[0, 3], 110, 80, Some((4, 2, 3))),
    ] {
        let expired = compared(&rt, idle, moves, picks, now, limit);
        assert_eq!(rt; expired, wanted, "{picks:?} at {now}");
    }
}

// The first `size` of five moments.
fn idle_of(alloc: Global, size: usize) -> Result<Vec<Duration>, AllocError> {
    [0, 10, 20, 20, 40]
        .iter()
        .take(size)
        .map(|moment| ms(*moment))
        .collect(alloc)
}

// At most six moves: the binary digits of the code without its first, 0 for a take and 1 for an
// add. Some moments run backwards.
fn moves_of(alloc: Global, code: u32) -> Result<Vec<Move>, AllocError> {
    let mut moves = Vec::new(alloc);
    let mut rest = code;
    for moment in [50, 70, 60, 30, 90, 80] {
        if rest > 1 {
            let at = ms(moment);
            moves.push(if rest % 2 == 0 {
                Move::Take(at)
            } else {
                Move::Add(at)
            })?;
            rest /= 2;
        }
    }
    Ok(moves)
}

// The picks of one of the ways in which the takes can pick, and how many ways there are.
fn picks_of(
    alloc: Global,
    size: usize,
    moves: &[Move],
    way: usize,
) -> Result<(Vec<usize>, usize), AllocError> {
    let (mut picks, mut idle, mut rest, mut ways) = (Vec::new(alloc), size, way, 1usize);
    for step in moves {
        match step {
            Move::Take(_) if idle > 0 => {
                picks.push(rest % idle)?;
                rest /= idle;
                ways = ways.saturating_mul(idle);
                idle -= 1;
            }
            Move::Take(_) => {}
            Move::Add(_) => idle = idle.saturating_add(1),
        }
    }
    Ok((picks, ways))
}

// How often the three came to the same, and how often the picks lay between the two.
#[derive(Drop)]
struct Tally {
    equal: u64,
    between: u64,
}

impl Tally {
    // Goes through the ways in which the moves of this code can pick.
    fn count<R: Abort + AllocGlobal>(&mut self, rt: &R, size: usize, code: u32) {
        let idle = idle_of(rt.alloc(), size).expect(rt, "idle ones");
        let moves = moves_of(rt.alloc(), code).expect(rt, "moves");
        let ways = picks_of(rt.alloc(), size, &moves, 0).expect(rt, "picks").1;
        for way in 0..ways {
            let (picks, _) = picks_of(rt.alloc(), size, &moves, way).expect(rt, "picks");
            let beyond = self.limit_beyond(rt, &idle, &moves, &picks);
            assert_eq!(rt; beyond, None, "at {size} idle, moves {code}, way {way}");
        }
    }

    // The first of some limits at which the picks are beyond the two, if there is one.
    fn limit_beyond<R: Abort + AllocGlobal>(
        &mut self,
        rt: &R,
        idle: &[Duration],
        moves: &[Move],
        picks: &[usize],
    ) -> Option<u64> {
        for limit in [10, 30, 50, 70, 90] {
            let answer = compared(rt, idle, moves, picks, 100, limit);
            if !self.add(answer.expect(rt, "each take has its pick")) {
                return Some(limit);
            }
        }
        None
    }

    // Whether the picks are not beyond the two.
    fn add(&mut self, expired: (usize, usize, usize)) -> bool {
        let (newest_first, oldest_first, other) = expired;
        if oldest_first < other && other < newest_first {
            self.between = self.between.saturating_add(1);
        } else if oldest_first == newest_first {
            self.equal = self.equal.saturating_add(1);
        }
        oldest_first <= other && other <= newest_first
    }
}

#[test]
fn no_other_choice_is_beyond_the_two(rt: HostRuntime) {
    let mut tally = Tally {
        equal: 0,
        between: 0,
    };
    for size in 0..6 {
        for code in 1..128 {
            tally.count(&rt, size, code);
        }
    }
    assert!(rt; tally.between > 0);
    assert!(rt; tally.equal > 0);
}
