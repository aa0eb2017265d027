/* Who waits in a pool, and who wakes whom: the code of crates/r2d2 and crates/pool_state, as Spin can look at all
   of its interleavings. Each step names the function that it stands for. `tools/model` runs it, over a table of sizes and
   with each of the wrong bodies that stand here as switches, which it has to find.

   Spin finds no state
   - where nobody can go on and a caller or a drain sleeps, unless one who stays has what it waits for; once the pool
     is closed, no caller sleeps;
   - where nobody can go on and a worker rests while an opening is due, or after the close;
   - where connections and pending openings exceed `max_size`, or too few are idle or pending;
   - where more wait than `max_waiting` allows;
   - where a caller comes and a turn stands, though nobody is to come who was woken; or where nobody can go on and a caller
     gives way, even if its patience has no end (ENDLESS);
   - where a `get` takes while one that was woken is to come first;
   - in line, where a caller takes while one that began to wait before it has no idle connection of its own, or where one
     whose turn it is was not told.
   It also finds that three wakes are not needed, the two of a reap and an eviction's of the callers, if it counts none:
   they are kept for one common rule.

   A step under the lock is one atomic block, and the wakes that follow it are blocks of their own, since the lock is
   free by then. Callers make any number of calls, openings fail any number of times, connections come back sound or
   broken: nothing is counted, so Spin's search ends with all that can happen in a pool of these sizes.

   Where it is not the code, step for step, and why that hides no wake that is missing:
   - Steps under the lock that change nothing anybody waits for, and wake nobody, are left out: `number`, `state`,
     `status`, `journal`, `audit`, and the look at `max_size` with which an eviction begins.
   - Ids are not used up. An opening for which there is none ends as a failed one.
   - A worker that wakes has the lock at once, and looks. In the code its wait takes the lock and lets it go, and then it
     takes the lock anew: until it looks it is awake in both, and all that others do meanwhile it finds.
   - All workers who rest until a moment wake when anything falls due; in the code each wakes at the moment that it was
     told. Only a failed opening makes an earlier one, and wakes them all: that it does is found without reaps.
   - Who finds the lock taken tries again a few times before it sleeps for it (Shared::lock). Here it comes to the lock
     when that is free: nobody waits for anything else meanwhile, and whoever has the lock lets it go.
   - A caller that finds all lent looks again a few times before it waits (Shared::look_again). Here it is the last of
     these looks, at any time: those before it change nothing, and wait for nothing. Here it may look and give way any number
     of times; in the code it gives way once before its looks, and once behind them.
   - A turn may be given by each step that wakes one of those who wait (Waiters::give_turn): in the code once in a while,
     by the clock. Who gives way (Shared::give_way) may lose its patience at any time: in the code after so many looks, or
     so long. Only that ends its giving way to turn after turn, while others go on for ever: no search looks for this.
   - `close` is there as the begin of a drain alone. A second close is not there; it would but wake everybody once more.
   - A connection that outlives its pool is here a pool that its caller still has.
   tools/schedules plays the code itself, with the real variables, though by chance and not in all interleavings.

   Callers wait at one variable, or in a line, each at a variable of its own: what the line adds is in line.pml. */

#ifndef SIZE
#define SIZE 1            /* max_size */
#endif
#ifndef WANTED
#define WANTED 0          /* min_idle */
#endif
#ifndef CALLERS
#define CALLERS 2
#endif
#ifndef LINE
#define LINE 0            /* so many callers may stand in line; 0: all wait at one variable */
#endif
#ifndef ENDLESS
#define ENDLESS 0         /* 1: who gives way does so until the turn ends; 0: or loses its patience before, at any time */
#endif
#ifndef LIMIT
#define LIMIT 0           /* so many may wait at the one variable; 0: as many as come */
#endif
#ifndef WORKERS
#define WORKERS 1
#endif
#ifndef IMPATIENT
#define IMPATIENT 0       /* so many callers, the first ones, may give up any wait, or wake for no reason */
#endif
#ifndef TRYING
#define TRYING 0          /* so many, the last ones, call `try_get` */
#endif
#ifndef CALLERS_STAY
#define CALLERS_STAY 0    /* so many, the last ones, may stay for good with their connection, or in a callback */
#endif
#ifndef WORKERS_STAY
#define WORKERS_STAY 0    /* so many workers, the first ones, may stay for good in a callback */
#endif
#ifndef FAILURES
#define FAILURES 0        /* 1: openings may fail */
#endif
#ifndef CHECKS
#define CHECKS 0          /* 1: what was taken may fail its check */
#endif
#ifndef REAPS
#define REAPS 0           /* 1: connections expire */
#endif
#ifndef BUILD
#define BUILD 0           /* 1: the first caller is `build` before the others have the pool; 2: and may give up */
#endif

#ifndef EVICTS
#define EVICTS 0          /* 1: callers evict, between two calls */
#endif
#ifndef CLOSERS
#define CLOSERS 0         /* so many call `drain` while the others have the pool */
#endif
#ifndef HASTY
#define HASTY 0           /* 1: a drain may give up */
#endif

/* The steps after which somebody is woken, so that a wake can be left out: -DNO_CALLER_AFTER=KEPT */
#define KEPT 1            /* a return that was kept */
#define CLOSED 2          /* a return that was closed */
#define CHECK 3           /* a failed check */
#define REAP 4
#define ADMISSION 5
#define GIVING_UP 6
#define MISS 7            /* a take that found none */
#define TAKE 8            /* a take that found one */
#define FAILURE 9         /* a failed opening */
#define CLOSE 10          /* the last drop, or a call of `close` */
#define EVICTION 12
#ifndef NO_CALLER_AFTER
#define NO_CALLER_AFTER 0
#endif
#ifndef NO_WORKERS_AFTER
#define NO_WORKERS_AFTER 0
#endif
/* The same, where a wake of callers is counted as sent. */
#ifndef UNSENT_AFTER
#define UNSENT_AFTER 0
#endif
#define SENDS(step) (step != NO_CALLER_AFTER && step != UNSENT_AFTER)

/* The book: what the core counts. */
byte idle, lent;
byte due = WANTED;        /* scheduled openings that are due */
byte later;               /* scheduled openings that are not due yet */
byte in_work;             /* openings that a worker has, until they are admitted */
bool reap_due, closed;
#define pending (due + later + in_work)
#define connections (idle + lent)
#define room (SIZE - connections - pending)

/* The variables: that of the callers, and that of the workers. Who waits at one is awake again as soon as its place here
   says so. */
#define WAITERS (CALLERS + CLOSERS)
bool waiting[WAITERS];
bool builds;              /* caller 0 is `build`, and waits */
#define NOBODY 255
#define AWAKE 0
#define NOTHING 1         /* rests until it is woken */
#define UNTIL 2           /* or until the first moment that something falls due */
byte resting[WORKERS];

byte counted;             /* Waiters::callers: those who began to wait and have not looked again, nor given up */
byte sent;                /* Waiters::woken: wakes that were sent to them, and not taken */
bool maker_sleeps, drain_sleeps;        /* of the same name there: who waits for no connection, and was not woken */
bool turn;                /* Waiters::has_turn: one of those who were woken is to come first */
byte giving_way;          /* for the judge alone: so many give way */
byte holders = WAITERS;   /* those who hold the pool */
bool built = (BUILD == 0);
hidden byte ordered, k;   /* for use inside one step alone */

/* What is proved for each step of the book, as a test of this model. */
inline sound() {
  assert(connections + pending <= SIZE);
  assert(closed || idle + pending >= WANTED || connections + pending == SIZE)
}

/* OnOrder::top_up. Pending openings take from the room, and not from what is wanted. */
inline top_up() {
  ordered = (closed || idle >= WANTED -> 0 : (WANTED - idle < room -> WANTED - idle : room));
  due = due + ordered;
  sound()
}

/* Shared::wake, of the workers: `notify_all`. */
inline wake_workers(step) {
  if
  :: step != NO_WORKERS_AFTER ->
     for (k : 0 .. WORKERS - 1) { resting[k] = AWAKE }
  :: else
  fi
}

#define IS_IMPATIENT (_pid < IMPATIENT)
#define IS_TRYING (_pid >= CALLERS - TRYING)
#define MAY_STAY (_pid >= CALLERS - CALLERS_STAY)

#if LINE
#include "line.pml"
#else
#define waits_at_it(one) waiting[one]
#define HAS_LEFT true
#endif

/* Shared::wake, of a caller: `notify_one`, which wakes any one of those who wait at the callers' variable. */
inline wake_any(step) {
  if
  :: SENDS(step) && waits_at_it(0) -> waiting[0] = false
#if WAITERS > 1
  :: SENDS(step) && waits_at_it(1) -> waiting[1] = false
#endif
#if WAITERS > 2
  :: SENDS(step) && waits_at_it(2) -> waiting[2] = false
#endif
#if WAITERS > 3
  :: SENDS(step) && waits_at_it(3) -> waiting[3] = false
#endif
  :: else
  fi
}

/* Shared::wake, of all callers, at their variable and in line: `notify_all`. */
inline wake_callers(step) {
#ifdef CLOSE_WAKES_ONE
  wake_any(step)
#else
  if
  :: SENDS(step) ->
     for (k : 0 .. WAITERS - 1) { waiting[k] = false }
  :: else
  fi
#endif
}

/* PoolState::close */
inline close() {
  idle = 0; due = 0; later = 0; in_work = 0; reap_due = false; closed = true;
  sent = counted; maker_sleeps = false; drain_sleeps = false
#if LINE
  ; owed = 0
#endif
}

/* Waiters::begin_if and end, under the lock. */
inline begin_wait() {
#ifndef NOBODY_IS_COUNTED
  if :: !waits -> waits = true; counted++ :: else fi
#else
  skip
#endif
}
inline end_wait() {
  if :: waits -> waits = false; counted--; sent = (sent > 0 -> sent - 1 : 0) :: else fi
}

/* Waiters::wake_all, under the lock. */
inline count_all() {
  sent = counted; maker_sleeps = false; drain_sleeps = false
}

/* Waiters::give_turn and end_turn, under the lock. Those in line are not counted, and are given none. */
#ifdef GIVES_TURNS_WHERE_NOBODY_WAITS
#define IS_FOR_SOMEBODY true
#else
#define IS_FOR_SOMEBODY (counted > 0)
#endif
inline give_turn() {
  if
  :: !turn && IS_FOR_SOMEBODY -> turn = true
  :: true
  fi
}
inline end_turn() {
  turn = false
}

/* PoolState::is_anothers_turn */
#define IS_ANOTHERS_TURN (idle > 0 && turn)

/* Waiters::wake_if, under the lock: whom to wake at the callers' variable once it is free. */
#define ONE 1
#define ALL 2
#ifdef WAKES_ONLY_WHERE_TWO_WAIT
#define IS_TO_BE_WOKEN (sent + 1 < counted)
#else
#define IS_TO_BE_WOKEN (sent < counted)
#endif
#ifdef WAKES_ONE_OF_THOSE_WHO_DRAIN
#define OTHERS_SLEEP false
#else
#define OTHERS_SLEEP (maker_sleeps || drain_sleeps)
#endif
inline count_wake() {
  give_turn();
  if
  :: OTHERS_SLEEP -> count_all(); wakes = ALL
#ifdef WAKES_ONE_OF_THOSE_WHO_DRAIN
  :: maker_sleeps || drain_sleeps -> maker_sleeps = false; drain_sleeps = false; wakes = ONE
#endif
  :: !maker_sleeps && !drain_sleeps && IS_TO_BE_WOKEN -> sent++; wakes = ONE
  :: !maker_sleeps && !drain_sleeps && !IS_TO_BE_WOKEN -> wakes = 0
  fi
}

/* The end of a step under the lock that leaves something for a caller: whom it is to wake. In a line it tells one. */
inline is_for_a_caller(step) {
#if LINE
  tell(step); keeps();
#endif
  if :: step != NO_CALLER_AFTER -> count_wake() :: else fi
}

/* Shared::wake, of who waits at the callers' variable, once the lock is free. */
inline wake_caller(step) {
#if LINE
  if :: tells != NOBODY -> atomic { waiting[tells] = false; tells = NOBODY } :: else fi;
#endif
  if
  :: wakes == ONE -> atomic { wakes = 0; wake_any(step) }
  :: wakes == ALL -> atomic { wakes = 0; wake_callers(step) }
  :: else
  fi
}

/* PoolState::is_full: who may not begin to wait. Who waits is counted until it looks, and is not refused then. */
#if LIMIT
#define IS_TOO_MANY (!has_waited && counted >= LIMIT)
#define IS_DONE has_waited = false
#else
#define IS_TOO_MANY false
#define IS_DONE skip
#endif
/* Who let the lock go before its step is asked again then, if it does not wait yet. */
#if LIMIT && defined(ASKS_ONCE)
#define IS_BACK has_waited = true
#else
#define IS_BACK skip
#endif

/* What has to be true as a caller comes, and as one takes. */
#ifdef IS_NOT_LOOKED_AT
#define SOMEBODY_IS_TO_COME skip
#define PASSES_NOBODY skip
#else
#define SOMEBODY_IS_TO_COME assert(!turn || sent > 0)
#define PASSES_NOBODY assert(!turn || idle == 0 || IS_TRYING || waits)
#endif

/* AnyPool::lend_within, the drop of what was lent, and the drop of the pool. */
active [CALLERS] proctype caller() {
  bool orders;            /* the step just made has ordered openings */
  byte wakes;             /* whom it is to wake at the callers' variable */
  bool waits;             /* this caller is among those who are counted */
#if LINE
  byte tells = NOBODY;    /* whom the step just made has told */
#endif
#if LIMIT
  bool has_waited;        /* it began to wait since its latest take */
#endif
#if BUILD
  if
  :: _pid == 0 ->
building: /* Shared::wait_for_build: it looks, and waits again, until there are as many as are wanted */
     atomic {
       if
       :: connections >= WANTED -> built = true; builds = false; goto calls
       :: else -> maker_sleeps = true; waiting[_pid] = true; builds = true
       fi
     };
     if
     :: !waiting[_pid] -> goto building
     :: BUILD == 2 ->      /* `build` drops the pool that nobody else has */
        atomic { waiting[_pid] = false; builds = false; holders = 1 };
        goto let_go
     fi
  :: else ->
     if :: built :: closed -> goto gone fi
  fi;
#endif

calls: /* between two calls */
  if
  :: goto look
  :: EVICTS -> goto evicts
  :: goto let_go
  fi;

evicts: /* Shared::evict: what is lent then is closed as it comes back, as each that comes back may be here anyway */
  atomic {
    do
    :: idle > 0 -> idle--; lent++; top_up(); lent--; top_up()       /* CountingBook::evict_next */
    :: else -> break
    od;
#if NO_CALLER_AFTER != EVICTION
    count_all()
#endif
  };
  atomic { wake_callers(EVICTION) };
  atomic { wake_workers(EVICTION) };
  if :: MAY_STAY -> goto stays :: true fi;                          /* Hooks::release */
  goto calls;

look: /* Shared::lend_until, of one that comes; of a `try_get` lend_once, of which a miss makes no step */
#ifdef WAKES_BEFORE_THE_STEP
  atomic { wake_workers(MISS) };
#endif
#if LINE
woken:
  atomic { look_in_line() };
#else
  atomic {
    SOMEBODY_IS_TO_COME;
    if
    :: IS_TRYING -> goto step
#ifndef NOBODY_GIVES_WAY
    :: !IS_TRYING && IS_ANOTHERS_TURN -> giving_way++; goto gives_way
#endif
    :: !IS_TRYING && idle == 0 && !closed && IS_TOO_MANY -> goto calls
    :: else -> goto looks
    fi;
woken: /* Shared::wait_for_turn: it has the lock again */
#ifdef WAKES_AFTER_THE_WAIT
    wake_workers(MISS);
#endif
#ifndef TURNS_OUTLAST_A_WAIT
    end_turn();
#endif
looks: /* Shared::look_again: where all are lent, it lets the lock go, unless it is hurried */
    if
    :: idle == 0 && lent > 0 && !closed -> goto looks_again
    :: true
    fi;
step: /* PoolState::look, or look_again */
    PASSES_NOBODY;
    end_wait();
    if
    :: idle > 0 -> idle--; lent++; top_up(); orders = ordered > 0; IS_DONE; goto took
    :: idle == 0 && IS_TRYING -> goto calls
#ifndef WAITS_WHERE_IT_IS_CLOSED
    :: idle == 0 && !IS_TRYING && closed -> IS_DONE; goto calls
    :: idle == 0 && !IS_TRYING && !closed && IS_TOO_MANY -> IS_DONE; goto calls
    :: idle == 0 && !IS_TRYING && !closed && !IS_TOO_MANY ->
#else
    :: idle == 0 && !IS_TRYING ->
#endif
       ordered = (!closed && room > 0 -> 1 : 0);
       due = due + ordered;
       sound();
       /* Woken while the lock is still held, and then the wait lets it go: nobody can step in between. */
#if !defined(WAKES_BEFORE_THE_STEP) && !defined(WAKES_AFTER_THE_WAIT)
       if :: ordered > 0 -> wake_workers(MISS) :: else fi;
#endif
       begin_wait();
#if LIMIT
       has_waited = true;
       assert(counted <= LIMIT);
#endif
#ifdef WAITS_AFTER_UNLOCKING
       goto unlocked
#else
       waiting[_pid] = true;
       goto asleep
#endif
    fi
  };

gives_way: /* Shared::give_way, where it has let the lock go */
  if
  :: atomic { !IS_ANOTHERS_TURN -> giving_way--; IS_BACK; goto looks }
#if !ENDLESS
  :: atomic {
       turn -> giving_way--; IS_BACK;
#ifndef LOST_PATIENCE_ENDS_NO_TURN
       end_turn();
#endif
       goto looks
     }
#endif
  fi;

looks_again: /* the last look of Shared::look_again: one that was woken before, and was passed, gives way to nobody */
  if
  :: atomic {
       if
#if !defined(TURNS_OUTLAST_A_WAIT) && !defined(TURNS_OUTLAST_A_LOOK)
       :: waits -> end_turn()                                       /* once more: one may have been given meanwhile */
#endif
#if !defined(NOBODY_GIVES_WAY) && !defined(LOOKS_GIVE_NO_WAY)
       :: !waits && IS_ANOTHERS_TURN -> IS_BACK; giving_way++; goto gives_way
       :: !waits && !IS_ANOTHERS_TURN -> IS_BACK
#else
       :: !waits -> IS_BACK
#endif
       :: else
       fi;
       goto step
     }
  fi;
#endif

#ifdef WAITS_AFTER_UNLOCKING
unlocked:
  waiting[_pid] = true;
#endif

asleep: /* Condvar::wait_timeout: who is impatient may be told of a timeout whether or not it was woken */
end_asleep:
  if
  :: atomic { !waiting[_pid] -> goto woken }
  :: atomic { IS_IMPATIENT && waiting[_pid] -> waiting[_pid] = false; goto asleep }
  :: atomic { IS_IMPATIENT -> waiting[_pid] = false; goto gives_up }
#ifdef LOOKS_UNCOUNTED
  :: atomic { waits && !waiting[_pid] -> end_wait(); goto asleep }
#endif
  fi;

gives_up: /* PoolState::give_up_wait or give_up_late, then Shared::give_up, which takes the latest error */
#if LINE
  atomic { give_up_in_line() };
#else
  atomic {
#ifndef TURNS_OUTLAST_A_TIMEOUT
    if :: waits -> end_turn() :: else fi;
#endif
    end_wait(); IS_DONE;
#ifdef PASSES_ON_ONLY_WHERE_ONE_IS_IDLE
    if :: idle > 0 -> count_wake() :: else fi
#else
    count_wake()
#endif
  };
#endif
  wake_caller(GIVING_UP);
  goto calls;

took: /* Shared::wake, after a take that found */
  if :: orders -> atomic { orders = false; wake_workers(TAKE) } :: else fi;

has: /* Shared::if_sound, then the caller's own use, then AnyConnection::drop */
  if
  :: MAY_STAY -> goto stays
#if LINE
  :: atomic { is[_pid] != 0 -> leave(); keeps() };                  /* its check is over: Shared::leave */
     goto has
#endif
  :: atomic { CHECKS -> lent--; top_up(); orders = ordered > 0; is_for_a_caller(CHECK) };  /* PoolState::fail_check; and of one that is distrusted, give_back */
     wake_caller(CHECK);
     if :: orders -> atomic { orders = false; wake_workers(CHECK) } :: else fi;
     if :: MAY_STAY -> goto stays :: true fi;                       /* Hooks::release */
     if
     :: goto look
     :: IS_IMPATIENT -> goto gives_up                               /* Shared::give_up_if_late */
     :: IS_TRYING -> goto calls                                     /* CallTime::may_take */
     fi
  :: atomic { HAS_LEFT && !closed -> lent--; idle++; sound(); is_for_a_caller(KEPT) };     /* Shared::give_back, kept */
     wake_caller(KEPT)
  :: atomic { HAS_LEFT -> lent--; top_up(); orders = ordered > 0; is_for_a_caller(CLOSED) };  /* Shared::give_back, closed; or AnyConnection::detach */
     wake_caller(CLOSED);
     if :: orders -> atomic { orders = false; wake_workers(CLOSED) } :: else fi;
     if :: MAY_STAY -> goto stays :: true fi                        /* Hooks::release */
  fi;
  goto calls;

stays: /* for good */
end_stays:
  false;

let_go: /* Closer::drop, where it was the last one, and Shared::close */
  atomic {
    holders--;
    if :: holders > 0 -> goto gone :: else fi
  };
  atomic { close() };
#ifdef DROPS_BEFORE_IT_WAKES
  if :: MAY_STAY -> goto stays :: true fi;
#endif
  atomic { wake_callers(CLOSE) };
  atomic { wake_workers(CLOSE) };
  if :: MAY_STAY -> goto stays :: true fi;   /* Closer::drop: what was idle is dropped */
gone:
  skip
}

#define PLACE (_pid - CALLERS)
#define WORKER_MAY_STAY (PLACE < WORKERS_STAY)

/* Shared::work */
active [WORKERS] proctype worker() {
  bool orders, closes;    /* what the reap just made has done */
  byte wakes;             /* whom the step just made is to wake at the callers' variable */
#if LINE
  byte tells = NOBODY;    /* whom it has told */
#endif
begins: /* PoolState::begin; what is closed has nothing due any more */
  atomic {
    if
    :: closed -> goto ended
    :: due > 0 -> due--; in_work++; goto opens
    :: reap_due ->                                                  /* PoolState::reap, under the same lock */
       reap_due = false;
       do
       :: idle > 0 -> idle--; closes = true
       :: break
       od;
       top_up(); orders = ordered > 0;
       if :: closes -> is_for_a_caller(REAP) :: else fi;
       closes = false;
       goto reaped
    :: !closed && due == 0 && !reap_due ->
#ifdef RESTS_AFTER_UNLOCKING
       goto unlocked
#else
       resting[PLACE] = (later > 0 || REAPS -> UNTIL : NOTHING);
       goto rests
#endif
    fi
  };

#ifdef RESTS_AFTER_UNLOCKING
unlocked:
  resting[PLACE] = (later > 0 || REAPS -> UNTIL : NOTHING);
  goto rests;
#endif

opens: /* Shared::open: the manager, the customizer, and the event between the number and the admission */
  if
  :: WORKER_MAY_STAY -> goto stays
  :: atomic {                                                       /* Shared::admit, of one that was opened */
       if :: closed -> goto begins :: else -> in_work--; idle++; sound(); is_for_a_caller(ADMISSION) fi
     };
     wake_caller(ADMISSION)
  :: FAILURES ->
     atomic {                                                       /* Shared::fail */
       if :: closed -> goto begins :: else -> in_work--; later++; sound() fi
     };
     atomic { wake_workers(FAILURE) };
     if :: WORKER_MAY_STAY -> goto stays :: true fi                 /* the handler of errors */
  fi;
  goto begins;

reaped: /* Shared::wake, then Shared::release_expired. Nobody would miss these two wakes: no worker rests beyond the next reap,
           and where a caller sleeps while a connection is idle, another wake is still to reach it. */
  wake_caller(REAP);
  if :: orders -> atomic { orders = false; wake_workers(REAP) } :: else fi;
  if :: WORKER_MAY_STAY -> goto stays :: true fi;
  goto begins;

rests: /* Condvar::wait and wait_timeout */
end_rests:
  resting[PLACE] == AWAKE;
  goto begins;

stays:
end_stays:
  false;

ended:
  skip
}

/* Time goes on: the opening that is due first falls due, or the next reap does. Nobody who rests until a moment rests
   longer than until then, so all of them wake. */
inline wake_those_whose_moment_it_is() {
  for (k : 0 .. WORKERS - 1) {
    if :: resting[k] == UNTIL -> resting[k] = AWAKE :: else fi
  }
}

active proctype clock() {
end_before_the_last_reap:
  do
  :: atomic { later > 0 -> later--; due++; wake_those_whose_moment_it_is() }
  :: atomic { REAPS && !closed && !reap_due -> reap_due = true; wake_those_whose_moment_it_is() }
  :: REAPS -> break       /* the next reap lies beyond all that is looked at */
  od;
end_after_it:
  do
  :: atomic { later > 0 -> later--; due++; wake_those_whose_moment_it_is() }
  od
}

/* Where nobody can go on any more: no caller sleeps unless all connections are with those who stay for good, and no
   worker rests while an opening is due, or once the pool is closed. */
active proctype judge() {
  byte asleep, draining;
  atomic {
    timeout ->
    for (k : 0 .. CALLERS - 1) { asleep = asleep + waiting[k] };
#if LINE
    for (k : 0 .. CALLERS - 1) { assert((is[k] == QUIET || is[k] == TOLD) == (waiting[k] && !(k == 0 && builds))) };
#endif
    assert(giving_way == 0);
    assert(asleep == 0 || (!closed && built && idle == 0 && due == 0 && (lent + in_work == SIZE || asleep <= in_work)));
    for (k : 0 .. WORKERS - 1) { assert(resting[k] == AWAKE || (!closed && due == 0)) }
#if CLOSERS
    for (k : CALLERS .. WAITERS - 1) { draining = draining + waiting[k] };
    assert(draining == 0 || lent > 0)
#endif
  }
}

#if CLOSERS
#define SEAT (_pid - WORKERS - 2)

/* AnyPool::drain, by one who has the pool as the callers do. */
active [CLOSERS] proctype closer() {
  atomic { close() };                                               /* Shared::close */
  atomic { wake_callers(CLOSE) };
  atomic { wake_workers(CLOSE) };

looks: /* Shared::wait_for_returns: whoever drains is woken by each return, and all are */
  atomic {
    if
    :: lent == 0 -> goto drained
    :: lent > 0 -> drain_sleeps = true; waiting[SEAT] = true
    fi
  };
end_draining:
  if
  :: !waiting[SEAT] -> goto looks
  :: HASTY -> waiting[SEAT] = false
  fi;

drained:
  holders--                                                         /* what is closed has nothing more to close */
}
#endif
