/* The line of those who wait, for waiting.pml: who stands in it, whom a step tells, and what a caller does in it. */

#define QUIET 1           /* waits, and was told nothing */
#define TOLD 2            /* waits, and was told to look */
#define SERVED 3          /* has a connection whose check is not over: it keeps its place */
byte line[CALLERS];       /* who stands in it, in order; those beyond in_line are 0 */
byte in_line;
byte is[CALLERS];         /* what each of them is; 0: it does not stand in line */
byte owed;                /* openings that were not ordered, since what was idle was kept for others */
hidden byte at, before, paid;           /* for use inside one step alone */

/* For the judge alone: who began to wait before whom. */
#define PAIR(one, other) ((one) * CALLERS + (other))
bool began_before[CALLERS * CALLERS];

/* Who uses its connection stands in line no more. */
#define HAS_LEFT (is[_pid] == 0)

/* `build` and drains wait where all do where there is no line. */
#define waits_at_it(one) (waiting[one] && (one >= CALLERS || (one == 0 && builds)))

/* Whether the one at this place waits, and is whom a step may tell. */
#define waits_in_line(one) (is[one] == QUIET || is[one] == TOLD)
#ifdef TELLS_TWICE
#define is_to_be_told(one) waits_in_line(one)
#else
#define is_to_be_told(one) (is[one] == QUIET)
#endif

/* Line::tell_next: the first of those who were told nothing is told; it is woken once the lock is free. */
inline tell(step) {
  tells = NOBODY; at = 0;
  do
#ifdef TELLS_THE_HEAD_ALONE
  :: at < in_line && is[line[at]] == SERVED -> at++
#else
  :: at < in_line && !is_to_be_told(line[at]) -> at++
#endif
  :: else -> break
  od;
  if
  :: at < in_line && is_to_be_told(line[at]) && step != NO_CALLER_AFTER -> is[line[at]] = TOLD; tells = line[at]
  :: else
  fi;
#ifdef TELLS_AND_WAKES_NOBODY
  tells = NOBODY;
#endif
  at = 0
}

/* The turn: how many wait before this caller; all who wait where it is not in line itself. */
inline look_ahead() {
  at = 0; before = 0;
  do
  :: at < in_line && line[at] != _pid -> before = before + waits_in_line(line[at]); at++
  :: else -> break
  od;
#ifdef NEWCOMERS_BARGE
  if :: is[_pid] == 0 -> before = 0 :: else fi;
#endif
  at = 0
}

/* What has to be true at each take: all who began to wait before this caller, and still wait, have an idle connection
   each. */
inline in_order() {
  at = 0;
  for (k : 0 .. CALLERS - 1) {
    at = at + (k != _pid && waits_in_line(k) && (is[_pid] == 0 || began_before[PAIR(k, _pid)]) -> 1 : 0)
  };
  assert(at < idle);
  at = 0
}

/* What is kept by each step: of those who wait the first ones, as many as connections are idle, were told. */
inline keeps() {
#ifndef IS_NOT_LOOKED_AT
  at = 0; before = 0;
  do
  :: at < in_line && before < idle ->
     assert(is[line[at]] != QUIET);
     before = before + waits_in_line(line[at]); at++
  :: else -> break
  od;
#endif
  at = 0; before = 0
}

/* Line::join, at the end */
inline join() {
  for (k : 0 .. CALLERS - 1) { began_before[PAIR(k, _pid)] = (is[k] != 0) };
  line[in_line] = _pid; in_line++;
  is[_pid] = QUIET
}

/* Line::leave: the others keep their order. */
inline leave() {
  at = 0;
  do
  :: at < in_line && line[at] != _pid -> at++
  :: else -> break
  od;
  if
  :: at < in_line ->
#ifdef THE_LAST_TAKES_ITS_PLACE
     line[at] = line[in_line - 1];
#else
     do
     :: at + 1 < in_line -> line[at] = line[at + 1]; at++
     :: else -> break
     od;
#endif
     in_line--; line[in_line] = 0;
     for (k : 0 .. CALLERS - 1) { began_before[PAIR(k, _pid)] = false; began_before[PAIR(_pid, k)] = false }
  :: else
  fi;
  is[_pid] = 0; at = 0
}

/* Orders what is owed, once nothing is idle; for no more than wait. */
inline pay() {
  paid = 0;
#ifndef OWES_NOTHING
  if
  :: idle == 0 && !closed ->
     at = 0;
     for (k : 0 .. CALLERS - 1) { at = at + waits_in_line(k) };
     paid = (owed < at -> owed : at);
     paid = (paid < room -> paid : room);
     due = due + paid; owed = 0; at = 0;
     sound()
  :: else
  fi
#endif
}

/* A take: who has a connection to check keeps its place, and waits no more. What it was told is its own, and is not passed
   on. */
inline take_in_turn() {
  in_order();
  idle--; lent++; top_up(); orders = ordered > 0;
  if
  :: CHECKS && is[_pid] != 0 -> is[_pid] = SERVED
  :: else ->
#ifdef TAKES_AS_IF_IT_GAVE_UP
     if :: is[_pid] == TOLD -> leave(); tell(TAKE) :: else -> leave() fi;
     tells = NOBODY
#else
     leave()
#endif
  fi;
  pay(); orders = orders || paid > 0;
  keeps()
}

/* A look in vain: it orders, or owes, and stands in line, told nothing. */
inline wait_in_line() {
#ifdef STAYS_TOLD
  if :: is[_pid] == 0 -> join() :: is[_pid] == SERVED -> is[_pid] = QUIET :: else fi;
#else
  if :: is[_pid] == 0 -> join() :: else -> is[_pid] = QUIET fi;
#endif
#ifdef OWES_NOTHING
  ordered = (idle == 0 && room > 0 -> 1 : 0);
  due = due + ordered; paid = ordered;
#else
  owed = (owed < SIZE -> owed + 1 : owed);
  pay();
#endif
  if :: paid > 0 -> wake_workers(MISS) :: else fi;
  keeps()
}

/* One step of a caller: Shared::lend_in_line. */
inline look_in_line() {
  look_ahead();
  if
  :: closed -> before = 0; goto gives_up
  :: !closed && before < idle -> before = 0; take_in_turn(); goto took
  :: !closed && before >= idle && IS_TRYING -> before = 0; goto calls
  :: !closed && before >= idle && !IS_TRYING && is[_pid] == 0 && in_line == LINE -> before = 0; goto calls     /* it is full */
  :: !closed && before >= idle && !IS_TRYING && !(is[_pid] == 0 && in_line == LINE) ->
     before = 0; wait_in_line();
#ifdef WAITS_AFTER_UNLOCKING
     goto unlocked
#else
     waiting[_pid] = true;
     goto asleep
#endif
  fi
}

/* Shared::give_up: who was told passes that on. */
inline give_up_in_line() {
#ifdef PASSES_ON_ONLY_WHERE_IT_IS_ITS_TURN
  look_ahead(); wakes = (is[_pid] == TOLD) && before < idle; before = 0;
#else
  wakes = (is[_pid] == TOLD);
#endif
  leave();
  if :: wakes -> tell(GIVING_UP) :: else fi;
  wakes = false;
  keeps()
}
