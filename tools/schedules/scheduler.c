/* Plays a program under many schedules, each chosen by a seed. It is put before the C library by
   LD_PRELOAD, and the program is the one that users have: nothing in it knows of this.

   All threads are played on one, each on a stack of its own, so that no turn waits for the kernel.
   At each *point* the scheduler chooses who goes on; between two points a thread runs alone. A
   point is a wait or a wake of the futex call, which all locks and variables of the toolchain rest
   on; a reading of the clock; a sleep; a yield; the end of a thread; and where POINTS names them,
   each locked instruction of the program, before and after it.

   What it takes over: pthread_create, pthread_join and pthread_detach; `syscall`, by which the
   toolchain makes the futex call; clock_gettime; nanosleep and clock_nanosleep; sched_yield; _exit;
   and `write` to the standard output. All other, memory too, is the C library's.

   Who goes on is drawn at each point in every other schedule; in the others the one of highest
   priority does, and priorities change at a few points, which finds what wants few changes at the
   right places. Whom a wake of one reaches is always drawn.

   Time is the scheduler's own, so what the program reads is exact. It goes on, to the next
   deadline, where nobody can go on. Up to three times in a schedule it also goes on before, as on a
   machine that is slow, most often where one who was woken in time would then find its time run
   out. It never passes the end of a LONG wait while anything else can happen: who waits that long
   is told of a timeout only where nobody would ever have woken it.

   What a program can ask for:
   - The wall clock shows seconds that are drawn from CHANCES, so that what a manager answers is
     part of the schedule. Its nanoseconds are how often time went on before it had to.
   - A sleep of WATCH seconds ends where nobody else can go on, before time does. Who wakes so
     looks at what there is, and is not cut short.
   - What it writes to the standard output is shown only where the steps are told, beside them.

   With YIELD_TAKES=MICROSECONDS a thread that yields goes on after so long: a second, as on a busy
   machine, or so little that all who can go on do before it. Nobody who watches is woken meanwhile.

   SCHEDULES=FIRST:COUNT names the seeds. Each is played in a child, forked before `main`, until one
   has a fault: a status other than 0, or
   - 99: nobody can go on, and nobody waits for a moment;
   - 98: there is no end of points;
   - 95: threads are left 100 s after `main` returned.
   Then a line `fault SEED STATUS: WHY` is written to the standard error. The last line is
   `schedules N, distinct D`. TOLD=1 writes a line for each step to the standard output. */
#define _GNU_SOURCE
#include <errno.h>
#include <limits.h>
#include <link.h>
#include <linux/futex.h>
#include <poll.h>
#include <pthread.h>
#include <signal.h>
#include <stdarg.h>
#include <stdbool.h>
#include <stdint.h>
#include <stdio.h>
#include <stdlib.h>
#include <string.h>
#include <sys/mman.h>
#include <sys/prctl.h>
#include <sys/syscall.h>
#include <sys/wait.h>
#include <time.h>
#include <ucontext.h>
#include <unistd.h>

typedef int64_t nanoseconds;
#define SECOND 1000000000LL
#define BEGIN (1000 * SECOND)
#define NEVER INT64_MAX
#define LONG (99 * SECOND)
#define LAST (BEGIN + 200000 * SECOND)
#define WATCH 77777
#define CHANCES 12
#define MOST_THREADS 24
#define STACK (1 << 20)
#define PAGE 4096
#define MOST_POINTS 400000
#define STUCK 99
#define ENDLESS 98
#define LEFT 95
#define BROKEN 94 /* the scheduler, or what it rests on */

enum state { READY, PARKED, SLEEPING, YIELDING, WATCHING, JOINING, ENDED };
static const char *const state_names[] = {"can go on", "waits",         "sleeps",   "yields",
                                          "watches",   "joins another", "has ended"};

struct thread {
    enum state state;
    nanoseconds until; /* where it is parked or sleeps: its deadline, or NEVER */
    nanoseconds
        unread;   /* the deadline of a wait that it began, until it reads the clock: by then it
                           may be past it, though it was woken */
    bool is_long; /* that is so far off that it comes only where nobody can go on */
    bool is_timed_out;
    bool does_watch;
    uint32_t *word; /* where it is parked */
    int joined;     /* which it joins */
    long priority;
    ucontext_t context; /* where it goes on */
    void *(*start)(void *);
    void *given;
};
static struct thread threads[MOST_THREADS];
static int thread_count;
static int me = -1;
static bool is_on, is_told, is_main_over, is_watched;
static nanoseconds now = BEGIN, yield_takes;
static long points;

/* Of this schedule. */
static uint64_t random_state;
static bool by_priority;
static int switch_in, jump_in, change_in, jumps_left, changes_left, jumps_made;

/* What a child leaves to its parent. */
static struct shared {
    uint64_t trace;
    size_t length;
    char why[2000];
} *shared;

/* -- The words of others -- */

static long kernel(long number, long a, long b, long c, long d, long e, long f) {
    long answer;
    register long r10 __asm__("r10") = d;
    register long r8 __asm__("r8") = e;
    register long r9 __asm__("r9") = f;
    __asm__ volatile("syscall"
                     : "=a"(answer)
                     : "a"(number), "D"(a), "S"(b), "d"(c), "r"(r10), "r"(r8), "r"(r9)
                     : "rcx", "r11", "memory");
    return answer;
}

static long with_errno(long answer) {
    if (answer >= 0 || answer <= -4096)
        return answer;
    errno = (int)-answer;
    return -1;
}

static void end_with(int status) {
    kernel(SYS_exit_group, status, 0, 0, 0, 0, 0);
    __builtin_unreachable();
}

static void note(const char *form, ...) {
    va_list values;
    va_start(values, form);
    size_t room = sizeof shared->why - shared->length;
    int wanted = vsnprintf(shared->why + shared->length, room, form, values);
    shared->length += (size_t)wanted < room ? (size_t)wanted : room - 1;
    va_end(values);
}

static void fail(int status, const char *why) {
    note("%s at %.3f s:", why, (double)(now - BEGIN) / SECOND);
    for (int i = 0; i < thread_count; i++)
        note(" thread %d %s%s", i, state_names[threads[i].state], i + 1 < thread_count ? "," : ".");
    if (is_told)
        dprintf(1, "%s\n", shared->why);
    end_with(status);
}

/* One line of what is told. */
static void tell(const char *form, ...) {
    if (!is_told)
        return;
    char line[300];
    va_list values;
    va_start(values, form);
    vsnprintf(line, sizeof line, form, values);
    va_end(values);
    dprintf(1, "%10.3f  thread %d: %s\n", (double)(now - BEGIN) / SECOND, me, line);
}

/* A number for each word that is waited at, in the order in which they were first seen. */
static int number_of(uint32_t *word) {
    static uint32_t *seen[64];
    int i = 0;
    while (i < 63 && seen[i] && seen[i] != word)
        i++;
    seen[i] = word;
    return i;
}

/* -- Chance -- */

static uint64_t drawn(void) {
    uint64_t it = random_state += 0x9e3779b97f4a7c15ULL;
    it = (it ^ (it >> 30)) * 0xbf58476d1ce4e5b9ULL;
    it = (it ^ (it >> 27)) * 0x94d049bb133111ebULL;
    return it ^ (it >> 31);
}

static void trace(int what) {
    shared->trace = (shared->trace ^ (unsigned)what) * 0x100000001b3ULL;
}

/* One of so many things, which makes another schedule. */
static int one_of(int count) {
    int it = (int)(drawn() % (unsigned)count);
    trace(it + 1);
    return it;
}

/* -- Time -- */

static bool has_deadline(const struct thread *it) {
    return it->state == PARKED || it->state == SLEEPING || it->state == YIELDING;
}

/* The next deadline of all, where nobody can go on. */
static nanoseconds next_deadline(void) {
    nanoseconds next = NEVER;
    for (int i = 0; i < thread_count; i++)
        if (has_deadline(&threads[i]) && threads[i].until < next)
            next = threads[i].until;
    return next;
}

/* The next one to which time may go on though somebody can go on, also that of one who was woken
 * and has yet to read the clock. */
static nanoseconds next_early_deadline(void) {
    nanoseconds next = NEVER, first_long = NEVER;
    for (int i = 0; i < thread_count; i++) {
        const struct thread *it = &threads[i];
        nanoseconds deadline = has_deadline(it)                         ? it->until
                               : it->state == READY && it->unread > now ? it->unread
                                                                        : NEVER;
        if (it->state == YIELDING)
            continue;
        if (has_deadline(it) && it->is_long)
            first_long = deadline < first_long ? deadline : first_long;
        else
            next = deadline < next ? deadline : next;
    }
    return first_long <= next ? NEVER : next;
}

static void let_time_go_on(nanoseconds to, const char *how) {
    now = to > now ? to : now;
    trace(0x77);
    if (is_told)
        dprintf(1, "%10.3f  time goes on%s\n", (double)(now - BEGIN) / SECOND, how);
    for (int i = 0; i < thread_count; i++) {
        struct thread *it = &threads[i];
        if (has_deadline(it) && it->until <= now) {
            it->is_timed_out = it->state == PARKED;
            it->state = READY;
        }
    }
}

static void let_time_go_on_early(void) {
    nanoseconds next = next_early_deadline();
    if (next == NEVER)
        return;
    jumps_left--;
    jumps_made++;
    let_time_go_on(next, ", though somebody can go on");
}

/* -- Who goes on -- */

static int find_ready(int *ready) {
    int count = 0;
    for (int i = 0; i < thread_count; i++)
        if (threads[i].state == READY)
            ready[count++] = i;
    return count;
}

static bool wake_watchers(void) {
    bool is_any = false;
    for (int i = 0; i < thread_count; i++)
        if (threads[i].state == YIELDING)
            return false;
    for (int i = 0; i < thread_count; i++)
        if (threads[i].state == WATCHING) {
            threads[i].state = READY;
            is_any = true;
        }
    return is_any;
}

/* Whether one of the threads from this one on has not ended. */
static bool is_any_left(int first) {
    for (int i = first; i < thread_count; i++)
        if (threads[i].state != ENDED)
            return true;
    return false;
}

/* Nobody can go on: first those who watch for that may, and then time does. */
static void go_on_somehow(void) {
    is_watched = !is_watched && wake_watchers();
    if (is_watched)
        return;
    nanoseconds next = next_deadline();
    if (next != NEVER && now <= LAST)
        let_time_go_on(next, "");
    else if (is_any_left(0))
        fail(STUCK, "nobody can go on");
    else
        end_with(0);
}

static int chosen_of(const int *ready, int count, bool can_go_on) {
    int first = ready[0];
    if (!by_priority)
        return can_go_on && drawn() % (unsigned)switch_in ? me : ready[drawn() % (unsigned)count];
    for (int i = 1; i < count; i++)
        if (threads[ready[i]].priority > threads[first].priority)
            first = ready[i];
    return first;
}

static int next_to_go_on(bool can_go_on) {
    int ready[MOST_THREADS], count;
    while ((count = find_ready(ready)) == 0)
        go_on_somehow();
    if (!can_go_on && count == 1)
        return ready[0];
    int next = chosen_of(ready, count, can_go_on);
    trace(next + 10);
    return next;
}

static void hand_over(int next) {
    ucontext_t *from = &threads[me].context;
    me = next;
    swapcontext(from, &threads[next].context);
}

/* Whether one was woken in time, and may yet find that its time has run out. */
static bool may_be_late(void) {
    for (int i = 0; i < thread_count; i++)
        if (threads[i].state == READY && threads[i].unread > now)
            return true;
    return false;
}

static void step_down(void) {
    threads[me].priority = -points;
}

/* A point. One who cannot go on has said so in its state. */
static void point(bool can_go_on) {
    struct thread *self = &threads[me];
    if (can_go_on && is_watched && self->does_watch)
        return;
    if (++points > MOST_POINTS)
        fail(ENDLESS, "no end of points");
    if (jumps_left > 0 && drawn() % (unsigned)(may_be_late() ? 4 : jump_in) == 0)
        let_time_go_on_early();
    if (by_priority && changes_left > 0 && drawn() % (unsigned)change_in == 0) {
        changes_left--;
        step_down();
    }
    int next = next_to_go_on(can_go_on);
    if (next != me)
        hand_over(next);
}

/* -- Threads -- */

static int add_thread(void) {
    if (thread_count == MOST_THREADS)
        fail(BROKEN, "too many threads");
    threads[thread_count] = (struct thread){
        .state = READY, .until = NEVER, .joined = -1, .priority = 1 + (long)(drawn() % 1000000)};
    return thread_count++;
}

static void run_thread(void) {
    struct thread *self = &threads[me];
    tell("begins");
    self->start(self->given);
    tell("ends");
    self->state = ENDED;
    for (int i = 0; i < thread_count; i++)
        if (threads[i].state == JOINING && threads[i].joined == me)
            threads[i].state = READY;
    is_watched = false;
    point(false);
}

/* A stack, below which nothing may be written. */
static void *new_stack(void) {
    void *stack = mmap(NULL, STACK, PROT_READ | PROT_WRITE, MAP_PRIVATE | MAP_ANONYMOUS, -1, 0);
    if (stack == MAP_FAILED || mprotect(stack, PAGE, PROT_NONE))
        fail(BROKEN, "no stack for a thread");
    return stack;
}

/* A thread's name is its number. */
int pthread_create(pthread_t *thread, const pthread_attr_t *settings, void *(*start)(void *),
                   void *given) {
    (void)settings;
    if (!is_on)
        exit(BROKEN);
    int i = add_thread();
    *thread = (pthread_t)i;
    threads[i].start = start;
    threads[i].given = given;
    getcontext(&threads[i].context);
    threads[i].context.uc_stack = (stack_t){.ss_sp = new_stack(), .ss_size = STACK};
    makecontext(&threads[i].context, run_thread, 0);
    return 0;
}

int pthread_join(pthread_t thread, void **value) {
    (void)value;
    if (threads[thread].state != ENDED) {
        tell("joins thread %d", (int)thread);
        threads[me].state = JOINING;
        threads[me].joined = (int)thread;
        is_watched = false;
        point(false);
    }
    return 0;
}

int pthread_detach(pthread_t thread) {
    (void)thread;
    return 0;
}

int sched_yield(void) {
    if (is_on && me >= 0) {
        step_down();
        if (yield_takes > 0) {
            threads[me].state = YIELDING;
            threads[me].until = now + yield_takes;
        }
        point(yield_takes == 0);
    }
    return 0;
}

/* -- Waits and wakes -- */

/* Where its deadline is over already, it does not wait at all. */
static bool has_deadline_passed(struct thread *self, const struct timespec *limit) {
    self->until = NEVER;
    if (!limit || limit->tv_sec > LAST / SECOND)
        return false;
    nanoseconds length = limit->tv_sec * SECOND + limit->tv_nsec;
    self->until = now + length;
    self->is_long = length >= LONG;
    self->unread = self->is_long ? 0 : self->until;
    return length <= 0;
}

static long wait_at(uint32_t *word, uint32_t value, const struct timespec *limit) {
    struct thread *self = &threads[me];
    point(true);
    if (__atomic_load_n(word, __ATOMIC_SEQ_CST) != value)
        return -EAGAIN;
    if (has_deadline_passed(self, limit))
        return -ETIMEDOUT;
    if (self->until == NEVER)
        tell("waits at word %d", number_of(word));
    else
        tell("waits at word %d until %.3f", number_of(word),
             (double)(self->until - BEGIN) / SECOND);
    self->state = PARKED;
    self->word = word;
    self->is_timed_out = false;
    point(false);
    tell(self->is_timed_out ? "goes on, since its wait is over" : "goes on, since it was woken");
    return self->is_timed_out ? -ETIMEDOUT : 0;
}

static int find_parked(const uint32_t *word, int *parked) {
    int count = 0;
    for (int i = 0; i < thread_count; i++)
        if (threads[i].state == PARKED && threads[i].word == word)
            parked[count++] = i;
    return count;
}

static long wake_at(uint32_t *word, uint32_t most) {
    int parked[MOST_THREADS], count;
    long woken = 0;
    point(true);
    for (; woken < most && (count = find_parked(word, parked)) > 0; woken++) {
        int it = parked[one_of(count)];
        tell("wakes thread %d at word %d", it, number_of(word));
        threads[it].state = READY;
        is_watched = false;
    }
    if (woken == 0)
        tell("wakes nobody at word %d", number_of(word));
    return woken;
}

static long futex(uint32_t *word, int what, uint32_t value, const struct timespec *limit) {
    switch (what & FUTEX_CMD_MASK) {
    case FUTEX_WAIT:
        return wait_at(word, value, limit);
    case FUTEX_WAKE:
        return wake_at(word, value);
    }
    fail(BROKEN, "another futex call than a wait and a wake");
    return 0;
}

long syscall(long number, ...) {
    va_list list;
    va_start(list, number);
    long given[6];
    for (int i = 0; i < 6; i++)
        given[i] = va_arg(list, long);
    va_end(list);
    if (is_on && me >= 0 && number == SYS_futex)
        return with_errno(futex((uint32_t *)given[0], (int)given[1], (uint32_t)given[2],
                                (const struct timespec *)given[3]));
    return with_errno(kernel(number, given[0], given[1], given[2], given[3], given[4], given[5]));
}

/* -- Clocks, sleeps and words -- */

int clock_gettime(clockid_t which, struct timespec *at) {
    if (!is_on || me < 0)
        return (int)with_errno(kernel(SYS_clock_gettime, which, (long)at, 0, 0, 0, 0));
    if (which == CLOCK_REALTIME) {
        *at = (struct timespec){.tv_sec = one_of(CHANCES), .tv_nsec = jumps_made};
        return 0;
    }
    point(true);
    *at = (struct timespec){.tv_sec = now / SECOND, .tv_nsec = now % SECOND};
    threads[me].unread = 0;
    tell("reads the clock");
    return 0;
}

static void sleep_until(nanoseconds until, bool is_long) {
    struct thread *self = &threads[me];
    is_watched = false;
    self->state = SLEEPING;
    self->until = until;
    self->is_long = is_long;
    self->unread = 0;
    point(false);
}

int nanosleep(const struct timespec *length, struct timespec *left) {
    if (!is_on || me < 0)
        return (int)with_errno(kernel(SYS_nanosleep, (long)length, (long)left, 0, 0, 0, 0));
    if (length->tv_sec == WATCH) {
        threads[me].does_watch = true;
        threads[me].state = WATCHING;
        point(false);
    } else {
        nanoseconds until = now + length->tv_sec * SECOND + length->tv_nsec;
        tell("sleeps until %.3f", (double)(until - BEGIN) / SECOND);
        sleep_until(until, until - now >= LONG);
    }
    return 0;
}

int clock_nanosleep(clockid_t which, int flags, const struct timespec *length,
                    struct timespec *left) {
    (void)which, (void)flags;
    return nanosleep(length, left) ? errno : 0;
}

ssize_t write(int file, const void *text, size_t length) {
    if (file != 1 || !is_on || me < 0)
        return with_errno(kernel(SYS_write, file, (long)text, (long)length, 0, 0, 0));
    tell("%.*s", (int)length - (length > 0 && ((const char *)text)[length - 1] == '\n'),
         (const char *)text);
    return (ssize_t)length;
}

/* -- Points at locked instructions -- */

/* A breakpoint stands in the place of each. It runs in a slot of its own, with a second breakpoint
 * behind it. */
#define SLOT 64
struct spot {
    uintptr_t at;
    unsigned length;
};
static struct spot *spots;
static size_t spot_count;
static unsigned char *slots;

static int note_base(struct dl_phdr_info *info, size_t size, void *base) {
    (void)size;
    *(uintptr_t *)base = info->dlpi_addr;
    return 1;
}

static int by_place(const void *one, const void *other) {
    uintptr_t a = ((const struct spot *)one)->at, b = ((const struct spot *)other)->at;
    return a < b ? -1 : a > b;
}

static void at_breakpoint(int signal_number, siginfo_t *info, void *given) {
    (void)signal_number, (void)info;
    greg_t *next = &((ucontext_t *)given)->uc_mcontext.gregs[REG_RIP];
    uintptr_t at = (uintptr_t)*next - 1;
    int before = errno;
    size_t slot = (at - (uintptr_t)slots) / SLOT;
    bool is_behind = at >= (uintptr_t)slots && slot < spot_count;
    struct spot key = {.at = at},
                *it = is_behind ? &spots[slot]
                                : bsearch(&key, spots, spot_count, sizeof key, by_place);
    if (!it)
        fail(BROKEN, "a breakpoint of another");
    if (is_on && me >= 0) {
        point(true);
        tell(is_behind ? "goes on behind a locked instruction" : "comes to a locked instruction");
    }
    *next =
        (greg_t)(is_behind ? it->at + it->length : (uintptr_t)slots + SLOT * (size_t)(it - spots));
    errno = before;
}

static void put_breakpoint(struct spot *it, unsigned char *slot) {
    memcpy(slot, (void *)it->at, it->length);
    slot[it->length] = 0xcc;
    void *page = (void *)(it->at & ~(uintptr_t)(PAGE - 1));
    if (mprotect(page, PAGE, PROT_READ | PROT_WRITE | PROT_EXEC))
        fail(BROKEN, "no breakpoint can be put");
    *(unsigned char *)it->at = 0xcc;
    mprotect(page, PAGE, PROT_READ | PROT_EXEC);
}

/* The file has the place of each in the program, in order, and its length. */
static void put_breakpoints(const char *name) {
    const size_t most = 20000;
    FILE *file = fopen(name, "r");
    uintptr_t base = 0;
    dl_iterate_phdr(note_base, &base);
    spots = calloc(most, sizeof *spots);
    while (file && spot_count < most &&
           fscanf(file, "%lx %u", &spots[spot_count].at, &spots[spot_count].length) == 2)
        spots[spot_count++].at += base;
    slots = mmap(NULL, SLOT * most, PROT_READ | PROT_WRITE | PROT_EXEC, MAP_PRIVATE | MAP_ANONYMOUS,
                 -1, 0);
    if (!spot_count || slots == MAP_FAILED)
        exit(BROKEN);
    fclose(file);
    for (size_t i = 0; i < spot_count; i++)
        put_breakpoint(&spots[i], slots + SLOT * i);
    struct sigaction action = {.sa_sigaction = at_breakpoint, .sa_flags = SA_SIGINFO | SA_NODEFER};
    sigaction(SIGTRAP, &action, NULL);
}

/* -- A schedule -- */

static void begin_schedule(uint64_t seed) {
    random_state = seed * 0x2545f4914f6cdd1dULL + 12345;
    by_priority = seed % 2;
    switch_in = (int[]){1, 2, 4, 12}[drawn() % 4];
    jump_in = (int[]){8, 20, 50, 150}[drawn() % 4];
    change_in = (int[]){20, 60, 200}[drawn() % 3];
    jumps_left = (int)(drawn() % 4);
    changes_left = 1 + (int)(drawn() % 6);
    me = add_thread();
    is_on = true;
}

/* `main` has returned: all others are to end too. */
static void await_all(void) {
    if (!is_on || me != 0 || is_main_over)
        return;
    is_main_over = true;
    while (is_any_left(1)) {
        nanoseconds until = now + 100 * SECOND;
        sleep_until(until, true);
        if (now >= until && is_any_left(1))
            fail(LEFT, "threads are left");
    }
}

void _exit(int status) {
    await_all();
    end_with(status);
    __builtin_unreachable();
}

/* -- Many schedules -- */

/* What the child writes to its standard error, to the end. */
static void collect(int from, pid_t child, char *text, size_t room) {
    struct pollfd end = {.fd = from, .events = POLLIN};
    size_t length = 0;
    ssize_t got = 1;
    while (got > 0 && length < room - 1) {
        /* Nothing that is played waits in real time, so it has an end within moments. */
        if (poll(&end, 1, 60000) == 0)
            kill(child, SIGKILL);
        got = read(from, text + length, room - 1 - length);
        length += got > 0 ? (size_t)got : 0;
    }
    text[length] = 0;
    close(from);
}

/* In the child it returns; in the parent it answers how the child ended. */
static int play_in_a_child(uint64_t seed, char *text, size_t room) {
    int ends[2], status;
    *shared = (struct shared){.trace = 1469598103934665603ULL};
    if (pipe(ends))
        exit(BROKEN);
    pid_t child = fork();
    if (child == 0) {
        prctl(PR_SET_PDEATHSIG, SIGKILL);
        dup2(ends[1], 2);
        close(ends[0]);
        close(ends[1]);
        begin_schedule(seed);
        return -1;
    }
    close(ends[1]);
    collect(ends[0], child, text, room);
    if (child < 0 || waitpid(child, &status, 0) != child)
        exit(BROKEN);
    return WIFEXITED(status) ? WEXITSTATUS(status) : 128 + WTERMSIG(status);
}

static int by_value(const void *one, const void *other) {
    uint64_t a = *(const uint64_t *)one, b = *(const uint64_t *)other;
    return a < b ? -1 : a > b;
}

static long count_distinct(uint64_t *traces, long count) {
    qsort(traces, (size_t)count, sizeof *traces, by_value);
    long distinct = count > 0;
    for (long i = 1; i < count; i++)
        distinct += traces[i] != traces[i - 1];
    return distinct;
}

/* Returns in a child alone. */
static void play_all(uint64_t first, long count) {
    uint64_t *traces = malloc(sizeof *traces * (size_t)count);
    char text[3000];
    long done = 0;
    int status = 0;
    while (status == 0 && done < count) {
        status = play_in_a_child(first + (uint64_t)done, text, sizeof text);
        if (status < 0)
            return;
        traces[done++] = shared->trace;
    }
    if (status)
        dprintf(2, "fault %llu %d: %s%s\n",
                (unsigned long long)first + (unsigned long long)done - 1, status, text,
                shared->why);
    dprintf(2, "schedules %ld, distinct %ld\n", done, count_distinct(traces, done));
    end_with(status != 0);
}

__attribute__((constructor)) static void begin(void) {
    const char *schedules = getenv("SCHEDULES");
    unsigned long long first;
    long count;
    if (!schedules || sscanf(schedules, "%llu:%ld", &first, &count) != 2)
        return;
    is_told = getenv("TOLD") != NULL;
    yield_takes = getenv("YIELD_TAKES") ? atol(getenv("YIELD_TAKES")) * 1000 : 0;
    shared = mmap(NULL, sizeof *shared, PROT_READ | PROT_WRITE, MAP_SHARED | MAP_ANONYMOUS, -1, 0);
    atexit(await_all);
    if (getenv("POINTS"))
        put_breakpoints(getenv("POINTS"));
    play_all(first, count);
}
