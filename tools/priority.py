"""A real-time priority for what is timed: without one the threads of a program hardly meet beside other work."""
import os


def go_first(process=0):
    """Gives it to this process, or to another."""
    os.sched_setscheduler(process, os.SCHED_RR, os.sched_param(10))


def may_go_first():
    """Whether a program of this user may have it."""
    try:
        go_first()
        os.sched_setscheduler(0, os.SCHED_OTHER, os.sched_param(0))
    except OSError:
        return False
    return True
