"""Wrong reports, and wrong answers to right ones: what each does wrong, in which course of soaks.py, and a word of the fault that the
judge there must find."""
import copy


def leave_out(**counts):
    """Reports that tell other counts."""
    def change(reports):
        for it in reports:
            it["status"].update(counts)
    return change


def tell_late(reports):
    """Each report tells the timeouts of the one before it."""
    counts = [0, *(it["status"]["timeouts"] for it in reports)]
    for it, count in zip(reports, counts):
        it["status"]["timeouts"] = count


def all_is_well(answers):
    for it in answers:
        it.update(state="well", concerns=[])


def forget(*kinds):
    """Answers that do not name these."""
    def change(answers):
        for it in answers:
            it["concerns"] = [concern for concern in it["concerns"] if concern["kind"] not in kinds]
    return change


def accuse(answers):
    answers[-1].update(state="concerned", concerns=[{"kind": "churn"}])


def begin_late(answers):
    """Answers that say nothing of the time up to their report."""
    for it in answers:
        it["summary"]["calls"].update(since=it["summary"]["until"], timeouts=0)


def nothing(_):
    pass


WRONG = [
    ("reports leave timeouts out", "a flood", leave_out(timeouts=0), nothing, "it tells 0 timeouts"),
    ("reports leave out what callers met", "a flood", leave_out(timeouts=0, waits=None), nothing, "all is well though"),
    ("reports leave out who was refused", "a crowd", leave_out(refused=0), nothing, "all is well though"),
    ("timeouts are told a report too late", "a flood", tell_late, nothing, "timeouts where there were"),
    ("a flood is told as well", "a flood", nothing, all_is_well, "all is well though"),
    ("an outage is told as well", "an outage", nothing, all_is_well, "all is well though"),
    ("churn is told as well", "churn", nothing, all_is_well, "its cause is not named"),
    ("timeouts are no concern", "a flood", nothing, forget("timeouts"), "but the concerns are"),
    ("the cause of an outage is not named", "an outage", nothing, forget("nothing_opens", "openings_fail"), "its cause is not named"),
    ("time is left out", "a flood", nothing, begin_late, "its time is not"),
    ("a calm pool is accused", "calm", nothing, accuse, "nothing was wrong"),
    ("a flood is told as churn", "a flood", nothing, accuse, "what is none of it is named"),
]


def try_all(plays, audited, faults, tally):
    """Whether the judge finds the fault of each."""
    for what, name, change_reports, change_answers, wanted in WRONG:
        reports = copy.deepcopy(plays[name].reports)
        change_reports(reports)
        answers, *rest = audited(reports)
        change_answers(answers)
        found = faults(plays[name], answers, *rest)
        tally.check(f"the judge finds that {what}", any(wanted in it for it in found), found)
