"""What lines become with names and a clock, which moves a run makes, and what reserve a plan has: it shares no code with the program."""
import re
from cell_model import Plan, Shop, leavings

MOST_MOMENT = NOT_PROMISED = 10**12
LAST_PRINTED_DEADLINE = 5 * 10**11
MOST_RESERVE = 10000
MOMENT_BEHIND = {"leaves", "budget", "since", "from", "to", "by", "left", "arrives", "least"}


class Names:
    """The names of jobs and machines from the first on, and what the clock says at moment 0: seconds, and of how many a moment is; or none."""

    def __init__(self, jobs=(), machines=(), begin=None):
        self.jobs, self.machines, self.begin = list(jobs), list(machines), begin

    def job(self, number):
        return self.jobs[number] if number < len(self.jobs) else str(number)

    def machine(self, number):
        return self.machines[number] if number < len(self.machines) else str(number)

    def moment(self, number):
        if self.begin is None:
            return str(number)
        begin, unit = self.begin
        days, seconds = divmod(begin + unit * number, 86400)
        clock = "%02d:%02d:%02d" % (seconds // 3600, seconds // 60 % 60, seconds % 60)
        return clock[:5 if unit == 60 else 8] + ("+%d" % days if days else "")

    def of(self, before, word):
        """The word for a number, or for a job's step, behind the word before it, none where a line begins with it; other words stay."""
        number, dot, step = word.partition(".")
        if not number.isdigit() or dot and before != "job":
            return word
        return self.numbered(before, int(number)) + dot + step

    def numbered(self, before, number):
        """The word for a number behind the word before it."""
        named = {"job": self.job, "machine": self.machine}.get(before)
        if named is None and (before is None or before in MOMENT_BEHIND):
            named = self.moment
        return named(number) if named else str(number)


def named(names, line):
    """A line of `explain`, `schedule` or `bounds`, but not the first one of the first two, or of `margin`."""
    line = re.sub(r"budget %d( slack \d+)?$" % NOT_PROMISED, "no budget", line)
    line = re.sub(r" by (\d+)(?= leaves|$)", lambda by: by[0] if int(by[1]) <= LAST_PRINTED_DEADLINE else "", line)
    words = line.split(" ")
    return " ".join(names.of(words[place - 1] if place else None, word) for place, word in enumerate(words))


def named_visits(names, line):
    """A line of `gantt`."""
    if not line.startswith("machine "):
        return line
    _, machine, *visits = line.split(" ")
    named = ["machine", names.machine(int(machine))]
    for visit in visits:
        job, moments = visit.split(":")
        named.append("%s:%s" % (names.job(int(job)), "-".join(each if each == "?" else names.moment(int(each)) for each in moments.split("-"))))
    return " ".join(named)


def named_jobs(names, line):
    """A line of `decide`."""
    if not line.startswith("never jobs "):
        return line
    return " ".join(names.job(int(word)) if word.isdigit() else word for word in line.split(" "))


# ---- moves


def spot(machine):
    return "outside" if machine is None else "machine %d" % machine


def move_lines(rest):
    """The moves of the run in which each report comes when it is due, or now where that is over, up to the last moment."""
    cell, lines = rest.cell.copy(), []
    cell.last = rest.now

    def settles():
        while cell.movers():
            job, source, target = cell.movers()[0]
            lines.append("%d job %d from %s to %s" % (cell.last, job, spot(source), "out" if target is None else spot(target)))
            cell.take(cell.last, (job, source, target))

    settles()
    while cell.going():
        due = [(max(moment, rest.now), what[0] == "clean", what[1], what) for what, moment in cell.going().items()]
        at, _, _, what = min(due)
        if at > MOST_MOMENT:
            break
        cell.take(at, what)
        settles()
    return lines


# ---- reserve


def late_with(shop, plan, reserve):
    """The first job that isn't out by its budget where each time is so many thousandths longer, none where all are."""
    longer = Shop(shop.machines, [[(machine, nominal * (1000 + reserve)) for machine, nominal in route] for route in shop.routes], shop.again)
    clean = None if plan.clean is None else [time * (1000 + reserve) for time in plan.clean]
    at = leavings(longer, Plan([1000 * moment for moment in plan.release], [], clean, plan.order))
    return next((job for job, moment in enumerate(at) if moment > 1000 * plan.budget[job]), None)


def reserve_of(shop, plan):
    """The greatest reserve with which an accepted plan is kept."""
    kept, broken = 0, MOST_RESERVE + 1
    while kept + 1 < broken:
        middle = (kept + broken) // 2
        kept, broken = (middle, broken) if late_with(shop, plan, middle) is None else (kept, middle)
    return kept


def margin_line(shop, plan, names):
    reserve = reserve_of(shop, plan)
    then = "" if reserve == MOST_RESERVE else " then job " + names.job(late_with(shop, plan, reserve + 1))
    return "margin %d thousandths%s" % (reserve, then)
