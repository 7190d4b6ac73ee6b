"""Whether a run of which jobs were forgotten is judged, shown and driven on as it was before, but for the numbers of the jobs."""
import os, re
from cell_model import run, want
from random_runs import files_of
from rest_answers import cell_of

NUMBERED = re.compile(r"(?:(?<=job )|(?<=arrive )|(?<=finish )|(?<=refused late )|^(?P<before>order \d+ )|\b(?=\d+\.\d))(?P<job>\d+)")


class Texts:
    """A shop, a plan and a log, which are files in a folder."""

    def __init__(self, shop, plan, log, folder):
        self.shop, self.plan, self.log = shop, plan, log
        os.makedirs(folder, exist_ok=True)
        self.files = files_of(shop, plan, log, folder)


def renamed(line, number):
    """A line by the new numbers of the jobs, none where it tells of a job that has none."""
    if any(int(found["job"]) not in number for found in NUMBERED.finditer(line)):
        return None
    return NUMBERED.sub(lambda found: (found["before"] or "") + str(number[int(found["job"])]), line)


def verdict(line, number):
    """A first line of `check`, whose leavings are those of the jobs that stay."""
    if not line.startswith("accepted "):
        return renamed(line, number)
    leaves = line.split(" leaves ")[1].split(" ")
    kept = [leaves[job] for job in number]
    return "accepted makespan %d leaves %s" % (max(map(int, kept)), " ".join(kept))


def is_shown_alike(before, after, number, at):
    """The verdict, its reasons and the timetable, where the lines of what was dropped are left out."""
    for command, *more in (["check"], ["explain"], ["schedule"], ["schedule", "--moves"]):
        words = [*more] + ([] if at is None else ["--at", str(at)])
        (status, shown, said), got = (run(command, *each.files[:2], "--after", each.files[2], *words) for each in (before, after))
        first, *lines = shown.splitlines() or [""]
        wanted = [verdict(first, number)] + [line for line in (renamed(line, number) for line in lines) if line is not None]
        want(" ".join(["what is shown by", command, *words]), (got[0], got[1].splitlines(), got[2]), (status, wanted, said))


# ---- driven on


def settle(cell):
    while cell.movers():
        cell.take(cell.last, cell.movers()[0])


def word_of(cell, what, number, form):
    """The word for a report without its moment, in one of three forms."""
    if what[0] == "arrive":
        return "arrive %d" % number[what[1]]
    if what[0] == "finish":
        return "finish %d.%d" % (number[what[1]], cell.step[what[1]]) if form == 2 else "finish %d %d" % (number[what[1]], what[2])
    if form == 0:
        return "clean %d" % what[1]
    entered = cell.plan.order[what[1]][:cell.entered[what[1]]]
    step = cell.shop.visits(entered[-1], what[1])[entered.count(entered[-1]) - 1]
    return ["clean %d %d", "clean %d %d.%d"][form - 1] % (what[1], number[entered[-1]], step)[:form + 1]


def some_lines(rng, cell, number, version):
    """Lines for a controller that begins with this cell, by both numbers: reports early and late, copies of them, and others."""
    same, lines = {job: job for job in number}, []
    machines = max(machine for job in number for machine, _ in cell.shop.routes[job]) + 1
    settle(cell)
    for _ in range(rng.choice([0, 3, 12, 40])):
        if rng.random() < 0.1:
            lines.append([rng.choice(["status", "", "late 3", "clean 0 x"])] * 2)
            continue
        going, job, machine = cell.going(), rng.choice(list(number)), rng.randrange(machines)
        what = rng.choice([("arrive", job), ("finish", job, machine), ("clean", machine)])
        at, form = max(0, cell.last + rng.randint(-3, 0)), 0
        if going and rng.random() < 0.8:
            what = rng.choice([min(going, key=going.get), rng.choice(list(going))])
            at, form = max(cell.last, going[what] + rng.choice([0, 0, rng.randint(-9, 9)])), rng.randrange(3) if version == 2 else 0
        lines.append(["%s %d" % (word_of(cell, what, by, form), at) for by in (same, number)])
        if cell.fault(at, what) is None:
            cell.take(at, what)
            settle(cell)
    return lines


def driven_on(texts, given, words):
    """How `drive` ends that continues the log: what it tells again, what it answers, and what is in the log then that wasn't."""
    status, shown, said = run("drive", *texts.files[:2], "--log", texts.files[2], "--continue", *words, given=given)
    again, _, answer = ("\n" + shown).partition("\n\n")
    with open(texts.files[2], "rb") as log:
        logged = log.read()[len(texts.log):].decode()
    return (status, said), again.splitlines(), answer.splitlines(), logged.splitlines()


def goes_on_alike(rng, before, after, number, at):
    """`drive` continues both logs, and to the same lines it answers and logs the same. What is shown late again was shown so before."""
    version, cell = rng.choice([1, 2]), cell_of(before.shop, before.plan, before.log)[0]
    lines = some_lines(rng, cell, number, version)
    words = ["--lines", str(version)] + ([] if at is None else ["--at", str(at)])
    given = ["".join(line[row] + "\n" for line in lines).encode() for row in (0, 1)]
    (ends, again, answer, logged), got = (driven_on(texts, sent, words) for texts, sent in zip((before, after), given))
    wanted = ends, [renamed(line, number) for line in answer], [renamed(line, number) for line in logged]
    want("how it goes on, is answered and logged", (got[0], got[2], got[3]), wanted)
    if version == 1:
        late, late_again = ([line for line in lines if line.startswith("late ")] for lines in (again, got[1]))
        for line in late_again:
            want("whether '%s' was shown before" % line, line in late, True)
            late.remove(line)
