#!/usr/bin/env python3
"""Makes an instance, a plan and names for cellplan of a table, as a spreadsheet exports it; and a table of the lines of `schedule`.

shift.py TABLE [--begin HH:MM] [--mover NAME=TIME[,BACK]]
                          writes TABLE without its ending and with .txt, .toml and .names.toml, and says what comes next
shift.py --back [LINES]   reads the lines of `schedule` (the standard input without LINES), and prints a table; of a plan that isn't
                          accepted the first line goes to the standard error, and the status is 1

TABLE is CSV, with commas or semicolons: a heading, and then a row for each operation, the rows of a job in the order of its route:

    job,machine,minutes,release,due,cleaning
    Axle-01,degrease,3,06:00,07:30,
    Axle-01,copper,2,,,2

The first three columns have to be filled; the others may be missing. `release` and `due` say when the job comes and by when it has to be out,
by the clock, with +1 behind for the next day; each is needed in one row of its job. A job without `release` comes at the beginning, one without
`due` is promised to nobody. `cleaning` says how many minutes the machine is cleaned after each job, in one row of the machine. The plan has no
orders yet: `improve` and `plan` find them. The clock begins with the earliest release, or as --begin says.

The third column may be `seconds`; these, or minutes, are then what `cleaning` and --mover count, too. Minutes may be 8.5, and the clock 06:00:10.
A moment is a minute where all times are whole minutes and the column is `minutes`, and else a second.

A job may visit a machine again, as a rinse tank that several steps share, but not in its next step. With --mover one robot or hoist carries all
parts: the machine NAME, to which a job comes before each operation and behind the last one, for TIME, in which the part is fetched and set down,
and then the mover comes back without a part, for which BACK is its cleaning time. The plan then has orders: those of a run in which the mover takes
the next part that it may, of several the one that is due first. In both cases the instance has the word `recrc`.

The table of --back has a column `step` where the lines have one. Of a rest of a run in which no job arrives any more this is a guess, and wrong
where none visits a machine again, but each has a name like `A.1` and one visit left.

In names blanks become hyphens, and what cellplan takes for no name (a number, `out`, `or`, `fewer`) gets a hyphen in front.
"""
import argparse, collections, csv, fractions, json, os, re, shlex, sys

PROMISED_TO_NOBODY = 10**12
COLUMNS = ["job", "machine", "minutes", "release", "due", "cleaning"]
UNITS = {"minutes": 60, "seconds": 1}


class Refused(Exception):
    pass


def rows_of(path):
    """The number of each row, and its cells by their headings, with the column of the times as `time`, and what they count as `unit`."""
    with open(path, encoding="utf-8-sig", newline="") as file:
        text = file.read()
    lines = text.splitlines() or [""]
    table = csv.reader(lines, delimiter=max(",;\t", key=lines[0].count))
    heading = [cell.strip().lower() for cell in next(table, [])]
    unit = "seconds" if heading[2:3] == ["seconds"] else "minutes"
    columns = [unit if column in UNITS else column for column in COLUMNS]
    if heading[:3] != columns[:3] or not set(heading) <= set(columns) or len(set(heading)) != len(heading):
        raise Refused("row 1: the heading isn't %s" % ",".join(columns))
    for number, cells in enumerate(table, 2):
        cells = [cell.strip() for cell in cells]
        if any(cells):
            if any(cells[len(heading):]):
                raise Refused("row %d: there are more cells than headings" % number)
            row = dict.fromkeys(columns, "") | dict(zip(heading, cells))
            yield number, row | {"time": row[unit], "unit": unit}


def name_of(text):
    """The text as a name."""
    name = re.sub(r"\s+", "-", text)
    if len(name.encode()) > 40 or re.search(r"[\x00-\x1f\x7f-\x9f\ufffe\uffff]", name):
        raise Refused("%r is no name: it has more than 40 bytes, or a character that can't be printed" % name)
    return "-" + name if name.isdigit() or name in ("out", "or", "fewer") else name


def named(text, texts):
    """The text as a name, which no other text has."""
    name = name_of(text)
    if texts.setdefault(name, text) != text:
        raise Refused("%r and %r would have one name" % (texts[name], text))
    return name


def seconds_of(clock):
    """The seconds from midnight on: of 06:30, or of 06:30+1 on the next day."""
    found = re.fullmatch(r"(\d{1,2}):(\d\d)(?::(\d\d))?(?:\+(\d{1,4}))?", clock)
    if not found or int(found[1]) > 23 or int(found[2]) > 59 or int(found[3] or 0) > 59:
        raise Refused("%s is no time as 06:30, 06:30:10 or 06:30+1" % clock)
    return int(found[1]) * 3600 + int(found[2]) * 60 + int(found[3] or 0) + 86400 * int(found[4] or 0)


def lasting(text, unit):
    """The seconds of a time in minutes, as 8 or 8.5, or in seconds."""
    time = fractions.Fraction(text.replace(",", ".")) * UNITS[unit] if re.fullmatch(r"\d{1,7}(?:[.,]\d{1,6})?", text) else None
    if time is None or time.denominator > 1:
        raise Refused("%s is no whole number of %s" % (text or "nothing", unit if unit == "seconds" else "minutes, nor of seconds"))
    return int(time)


def note(what, noted, name, value):
    """Notes what a row has of a job or a machine, if it has it; no two rows may differ."""
    if value is not None and noted.setdefault(name, value) != value:
        raise Refused("%s has two values of %s" % (name, what))


class Shift:
    """The routes of jobs, and what the rows have of jobs and machines, each by name, in seconds. A mover is a machine, too."""

    def __init__(self, path, mover):
        self.routes, self.machines, self.release, self.due, self.cleaning = {}, [], {}, {}, {}
        self.mover, self.unit = None, "minutes"
        job_texts, machine_texts = {}, {}
        for number, row in rows_of(path):
            try:
                self.unit = row["unit"]
                self.take(named(row["job"], job_texts), named(row["machine"], machine_texts), row, mover is not None)
            except Refused as why:
                raise Refused("row %d: %s" % (number, why))
        if not self.routes:
            raise Refused("there are no operations")
        if mover is not None:
            self.carried_by(mover, machine_texts)

    def take(self, job, machine, row, carried):
        if not (job and machine):
            raise Refused("job and machine are needed")
        route = self.routes.setdefault(job, [])
        if route and route[-1][0] == machine and not carried:
            raise Refused("%s visits %s twice in a row" % (job, machine))
        route.append((machine, lasting(row["time"], self.unit)))
        if machine not in self.machines:
            self.machines.append(machine)
        note("release", self.release, job, seconds_of(row["release"]) if row["release"] else None)
        note("due", self.due, job, seconds_of(row["due"]) if row["due"] else None)
        note("cleaning", self.cleaning, machine, lasting(row["cleaning"], self.unit) if row["cleaning"] else None)

    def carried_by(self, words, machine_texts):
        """Puts the mover of these words before each operation, and behind the last one."""
        found = re.fullmatch(r"(.*)=([^,=]*)(?:,([^,=]*))?", words)
        if not found:
            raise Refused("--mover %s isn't NAME=TIME or NAME=TIME,BACK" % words)
        self.mover = named(found[1], machine_texts)
        if self.mover in self.machines or not self.mover:
            raise Refused("--mover %s needs a name that no machine has" % words)
        move = self.mover, lasting(found[2], self.unit)
        self.cleaning[self.mover] = lasting(found[3], self.unit) if found[3] else 0
        self.machines.insert(0, self.mover)
        self.routes = {job: sum([[move, step] for step in route], []) + [move] for job, route in self.routes.items()}

    def recirculates(self):
        """Whether a job visits a machine again."""
        return any(len({machine for machine, _ in route}) < len(route) for route in self.routes.values())

    def counted_by(self, begin):
        """How many seconds a moment is."""
        times = [begin, *self.release.values(), *self.due.values(), *self.cleaning.values()]
        times += [time for route in self.routes.values() for _, time in route]
        return 60 if self.unit == "minutes" and all(time % 60 == 0 for time in times) else 1


class FirstRun:
    """A run in which the mover takes the next part that it may, of several the one that is due first. It takes none if then parts would be in the
    cell that can't go out one after the other, each past those that stand still. So it never locks, and neither does a plan with its orders."""

    def __init__(self, shift, begin):
        self.shift = shift
        self.orders = {machine: [] for machine in shift.machines}
        self.step = dict.fromkeys(shift.routes, -1)  # the step at which each job is
        self.ready = {job: shift.release.get(job, begin) for job in shift.routes}  # since when it can go on
        self.clean = dict.fromkeys(shift.machines, begin)  # since when each machine is clean

    def made(self):
        """The orders of the run, by machine."""
        while True:
            ahead = sorted((job for job in self.step if not self.is_out(job)), key=lambda job: (self.begins(job), self.due(job)))
            if not ahead:
                return self.orders
            behind = set([job for job in ahead if self.step[job] < 0][1:])  # who comes in behind another one
            self.carry(next(job for job in ahead if job not in behind and self.may_go(job)))

    def is_out(self, job):
        return self.step[job] == len(self.shift.routes[job])

    def due(self, job):
        return self.shift.due.get(job, PROMISED_TO_NOBODY)

    def machine(self, job, step):
        """The machine of this step of the job, none outside."""
        route = self.shift.routes[job]
        return route[step][0] if 0 <= step < len(route) else None

    def begins(self, job):
        """When its next move can begin: it can go on, and the mover and the next machine are clean."""
        return max(self.ready[job], self.clean[self.shift.mover], self.clean.get(self.machine(job, self.step[job] + 2), 0))

    def may_go(self, job):
        """Whether the next machine is free, and the parts that are then in the cell can go out one after the other."""
        there = {other: step for other, step in self.step.items() if step >= 0 and not self.is_out(other) and other != job}
        taken = {self.machine(other, step) for other, step in there.items()}
        if self.machine(job, self.step[job] + 2) in taken:
            return False
        there[job] = self.step[job] + 2
        while there:
            taken = {self.machine(other, step) for other, step in there.items()}
            past = [other for other, step in there.items() if self.can_go_out(other, step, taken)]
            if not past:
                return False
            for other in past:
                del there[other]
        return True

    def can_go_out(self, job, step, taken):
        """Whether all machines that are ahead of the job at this step are free, where these are taken, one of them by itself."""
        return all(machine not in taken - {self.machine(job, step)} for machine, _ in self.shift.routes[job][step + 1:])

    def carry(self, job):
        """The mover takes the job to its next machine, or out."""
        at, route, source = self.begins(job), self.shift.routes[job], self.machine(job, self.step[job])
        if source is not None:
            self.clean[source] = at + self.shift.cleaning.get(source, 0)
        there = at + route[self.step[job] + 1][1]
        self.clean[self.shift.mover] = there + self.shift.cleaning[self.shift.mover]
        self.orders[self.shift.mover].append(job)
        self.step[job] += 2
        if self.is_out(job):
            return
        machine, time = route[self.step[job]]
        self.orders[machine].append(job)
        self.ready[job] = there + time


def written(path, *lines):
    with open(path, "w", encoding="utf-8") as file:
        file.writelines(line + "\n" for line in lines)


def make(path, begin, mover):
    """Writes the three texts."""
    shift = Shift(path, mover)
    routes, machines = shift.routes, shift.machines
    begin = min(shift.release.values(), default=0) if begin is None else seconds_of(begin)
    for what, moments in (("comes", shift.release), ("is due", shift.due)):
        for job, moment in moments.items():
            if moment < begin:
                raise Refused("%s %s before the beginning" % (job, what))
    base, ending = os.path.splitext(path)
    if ending in (".txt", ".toml"):
        raise Refused("%s would be written over: give the table another ending, as .csv" % path)
    unit = shift.counted_by(begin)
    route = lambda job: " ".join("%d %d" % (machines.index(machine), time // unit) for machine, time in routes[job])
    sizes = "%d %d%s" % (len(routes), len(machines), " recrc" if shift.recirculates() else "")
    written(base + ".txt", os.path.basename(base).replace(" ", "-"), sizes, *map(route, routes))
    jobs = {job: number for number, job in enumerate(routes)}
    orders = FirstRun(shift, begin).made() if mover is not None else {}
    written(
        base + ".toml",
        "version = 2",
        "release = %s" % [(shift.release.get(job, begin) - begin) // unit for job in routes],
        "budget = %s" % [(shift.due[job] - begin) // unit if job in shift.due else PROMISED_TO_NOBODY for job in routes],
        "clean = %s" % [shift.cleaning.get(machine, 0) // unit for machine in machines],
        "order = %s" % [[jobs[job] for job in row] for row in orders.values()],
    )
    clock = "%02d:%02d:%02d" % (begin // 3600 % 24, begin // 60 % 60, begin % 60)
    text = lambda names: json.dumps(names, ensure_ascii=False)
    clock = clock[:5] if unit == 60 else clock
    written(base + ".names.toml", "jobs = " + text(list(routes)), "machines = " + text(machines), 'begin = "%s"' % clock)
    print("cellplan improve %s %s > %s" % tuple(shlex.quote(base + each) for each in (".txt", ".toml", ".best.toml")))


def words_of(form, line):
    """The words of a line of this form, in which W stands for a word: all but a space or a tab, as a name may have other blanks."""
    found = re.fullmatch(form.replace("W", r"([^ \t]+)"), line)
    return found and found.groups("")


def row_of(line):
    """The row of a line of `schedule`, nothing where it has none: a visit, a cleaning (without a job) or an arrival (without a machine). A job
    that is gone has only its leaving, one that has arrived and is outside no moment."""
    visit = words_of("job W on machine W (?:from|since) W(?: to W(?: by W)?| done) leaves W", line)
    cleaned = words_of("machine W cleaned (?:from|since) W to W(?: by W)?", line)
    arrives = words_of("job W arrives W(?: by W)?", line)
    left = words_of("job W left W", line)
    arrived = words_of("job W has arrived", line)
    if visit:
        return list(visit)
    if cleaned:
        return ["", *cleaned, ""]
    if arrives:
        job, comes, by = arrives
        return [job, "", comes, comes, by, ""]
    if left:
        return [left[0], "", "", "", "", left[1]]
    return [arrived[0], "", "", "", "", ""] if arrived else None


def have_steps(rows):
    """Whether a visit is said with its step, behind a dot: where a job arrives, its first visit shows that. Else it is a guess: no two lines have
    the same word for a job."""
    rows = [row for row in rows if row[0]]
    for outside, row in zip(rows, rows[1:]):
        if not outside[1] and not outside[5] and row[1]:
            return row[0] == outside[0] + ".0"
    counts = collections.Counter(row[0] for row in rows)
    visits = [row[0] for row in rows if row[1]]
    return visits != [] and all(re.fullmatch(r".+\.\d+", word) and counts[word] == 1 for word in visits)


def back(lines):
    """Prints the lines of `schedule` as a table, if all are understood. The first one is the line of `check`, unless it was left out: of a
    plan that isn't accepted it says what is wrong, and the lines of a late plan are printed all the same."""
    lines = [line.rstrip("\r\n") for line in lines] or ["there are no lines of `schedule`"]
    verdict = "accepted" if row_of(lines[0]) else lines.pop(0)
    rows = [row_of(line) for line in lines]
    if None in rows:
        raise Refused("this line isn't understood: " + lines[rows.index(None)])
    heading = ["job", "machine", "from", "to", "by", "leaves"]
    if have_steps(rows):
        heading.insert(1, "step")
        rows = [[*(row[0].rsplit(".", 1) if row[0] and row[1] else [row[0], ""]), *row[1:]] for row in rows]
    if rows:
        csv.writer(sys.stdout, lineterminator="\n").writerows([heading, *rows])
    if not verdict.startswith("accepted"):
        raise Refused(verdict)


def main():
    parser = argparse.ArgumentParser(description="A shift's table for cellplan, and back.")
    parser.add_argument("table", metavar="TABLE", nargs="?")
    parser.add_argument("--begin", metavar="HH:MM", help="when moment 0 is")
    parser.add_argument("--mover", metavar="NAME=TIME[,BACK]", help="a robot or hoist that carries all parts, and the times of a move and of its way back")
    parser.add_argument("--back", action="store_true", help="print the lines of `schedule` as a table")
    words = parser.parse_args()
    if words.table is None and not words.back:
        parser.error("TABLE is missing")
    try:
        if not words.back:
            make(words.table, words.begin, words.mover)
        elif words.table is None:
            back(sys.stdin)
        else:
            with open(words.table, encoding="utf-8") as file:
                back(file)
    except (Refused, OSError, UnicodeDecodeError, csv.Error) as why:
        sys.exit("shift.py: %s" % why)


main()
