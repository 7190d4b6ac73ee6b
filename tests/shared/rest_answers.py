"""What `check`, `explain` and `schedule` have to answer of the rest of a run: it shares no code with the program.

The cell of a log is where the parts are after its whole lines. The moments are greatest lengths of paths over the moves that aren't made yet.
"""
import re
from cell_model import Wrong, want

MOST_MOMENT = 10**12
SKIPPED = (b"late ", b"refused ", b"done ", b"unfinished ")
REPORT = re.compile(rb"report (\d{1,13}) (?:(arrive) (\d{1,9})|(finish) (\d{1,9}) (\d{1,9})|(clean) (\d{1,9}))")
ORDER = re.compile(rb"order (\d{1,13}) (\d{1,9}) (\d{1,9}|out) (\d{1,9}|out)")


def event_of(shop, line):
    """The moment of a line of a log, and its activity or its job, source and target; none where it is no line of this shop."""
    report, order = REPORT.fullmatch(line), ORDER.fullmatch(line)
    if report:
        at, kind, *numbers = [part.decode() for part in report.groups() if part is not None]
        what = (kind, *map(int, numbers))
        jobs, machines = ([], [what[1]]) if kind == "clean" else ([what[1]], list(what[2:]))
    elif order:
        at, *what = [None if part == b"out" else int(part) for part in order.groups()]
        what = tuple(what)
        jobs, machines = [what[0]], [spot for spot in what[1:] if spot is not None]
    else:
        return None
    fits = int(at) <= MOST_MOMENT and all(job < shop.jobs for job in jobs) and all(machine < shop.machines for machine in machines)
    return (int(at), what) if fits else None


class Cell:
    """Where the parts are: the step that each job is at, -1 before it enters and the number of its steps when it is gone; whether what
    it was at has ended; when it was moved last; how many have entered each machine, and since when it is being cleaned."""

    def __init__(self, shop, plan):
        self.shop, self.plan, self.last, self.reports = shop, plan, 0, 0
        self.step, self.done, self.since = [-1] * shop.jobs, [False] * shop.jobs, [0] * shop.jobs
        self.entered, self.cleaning = [0] * shop.machines, [None] * shop.machines

    def copy(self):
        """Another cell that is as this one is."""
        other = Cell(self.shop, self.plan)
        other.last, other.reports = self.last, self.reports
        other.step, other.done, other.since = self.step[:], self.done[:], self.since[:]
        other.entered, other.cleaning = self.entered[:], self.cleaning[:]
        return other

    def gone(self, job):
        return self.step[job] == len(self.shop.routes[job])

    def spot(self, job, step):
        """The machine of this step of the job, none before the first and after the last one."""
        route = self.shop.routes[job]
        return route[step][0] if 0 <= step < len(route) else None

    def next_on(self, machine):
        """The job that enters the machine next, none after the last one."""
        return (self.plan.order[machine] + [None])[self.entered[machine]]

    def going(self):
        """What goes on, with its due moment."""
        due = {}
        for job, step in enumerate(self.step):
            if not self.done[job] and step < 0:
                due["arrive", job] = self.plan.release[job]
            elif not self.done[job] and not self.gone(job):
                machine, nominal = self.shop.routes[job][step]
                due["finish", job, machine] = self.since[job] + nominal
        for machine, since in enumerate(self.cleaning):
            if since is not None:
                due["clean", machine] = since + self.plan.clean[machine]
        return due

    def fault(self, at, what):
        """The name of the first reason why the event can't be the next one."""
        if isinstance(what[0], str):
            return "NotExpected" if what not in self.going() else "Backwards" if at < self.last else None
        job, source, target = what
        if at < self.last:
            return "Backwards"
        if not self.done[job] or self.gone(job):
            return "NotReady"
        if target is not None:
            if any(self.spot(other, step) == target for other, step in enumerate(self.step)):
                return "Occupied"
            if self.cleaning[target] is not None:
                return "NotClean"
            if self.next_on(target) != job:
                return "OutOfOrder"
        here = self.step[job]
        return None if (source, target) == (self.spot(job, here), self.spot(job, here + 1)) else "WrongPlace"

    def take(self, at, what):
        """The event happens, which has no fault."""
        self.last = at
        if what[0] == "clean":
            self.cleaning[what[1]] = None
        elif isinstance(what[0], str):
            self.done[what[1]] = True
        else:
            job, source, target = what
            self.step[job], self.done[job], self.since[job] = self.step[job] + 1, False, at
            if target is not None:
                self.entered[target] += 1
            if source is not None and self.plan.cleaned(source):
                self.cleaning[source] = at
        self.reports += isinstance(what[0], str)

    def movers(self):
        """The moves that are allowed now, in the order of their jobs."""
        moves = [(job, self.spot(job, step), self.spot(job, step + 1)) for job, step in enumerate(self.step)]
        return [move for move in moves if self.fault(self.last, move) is None]


def cell_of(shop, plan, log):
    """The cell of the log's whole lines, or the first bad line's number and name."""
    cell = Cell(shop, plan)
    for number, line in enumerate(log.split(b"\n")[:-1], 1):
        line = line[:-1] if line.endswith(b"\r") else line
        if line == b"" or line.startswith(SKIPPED):
            continue
        event = event_of(shop, line)
        fault = "BadLine" if event is None else cell.fault(*event)
        if fault:
            return None, "%d %s" % (number, fault)
        cell.take(*event)
    return cell, None


class Rest:
    """The moves that aren't made yet in a cell at a moment: what each has to wait for, and until when."""

    def __init__(self, cell, now):
        self.cell, self.now, self.shop, self.plan = cell, now, cell.shop, cell.plan
        self.ahead = [(job, place) for job, route in enumerate(self.shop.routes) for place in range(cell.step[job] + 1, len(route) + 1)]
        self.jobs = [job for job in range(self.shop.jobs) if not cell.gone(job)]
        self.rows = [self.shop.row(machine, order) for machine, order in enumerate(self.plan.order)]
        self.arcs = {}
        self.join_steps()
        self.join_entries()
        self.bounds = {}
        self.bound_jobs()
        self.bound_entries()
        self.row = self.sorted()
        self.at = None if self.row is None else self.earliest()

    def join_steps(self):
        for job, place in self.ahead:
            if place < len(self.shop.routes[job]):
                machine, nominal = self.shop.routes[job][place]
                words = "job %s on machine %d for %d" % (self.shop.named(job, place), machine, nominal)
                self.arcs[(job, place), (job, place + 1)] = nominal, words

    def entry(self, machine, count):
        """The move by which a job enters the machine after so many, none after the last one."""
        return (self.rows[machine] + [None])[count]

    def next_entry(self, machine):
        """The move by which a job enters the machine next."""
        return self.entry(machine, self.cell.entered[machine])

    def follower(self, job, step):
        """The move by which a job enters the machine of this step after this visit, none after the last one."""
        machine = self.cell.spot(job, step)
        return self.entry(machine, self.rows[machine].index((job, step)) + 1)

    def join_entries(self):
        """The arcs from a job's move away from a machine to the entry of the next one. None leads to a move that is made. Where the same job
        comes again and its own arc joins the two moves, the longer arc counts."""
        for job, place in self.ahead:
            machine = self.cell.spot(job, place - 1)
            target = None if machine is None else self.follower(job, place - 1)
            if target is not None:
                want("the move after %d.%d" % (job, place), target in self.ahead, True)
                cleaned = self.plan.cleaned(machine)
                words = "machine %d from job %s to job %s" % (machine, self.shop.named(job, place - 1), self.shop.named(*target))
                arc = cleaned, words + (" cleaned for %d" % cleaned if cleaned else "")
                own = self.arcs.get(((job, place), target))
                self.arcs[(job, place), target] = arc if own is None or cleaned > own[0] else own

    def bound(self, node, due, words, rank):
        """The move isn't made before now, nor before the due moment, if there is one. Of equal bounds the one of the lower rank is printed."""
        overdue = " overdue since %d" % due if due is not None and due < self.now else ""
        moment = self.now if due is None else max(due, self.now)
        self.bounds.setdefault(node, []).append((-moment, rank, words + overdue))

    def bound_jobs(self):
        due = self.cell.going()
        for job in self.jobs:
            step, machine = self.cell.step[job], self.cell.spot(job, self.cell.step[job])
            named = self.shop.named(job, step)
            if step < 0 and not self.cell.done[job]:
                self.bound((job, 0), due["arrive", job], "release of job %d" % job, 0)
            elif step < 0:
                self.bound((job, 0), None, "job %d has arrived" % job, 2)
            elif not self.cell.done[job]:
                words = "job %s on machine %d since %d for %d" % (named, machine, self.cell.since[job], self.shop.routes[job][step][1])
                self.bound((job, step + 1), due["finish", job, machine], words, 0)
            else:
                self.bound((job, step + 1), None, "job %s done on machine %d" % (named, machine), 2)

    def bound_entries(self):
        for machine, since in enumerate(self.cell.cleaning):
            entry = self.next_entry(machine)
            if since is not None and entry is not None:
                words = "machine %d cleaned since %d for %d" % (machine, since, self.plan.clean[machine])
                self.bound(entry, since + self.plan.clean[machine], words, 1)

    def sorted(self):
        """The moves, each after all that it waits for; none where some wait for one another."""
        waits = {node: sum(target == node for _, target in self.arcs) for node in self.ahead}
        row = [node for node in self.ahead if waits[node] == 0]
        for node in row:
            for source, target in self.arcs:
                if source == node:
                    waits[target] -= 1
                    row += [target] * (waits[target] == 0)
        return row if len(row) == len(self.ahead) else None

    def earliest(self):
        at = {}
        for node in self.row:
            lengths = [at[source] + length for (source, target), (length, _) in self.arcs.items() if target == node]
            at[node] = max(lengths + [-least for least, _, _ in self.bounds.get(node, [])])
        return at

    def leaving(self, job):
        return job, len(self.shop.routes[job])

    def leaves(self):
        """When each job leaves, or has left."""
        return [self.at.get(self.leaving(job), self.cell.since[job]) for job in range(self.shop.jobs)]

    def late(self):
        """The jobs that can't be out by their budgets."""
        return [job for job in self.jobs if self.at[self.leaving(job)] > self.plan.budget[job]]

    def lengths_to(self, end):
        """The greatest length of a path from each move to this one, where there is a path."""
        found = {end: 0}
        for node in reversed(self.row):
            lengths = [length + found[target] for (source, target), (length, _) in self.arcs.items() if source == node and target in found]
            if lengths:
                found[node] = max(lengths)
        return found

    def deadlines(self):
        """Until when each move has to be made so that each job after it is out by its budget."""
        due = {}
        for job in self.jobs:
            for node, length in self.lengths_to(self.leaving(job)).items():
                due[node] = min(due.get(node, self.plan.budget[job]), self.plan.budget[job] - length)
        return due

    def arc(self, source, target):
        if (source, target) not in self.arcs:
            raise Wrong("no arc leads from %d.%d to %d.%d" % (source + target))
        return self.arcs[source, target]

    def cycle_lines(self, nodes):
        """A line for each arc of a cycle."""
        return ["%d.%d %d.%d %s" % (u + v + (self.arc(u, v)[1],)) for u, v in zip(nodes, nodes[1:] + nodes[:1])]

    def chain_lines(self, nodes, job):
        """The lines of a longest path, over these moves, to the leaving of the job."""
        want("the end of the path", nodes[-1], self.leaving(job))
        if nodes[0] not in self.bounds:
            raise Wrong("%d.%d has no bound" % nodes[0])
        least, _, words = min(self.bounds[nodes[0]])
        at, lines = -least, ["%d %d.%d %s" % ((-least,) + nodes[0] + (words,))]
        for source, target in zip(nodes, nodes[1:]):
            length, words = self.arc(source, target)
            at += length
            lines.append("%d %d.%d %s" % ((at,) + target + (words,)))
        want("the length of the path", at, self.at[self.leaving(job)])
        return lines


def node(text):
    job, place = text.split(".")
    return int(job), int(place)


def first_line(rest, printed):
    """The verdict, whose cycle or longest path is the printed one."""
    words = printed.split()
    if rest.row is None:
        want("the verdict on a rest that locks", words[:2], ["refused", "cycle"])
        rest.cycle_lines([node(word) for word in words[2:]])
        return printed
    late = rest.late()
    if not late:
        return "accepted makespan %d leaves %s" % (max(rest.leaves()), " ".join(map(str, rest.leaves())))
    want("the verdict on a late rest", words[:2], ["refused", "late"])
    rest.chain_lines([node(word) for word in words[4:]], late[0])
    return "refused late %d %d %s" % (late[0], rest.at[rest.leaving(late[0])], " ".join(words[4:]))


def leaving_line(rest, job):
    budget = rest.plan.budget[job]
    if rest.cell.gone(job):
        return "job %d left %d budget %d" % (job, rest.cell.since[job], budget)
    at = rest.at[rest.leaving(job)]
    return "job %d leaves %d budget %d %s" % (job, at, budget, "slack %d" % (budget - at) if at <= budget else "late %d" % (at - budget))


def explained(rest, printed):
    """The lines of `explain`, whose cycle or longest path is the printed one."""
    lines = [first_line(rest, printed[0])]
    if rest.row is None:
        return lines + rest.cycle_lines([node(word) for word in printed[0].split()[2:]])
    lines += [leaving_line(rest, job) for job in range(rest.shop.jobs)]
    late = rest.late()
    if late:
        return lines + rest.chain_lines([node(word) for word in printed[0].split()[4:]], late[0])
    if not rest.jobs:
        return lines
    last = max(rest.jobs, key=lambda job: (rest.at[rest.leaving(job)], -job))
    return lines + rest.chain_lines([node(line.split()[1]) for line in printed[len(lines):]], last)


def scheduled(rest, printed):
    """The lines of `schedule`."""
    lines = [first_line(rest, printed[0])]
    if rest.row is None:
        return lines
    due = {} if rest.late() else rest.deadlines()

    def by(move):
        return " by %d" % due[move] if move in due else ""

    for job in range(rest.shop.jobs):
        lines += scheduled_job(rest, job, by)
    for machine, since in enumerate(rest.cell.cleaning):
        if since is not None:
            ends = max(rest.now, since + rest.plan.clean[machine])
            lines.append("machine %d cleaned since %d to %d%s" % (machine, since, ends, by(rest.next_entry(machine))))
    return lines


def scheduled_job(rest, job, by):
    """The lines of one job, where by gives the deadline of a move, if it has one."""
    step, done, since = rest.cell.step[job], rest.cell.done[job], rest.cell.since[job]
    if rest.cell.gone(job):
        return ["job %d left %d" % (job, since)]
    lines = []
    if step < 0:
        arrives = "job %d arrives %d%s" % (job, max(rest.now, rest.plan.release[job]), by((job, 0)))
        lines.append("job %d has arrived" % job if done else arrives)
    for place, (machine, nominal) in enumerate(rest.shop.routes[job]):
        if place < step:
            continue
        leaves = rest.at[job, place + 1]
        if place > step:
            when = "from %d to %d%s" % (rest.at[job, place], rest.at[job, place] + nominal, by((job, place + 1)))
        elif done:
            when = "since %d done" % since
        else:
            when = "since %d to %d%s" % (since, max(rest.now, since + nominal), by((job, place + 1)))
        lines.append("job %s on machine %d %s leaves %d" % (rest.shop.named(job, place), machine, when, leaves))
        clean = rest.plan.cleaned(machine)
        if clean:
            lines.append("machine %d cleaned from %d to %d%s" % (machine, leaves, leaves + clean, by(rest.follower(job, place))))
    return lines


def answer(command, shop, plan, log, at, printed):
    """The lines of the command and its status, whose cycle or longest path is the printed one, and the kind of the answer."""
    cell, refused = cell_of(shop, plan, log)
    if refused:
        return ["log refused " + refused], 1, "refused"
    if at is not None and at < cell.last:
        return ["log past %d" % cell.last], 1, "past"
    rest = Rest(cell, cell.last if at is None else at)
    written = {"check": lambda: [first_line(rest, printed[0])], "explain": lambda: explained(rest, printed), "schedule": lambda: scheduled(rest, printed)}
    kind = "cycle" if rest.row is None else "late" if rest.late() else "accepted"
    return written[command](), 0 if kind == "accepted" else 1, kind
