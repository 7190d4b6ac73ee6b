"""A model of the cell for the scripts of tests, which shares no code with the program.

It knows where the parts are and what each machine's order is: it has no graph, and moves parts as soon as they can move.

Half of the shops that are drawn have recirculation, and half of the ends that are sent by lines of version 2 name their step. With
CELLPLAN_ONCE in the environment none do.
"""
import ast, heapq, os, re, subprocess
from counting import Count

RECIRCULATES = "CELLPLAN_ONCE" not in os.environ
TOP = os.path.dirname(os.path.dirname(os.path.dirname(os.path.abspath(__file__))))
PROGRAM = os.path.join(TOP, "crates/cellplan/out/cellplan")


class Wrong(Exception):
    pass


def build():
    """Ends the script where the program isn't that of the sources as they are; nothing is proved for it."""
    quick = dict(os.environ, CELLPLAN_QUICK="yes")
    if subprocess.run([os.path.join(TOP, "cellplan"), "--help"], stdout=subprocess.DEVNULL, env=quick).returncode:
        count = Count()
        count.miss("there is no program")
        count.finish()


def run(*words, given=b""):
    """The status, the standard output and the standard error of a whole command line."""
    ended = subprocess.run([PROGRAM, *words], input=given, stdout=subprocess.PIPE, stderr=subprocess.PIPE, timeout=120)
    return ended.returncode, ended.stdout.decode(), ended.stderr.decode()


def want(what, got, wanted):
    if got != wanted:
        got, wanted = repr(got), repr(wanted)
        begin = max(0, len(os.path.commonprefix([got, wanted])) - 60)
        raise Wrong("%s: .. %s and not .. %s" % (what, got[begin:begin + 150], wanted[begin:begin + 150]))


class Shop:
    """Routes of pairs of machine and nominal time. With recirculation a job may visit a machine again, but not in its next step."""

    def __init__(self, machines, routes, again=False):
        self.jobs, self.machines, self.routes, self.again = len(routes), machines, routes, again
        self.operations = sum(map(len, routes))

    @classmethod
    def read(cls, text):
        """The shop of a text with a line for its name, one for its sizes, and one for each job."""
        _, sizes, *rows = [line.split() for line in text.splitlines()]
        routes = [list(zip(map(int, row[0::2]), map(int, row[1::2]))) for row in rows]
        return cls(int(sizes[1]), routes, sizes[2:] == ["recrc"])

    def text(self):
        sizes = "%d %d%s\n" % (self.jobs, self.machines, " recrc" if self.again else "")
        return "".join([sizes] + [" ".join("%d %d" % step for step in route) + "\n" for route in self.routes])

    def visits(self, job, machine):
        """The steps of the job on the machine."""
        return [step for step, (other, _) in enumerate(self.routes[job]) if other == machine]

    def row(self, machine, order):
        """The job and the step at each place of an order of the machine: the k-th place of a job is its k-th visit."""
        left = {job: iter(self.visits(job, machine)) for job in set(order)}
        return [(job, next(left[job])) for job in order]

    def named(self, job, step):
        """The word for the job at this step, in the lines that say which step it is where a job may visit a machine again."""
        return "%d.%d" % (job, step) if self.again else str(job)

    def facts(self):
        work = sum(nominal for route in self.routes for _, nominal in route)
        counts = (self.jobs, self.machines, self.operations, self.jobs + self.operations, work)
        return "jobs %d machines %d operations %d reports %d work %d\n" % counts


class Plan:
    """Releases, budgets, cleaning times (or none), and an order for each machine."""

    def __init__(self, release, budget, clean, order):
        self.release, self.budget, self.clean, self.order = release, budget, clean, order

    @classmethod
    def read(cls, text):
        """The plan of a text whose keys stand at the beginning of a line."""
        keys = re.findall(r"^(\w+) = (\[.*?\])\s*(?=^\w|\Z)", text, re.DOTALL | re.MULTILINE)
        lists = {key: ast.literal_eval(value) for key, value in keys}
        return cls(lists["release"], lists["budget"], lists.get("clean"), lists["order"])

    def cleaned(self, machine):
        """The time for which the machine is cleaned after each job, 0 where it isn't."""
        return 0 if self.clean is None else self.clean[machine]

    def text(self):
        lines = ["release = %s" % self.release, "budget = %s" % self.budget, "order = %s" % self.order]
        if self.clean is not None:
            lines = ["version = 2"] + lines + ["clean = %s" % self.clean]
        return "".join(line + "\n" for line in lines)


class Floor:
    """A run of a plan: where the jobs are, what goes on and until when, and the lines that say it, in either version."""

    def __init__(self, shop, plan, version=1):
        self.shop, self.plan, self.version = shop, plan, version
        self.step = [-1] * shop.jobs  # the step of the job, -1 outside before it
        self.ready = [False] * shop.jobs
        self.gone = {}
        self.holder = [None] * shop.machines
        self.dirty = [False] * shop.machines
        self.entered = [0] * shop.machines
        self.left_last = {}  # the job that left each machine last, and its step there
        self.due, self.dues, self.begun = {}, [], []
        for job, moment in enumerate(plan.release):
            self.goes_on(("arrive", job), moment)
        self.last = self.reports = 0

    def goes_on(self, activity, moment):
        self.due[activity] = moment
        heapq.heappush(self.dues, (moment, activity))
        self.begun.append(activity)

    def least_due(self):
        """The activity that is due first."""
        while self.due.get(self.dues[0][1]) != self.dues[0][0]:
            heapq.heappop(self.dues)
        return self.dues[0]

    def report(self, activity, at):
        """The lines for an activity that goes on and now ends."""
        late = [self.late_line(activity, at)] if at > self.least_due()[0] else []
        del self.due[activity]
        self.last = at
        self.reports += 1
        lines = ["report %d %s" % (at, " ".join(map(str, activity)))] + late
        if activity[0] == "clean":
            machine = activity[1]
            self.dirty[machine] = False
            mover = self.next_at(machine)
        else:
            mover = activity[1]
            self.ready[mover] = True
        while mover is not None and self.can_move(mover):
            mover = self.move(mover, at, lines)
        return lines + ["done %d" % at] * (self.version == 2 and not self.due)

    def late_line(self, activity, at):
        """The line of a late report of this activity."""
        if self.version == 1:
            return "late %d" % at
        overdue = [other for other, due in self.due.items() if due < at]
        overdue.sort(key=lambda other: (other != activity, other[0] == "clean", other[1]))
        more = " and %d more" % (len(overdue) - 1) if len(overdue) > 1 else ""
        return "late %d %s%s" % (at, self.words(overdue[0]), more)

    def words(self, activity):
        """What version 2 says of an activity that goes on."""
        due = self.due[activity]
        if activity[0] == "arrive":
            return "job %d arrives %d" % (activity[1], due)
        if activity[0] == "finish":
            _, job, machine = activity
            named, nominal = self.shop.named(job, self.step[job]), self.shop.routes[job][self.step[job]][1]
            return "job %s on machine %d since %d due %d" % (named, machine, due - nominal, due)
        machine = activity[1]
        named = self.shop.named(*self.left_last[machine])
        return "machine %d cleaned after job %s since %d due %d" % (machine, named, due - self.plan.cleaned(machine), due)

    def sent(self, activity, at, by_step=False):
        """The line that reports it, which may name the step."""
        if activity[0] == "finish" and by_step:
            activity = "finish", "%d.%d" % (activity[1], self.step[activity[1]])
        elif activity[0] == "clean" and self.version == 2:
            activity += ("%d.%d" % self.left_last[activity[1]] if by_step else self.left_last[activity[1]][0],)
        return " ".join(map(str, [*activity, at]))

    def next_at(self, machine):
        """The job that enters the machine next by its order."""
        order = self.plan.order[machine]
        return order[self.entered[machine]] if self.entered[machine] < len(order) else None

    def can_move(self, job):
        route, step = self.shop.routes[job], self.step[job] + 1
        if not self.ready[job] or step == len(route):
            return self.ready[job]
        machine = route[step][0]
        return self.holder[machine] is None and not self.dirty[machine] and self.next_at(machine) == job

    def move(self, job, at, lines):
        """Moves the job on, and gives the job that may come after it onto the machine that it leaves."""
        route, step = self.shop.routes[job], self.step[job] + 1
        source = route[step - 1][0] if step else None
        target = route[step][0] if step < len(route) else None
        lines.append("order %d %d %s %s" % (at, job, *("out" if spot is None else spot for spot in (source, target))))
        self.step[job], self.ready[job] = step, False
        if target is None:
            self.gone[job] = at
        else:
            self.holder[target] = job
            self.entered[target] += 1
            self.goes_on(("finish", job, target), at + route[step][1])
        if source is None:
            return None
        self.holder[source] = None
        self.left_last[source] = job, step - 1
        if self.plan.cleaned(source):
            self.dirty[source] = True
            self.goes_on(("clean", source), at + self.plan.cleaned(source))
        return self.next_at(source)


def reported(shop, plan, lines):
    """The run of these reports, each with the lines of its answer, and the run."""
    floor, asked = Floor(shop, plan), []
    for line in lines:
        word, *numbers, at = line.split()
        asked.append((line, floor.report((word, *map(int, numbers)), int(at))))
    return asked, floor


def stated(shop, plan):
    """The number of reports of a whole run."""
    return shop.jobs + shop.operations + sum(len(row) for machine, row in enumerate(plan.order) if plan.cleaned(machine))


def driven(rng, shop, plan, jitter, version=1):
    """The reports of a whole run whose ends are early, exact and late, each with the lines of its answer, and the run."""
    floor, asked, waiting = Floor(shop, plan, version), [], []
    while floor.due:
        while floor.begun:
            activity = floor.begun.pop()
            heapq.heappush(waiting, (floor.due[activity] + rng.choice([0, 0, rng.randint(-jitter, jitter)]), activity))
        at, activity = heapq.heappop(waiting)
        at = max(at, floor.last)
        by_step = version == 2 and RECIRCULATES and rng.random() < 0.5
        asked.append((floor.sent(activity, at, by_step), floor.report(activity, at)))
    return asked, floor


def leavings(shop, plan):
    """When each job leaves where each activity ends when it is due; none where the plan locks."""
    floor = Floor(shop, plan)
    while floor.due:
        at, activity = floor.least_due()
        floor.report(activity, at)
    return [floor.gone[job] for job in range(shop.jobs)] if len(floor.gone) == shop.jobs else None


def alone(plan, at, route):
    """When a job leaves that goes this route from this moment on with no other one in the cell: only what it soils itself is in its way."""
    clean_from, here = {}, None
    for machine, nominal in route:
        at = max(at, clean_from.get(machine, 0))
        if here is not None:
            clean_from[here] = at + plan.cleaned(here)
        here = machine
        at += nominal
    return at


def serial(shop):
    """The orders by which each machine takes its jobs in ascending order, each as often as the job visits it."""
    order = [[] for _ in range(shop.machines)]
    for job, route in enumerate(shop.routes):
        for machine, _ in route:
            order[machine].append(job)
    return order


def worth(plan, leaves):
    """The total lateness of the plan with these leavings, and its makespan: the lesser pair is better."""
    return sum(max(0, at - budget) for at, budget in zip(leaves, plan.budget)), max(leaves)
