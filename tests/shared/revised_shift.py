"""What `revise` has to make of a plan, an instance, names and a log in mid-run: it shares no code with the program."""
import hashlib, re, unicodedata
from cell_model import Plan, Shop
from rest_answers import Cell, event_of

NO_PROMISE = 10**12
MOST_RELEASE, MOST_NOMINAL, MOST_JOBS, MOST_MACHINES, MOST_STEPS = 10**9, 10**6, 200, 100, 100
LINE_OF_A_PLAN = re.compile(rb"unfinished (plan [0-9a-f]{16} shop [0-9a-f]{16})")


class Refused(Exception):
    """The change can't be, and why."""


class Names:
    """The lists of a NAMES text, each none where it has no such key, and the clock at moment 0 as it stands there."""

    def __init__(self, jobs=None, machines=None, begin=None):
        self.jobs, self.machines, self.begin = jobs, machines, begin

    def lines(self):
        lists = [(key, names) for key, names in (("jobs", self.jobs), ("machines", self.machines)) if names is not None]
        lines = ["%s = [%s]" % (key, ", ".join(map(quoted, names))) for key, names in lists]
        return lines if self.begin is None else lines + ["begin = " + quoted(self.begin)]


class Shift:
    """A shop and a plan as the changes make them, of a cell that stays as it is but for what holds a machine.

    Jobs keep their numbers until all changes are made; `over` are those that are then dropped."""

    def __init__(self, cell, now, over=(), names=None):
        shop, plan = cell.shop, cell.plan
        self.cell, self.now, self.again, self.over = cell, now, shop.again, set(over)
        self.routes, self.machines = [list(route) for route in shop.routes], shop.machines
        self.release, self.budget = plan.release[:], plan.budget[:]
        self.orders, self.clean = [row[:] for row in plan.order], None if plan.clean is None else plan.clean[:]
        self.step, self.entered, self.cleaning = cell.step[:], cell.entered[:], cell.cleaning[:]
        self.names, self.named = names, dict(enumerate(names and names.jobs or []))
        self.holds, self.held = {}, []  # the machine of each job that holds one, and the events by which it does
        self.spare = self.machine_aside()  # the machine of what is put aside, if there is one

    # --- what comes of it

    def kept(self):
        """The jobs that stay, by the numbers that they had."""
        return [job for job in range(len(self.routes)) if job not in self.over]

    def plant(self):
        """How many machines stay: that of what is put aside goes once nobody visits it."""
        is_left = self.spare is not None and not any(job not in self.over for job in self.orders[self.spare])
        return self.machines - is_left

    def shop(self):
        return Shop(self.plant(), [self.routes[job] for job in self.kept()], self.again)

    def plan(self):
        kept, plant = {job: number for number, job in enumerate(self.kept())}, self.plant()
        order = [[kept[job] for job in row if job in kept] for row in self.orders[:plant]]
        release, budget = ([moments[job] for job in kept] for moments in (self.release, self.budget))
        return Plan(release, budget, self.clean and self.clean[:plant], order)

    def names_kept(self):
        if self.names is None:
            return Names()
        jobs = [self.named[job] for job in self.kept() if job in self.named]
        machines = self.names.machines and self.names.machines[:self.plant()]
        return Names(None if self.names.jobs is None else jobs, machines, self.names.begin)

    def numbers(self):
        def was(job):
            return "holds machine %d" % self.holds[job] if job in self.holds else "was %d" % job if job < self.cell.shop.jobs else "is new"

        return ["job %d %s" % (number, was(job)) for number, job in enumerate(self.kept())]

    def log(self, description, events):
        """The text of all: these events, each with its job, and the other texts in lines that a log passes over."""
        shop, plan, number = self.shop(), self.plan(), {job: number for number, job in enumerate(self.kept())}
        texts = [("file", description + shop.text().splitlines()), ("plan", plan.text().splitlines())]
        texts += [("names", self.names_kept().lines()), ("numbers", self.numbers())]
        lines = ["plan %s shop %s" % ("0" * 16, "0" * 16)] + ["%s: %s" % (key, line) for key, text in texts for line in text]
        shown = [line_of(at, what, number) for at, what, job in events + self.held if job not in self.over]
        closing = ["unfinished " + digits(shop, plan)]
        return "".join(line + "\n" for line in ["unfinished " + line for line in lines] + shown + closing)

    # --- where a job is

    def machine_aside(self):
        """The last machine, if all that visit it take no time there, go nowhere else and have no promise, and it isn't cleaned."""
        last = self.machines - 1
        visitors = [job for job, route in enumerate(self.routes) if last in [machine for machine, _ in route]]
        alone = all(self.routes[job] == [(last, 0)] and self.budget[job] == NO_PROMISE for job in visitors)
        return last if visitors and alone and not (self.clean and self.clean[last]) else None

    def is_gone(self, job):
        return self.step[job] == len(self.routes[job])

    def has_come(self, job):
        return self.step[job] >= 0 or job < self.cell.shop.jobs and self.cell.done[job]

    def is_on(self, job, machine):
        return not self.is_gone(job) and self.step[job] >= 0 and self.routes[job][self.step[job]][0] == machine

    def is_aside(self, job):
        return self.spare is not None and self.routes[job] == [(self.spare, 0)]

    def next_visit(self, job, machine):
        """The next step of the job on the machine, none where it doesn't come there any more."""
        return next((step for step in range(self.step[job] + 1, len(self.routes[job])) if self.routes[job][step][0] == machine), None)

    def locks(self):
        """Whether moves that aren't made yet wait for one another."""
        shop = Shop(self.machines, self.routes, self.again)
        ahead = [(job, place) for job, route in enumerate(self.routes) for place in range(self.step[job] + 1, len(route))]
        arcs = {(job, place): [(job, place + 1)] for job, place in ahead}
        for machine, order in enumerate(self.orders):
            visits = shop.row(machine, order)
            for (job, step), behind in zip(visits, visits[1:]):
                if self.step[job] <= step:
                    arcs.setdefault((job, step + 1), []).append(behind)
        waits = {}
        for target in sum(arcs.values(), []):
            waits[target] = waits.get(target, 0) + 1
        free = [move for move in arcs if move not in waits]
        for move in free:
            for target in arcs.get(move, []):
                waits[target] -= 1
                free += [target] * (waits[target] == 0)
        return any(waits.values())

    # --- what can't be

    def plant_machine(self, machine):
        if machine >= self.machines or machine == self.spare:
            raise Refused("MachineOutOfRange")

    def is_there(self, job):
        if job >= len(self.routes):
            raise Refused("JobOutOfRange")
        if self.is_gone(job):
            raise Refused("JobGone")

    def is_in_the_plant(self, job):
        self.is_there(job)
        if self.is_aside(job):
            raise Refused("JobAside")

    def has_room(self):
        if len(self.kept()) == MOST_JOBS:
            raise Refused("TooManyJobs")

    @staticmethod
    def number(word):
        if not (word.isascii() and word.isdigit() and len(word) <= 9):
            raise Refused("BadNumber")
        return int(word)

    def steps(self, words):
        """The steps of a route that is one word of the command line."""
        words = [word for word in words.replace("\t", " ").split(" ") if word]
        if len(words) % 2:
            raise Refused("OddWords")
        numbers = list(map(self.number, words))
        return list(zip(numbers[0::2], numbers[1::2]))

    def can_go(self, begun, route):
        """Whether a job can go this route behind the steps that it has begun, of which there are none outside."""
        if not (begun or route):
            raise Refused("EmptyRoute")
        if self.again and len(begun + route) > MOST_STEPS:
            raise Refused("TooManySteps")
        for place, (machine, nominal) in enumerate(route):
            self.plant_machine(machine)
            before = [other for other, _ in begun + route[:place]]
            if machine in (before[-1:] if self.again else before):
                raise Refused("MachineTwice")
            if nominal > MOST_NOMINAL:
                raise Refused("NominalTooLarge")

    def can_be_named(self, name):
        if name is None:
            return
        if not is_name(name):
            raise Refused("BadName")
        if name in [self.named.get(job) for job in self.kept()]:
            raise Refused("NameTwice")
        if not all(job in self.named for job in self.kept()):
            raise Refused("NoNames")

    # --- the changes

    def until(self, machine, moment):
        self.plant_machine(machine)
        at_work = [job for job in range(self.cell.shop.jobs) if self.is_on(job, machine) and not self.cell.done[job]]
        if not at_work:
            raise Refused("Idle")
        if moment < self.now:
            raise Refused("TooSoon")
        nominal = moment - self.cell.since[at_work[0]]
        if nominal > MOST_NOMINAL:
            raise Refused("NominalTooLarge")
        self.routes[at_work[0]][self.step[at_work[0]]] = machine, nominal

    def add(self, words, release=None, budget=None, name=None):
        """A job more, whose route is one word of the command line."""
        route = self.steps(words)
        self.has_room()
        self.can_go([], route)
        release = self.now if release is None else release
        if release > MOST_RELEASE:
            raise Refused("ReleaseTooLarge")
        self.can_be_named(name)
        for machine, _ in route:
            self.orders[machine].append(len(self.routes))
        self.comes(route, release, NO_PROMISE if budget is None else budget, name)

    def comes(self, route, release, budget, name):
        if name is not None:
            self.named[len(self.routes)] = name
        self.routes.append(route)
        self.release.append(release)
        self.budget.append(budget)
        self.step.append(-1)

    def route(self, job, words):
        """The job goes another way from here."""
        self.is_there(job)
        if self.is_aside(job) and self.step[job] >= 0:
            raise Refused("JobAside")
        route, begun = self.steps(words), self.routes[job][:self.step[job] + 1]
        self.can_go(begun, route)
        self.cut_behind(job, self.step[job])
        for machine, nominal in route:
            self.routes[job].append((machine, nominal))
            self.goes_behind(job, machine)

    def goes_behind(self, job, machine):
        """The job's last step goes as far behind in the order as it can, but not before its own visits nor what has entered."""
        row = self.orders[machine]
        first = max([self.entered[machine]] + [place + 1 for place, other in enumerate(row) if other == job])
        for place in reversed(range(first, len(row) + 1)):
            self.orders[machine] = row[:place] + [job] + row[place:]
            if not self.locks():
                return
        raise Refused("Locks")

    def due(self, job, release):
        """The job, which hasn't come, is due then."""
        self.is_in_the_plant(job)
        if self.has_come(job):
            raise Refused("JobArrived")
        if release > MOST_RELEASE:
            raise Refused("ReleaseTooLarge")
        self.release[job] = release

    def promise(self, job, budget):
        self.is_in_the_plant(job)
        self.budget[job] = budget

    def hold(self, machine, until, name=None):
        """A job more holds the machine from now on."""
        self.plant_machine(machine)
        if any(self.is_on(job, machine) for job in range(len(self.routes))):
            raise Refused("Occupied")
        self.has_room()
        if self.now > MOST_RELEASE:
            raise Refused("ReleaseTooLarge")
        if until < self.now:
            raise Refused("TooSoon")
        if until - self.now > MOST_NOMINAL:
            raise Refused("NominalTooLarge")
        self.can_be_named(name)
        job, place = len(self.routes), self.entered[machine]
        if self.cleaning[machine] is not None:
            self.held.append((self.now, ("clean", machine), self.orders[machine][place - 1]))
        self.held += [(self.now, what, job) for what in (("arrive", job), (job, None, machine))]
        self.orders[machine].insert(place, job)
        self.comes([(machine, until - self.now)], self.now, NO_PROMISE, name)
        self.step[job], self.entered[machine], self.cleaning[machine], self.holds[job] = 0, place + 1, None, machine

    def scrap(self, job):
        self.is_there(job)
        if self.step[job] < 0:
            self.put_aside(job)
        else:
            self.end_behind(job, self.step[job])

    def down(self, machine):
        self.plant_machine(machine)
        for job in range(len(self.routes)):
            if self.is_on(job, machine):
                self.end_behind(job, self.step[job])
        for job in range(len(self.routes)):
            step = self.next_visit(job, machine)
            if step is None:
                continue
            if self.step[job] < 0:
                self.put_aside(job)
            else:
                self.end_behind(job, step - 1)

    def end_behind(self, job, step):
        self.cut_behind(job, step)
        self.budget[job] = NO_PROMISE

    def cut_behind(self, job, step):
        """The visits behind go out of the orders: of the job's places in each the last ones."""
        for machine, _ in self.routes[job][step + 1:]:
            places = [place for place, other in enumerate(self.orders[machine]) if other == job]
            del self.orders[machine][places[-1]]
        self.routes[job] = self.routes[job][:step + 1]

    def put_aside(self, job):
        if self.spare is None:
            self.bring_spare()
        self.orders = [[other for other in row if other != job] for row in self.orders]
        self.orders[self.spare].append(job)
        self.routes[job] = [(self.spare, 0)]
        self.release[job], self.budget[job] = min(self.now, MOST_RELEASE), NO_PROMISE

    def bring_spare(self):
        if self.machines == MOST_MACHINES:
            raise Refused("TooManyMachines")
        self.spare = self.machines
        self.machines += 1
        self.orders.append([])
        self.entered.append(0)
        self.cleaning.append(None)
        if self.clean is not None:
            self.clean.append(0)


# --- the log


def whole_lines(log):
    return [line[:-1] if line.endswith(b"\r") else line for line in log.split(b"\n")[:-1]]


def events_of(shop, plan, log):
    """The events of a log that is a run of this plan, each with its moment and its job: of a cleaning the one that had left."""
    cell, events = Cell(shop, plan), []
    for at, what in filter(None, (event_of(shop, line) for line in whole_lines(log))):
        job = plan.order[what[1]][cell.entered[what[1]] - 1] if what[0] == "clean" else what[1] if isinstance(what[0], str) else what[0]
        events.append((at, what, job))
        cell.take(at, what)
    return events


def over(cell, events):
    """The jobs that are gone, but for those behind which a machine is being cleaned, and that of the last event."""
    cleaned = [cell.plan.order[machine][cell.entered[machine] - 1] for machine, since in enumerate(cell.cleaning) if since is not None]
    return {job for job in range(cell.shop.jobs) if cell.gone(job)} - set(cleaned) - {job for _, _, job in events[-1:]}


def line_of(at, what, number):
    """The line of an event by the new numbers of the jobs."""
    if what[0] == "clean":
        return "report %d clean %d" % (at, what[1])
    if isinstance(what[0], str):
        return " ".join(map(str, ["report", at, what[0], number[what[1]], *what[2:]]))
    return " ".join(map(str, ["order", at, number[what[0]], *("out" if spot is None else spot for spot in what[1:])]))


def digits(shop, plan):
    """The words of a plan and its shop, by which a log names them."""
    texts = plan.text(), "recirculation\n" * shop.again + shop.text()
    return "plan %s shop %s" % tuple(hashlib.sha256(text.encode()).hexdigest()[:16] for text in texts)


def plan_of(log):
    """The words of the plan that the log names last, none where it names none."""
    found = [plan[1].decode() for plan in map(LINE_OF_A_PLAN.fullmatch, whole_lines(log)) if plan]
    return found[-1] if found else None


def has_names(log):
    return any(line.startswith(b"unfinished names:") for line in whole_lines(log))


def quoted(name):
    """A name as a string of TOML."""
    return '"%s"' % name.replace("\\", "\\\\").replace('"', '\\"')


def is_name(word):
    """Whether a job or a machine may have this name."""
    odd = [letter for letter in word if letter == " " or unicodedata.category(letter) == "Cc" or letter in "\ufffe\uffff"]
    return 1 <= len(word.encode()) <= 40 and not odd and word not in ("out", "or", "fewer") and not re.fullmatch("[0-9]+", word)
