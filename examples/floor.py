#!/usr/bin/env python3
"""A gateway that drives a floor by cellplan, to be copied from, and a simulated floor on which both are killed.

floor.py [FILE PLAN] [--runs N] [--seed S] [--kills K] [--bad-line] [--break M UNTIL] [--scrap J@T].. [--down M@T].. [--add ROUTE@T]..
         [--chapter [--days D]] [--program CELLPLAN]

FILE is an instance and PLAN a plan for it that `cellplan check` accepts; without them it is `examples/ft06.txt` with
`examples/ft06-cleaned.toml`. Each run is one pass of all parts through the cell, with random times of which some are too long.

`Gateway` is what a floor of one's own needs. It is a process, which starts `cellplan drive --log LOG --continue`, carries out its orders and
reports what has ended. Between it and the floor telegrams go to and fro; with `--bad-line` these are lost, doubled, delayed and swapped. It
keeps nothing but LOG and the texts that LOG was driven by, so whatever dies, it goes on by these and by what the floor says of itself.

K times a run (2) the gateway, the cellplan that it has started, or both are killed (SIGKILL), at random moments, and the gateway is started
again, as a service is. In between the floor goes on.

With `--scrap J@T` part J is scrapped at moment T, or cancelled where it is still outside; with `--down M@T` machine M does no more from then
on; with `--add ROUTE@T` one more job comes, whose machines and times are ROUTE; with `--break M UNTIL` machine M stands still until moment
UNTIL, from the first part on that it gets before. The gateway is told, and hands the run over to a plan for what has changed, in mid-run, and
it may be killed within that too. A change that cellplan refuses is printed with its answer, and the run goes on by the old plan. A time unit
lasts longer then, as the search for a plan takes some time.

The gateway asks for the state behind each batch of reports, so it has no model of the cell; a floor with many reports a second follows the
lines itself. It sends the next order once the floor has confirmed that the one before is carried out; that costs a way there and back for each
order. Each order says which move of its part it is, so the floor knows a copy that comes late, also where the part stands at its machine again.
Where a log wants another plan than it did a moment ago, a cellplan whose gateway has
died has handed the run over meanwhile: the gateway then ends with 6, looks anew for the texts at its next start, and doesn't need a lock of its
own.

With `--chapter` LOG has the texts by which it is driven, and each change begins a chapter: what `revise --all --forget` makes of LOG, without the
jobs that are over, takes its place by one rename. So the cell never has to run empty: with `--days D` the jobs of FILE come again on each of so
many days, while some of the day before are still there. As jobs get new numbers then, the floor knows its parts by names.

Each order is checked as it is carried out: the part stands where it is to be fetched and is finished, and where it goes no part is, and
nothing is cleaned. At the end LOG has each move that was made, once, and no other; it has no report of what hasn't ended; and `cellplan audit`
keeps it. So do the logs of all chapters. What is wrong ends the program with status 1, and a run that cellplan doesn't begin with what it says,
and its status.
"""
import argparse, collections, fcntl, heapq, json, multiprocessing, os, random, re, select, shutil, signal, socket, subprocess, sys, tempfile, time, traceback

HERE = os.path.dirname(os.path.abspath(__file__))
START_AGAIN = 6  # the status of a gateway that is to be started again
UNIT, LONG_UNIT = 0.001, 0.01  # the seconds for which a time unit of the instance lasts, and where something changes
PATIENCE = 30  # the seconds after which a floor on which nothing goes on is given up


# ---- the gateway


class FieldBus:
    """The line to the floor. Its telegrams may be lost, come twice, come late, or overtake one another."""

    def __init__(self, line):
        self.line, self.newest = line, {"now": -1}

    def send(self, *words):
        try:
            self.line.send(json.dumps(words).encode(), socket.MSG_DONTWAIT)
        except BlockingIOError:
            pass  # lost, like others: all is sent again until the floor says that it is done

    def state(self):
        """The newest state that the floor has sent, once another telegram has come or some time has gone."""
        wait = 0.05
        while select.select([self.line], [], [], wait)[0] or self.newest["now"] < 0:
            state = json.loads(self.line.recv(1 << 20))
            self.newest, wait = max(self.newest, state, key=lambda each: each["now"]), 0
        return self.newest


class Gateway:
    """Drives one run by cellplan. `folder` has the log, and the texts by which it was driven, shop-N.txt and plan-N.toml, none of which is ever
    written anew. The first line of a plan says after how many changes it is, and which machines are down by it."""

    def __init__(self, program, folder, bus):
        self.program, self.folder, self.bus = program, folder, bus
        self.log = os.path.join(folder, "run.log")

    def begun(self, instance, plan):
        """What a person does to begin the run, and how that ends."""
        for path, text in zip(self.texts(0), (instance, plan)):
            shutil.copyfile(text, path)
        return self.ended("drive", *self.texts(0), "--log", self.log, "--new")

    def run(self):
        """Drives the run, and gives the status with which the process is to end: that of cellplan, and for a fault of its own 6."""
        try:
            return self.drive()
        except Exception:
            traceback.print_exc()
            return START_AGAIN

    def drive(self):
        """Drives the run to its end."""
        self.number = self.wanted()
        self.start("--continue")
        while not self.serve():
            self.hand_over()
        return self.close()

    def serve(self):
        """Carries out what is ordered and reports what has ended, until the run is over, or, which is false, something has changed."""
        while True:
            state = self.bus.state()
            while self.orders and state["moves"].get(self.orders[0][0], 0) >= self.orders[0][1]:
                self.orders.popleft()  # it is carried out
            self.bus.send(self.number, *list(self.orders)[:1])
            changed = len(state["changes"]) > self.changes and self.reports > 0
            if not self.orders and (self.is_over or changed):
                return self.is_over
            ended = sorted((moment, what) for what, moment in state["ended"].items() if what in self.goes_on)
            if ended and not changed:
                self.ask(*["%s %d" % (self.goes_on[what], max(moment, self.last)) for moment, what in ended])

    def hand_over(self):
        """Hands the run over to a plan for the next change. All that was ordered is carried out, so each part is where the log has it, and
        nothing is reported meanwhile. What has ended is kept by the floor, and reported to the new plan. For a change that is refused the old
        plan is written once more, with a first line that counts the change."""
        self.close()
        state, texts = self.bus.newest, self.texts(self.number)
        (change, _), now = state["changes"][self.changes], str(max(int(state["now"]), self.last))
        words = ["revise", *texts, self.log, "--at", now, *change, *self.down]
        revised, down = self.answer(*words), self.down
        is_refused = revised.startswith("change refused ")
        self.number = self.plans()
        file_path, plan_path = self.texts(self.number)
        if is_refused:
            file, plan = (open(path).read() for path in texts)
            written(file_path, file)
        else:
            written(file_path, self.answer(*words, "--file"))
            written(plan_path + ".last", revised)
            plan = self.answer("improve", file_path, plan_path + ".last", "--after", self.log, "--at", now, "--rounds", "1")
            if change[0] == "--down":
                down = down + change
        written(plan_path, "# changes %s\n%s" % (" ".join([str(self.changes + 1), *down]), plan))
        said = revised + "the run goes on by the old plan\n"
        if not is_refused:
            said = self.answer("check", file_path, plan_path, "--after", self.log, "--at", now)
        print("at %s, %s: %s" % (now, " ".join(change), said), end="", flush=True)
        self.start("--hand-over", "--at", now)

    def start(self, *words):
        """Starts cellplan, and reads what the log has. Which of its orders are carried out, the floor says."""
        self.changes, self.down = self.noted(self.number)
        words = [self.program, "drive", *self.texts(self.number), "--log", self.log, "--lines", "2", *words]
        self.cellplan = subprocess.Popen(words, stdin=subprocess.PIPE, stdout=subprocess.PIPE, text=True)
        self.orders = collections.deque()  # each with its part and how many moves that has made once it is carried out
        self.moves = collections.Counter()
        self.reports = self.last = 0
        self.ask()

    def ask(self, *reports):
        """Sends these reports, and reads the answers up to the state, which is asked for behind them and lists all that goes on."""
        try:
            os.write(self.cellplan.stdin.fileno(), "".join(line + "\n" for line in [*reports, "status"]).encode())
        except BrokenPipeError:
            pass  # it has ended: what it has said before is read
        self.goes_on = {}  # what the floor calls it, and how it is reported
        for line in self.cellplan.stdout:
            if not line.endswith("\n"):
                break  # a torn line says nothing
            if self.follow(line.split()):
                return
        sys.exit(self.close() or START_AGAIN)

    def follow(self, words):
        """Follows a line, and answers whether it ends the state."""
        kind = words[0] if words else "mark"
        if kind == "report":
            self.reports, self.last = self.reports + 1, int(words[1])
        elif kind == "order":
            part, self.last = self.part(words[2]), int(words[1])
            self.moves[part] += 1
            self.orders.append((part, self.moves[part], words[3], words[4]))
        elif kind == "done" or kind == "unfinished" and len(words) == 2:
            self.is_over = kind == "done"
            return True
        elif kind == "unfinished":
            job, dot, step = words[6 if words[1] == "machine" else 2].partition(".")
            self.goes_on[activity(words[1:], self.part(job) + dot + step)] = activity(words[1:], job + dot + step)
        elif kind not in ("mark", "late"):
            print("cellplan says:", *words, file=sys.stderr, flush=True)
            # where a cellplan whose gateway has died has handed the run over meanwhile, the texts are looked for once more
            sys.exit(START_AGAIN if words[:3] == ["log", "of", "another"] else self.close() or 1)
        return False

    def close(self):
        """Ends the input of cellplan, and gives its status: one that was killed has none, and is to be started again."""
        with self.cellplan:
            self.cellplan.stdin.close()
            self.cellplan.stdout.read()
        return max(self.cellplan.returncode, 0) or (START_AGAIN if self.cellplan.returncode else 0)

    def wanted(self):
        """The number of the texts by which the log was driven last: its last line of a plan has their digits."""
        try:
            with open(self.log, errors="replace") as log:
                digits = re.findall(r"^unfinished (plan [0-9a-f]{16} shop [0-9a-f]{16})\n", log.read(), re.MULTILINE)
        except OSError as why:  # its disk may not be mounted, so a person looks
            sys.exit("floor: the log can't be read: %s" % why)
        for number in reversed(range(self.plans() if digits else 0)):
            if self.answer("digest", *self.texts(number)).split("\n")[0] == digits[-1]:
                return number
        sys.exit("floor: no texts are those of the log")

    def plans(self):
        """How many plans there are."""
        return len([name for name in os.listdir(self.folder) if re.fullmatch(r"plan-\d+\.toml", name)])

    def texts(self, number):
        return [os.path.join(self.folder, name % number) for name in ("shop-%d.txt", "plan-%d.toml")]

    def noted(self, number):
        """After how many changes the texts are, and the words for the machines that are down by them, which each later `revise` needs again."""
        with open(self.texts(number)[1]) as plan:
            return notes(plan.readline())

    def part(self, job):
        """What the floor calls the part of a job."""
        return job

    def shop(self, number):
        return Shop(*self.texts(number))

    def logs(self, number):
        """The numbers of the texts up to these and their logs, as far as they have logs of their own."""
        return [(number, self.log)]

    def ended(self, *words):
        """How a command ends that needs no input."""
        return subprocess.run([self.program, *words], stdin=subprocess.DEVNULL, stdout=subprocess.PIPE, text=True)

    def answer(self, *words):
        """The answer of a command that needs no input."""
        ended = self.ended(*words)
        if ended.returncode not in (0, 1):
            sys.exit(max(ended.returncode, 0) or START_AGAIN)
        return ended.stdout


class Chapters(Gateway):
    """Drives one run by chapters. Their numbers are those of the changes before them. LOG has the texts of its chapter; they are taken out at each
    start, into files that are never read but by this program and `cellplan`. The logs of the chapters before are in `old`. The first line of a
    shop says after how many changes it is, and which machines are down by it."""

    def begun(self, instance, plan):
        ended = self.ended("revise", instance, plan, os.devnull, "--file")
        if ended.returncode:
            return ended
        lines, step = ended.stdout.splitlines(True), os.path.join(self.folder, "step")
        sizes = first_sizes([line.split() for line in lines])
        written(step + ".file", "changes 0\n" + "".join(lines[sizes:]))
        written(step + ".names", "jobs = %s\n" % json.dumps(["part-%d" % job for job in range(int(lines[sizes].split()[0]))]))
        written(self.log, self.answer("revise", step + ".file", plan, os.devnull, "--all", "--names", step + ".names"))
        return self.ended("drive", *self.texts(self.wanted()), "--log", self.log, "--continue")

    def wanted(self):
        """The number of the chapter of the log, whose texts are taken out of it."""
        try:
            with open(self.log, errors="replace") as log:
                found = taken_out(log.read())
        except OSError as why:
            sys.exit("floor: the log can't be read: %s" % why)
        if not found["file"]:
            sys.exit("floor: the log has no texts")
        number = notes(found["file"])[0]
        for path, text in zip([*self.texts(number), self.names(number)], found.values()):
            written(path, text)
        self.parts = names_of(found["names"])
        return number

    def names(self, number):
        return os.path.join(self.folder, "names-%d.toml" % number)

    def noted(self, number):
        with open(self.texts(number)[0]) as shop:
            return notes(shop.readline())

    def part(self, job):
        return self.parts[int(job)]

    def shop(self, number):
        with open(self.names(number)) as names:
            return Shop(*self.texts(number), names_of(names.read()))

    def logs(self, number):
        return [(before, os.path.join(self.folder, "old", "%d.log" % before)) for before in range(number)] + [(number, self.log)]

    def hand_over(self):
        """Begins a chapter with the next change. All that was ordered is carried out, and nothing is reported meanwhile. Nobody else drives the
        log, as its lock is held until another one has its place."""
        self.close()
        with open(self.log) as log:
            try:
                fcntl.flock(log, fcntl.LOCK_EX | fcntl.LOCK_NB)
            except BlockingIOError:
                sys.exit(START_AGAIN)
            self.next_chapter()
        self.number = self.wanted()
        self.start("--continue")

    def next_chapter(self):
        """Makes the text of the next chapter, with a search for a better plan between, and gives it the log's name. Where jobs are added, they are
        those of the floor's new parts, and get their names."""
        change, parts = self.bus.newest["changes"][self.changes]
        step, now = os.path.join(self.folder, "step"), str(max(int(self.bus.newest["now"]), self.last))
        text, is_refused = self.revised(change, step + ".file", now)
        found, rest = taken_out(text), ["--after", step, "--at", now]
        if not found["file"]:
            sys.exit("floor: " + text)
        found["names"] = "jobs = %s\n" % json.dumps(names_of(found["names"]) + parts * (not is_refused))
        for path, part in zip((step, step + ".file", step + ".plan", step + ".names"), (text, *found.values())):
            written(path, part)
        written(step + ".better", self.answer("improve", step + ".file", step + ".plan", *rest, "--rounds", "1"))
        if not is_refused:
            words = " ".join(change[:2]) + (" and %d more" % (len(parts) - 1) if len(parts) > 1 else "")
            verdict = self.answer("check", step + ".file", step + ".better", *rest)
            print("at %s, %s: %s" % (now, words, verdict.partition(" leaves ")[0].strip()), flush=True)
        written(step, self.answer("revise", step + ".file", step + ".better", step, "--all", "--hand-over", "--names", step + ".names"))
        self.keep(self.log, self.logs(self.number + 1)[-2][1])
        renamed(step, self.log)

    def revised(self, change, path, now):
        """The text of all with this change and without the jobs that are over, and whether the change is refused: then it is without it, too.
        The shop that is given notes the change."""
        if change[0] == "--scrap":  # a part that is over has no number any more
            change = ["--scrap", str(self.parts.index(change[1]) if change[1] in self.parts else len(self.parts))]
        (file, plan), is_refused = self.texts(self.number), False
        with open(file) as shop:
            lines = shop.readlines()
        words = ["revise", path, plan, self.log, "--at", now, "--all", "--forget", "--names", self.names(self.number), *self.down]
        for more in (change, []):
            lines[0] = " ".join(["changes", str(self.changes + 1), *self.down, *more * (more[:1] == ["--down"])]) + "\n"
            written(path, "".join(lines))
            text = self.answer(*words, *more)
            if not text.startswith("change refused "):
                break
            print("at %s, %s: %sthe run goes on by the old plan" % (now, " ".join(more), text), flush=True)
            is_refused = True
        return text, is_refused

    def keep(self, log, old):
        """The log has this name, too."""
        os.makedirs(os.path.dirname(old), exist_ok=True)
        if os.path.exists(old):
            os.remove(old)  # the chapter was begun before, and not to its end
        os.link(log, old)


def taken_out(text):
    """The texts that a log has."""
    return {key: "".join(line + "\n" for line in re.findall("^unfinished %s: (.*)$" % key, text, re.MULTILINE)) for key in ("file", "plan", "names")}


def names_of(names):
    """The names of the jobs."""
    return json.loads(re.search(r"^jobs = (.*)$", names, re.MULTILINE)[1])


def notes(line):
    """After how many changes the texts are that this is the first line of, and the words for the machines that are down by them."""
    found = re.match(r"(?:# )?changes (\d+)((?: --down \d+)*)\n", line)
    return (int(found[1]), found[2].split()) if found else (0, [])


def activity(words, job):
    """What a line of a state says to go on, as a report without its moment, none where nothing does. Where jobs visit machines again, this word for
    its job has the step."""
    if words[0] == "job" and words[2] == "arrives":
        return "arrive " + job
    if words[0] == "job" and words[2] == "on":
        return "finish " + job if "." in job else "finish %s %s" % (job, words[4])
    return "clean %s %s" % (words[1], job) if words[0] == "machine" else None


def written(path, text):
    """The file has this text, and is on the disk."""
    with open(path + ".new", "w") as file:
        file.write(text)
        file.flush()
        os.fsync(file.fileno())
    renamed(path + ".new", path)


def renamed(old, path):
    """The file has this name instead, on the disk too."""
    os.rename(old, path)
    folder = os.open(os.path.dirname(path), os.O_RDONLY)
    os.fsync(folder)
    os.close(folder)


# ---- the simulated floor


class Wrong(Exception):
    """Something that must not happen: a wrong order, a report of what hasn't ended, a log that isn't the run's."""


class Shop:
    """The routes of the parts, as lists of machine and nominal time, and the releases and cleaning times of the plan. A part is called as here,
    or as its job is."""

    def __init__(self, instance, plan, parts=None):
        with open(instance) as text:
            lines = [line.split() for line in text]
        begin = first_sizes(lines)
        jobs, machines = map(int, lines[begin][:2])
        self.again = len(lines[begin]) == 3  # whether jobs visit machines again
        numbers = [list(map(int, line)) for line in lines[begin + 1:begin + 1 + jobs]]
        self.parts = list(map(str, range(jobs))) if parts is None else parts
        self.routes = {part: list(zip(row[0::2], row[1::2])) for part, row in zip(self.parts, numbers)}
        with open(plan) as text:  # one key a line, as `cellplan plan` writes it
            lists = {key: json.loads(value) for key, value in re.findall(r"^(\w+) *= *(\[.*\])", text.read(), re.MULTILINE)}
        self.release, self.cleaning = dict(zip(self.parts, lists["release"])), lists.get("clean", [0] * machines)

    def finish(self, part, step):
        """The words for the end of an operation."""
        return "finish %s.%d" % (part, step) if self.again else "finish %s %d" % (part, self.routes[part][step][0])

    def clean(self, part, step):
        """The words for the end of the cleaning behind an operation."""
        return "clean %d %s" % (self.routes[part][step][0], "%s.%d" % (part, step) if self.again else part)

    def totals(self):
        """The numbers of reports and of orders of a whole run."""
        moves = sum(len(route) + 1 for route in self.routes.values())
        cleanings = sum(self.cleaning[machine] > 0 for route in self.routes.values() for machine, _ in route)
        return moves + cleanings, moves


def first_sizes(lines):
    """The number of the line with the sizes of an instance, each line of which is a list of words."""
    return next(place for place, line in enumerate(lines) if len(line) == 2 and all(map(str.isdigit, line)) or place and line[2:] == ["recrc"])


class Line:
    """A line that loses, doubles, delays and swaps telegrams, if it is bad."""

    def __init__(self, rng, is_bad):
        self.rng, self.is_bad, self.under_way = rng, is_bad, []

    def passes(self, telegrams, now):
        """Those that come out at the other end by now: of these and of earlier ones."""
        if not self.is_bad:
            return telegrams
        for telegram in telegrams:
            for _ in range(self.rng.choice([0, 1, 1, 1, 2])):
                self.under_way.append((now + self.rng.choice([0, 0, 0, self.rng.uniform(0, 5), self.rng.uniform(0, 50)]), telegram))
        come = [telegram for moment, telegram in self.under_way if moment <= now]
        self.under_way = [each for each in self.under_way if each[0] > now]
        self.rng.shuffle(come)
        return come


class Floor:
    """Parts, machines, one carrier that makes the moves, and a clock that never stops."""

    def __init__(self, options, rng, gateway):
        self.rng, self.gateway = rng, gateway
        self.unit = LONG_UNIT if options.broken or options.changes else UNIT
        self.broken, self.until = options.broken or (None, 0)  # a machine that stands still, and until when
        self.to_come = collections.deque(options.changes)  # pairs of a moment and the words for `cellplan revise`
        self.here, self.there = socket.socketpair(socket.AF_UNIX, socket.SOCK_DGRAM)  # the ends of the line
        self.line_in, self.line_out = Line(rng, options.bad_line), Line(rng, options.bad_line)
        self.begun = time.monotonic()
        self.places, self.made = {}, []  # where each part is, or "gone", and the moves that were made
        self.moves = collections.Counter()  # how many moves each part has made
        self.ends, self.ended = [], {}  # a heap of what goes on, by its end, and when what is over has ended
        self.told = {}  # of this what the gateway may not know yet
        self.cleaning, self.cleaned = set(), {}  # the machines that are being cleaned, and the last cleaning of each
        self.changes, self.carrier_free = [], 0  # each with its words and the names of the parts that come by it
        self.shops = {}  # by the numbers of the gateway's texts
        self.first, self.days = self.driven_by(0), options.days - 1  # what comes each day, and how many days come
        self.named = len(self.places)  # how many parts have names

    def now(self):
        return (time.monotonic() - self.begun) / self.unit

    def driven_by(self, number):
        """The shop of these texts. Parts that it has more come some time later."""
        if number not in self.shops:
            self.shops[number] = shop = self.gateway.shop(number)
            for part in shop.parts:
                if part not in self.places:
                    self.places[part] = "out"
                    self.ends_at("arrive " + part, max(self.now(), shop.release[part]) + self.rng.uniform(-3, 3))
        return self.shops[number]

    def ends_at(self, what, moment):
        heapq.heappush(self.ends, (moment, what))

    def lasts(self, nominal):
        """When something ends that begins now: mostly before its nominal time is over, at times after it."""
        return self.now() + nominal * self.rng.choice([0, 0.5, 0.9, 0.9, 1, 1.3])

    def goes_on(self):
        """Ends what is due, takes telegrams, and sends its state."""
        while self.ends and self.ends[0][0] <= self.now():
            moment, what = heapq.heappop(self.ends)
            self.has_ended(what, max(0, int(moment)))
            if what.startswith("clean"):
                self.cleaning.discard(what.split()[1])
        self.change()
        self.day_comes()
        come = []
        while select.select([self.here], [], [], 0 if come else self.unit)[0]:
            come.append(self.here.recv(1 << 20))
        for telegram in self.line_in.passes(come, self.now()):
            number, *orders = json.loads(telegram)
            self.driven_by(number)
            for order in orders:
                self.carry(number, *order)
        state = {"now": self.now(), "moves": self.moves, "ended": self.told, "changes": self.changes}
        for telegram in self.line_out.passes([json.dumps(state).encode()], self.now()):
            try:
                self.here.send(telegram, socket.MSG_DONTWAIT)
            except BlockingIOError:
                pass  # nobody reads at the moment

    def has_ended(self, what, moment):
        if what not in self.ended:
            self.ended[what] = self.told[what] = moment

    def left(self):
        """How many parts aren't gone."""
        return sum(place != "gone" for place in self.places.values())

    def day_comes(self):
        """The parts of the next day come once few of this one are left."""
        if self.days and not self.left():
            raise Wrong("the cell is empty")
        if self.days and max(self.shops) == len(self.changes) and self.left() <= max(1, len(self.first.parts) // 3):
            self.days -= 1
            words, now = [], int(self.now())
            for part, route in self.first.routes.items():
                words += ["--add", " ".join("%d %d" % step for step in route), "--release", str(now + self.first.release[part])]
            self.changes_by(words, len(self.first.parts))

    def changes_by(self, words, parts=0):
        """Tells the gateway of a change by which so many parts come."""
        self.changes.append((words, ["part-%d" % number for number in range(self.named, self.named + parts)]))
        self.named += parts

    def change(self):
        """What changes now is told to the gateway. A part that is cancelled never comes, which is told like its arrival."""
        if self.broken is not None and self.now() < self.until and str(self.broken) in self.places.values():
            self.to_come.appendleft((0, ["--until", "%d=%d" % (self.broken, self.until)]))
            self.broken = None
        while self.to_come and self.to_come[0][0] <= self.now():
            _, (kind, value) = self.to_come.popleft()
            if kind == "--scrap" and int(value) < len(self.first.parts):
                value = self.first.parts[int(value)]
            self.changes_by([kind, value], int(kind == "--add"))
            if kind == "--scrap" and self.places.get(value) == "out":
                self.has_ended("arrive " + value, int(self.now()))

    def carry(self, number, part, count, source, target):
        """Carries out an order by these texts, after which its part has made so many moves, unless it has, or the carrier is on its way."""
        shop, step = self.driven_by(number), self.moves[part] - 1
        if step + 1 >= count or self.now() < self.carrier_free:
            return
        before = "arrive " + part if source == "out" else shop.finish(part, step)
        if self.places[part] != source or before not in self.ended or not self.is_free(number, target):
            raise Wrong("the order to take %s from %s to %s: parts are at %s, cleaned is %s" % (part, source, target, self.places, self.cleaning))
        self.made.append((part, source, target))
        self.moves[part] += 1
        self.places[part] = "gone" if target == "out" else target
        for what in (before, self.cleaned.get(target)):  # what the order follows from has been reported
            self.told.pop(what, None)
        if target != "out":
            end = self.lasts(shop.routes[part][step + 1][1])
            self.ends_at(shop.finish(part, step + 1), max(end, self.until) if target == str(self.broken) else end)
        if source != "out" and shop.cleaning[int(source)] > 0:
            self.cleaning.add(source)
            self.cleaned[source] = shop.clean(part, step)
            self.ends_at(self.cleaned[source], self.lasts(shop.cleaning[int(source)]))
        self.carrier_free = self.now() + self.rng.uniform(0, 1)

    def is_free(self, number, target):
        """Whether a part may come there: outside, or to a machine that holds none, isn't cleaned, and isn't down by these texts."""
        is_down = target in self.gateway.noted(number)[1]
        return target == "out" or not (target in self.places.values() or target in self.cleaning or is_down)


class Run:
    """One pass of all parts through the cell, with what kills the gateway and starts it again."""

    def __init__(self, options, rng, folder):
        self.options, self.rng = options, rng
        self.gateway = (Chapters if options.chapter else Gateway)(options.program, folder, None)
        self.process, self.starts = None, 0  # the gateway, and when it starts
        self.moments, self.heard = [], 0  # when something is killed, and after how many changes that was chosen
        self.before, self.since = None, 0  # what had happened, and since when nothing has

    def begin(self):
        """What a person does: the run is begun, or what cellplan says against it is printed, and the program ends with its status."""
        begun = self.gateway.begun(self.options.instance, self.options.plan)
        if not begun.stdout.lstrip("\n").startswith("unfinished "):
            print(begun.stdout, end="", flush=True)
            sys.exit(begun.returncode)

    def go(self):
        """The run: a person begins it, and the gateway drives it, whatever is killed."""
        self.begin()
        self.floor = Floor(self.options, self.rng, self.gateway)
        ends = self.floor.driven_by(0).totals()[0] * self.options.days
        self.kills = sorted(self.rng.randint(0, ends) for _ in range(self.options.kills))  # after how many ends something is killed
        while self.process is None or self.process.exitcode != 0:
            self.floor.goes_on()
            self.is_started()
            self.is_killed()
            self.is_alive()
        self.end()

    def is_started(self):
        """Starts the gateway, some time after it has ended, where a service does."""
        if self.process and self.process.exitcode in (0, None):
            self.starts = self.floor.now() + self.rng.uniform(0, 5)
        elif self.process and self.process.exitcode in (1, 2, 3, 5):
            raise Wrong("the gateway ends with status %d, after which nothing is started again" % self.process.exitcode)
        elif self.floor.now() >= self.starts:
            self.process = multiprocessing.get_context("fork").Process(target=self.serve)
            self.process.start()

    def is_killed(self):
        """Kills something, soon after so many ends, and at times after a change, so that it comes while the run is handed over."""
        now = self.floor.now()
        if self.kills and len(self.floor.ended) >= self.kills[0]:
            del self.kills[0]
            self.moments.append(now + self.rng.uniform(0, 5))
        if len(self.floor.changes) > self.heard:
            self.heard += 1
            if self.options.kills and self.rng.random() < 0.5:
                self.moments.append(now + self.rng.uniform(0, 20))
        if self.moments and now >= min(self.moments) and self.process and self.process.is_alive():
            self.moments.remove(min(self.moments))
            self.kill()

    def is_alive(self):
        """Something goes on."""
        now, happened = time.monotonic(), (len(self.floor.made), len(self.floor.ended))
        if happened != self.before:
            self.before, self.since = happened, now
        elif now > self.since + PATIENCE:
            raise Wrong("nothing goes on any more")

    def serve(self):
        os.setpgid(0, 0)
        self.gateway.bus = FieldBus(self.floor.there)
        sys.exit(self.gateway.run())

    def kill(self):
        """Kills the gateway, what it has started, or both at once."""
        with open("/proc/%d/task/%d/children" % (self.process.pid, self.process.pid)) as children:
            started = [int(child) for child in children.read().split()]
        what = self.rng.choice(["gateway", "cellplan", "power"])
        try:
            if what == "power":
                os.killpg(self.process.pid, signal.SIGKILL)
                self.process.join()
                if self.process.exitcode != 0:
                    self.lose()
            for process in {"gateway": [self.process.pid], "cellplan": started}.get(what, []):
                os.kill(process, signal.SIGKILL)
        except ProcessLookupError:
            pass  # it has ended by itself, or has no group yet

    def lose(self):
        """The power is cut, and both are dead, or die. What isn't on the disk could be lost here."""

    def end(self):
        """All is out and clean, and the logs have just what was done."""
        if set(self.floor.places.values()) != {"gone"} or self.floor.cleaning:
            raise Wrong("the run is over, and parts are at %s, cleaned is %s" % (self.floor.places, self.floor.cleaning))
        moves, number = {}, self.gateway.wanted()
        for text, log in self.gateway.logs(number):
            moves.update(self.logged(text, log))
        if moves != self.floor.moves:
            raise Wrong("the logs have moves of parts %s, and these were made: %s" % (moves, self.floor.moves))
        found = self.gateway.answer("audit", *self.gateway.texts(number), self.gateway.log).strip()
        if not re.fullmatch(r"log kept reports %d orders %d last \d+ complete" % self.floor.driven_by(number).totals(), found):
            raise Wrong("the audit says: " + found)

    def logged(self, number, log):
        """How many moves of each part a log has by these texts, which has the first ones that were made of its parts, and nothing but those."""
        shop, moves = self.floor.driven_by(number), collections.Counter()
        with open(log) as text:
            lines = [line.split() for line in text]
        orders = [(shop.parts[int(words[2])], words[3], words[4]) for words in lines if words[:1] == ["order"]]
        made = [move for move in self.floor.made if move[0] in shop.routes]
        if orders != made[:len(orders)]:
            raise Wrong("%s has the orders %s, and the moves are %s" % (log, orders, made))
        for words in lines:
            if words[:1] == ["order"]:
                moves[shop.parts[int(words[2])]] += 1
            elif words[:1] == ["report"] and words[2] != "clean":
                part = shop.parts[int(words[3])]
                what = "arrive " + part if words[2] == "arrive" else shop.finish(part, moves[part] - 1)
                if self.floor.ended.get(what, 10**13) > int(words[1]):
                    raise Wrong("reported before it has ended: " + " ".join(words))
        if not self.gateway.answer("audit", *self.gateway.texts(number), log).startswith("log kept "):
            raise Wrong("an audit doesn't keep " + log)
        return moves


def found_program():
    """The cellplan of the path, else the one that was built in the clone of this file, else none."""
    return shutil.which("cellplan") or shutil.which(os.path.join(HERE, "../crates/cellplan/out/cellplan"))


def change(kind):
    """Reads J@T, M@T or ROUTE@T as a moment and the words for `cellplan revise`."""

    def read(text):
        value, _, moment = text.rpartition("@")
        if kind != "--add" and not re.fullmatch("[0-9]{1,9}", value):
            raise argparse.ArgumentTypeError("%r has no number of 1 to 9 digits before an @" % text)
        return float(moment), [kind, value]

    return read


def chosen(words=None):
    parser = argparse.ArgumentParser(description="A simulated floor whose gateway and cellplan are killed and started again.")
    parser.add_argument("instance", nargs="?", default=os.path.join(HERE, "ft06.txt"))
    parser.add_argument("plan", nargs="?", default=os.path.join(HERE, "ft06-cleaned.toml"))
    parser.add_argument("--runs", type=int, default=10, help="how many passes (10)")
    parser.add_argument("--seed", type=int, default=0, help="where the random times begin (0)")
    parser.add_argument("--kills", type=int, default=2, help="how often something is killed in a run (2)")
    parser.add_argument("--bad-line", action="store_true", help="a line that loses, doubles, delays and swaps telegrams")
    parser.add_argument("--chapter", action="store_true", help="LOG has its texts, and each change begins a chapter, without the jobs that are over")
    parser.add_argument("--days", type=int, default=1, help="how many days the jobs of FILE come, by chapters (1)")
    parser.add_argument("--break", dest="broken", nargs=2, type=int, metavar=("M", "UNTIL"), help="machine M stands still until UNTIL")
    parser.add_argument("--program", default=found_program(), help="cellplan (of the path, else of this clone)")
    for kind, value in (("--scrap", "J"), ("--down", "M"), ("--add", "ROUTE")):
        parser.add_argument(kind, dest="changes", action="append", default=[], type=change(kind), metavar=value + "@T", help="`cellplan revise %s %s` at moment T" % (kind, value))
    options = parser.parse_args(words)
    if options.program is None:
        parser.error("there is no command cellplan: put it on the path, or name it with --program")
    if options.days > 1 and not options.chapter:
        parser.error("--days needs --chapter")
    options.changes.sort()
    return options


def tried(options, seed, kind=Run):
    """What is wrong in the run with this seed, nothing where all is well."""
    with tempfile.TemporaryDirectory() as folder:
        run = kind(options, random.Random(seed), folder)
        try:
            run.go()
        except (Wrong, OSError) as wrong:
            return str(wrong)
        finally:
            if run.process and run.process.is_alive():
                run.process.kill()
    return None


def main():
    options = chosen()
    for seed in range(options.seed, options.seed + options.runs):
        wrong = tried(options, seed)
        print("run with seed %d: %s" % (seed, wrong or "all parts are out, and the log has the whole run"), flush=True)
        if wrong:
            return 1
    return 0


if __name__ == "__main__":
    sys.exit(main())
