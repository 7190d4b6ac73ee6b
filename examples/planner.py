#!/usr/bin/env python3
"""A planner of one's own: it proposes plan texts, and learns from `cellplan explain` what to change in them.

planner.py FILE PLAN [--steps N] [--seed S] [--program CELLPLAN] > BETTER

FILE is an instance, PLAN a plan that fits it, whose orders are where the search begins. It looks for orders by which no job is
late, and then for a lesser makespan. The best plan that it met is printed, with status 0 where it is accepted, else 1.

The search knows nothing of machines or times. It asks, and goes by the lines that name a machine and two jobs:

    5 1.0 machine 1 from job 0 to job 1

says that job 1 waits there for job 0; where jobs visit machines again, `job 0.2` is job 0 at its step 2. Of a plan that is late, or longer
than it need be, one such line of the chain is chosen, and the two jobs are exchanged in that machine's order, but never two visits of one
job. Where the new plan has a cycle, it can't be run: then two jobs that wait for each other on the cycle are exchanged too, but none of
those that have been exchanged already, until there is no cycle or nothing is left to exchange. The new plan is kept if it isn't worse, and
at times if it is. `cellplan` judges each plan, so this search may be as careless as it likes: what it prints as accepted can be run.
"""
import argparse, json, os, random, re, shutil, subprocess, sys, tempfile

HERE = os.path.dirname(os.path.abspath(__file__))
WAITS = re.compile(r"machine (\d+) from job ([\d.]+) to job ([\d.]+)")
WORSE = 0.1  # the share of worse plans that is kept


def routes_of(path):
    """The machines of each route of an instance in which jobs visit machines again, nothing of another one."""
    with open(path) as text:
        lines = [line.split() for line in text]
    for place, sizes in enumerate(lines[1:], 2):
        if len(sizes) == 3 and sizes[2] == "recrc":
            return [list(map(int, row[0::2])) for row in lines[place:place + int(sizes[0])]]
    return []


class Plan:
    """The lists of a plan text, one key a line as `cellplan plan` writes them, for these routes."""

    def __init__(self, text, routes):
        self.routes = routes
        self.lists = {key: json.loads(value) for key, value in re.findall(r"^(\w+) *= *(\[.*\])", text, re.MULTILINE)}

    def text(self):
        version = "version = 2\n" if "clean" in self.lists else ""
        return version + "".join("%s = %s\n" % (key, json.dumps(value)) for key, value in self.lists.items())

    def exchanged(self, machine, first, second):
        """The plan in which two jobs that follow each other on a machine have changed their places."""
        other = Plan(self.text(), self.routes)
        order, job = other.lists["order"][machine], job_of(second)
        place = [place for place, each in enumerate(order) if each == job_of(first)][self.visit(machine, first)]
        if order[place + 1:place + 2] != [job]:
            raise SystemExit("planner: job %s isn't directly behind job %s on machine %d" % (second, first, machine))
        order[place:place + 2] = reversed(order[place:place + 2])
        return other

    def visit(self, machine, word):
        """How often the job of this word has been on the machine before."""
        job, _, step = word.partition(".")
        return self.routes[int(job)][:int(step)].count(machine) if step else 0


def job_of(word):
    """The job of a word as 0, or 0.2 with its step."""
    return int(word.split(".")[0])


class Answer:
    """What `cellplan explain` says of a plan."""

    def __init__(self, plan, lines):
        self.plan = plan
        self.first = lines[0].split(" ")
        if self.first[0] == "not":
            raise SystemExit("planner: " + lines[0])
        # who waits for whom: a machine, the words of the job that it waits for, and of the job that waits, if that isn't the same one
        waits = [found.groups() for found in map(WAITS.search, lines[1:]) if found]
        self.waits = [(int(machine), first, second) for machine, first, second in waits if job_of(first) != job_of(second)]

    def has_cycle(self):
        return self.first[:2] == ["refused", "cycle"]

    def is_accepted(self):
        return self.first[0] == "accepted"

    def cost(self):
        """The lesser, the better: how many jobs aren't known to be in time, by how much the first of them is late, and the makespan."""
        if self.is_accepted():
            return 0, 0, int(self.first[2])
        late, moment = int(self.first[2]), int(self.first[3])
        budgets = self.plan.lists["budget"]
        return len(budgets) - late, moment - budgets[late], 0


class Search:
    """A walk from plan to plan, and the best that it has met."""

    def __init__(self, options, work):
        self.options, self.rng = options, random.Random(options.seed)
        self.path = os.path.join(work, "plan.toml")
        self.asked = 0

    def ask(self, plan):
        with open(self.path, "w") as file:
            file.write(plan.text())
        self.asked += 1
        words = [self.options.program, "explain", self.options.instance, self.path]
        ended = subprocess.run(words, stdout=subprocess.PIPE, text=True)
        if ended.returncode > 1:
            raise SystemExit(ended.returncode)
        return Answer(plan, ended.stdout.splitlines())

    def without_cycle(self, answer, exchanged):
        """The answer itself, or that of a plan without a cycle found by further exchanges, if there is one."""
        while answer is not None and answer.has_cycle():
            answer = self.neighbour(answer, exchanged)
        return answer

    def neighbour(self, answer, exchanged):
        """The answer to a plan in which two jobs of a line are exchanged, none of those pairs that were before."""
        left = [(machine, first, second) for machine, first, second in answer.waits if (machine, second, first) not in exchanged]
        if not left:
            return None
        pair = self.rng.choice(left)
        exchanged.add(pair)
        return self.ask(answer.plan.exchanged(*pair))

    def step(self, here):
        """Where a step from here leads: to a plan without a cycle, or nowhere."""
        exchanged = set()
        there = self.without_cycle(self.neighbour(here, exchanged), exchanged)
        if there is None or there.cost() > here.cost() and self.rng.random() > WORSE:
            return here
        return there

    def run(self, start):
        here = best = self.without_cycle(self.ask(start), set())
        if here is None:
            raise SystemExit("planner: the orders have a cycle; begin with each machine's jobs in ascending order")
        while self.asked < self.options.steps and here.waits:
            here = self.step(here)
            best = min(best, here, key=Answer.cost)
        return best


def found_program():
    """The cellplan of the path, else the one that was built in the clone of this file, else none."""
    return shutil.which("cellplan") or shutil.which(os.path.join(HERE, "../crates/cellplan/out/cellplan"))


def words():
    parser = argparse.ArgumentParser(description="A local search over plan texts that asks `cellplan explain`.")
    parser.add_argument("instance")
    parser.add_argument("plan")
    parser.add_argument("--steps", type=int, default=2000, help="how many plans are tried (2000)")
    parser.add_argument("--seed", type=int, default=0, help="where the random choices begin (0)")
    parser.add_argument("--program", default=found_program(), help="cellplan (of the path, else of this clone)")
    options = parser.parse_args()
    if options.program is None:
        parser.error("there is no command cellplan: put it on the path, or name it with --program")
    return options


def main():
    options = words()
    with open(options.plan) as file:
        start = Plan(file.read(), routes_of(options.instance))
    with tempfile.TemporaryDirectory() as work:
        best = Search(options, work).run(start)
    print("planner: " + " ".join(best.first), file=sys.stderr)
    sys.stdout.write(best.plan.text())
    return 0 if best.is_accepted() else 1


if __name__ == "__main__":
    sys.exit(main())
