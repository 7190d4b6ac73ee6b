"""Random shops, plans, logs and moments for the scripts of tests, which share no code with the program.

The logs are of eager and lazy controllers, with early, exact and late reports, cut anywhere; some lines are bad. The plan and the instance
are those of the log or others.
"""
import math, os
from cell_model import RECIRCULATES, Plan, Shop, serial
from rest_answers import Cell, Rest, cell_of

MOST = 10**12


def some_shop(rng, jobs, machines, longest, least=1):
    """A shop whose routes have at least so many steps. In half of the shops a job may visit a machine again; in some of these it goes by a robot,
    which is machine 0."""
    again = RECIRCULATES and rng.random() < 0.5
    by_robot = again and machines > 1 and rng.random() < 0.4
    routes = []
    for _ in range(jobs):
        route = rng.sample(range(machines), rng.randint(least, machines))
        if by_robot:
            route = [0] + sum([[rng.randrange(1, machines), 0] for _ in range(rng.randint(1, max(1, len(route) - 1)))], [])
        elif again:
            route = walk(rng, machines, None, len(route) + rng.choice([0, 0, 1, 2]))
        routes.append([(machine, rng.randint(0, longest)) for machine in route])
    return Shop(machines, routes, again)


def walk(rng, machines, last, steps):
    """So many machines, each another one than that before it, behind this last one; none more where there is no other one."""
    route = []
    while len(route) < steps:
        others = [machine for machine in range(machines) if machine != last]
        if not others:
            break
        last = rng.choice(others)
        route.append(last)
    return route


def some_orders(rng, shop, ranked=0.7):
    """Orders without a cycle: serial ones, by a ranking or not, and, where jobs visit machines again, mostly those of a run."""
    if shop.again and rng.random() < 0.6:
        return orders_of_a_run(rng, shop)
    if rng.random() < ranked:
        ranking = rng.sample(range(shop.jobs), shop.jobs)
        return [sorted(row, key=ranking.index) for row in serial(shop)]
    return serial(shop)


def orders_of_a_run(rng, shop):
    """The orders of a run in which parts go on as they like wherever the next machine is free; the serial ones where that locks ten times."""
    for _ in range(10):
        step, order, movers = [-1] * shop.jobs, [[] for _ in range(shop.machines)], list(range(shop.jobs))
        while movers:
            job = rng.choice(movers)
            step[job] += 1
            if step[job] < len(shop.routes[job]):
                order[shop.routes[job][step[job]][0]].append(job)
            there = [route[at][0] for route, at in zip(shop.routes, step) if 0 <= at < len(route)]
            ahead = [(job, route[at + 1:at + 2]) for job, (route, at) in enumerate(zip(shop.routes, step)) if at < len(route)]
            movers = [job for job, next in ahead if not next or next[0][0] not in there]
        if all(at == len(route) for route, at in zip(shop.routes, step)):
            return order
    return serial(shop)


def arrangements(row):
    """All orders in which these jobs may stand, some of them more than once."""
    if not row:
        yield []
    for job in sorted(set(row)):
        left = list(row)
        left.remove(job)
        for behind in arrangements(left):
            yield [job, *behind]


def plans_of(rows):
    """How many plans there are where these jobs are to stand in each row."""
    return math.prod(math.factorial(len(row)) // math.prod(math.factorial(row.count(job)) for job in set(row)) for row in rows)


def some_plan(rng, shop, longest, cleanest):
    """A plan for the shop, which locks at times."""
    order = some_orders(rng, shop)
    if rng.random() < 0.2:
        rng.choice(order).reverse()
    clean = [rng.choice([0, rng.randint(0, cleanest)]) for _ in range(shop.machines)] if rng.random() < 0.8 else None
    return Plan([rng.choice([0, rng.randint(0, longest)]) for _ in range(shop.jobs)], [0] * shop.jobs, clean, order)


def numeral(rng, number):
    return "%0*d" % (rng.choice([0, 0, 0, 0, 9]), number)


def line_of(rng, at, what):
    """The line of an event, some of whose numbers have zeros before them."""
    if isinstance(what[0], str):
        words = ["report", numeral(rng, at), what[0]] + [numeral(rng, number) for number in what[1:]]
    else:
        words = ["order", numeral(rng, at)] + ["out" if number is None else numeral(rng, number) for number in what]
    return " ".join(words)


def drive_on(rng, cell, events, jitter, eager):
    """The lines of so many events more, by a controller that makes each move at once, or when it likes."""
    lines = []
    while events > 0 and (cell.going() or cell.movers()):
        going, movers = cell.going(), cell.movers()
        if movers and (eager or not going or rng.random() < 0.4):
            what = movers[0] if eager else rng.choice(movers)
            at = cell.last if eager else cell.last + rng.choice([0, 0, rng.randint(0, jitter)])
        elif going:
            ends = {activity: due + rng.choice([0, 0, rng.randint(-jitter, jitter)]) for activity, due in going.items()}
            what = min(ends, key=ends.get)
            at = max(cell.last, ends[what])
        lines.append(line_of(rng, at, what))
        if isinstance(what[0], str) and at > min(going.values()):
            lines.append("late %d" % at)
        cell.take(at, what)
        events -= 1
    return lines


def drive_to_a_cleaning(rng, cell, jitter, eager):
    """The lines up to a moment at which a machine is being cleaned and a job is still to enter it, if that comes soon."""
    lines = []
    for _ in range(30):
        if any(since is not None and cell.next_on(machine) is not None for machine, since in enumerate(cell.cleaning)):
            break
        lines += drive_on(rng, cell, 1, jitter, eager)
    return lines


def spoilt(rng, lines):
    """The lines with one that doesn't fit, mostly."""
    place = rng.randrange(len(lines))
    kind = rng.randrange(5)
    if kind == 0:
        del lines[place]
    elif kind == 1:
        lines.insert(rng.randrange(len(lines) + 1), lines[place])
    elif kind == 2:
        words = lines[place].split()
        words[rng.randrange(len(words))] = rng.choice(["0", "1", "2", "7", "out", "1000000000001", "0000000000", "-1", "clean", "arrive"])
        lines[place] = " ".join(words)
    elif kind == 3:
        lines.insert(place, rng.choice(["arrive 0 0", "report 0 arrive 0 ", " late 3", "report  0 arrive 0", "order 0 0 out", "\0\0", "x"]))
    else:
        lines[place:place + 2] = reversed(lines[place:place + 2])
    return lines


def log_text(rng, lines):
    """The bytes of a log with these lines and others that are passed over, torn or not."""
    if lines and rng.random() < 0.15:
        spoilt(rng, lines)
    for _ in range(rng.choice([0, 0, 1, 3])):
        lines.insert(rng.randint(0, len(lines)), rng.choice(["", "refused 3 BadLine", "done 7", "unfinished 2", "late 1 job 0"]))
    text = "".join(line + rng.choice(["\n", "\n", "\n", "\r\n"]) for line in lines).encode()
    kind = rng.randrange(5)
    if kind == 0:
        return text[:rng.randint(0, len(text))]
    return text + (b"" if kind < 4 else rng.choice([b"\0\0\0", b"report 1", b"order 0 0 out 0", b"late", b"\r", b"x\0y"]))


def other_routes(rng, shop, cell, longest):
    """Other times, other machines in what is left of some routes, and further jobs."""
    routes = [list(route) for route in shop.routes]
    for job, route in enumerate(routes):
        if rng.random() < 0.3:
            routes[job] = [(machine, rng.choice([nominal, rng.randint(0, longest)])) for machine, nominal in route]
        if rng.random() < 0.2 and not cell.gone(job):
            kept = routes[job][:max(0, cell.step[job]) + 1]
            left = [machine for machine in range(shop.machines) if machine not in [other for other, _ in kept]]
            more = rng.sample(left, rng.randint(0, len(left)))
            if shop.again:
                more = walk(rng, shop.machines, kept[-1][0], rng.randint(0, 3))
            routes[job] = kept + [(machine, rng.randint(0, longest)) for machine in more]
    for _ in range(rng.choice([0, 0, 0, 1, 2])):
        machines = rng.sample(range(shop.machines), rng.randint(1, shop.machines))
        if shop.again:
            machines = walk(rng, shop.machines, None, rng.randint(1, shop.machines + 1))
        routes.append([(machine, rng.randint(0, longest)) for machine in machines])
    return Shop(shop.machines, routes, shop.again)


def other_plan(rng, shop, plan, cell, longest):
    """A plan for this shop that mostly keeps the run up to the cell, of a plan for another one."""
    order = []
    for machine, visitors in enumerate(serial(shop)):
        first, left, missing = plan.order[machine][:cell.entered[machine]], [], visitors[:]
        for job in plan.order[machine]:
            if job in missing:
                missing.remove(job)
                left.append(job)
        left = left[len(first):]
        for job in missing:
            left.insert(rng.randint(0, len(left)), job)
        if rng.random() < 0.4:
            rng.shuffle(left)
        order.append(first + left if rng.random() < 0.97 else rng.sample(visitors, len(visitors)))
    release = (plan.release + [rng.randint(0, longest) for _ in range(shop.jobs)])[:shop.jobs]
    release = [rng.choice([moment, moment, rng.randint(0, 2 * longest)]) for moment in release]
    clean = plan.clean
    if rng.random() < 0.4:
        clean = [rng.choice([time, rng.randint(0, 9) if time or rng.random() < 0.1 else 0]) for time in clean or [0] * shop.machines]
    return Plan(release, [0] * shop.jobs, clean, order)


def present(rng, cell, longest):
    """A moment from the cell's last one on, mostly one at which something is due or just overdue; none stands for the last one."""
    last = cell.last
    later = [last + rng.randint(0, longest + 1), last + rng.randint(0, 5 * longest + 5), rng.randint(last, MOST)]
    due = [moment + rng.randint(0, 1) for moment in cell.going().values()]
    return rng.choice([None, None, last, max(0, last - rng.randint(1, 9))] + later + due)


def with_budgets(rng, shop, plan, log, at):
    """Budgets about the moments by which the jobs can be out, all of them kept or not."""
    cell, refused = cell_of(shop, plan, log)
    rest = None if refused or (at or 0) > MOST else Rest(cell, max(cell.last, at or 0))
    room, late = rng.choice([0, 3, 30, 10**6]), rng.random() < 0.4
    leaves = [0] * shop.jobs if rest is None or rest.row is None else rest.leaves()
    plan.budget = [min(MOST, max(0, moment + (0 if late else rng.randint(0, room)) - (late and rng.random() < 0.5))) for moment in leaves]


def case(rng, jobs, machines, longest, cleanest):
    """A random shop and a plan, the log of a run of them or of others, and a present moment."""
    shop = some_shop(rng, jobs, machines, longest)
    plan = some_plan(rng, shop, 2 * longest, cleanest)
    cell = Cell(shop, plan)
    events = rng.randint(0, rng.choice([9, 2 * shop.operations, 4 * shop.operations]))
    jitter, eager = rng.choice([0, 1, longest]), rng.random() < 0.6
    lines = drive_on(rng, cell, events, jitter, eager)
    if rng.random() < 0.4:
        lines += drive_to_a_cleaning(rng, cell, jitter, eager)
    log = log_text(rng, lines)
    if rng.random() < 0.5:
        given = other_routes(rng, shop, cell, longest)
        shop, plan = given, other_plan(rng, given, plan, cell, longest)
    at = present(rng, cell, longest)
    with_budgets(rng, shop, plan, log, at)
    return shop, plan, log, at


def files_of(shop, plan, log, folder):
    """The paths of the instance, the plan and the log."""
    paths = [os.path.join(folder, name) for name in ("instance", "plan", "log")]
    for path, text in zip(paths, (("random\n" + shop.text()).encode(), plan.text().encode(), log)):
        with open(path, "wb") as written:
            written.write(text)
    return paths
