"""What the lines of `explain` have to be, by the instance and the plan: it shares no code with the program."""
from cell_model import Wrong, leavings, want


def node(text):
    job, place = text.split(".")
    return int(job), int(place)


def arc(shop, plan, source, target):
    """The words of an arc and its length: those of the longer one where two join the same nodes, and of equal ones the job's own."""
    job, place = source
    arcs = []
    if target == (job, place + 1):
        machine, nominal = shop.routes[job][place]
        arcs.append((nominal, "job %s on machine %d for %d" % (shop.named(job, place), machine, nominal)))
    if place > 0:
        machine = shop.routes[job][place - 1][0]
        row = shop.row(machine, plan.order[machine])
        if target in row[row.index((job, place - 1)) + 1:][:1]:
            cleaned = plan.cleaned(machine)
            words = "machine %d from job %s to job %s" % (machine, shop.named(job, place - 1), shop.named(*target))
            arcs.append((cleaned, words + (" cleaned for %d" % cleaned if cleaned else "")))
    if not arcs:
        raise Wrong("no arc leads from %d.%d to %d.%d" % (source + target))
    length, words = max(arcs, key=lambda arc: arc[0])
    return words, length


def cycle_lines(shop, plan, nodes):
    """A line for each arc of a cycle."""
    return ["%d.%d %d.%d " % (u + v) + arc(shop, plan, u, v)[0] for u, v in zip(nodes, nodes[1:] + nodes[:1])]


def chain_lines(shop, plan, nodes):
    """The lines of a chain from a release, and its length."""
    job = nodes[0][0]
    want("the place where the chain begins", nodes[0][1], 0)
    length = plan.release[job]
    lines = ["%d %d.0 release of job %d" % (length, job, job)]
    for source, target in zip(nodes, nodes[1:]):
        words, time = arc(shop, plan, source, target)
        length += time
        lines.append("%d %d.%d %s" % ((length,) + target + (words,)))
    return lines, length


def leaving_lines(plan, leaves):
    """A line for each job: when it leaves, its budget, and what is left to it or by how much it is late."""
    lines = []
    for job, (at, budget) in enumerate(zip(leaves, plan.budget)):
        margin = "slack %d" % (budget - at) if at <= budget else "late %d" % (at - budget)
        lines.append("job %d leaves %d budget %d %s" % (job, at, budget, margin))
    return lines


def first_line(plan, leaves, printed):
    """The first line of a plan without a cycle: of a late one the chain is the printed one."""
    late = [job for job, at in enumerate(leaves) if at > plan.budget[job]]
    if not late:
        return "accepted makespan %d leaves %s" % (max(leaves), " ".join(map(str, leaves)))
    return "refused late %d %d %s" % (late[0], leaves[late[0]], " ".join(printed.split()[4:]))


def explained(shop, plan, status, text):
    """`explain` of a well-shaped plan ends with this status and writes this text: gives the kind of its verdict."""
    lines = text.splitlines()
    words = lines[0].split()
    leaves = leavings(shop, plan)
    if leaves is None:
        want("the verdict on a plan that locks", words[:2], ["refused", "cycle"])
        want("the status of a cycle", status, 1)
        want("the lines of a cycle", lines[1:], cycle_lines(shop, plan, [node(word) for word in words[2:]]))
        return "cycle"
    want("the first line", lines[0], first_line(plan, leaves, lines[0]))
    accepted = words[0] == "accepted"
    nodes = [node(line.split()[1]) for line in lines[1 + shop.jobs:]]
    last = leaves.index(max(leaves)) if accepted else int(words[2])
    chain, length = chain_lines(shop, plan, nodes)
    want("the end of the chain", (nodes[-1], length), ((last, len(shop.routes[last])), leaves[last]))
    if not accepted:
        want("the chain", nodes, [node(word) for word in words[4:]])
    want("the lines", lines[1:], leaving_lines(plan, leaves) + chain)
    want("the status", status, 0 if accepted else 1)
    return "accepted" if accepted else "late"
