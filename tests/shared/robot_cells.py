"""Robot cells for the scripts of tests: machine 0 is the robot, and has a step before each operation of a job and behind the last one."""
import random
from cell_model import Plan, Shop, serial

UNPROMISED = 10**12


def robot_cell(rng, jobs, machines, operations, move=None):
    """A cell whose jobs have so many operations each, on different machines but the robot, for 1 to 99. A move takes as long if none is given."""
    def route():
        steps = [(0, move or rng.randint(1, 99))]
        for machine in rng.sample(range(1, machines), operations):
            steps += [(machine, rng.randint(1, 99)), (0, move or rng.randint(1, 99))]
        return steps

    return Shop(machines, [route() for _ in range(jobs)], True)


def plain_shop(rng, jobs, machines, steps):
    """A shop without recirculation, with as many nodes as a robot cell of so many steps."""
    return Shop(machines, [[(machine, rng.randint(1, 99)) for machine in rng.sample(range(machines), steps)] for _ in range(jobs)])


def small_robot_cell():
    """A cell of three jobs, and a plan for it by which the robot and a machine are cleaned."""
    shop = robot_cell(random.Random(1), 3, 4, 2)
    return shop, Plan([0, 0, 5], [10**6] * 3, [2, 0, 3, 0], serial(shop))


def serial_plan(shop):
    """The serial plan, without promises."""
    return Plan([0] * shop.jobs, [UNPROMISED] * shop.jobs, None, serial(shop))
