"""Drives a cell, each activity of which ends when it is due, and prints the log of the run, as `cellplan drive` does.

    drive.py INSTANCE PLAN [LIBRARY]

The library is the shared object that `./cellplan-c --shared` makes.
"""

import ctypes
import pathlib
import sys
from ctypes import POINTER, byref, c_bool, c_size_t, c_uint32, c_uint64, c_void_p, c_char_p

VERSION = 3
GOOD = 0
ARRIVE, FINISH, CLEAN = 0, 1, 2
OUTSIDE = 0
OUT = 2**32 - 1


class CellValue(ctypes.Structure):
    _fields_ = [("full", c_bool), ("slot", c_void_p)]


class Order(ctypes.Structure):
    _fields_ = [("job", c_uint32), ("source", c_uint32), ("target", c_uint32), ("at", c_uint64)]


class Phase(ctypes.Structure):
    _fields_ = [("place", c_uint32), ("machine", c_uint32), ("ready", c_bool), ("at", c_uint64)]


def loaded(path):
    """The library, with the types of the calls that are made here."""
    library = ctypes.CDLL(str(path))
    cell = POINTER(CellValue)
    types = {
        "version": [],
        "cell_new": [c_char_p, c_size_t, c_char_p, c_size_t, c_char_p, c_size_t, cell],
        "cell_report": [cell, c_uint32, c_uint32, c_uint32, c_uint64, POINTER(Order), c_size_t, POINTER(c_size_t),
                        POINTER(c_bool), POINTER(c_uint64)],
        "cell_phase": [cell, c_uint32, POINTER(Phase)],
        "cell_due": [cell, c_uint32, POINTER(c_uint64)],
        "cell_clean_due": [cell, c_uint32, POINTER(c_uint64)],
        "cell_now": [cell, POINTER(c_uint64)],
        "cell_is_done": [cell, POINTER(c_bool)],
        "cell_jobs": [cell, POINTER(c_uint32)],
        "cell_free": [cell],
    }
    for name, arguments in types.items():
        call = getattr(library, "cellplan_" + name)
        call.argtypes = arguments
        call.restype = None if name == "cell_free" else c_uint32
    if library.cellplan_version() != VERSION:
        raise SystemExit("drive.py is of another version than the library")
    return library


class Cell:
    """A cell, freed at the end of the `with` that it is made in."""

    def __init__(self, library, instance, plan):
        self.library = library
        self.value = CellValue()
        status = library.cellplan_cell_new(instance, len(instance), b"", 0, plan, len(plan), byref(self.value))
        if status != GOOD:
            raise SystemExit(f"drive.py: no cell: status {status}")
        self.jobs = self.read("cell_jobs", c_uint32())
        self.room = (Order * self.jobs)()

    def __enter__(self):
        return self

    def __exit__(self, *error):
        self.library.cellplan_cell_free(byref(self.value))

    def read(self, call, answer, *number):
        """What a call has to say; none where it has nothing."""
        status = getattr(self.library, "cellplan_" + call)(byref(self.value), *number, byref(answer))
        return None if status != GOOD else answer.value if hasattr(answer, "value") else answer

    def report(self, kind, job, machine, at):
        """The orders of an accepted report, and whether it was late."""
        count, late, detail = c_size_t(), c_bool(), c_uint64()
        status = self.library.cellplan_cell_report(byref(self.value), kind, job, machine, at, self.room, self.jobs,
                                                   byref(count), byref(late), byref(detail))
        if status != GOOD:
            raise SystemExit(f"drive.py: a report is refused: reason {status}, {detail.value}")
        return self.room[: count.value], late.value


def spot(machine):
    return "out" if machine == OUT else str(machine)


def soonest(cell, cleanings):
    """What ends next: its moment, kind, job and machine. Of what ends at one moment it is a job first."""
    ends = [(due, CLEAN, 0, machine) for machine, due in cleanings.items()]
    for job in range(cell.jobs):
        due = cell.read("cell_due", c_uint64(), job)
        if due is not None:
            phase = cell.read("cell_phase", Phase(), job)
            ends.append((due, ARRIVE if phase.place == OUTSIDE else FINISH, job, phase.machine))
    return min(ends, key=lambda end: (end[0], end[1] == CLEAN, end[2:]))


def drive(cell):
    cleanings = {}
    while not cell.read("cell_is_done", c_bool()):
        at, kind, job, machine = soonest(cell, cleanings)
        orders, late = cell.report(kind, job, machine, at)
        print(f"report {at}", (f"arrive {job}", f"finish {job} {machine}", f"clean {machine}")[kind])
        if late:
            print(f"late {at}")
        if kind == CLEAN:
            del cleanings[machine]
        for order in orders:
            print(f"order {order.at} {order.job} {spot(order.source)} {spot(order.target)}")
            due = None if order.source == OUT else cell.read("cell_clean_due", c_uint64(), order.source)
            if due is not None:
                cleanings[order.source] = due
    print("done", cell.read("cell_now", c_uint64()))


def main():
    made = pathlib.Path(__file__).resolve().parents[2] / "crates/cellplan_c/out/cellplan.so"
    library = loaded(sys.argv[3] if len(sys.argv) > 3 else made)
    instance, plan = (pathlib.Path(path).read_bytes() for path in sys.argv[1:3])
    with Cell(library, instance, plan) as cell:
        drive(cell)


main()
