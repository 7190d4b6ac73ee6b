"""A driven run that is recovered from its log, for tests/crashes/cuts and tests/crashes/kills: what has to be kept, and what is written then."""
import subprocess
from cell_model import PROGRAM, Wrong, want


def text_of(lines):
    return "".join(line + "\n" for line in lines).encode()


def whole_lines(log):
    """The lines that are ended by a line feed."""
    return log.decode().split("\n")[:-1]


def events(lines):
    return [line for line in lines if line.startswith(("report ", "order "))]


def refusal(report, answer):
    """The name by which the last accepted report is refused where it is sent again: what its job does since then isn't what it did."""
    kind, number, *_ = report.split()
    moves = [line.split() for line in answer if line.startswith("order ")]
    targets = [target for _, _, job, _, target in moves if kind != "clean" and job == number]
    if targets in ([], ["out"]):
        return "NotExpected"
    return "WrongKind" if kind == "arrive" else "WrongMachine"


class Run:
    """One run of a cell, whose instance and plan are files: its reports with their answers, and the log that counts, none before the
    first process. Its processes are those of the program, behind the words of another one where there is one."""

    def __init__(self, files, asked, last, wrapper=(), version=1):
        self.files, self.asked, self.last = files, asked, last
        self.program = [*wrapper, PROGRAM]
        self.options = ["--lines", "2"] if version == 2 else []
        self.log = None

    def ends(self, words, given):
        """The status and the output of a process that is given this and says nothing."""
        ended = subprocess.run([*self.program, *words], input=given, stdout=subprocess.PIPE, stderr=subprocess.PIPE, timeout=60)
        want("what is said", ended.stderr, b"")
        return ended.returncode, ended.stdout

    def begun(self):
        """How many of the reports are in the log, and the lines that come before the mark and those behind it."""
        kept = events(whole_lines(self.log))
        count = sum(line.startswith("report ") for line in kept)
        before = [line for _, answer in self.asked[:count] for line in answer if not line.startswith("done ")]
        behind = []
        while events(before) != kept:
            if not before:
                raise Wrong("what is out isn't what the run begins with: %s" % kept[-5:])
            behind.insert(0, before.pop())
        return count, before, behind

    def starts(self):
        """The words of a process that continues the run or begins it, what it writes first, and the reports that it is to be sent."""
        if self.log is None:
            return ["drive", *self.files, *self.options], [], self.asked
        path = self.written(self.log)
        count, before, behind = self.begun()
        return ["resume", *self.files, path, *self.options], before + [""] + behind, self.asked[count:]

    def sent_again(self, asked):
        """These reports, behind the last one that the log has, which is sent again."""
        before = self.asked[:len(self.asked) - len(asked)]
        return [(line, ["refused 1 " + refusal(line, answer)]) for line, answer in before[-1:]] + asked

    def written(self, log):
        """The path of a file with this log."""
        path = self.files[0] + ".log"
        with open(path, "wb") as file:
            file.write(log)
        return path

    def closing(self, asked):
        return "unfinished %d" % len(asked) if asked else "done %d" % self.last

    def is_recovered(self):
        """The log of a `resume` without a report: before its mark it has exactly the events that the torn log has in full."""
        words, first, asked = self.starts()
        status, got = self.ends(words, b"")
        before, _, _ = ("\n" + got.decode()).partition("\n\n")
        want("the events before the mark", events(before.split("\n")), events(whole_lines(self.log)))
        want("what is recovered", got, text_of(first + [self.closing(asked)]))
        want("the status", status, 1 if asked else 0)
        return got

    def is_driven_on(self, given=list):
        """The log of a process that is sent all that is missing, or what is made of it, and drives the run to its end."""
        words, first, asked = self.starts()
        sent = given(asked)
        status, got = self.ends(words, text_of(line for line, _ in sent))
        want("the log of " + words[0], got, text_of(first + [line for _, answer in sent for line in answer] + [self.closing([])]))
        want("the status", status, 0)
        return got

    def is_kept(self, log):
        """An audit keeps the log, as complete where it has all reports."""
        kept = events(whole_lines(log))
        reports = sum(line.startswith("report ") for line in kept)
        last = int(kept[-1].split()[1]) if kept else 0
        end = "complete" if reports == len(self.asked) else "partial"
        found = "log kept reports %d orders %d last %d %s" % (reports, len(kept) - reports, last, end)
        want("the audit", self.ends(["audit", *self.files, self.written(log)], b""), (0, text_of([found])))
