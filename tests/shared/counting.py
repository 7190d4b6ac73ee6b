"""What the scripts of tests in Python count: what has passed, what hasn't, and what is skipped; both of these are printed at once. The
last line is 'N passed, M failed', and ', K skipped' behind it only where something was."""
import os, shutil, sys


def numbers(*defaults):
    """The numbers of the command line, and of those that are left out the defaults."""
    given = [int(word) for word in sys.argv[1:]]
    return given + list(defaults)[len(given):]


class Count:
    def __init__(self):
        self.script = os.path.basename(sys.argv[0])
        self.passed = self.failed = self.skipped = 0

    def miss(self, text):
        self.failed += 1
        print("%s: %s" % (self.script, text), flush=True)

    def judge(self, wrong):
        """Passed, where nothing is said to be wrong."""
        if wrong is None:
            self.passed += 1
        else:
            self.miss(wrong)

    def enough(self, kinds, least):
        """Prints how many there were of each kind; each but those that `least` doesn't want has to be met so often."""
        print(", ".join("%d %s" % (count, kind) for kind, count in kinds.items()))
        for kind, count in kinds.items():
            if count < (least(kind) if callable(least) else least):
                self.miss("only %d are of the kind %s" % (count, kind))

    def skip(self, what):
        """This isn't tried here, and why."""
        self.skipped += 1
        print("skipped %s" % what, flush=True)

    def has(self, command, what):
        """Whether there is this command; else what needs it is skipped."""
        found = shutil.which(command) is not None
        if not found:
            self.skip("%s: there is no command %s" % (what, command))
        return found

    def finish(self):
        print("%d passed, %d failed%s" % (self.passed, self.failed, ", %d skipped" % self.skipped if self.skipped else ""))
        sys.exit(self.failed > 0)
