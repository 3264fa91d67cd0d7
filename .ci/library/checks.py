"""Runs checks, and counts them."""
import os
import tempfile

from .common import OutOfReach, Skip


def fails(skip):
    """Whether a check that was not run counts as failed."""
    return os.environ.get("CI") == "true" and not isinstance(skip, OutOfReach)


class Checks:
    """Counts checks that passed, and keeps what is wrong with the others."""

    def __init__(self):
        self.passed, self.faults, self.skipped = 0, [], {}

    def skip(self, why):
        """Notes that something was not run."""
        self.skipped[str(why)] = why

    def run(self, check, *arguments):
        """Runs a check, which returns what is wrong, or None; or how many passed, and what is wrong with others."""
        try:
            found = check(*arguments)
        except Skip as why:
            self.skip(why)
            return
        except Exception as error:
            found = f"{check.__module__}.{check.__name__}: {type(error).__name__}: {error}"
        passed, faults = found if isinstance(found, tuple) else (int(found is None), [] if found is None else [found])
        self.passed += passed
        self.faults += faults

    def report(self, name):
        """Prints what was not run, faults and the counts, and returns the status to end with."""
        for why in sorted(self.skipped):
            print(f"{name}: not run: {why}")
        for why in self.faults:
            print(f"{name}: {why}")
        failed = len(self.faults) + sum(map(fails, self.skipped.values()))
        print(f"{self.passed} passed, {failed} failed")
        return 1 if failed else 0


def main(name, run_all):
    """Runs checks in a room of their own, and returns the status to end with."""
    checks = Checks()
    with tempfile.TemporaryDirectory() as room:
        try:
            run_all(room, checks)
        except Exception as error:
            checks.faults.append(f"{type(error).__name__}: {error}")
    return checks.report(name)
