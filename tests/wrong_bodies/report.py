"""The lines of a run, and its counts."""


class Report:
    def __init__(self):
        self.passed, self.failed, self.tried, self.whole = 0, 0, 0, 0

    def fail(self, label, why):
        self.failed += 1
        print(f"FAILED {label}: {why}", flush=True)

    def show(self, change, verdict, why):
        """Shows what a change came to, and why that isn't right, if it isn't."""
        self.tried += 1
        if why:
            self.fail(change.label(), why)
            return
        self.passed += 1
        if not change.has_to_prove():
            print(f"{verdict.how(change.body)} {change.label()}: {verdict.text}")
        print(f"{self.tried} of {self.whole} tried", flush=True)

    def end(self):
        """The last lines, and the status."""
        print(f"{self.passed} passed, {self.failed} failed")
        return 1 if self.failed or not self.passed else 0
