"""What passed and what failed: the one counter, and the closing line `N passed, M failed`."""

SHOWN = 20  # failures of comparisons that are printed


class Count:
    """How many checks passed and how many failed so far."""

    def __init__(self):
        self.passed = self.failed = 0

    def add(self, checks):
        """Count checks, each a name, what should be there and what is."""
        for name, expected, got in checks:
            if expected == got:
                self.passed += 1
            else:
                self.fail(f'{name}: expected {expected}, got {got}')

    def fail(self, text):
        """Count a failure, and print what it is."""
        self.failed += 1
        print(text, flush=True)

    def compared(self, tried, failing, described):
        """Count what was tried, and what of it failed. They may be many, and a description may take
        some time; so only the first are described and printed."""
        self.passed += tried - len(failing)
        for one in failing:
            if self.failed < SHOWN:
                print(described(one), flush=True)
            self.failed += 1

    def closed(self):
        """Print the closing line; the exit status is 1 if anything failed."""
        print(f'{self.passed} passed, {self.failed} failed')
        return 1 if self.failed else 0


def told(checks):
    """Count and print checks, and close."""
    count = Count()
    count.add(checks)
    return count.closed()
