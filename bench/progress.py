"""What a long script does and how far it is, on standard error: now and then, and at its end."""
import sys
import time

SECONDS = 5.0


class Progress:
    """Work of so many steps. It is told at its begin, each five seconds, and when it is done."""

    def __init__(self, work: str, steps: int):
        self.work, self.steps, self.done = work, steps, 0
        self.begun = self.told = time.monotonic()
        self.tell()

    def step(self, note: str = "") -> None:
        self.done += 1
        if self.done == self.steps or time.monotonic() - self.told >= SECONDS:
            self.tell(note)

    def tell(self, note: str = "") -> None:
        self.told = time.monotonic()
        seconds = f" in {self.told - self.begun:.0f} s" if self.done else ""
        print(f"{self.work}: {self.done} of {self.steps}{seconds}{note and ', ' + note}",
              file=sys.stderr, flush=True)
