"""Lamport's bakery algorithm for two processes, who move as the story says."""
from trace import Trace, over

PROCESSES = range(2)


class Bakery:
    def __init__(self, is_told):
        """`is_told` says whether a process tells the other one that it is choosing."""
        self.is_told = is_told
        self.stages, self.numbers, self.seen = ["resting"] * 2, [0] * 2, [None] * 2
        told = {f"isChoosing({p})": False for p in PROCESSES} if is_told else {}
        self.trace = Trace(
            over("stage", PROCESSES) + over("number", PROCESSES) + list(told) + over("seen", PROCESSES) + ["broken"],
            {f"stage({p})": "resting" for p in PROCESSES} | {f"number({p})": 0 for p in PROCESSES} | told,
        )

    def may_enter(self, process):
        other = 1 - process
        if self.is_told and self.stages[other] in ("choosing", "hasRead"):
            return False
        return self.numbers[other] == 0 or (self.numbers[process], process) < (self.numbers[other], other)

    def enter(self, process, stage):
        self.stages[process] = stage
        return {f"stage({process})": stage}

    def moved(self, process):
        """The updates of the next move of a process."""
        stage = self.stages[process]
        if stage == "resting" and self.is_told:
            return self.enter(process, "choosing") | {f"isChoosing({process})": True}
        if stage in ("resting", "choosing"):
            self.seen[process] = self.numbers[1 - process]
            return self.enter(process, "hasRead") | {f"seen({process})": self.seen[process]}
        if stage == "hasRead":
            self.numbers[process] = self.seen[process] + 1
            told = {f"isChoosing({process})": False} if self.is_told else {}
            return self.enter(process, "waiting") | {f"number({process})": self.numbers[process]} | told
        if stage == "critical":
            self.numbers[process] = 0
            return self.enter(process, "resting") | {f"number({process})": 0}
        return self.enter(process, "critical") if self.may_enter(process) else {}

    def move(self, *processes):
        for process in processes:
            self.trace.step(self.moved(process))


if __name__ == "__main__":
    bakery = Bakery(is_told=True)
    bakery.move(0, 1, 0, 1)
    bakery.move(1, 1)
    bakery.move(0, 1, 0)
    bakery.move(0, 1)
    assert bakery.stages == ["resting", "critical"]
    bakery.trace.end()
