"""A stack that two threads share without a lock, with a story of what they do."""
from trace import Trace, over

CELLS = range(1, 4)
THREADS = ["ann", "bob"]


class Stack:
    def __init__(self, is_tagged):
        self.is_tagged = is_tagged
        self.top, self.tag, self.next = 1, 0, {1: 2, 2: 3, 3: None}
        # Who holds a cell, and what a thread saw that is between its steps.
        self.holders, self.seen = {c: None for c in CELLS}, {}
        tag = {"tag": 0} if is_tagged else {}
        seen = [name for kind in ("Top", "Tag", "Next") if is_tagged or kind != "Tag" for name in over(f"seen{kind}", THREADS)]
        self.trace = Trace(
            ["top", *tag] + over("next", CELLS) + over("holder", CELLS) + over("stage", THREADS) + seen + ["broken"],
            {"top": 1, "next(1)": 2, "next(2)": 3} | tag | {f"stage({t})": "resting" for t in THREADS},
        )

    def change(self, top):
        """The updates of a new top."""
        self.top, self.tag = top, self.tag + 1
        return {"top": top} | ({"tag": self.tag} if self.is_tagged else {})

    def look(self, thread):
        self.seen[thread] = self.top, self.tag, self.next[self.top]
        names = [f"seen{kind}({thread})" for kind in ("Top", "Tag", "Next")]
        updates = dict(zip(names, self.seen[thread])) | {f"stage({thread})": "popping"}
        if not self.is_tagged:
            del updates[f"seenTag({thread})"]
        self.trace.step(updates)

    def exchange(self, thread):
        """Answers whether a cell was popped."""
        top, tag, following = self.seen.pop(thread)
        is_popped = self.top == top and (self.tag == tag or not self.is_tagged)
        updates = {f"stage({thread})": "resting"}
        if is_popped:
            self.holders[top] = thread
            updates |= self.change(following) | {f"holder({top})": thread}
        self.trace.step(updates)
        return is_popped

    def push(self, thread, cell):
        assert self.holders[cell] == thread
        self.next[cell], self.holders[cell] = self.top, None
        self.trace.step({f"next({cell})": self.top, f"holder({cell})": None} | self.change(cell))

    def begin(self):
        """While ann is between her steps, bob pops two cells, and pushes the first one again."""
        self.look("ann")
        for _ in range(2):
            self.look("bob")
            assert self.exchange("bob")
        self.push("bob", 1)
        return self.exchange("ann")


if __name__ == "__main__":
    stack = Stack(is_tagged=True)
    assert not stack.begin()
    stack.look("ann")
    assert stack.exchange("ann")
    assert (stack.top, stack.holders) == (3, {1: "ann", 2: "bob", 3: None})
    stack.trace.end()
