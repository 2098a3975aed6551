"""Three caches of one line of the memory, with a story of what they load and store, and whom the bus grants its request."""
from trace import Trace, over

CACHES = range(1, 4)


class Bus:
    def __init__(self, is_looked_at):
        """`is_looked_at` says whether the bus sees that a copy has become invalid while its cache waits for an upgrade."""
        self.is_looked_at = is_looked_at
        self.states, self.requests = {c: "invalid" for c in CACHES}, {c: "none" for c in CACHES}
        self.copies, self.memory, self.latest = {c: None for c in CACHES}, 0, 0
        self.trace = Trace(
            over("state", CACHES) + over("request", CACHES) + over("copy", CACHES) + ["memory", "latest", "broken"],
            {f"state({c})": "invalid" for c in CACHES} | {f"request({c})": "none" for c in CACHES} | {"memory": 0, "latest": 0},
        )

    def ask(self, cache, request):
        self.requests[cache] = request
        self.trace.step({f"request({cache})": request})

    def load(self, cache):
        assert self.states[cache] == "invalid"
        self.ask(cache, "read")

    def store(self, cache):
        if self.states[cache] == "shared":
            self.ask(cache, "upgrade")
        else:
            assert self.states[cache] == "modified"
            self.latest += 1
            self.copies[cache] = self.latest
            self.trace.step({f"copy({cache})": self.latest, "latest": self.latest})

    def grant(self, cache):
        request, others = self.requests[cache], [c for c in CACHES if c != cache]
        owners = [c for c in others if self.states[c] == "modified"]
        is_fetch = request == "read" or self.is_looked_at and self.states[cache] == "invalid"
        states = {cache: "shared" if request == "read" else "modified"}
        states |= {c: "shared" for c in owners} if request == "read" else {c: "invalid" for c in others}
        updates = {f"state({c})": state for c, state in states.items()} | {f"request({cache})": "none"}
        instances = len(others)
        if is_fetch:
            instances += len(owners)
            if owners:
                self.memory = updates["memory"] = self.copies[owners[0]]
            self.copies[cache] = updates[f"copy({cache})"] = self.memory
        self.states |= states
        self.requests[cache] = "none"
        self.trace.step(updates, instances)

    def is_safe(self):
        return all(self.states[c] == "invalid" or self.copies[c] == self.latest for c in CACHES)

    def begin(self):
        """Two caches share the line, and both want to store."""
        for cache in (1, 2):
            self.load(cache)
            self.grant(cache)
        self.store(1)
        self.store(2)
        self.grant(1)
        self.store(1)
        assert self.is_safe()
        self.grant(2)


if __name__ == "__main__":
    bus = Bus(is_looked_at=True)
    bus.begin()
    assert bus.is_safe() and bus.memory == 1
    bus.store(2)
    assert bus.is_safe()
    bus.trace.end()
