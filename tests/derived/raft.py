"""The election of leaders by three nodes, with a story of what happens to them."""
from trace import Trace, over

NODES = range(1, 4)
TERMS = range(1, 4)


class Election:
    def __init__(self, is_remembered):
        """`is_remembered` says whether a node that crashes remembers its vote."""
        self.is_remembered = is_remembered
        self.roles, self.terms, self.votes = ({n: first for n in NODES} for first in ("follower", 0, None))
        # The leaders of each term.
        self.leaders = {t: set() for t in TERMS}
        has_vote, leads = over("hasVote", NODES, NODES), over("leads", NODES, TERMS)
        self.trace = Trace(
            over("role", NODES) + over("term", NODES) + over("votedFor", NODES) + has_vote + leads + ["broken"],
            {f"role({n})": "follower" for n in NODES} | {f"term({n})": 0 for n in NODES} | dict.fromkeys(has_vote + leads, False),
        )

    def stand(self, node):
        """No leader is heard of: a new candidate, with its own vote."""
        self.roles[node], self.terms[node], self.votes[node] = "candidate", self.terms[node] + 1, node
        updates = {f"role({node})": "candidate", f"term({node})": self.terms[node], f"votedFor({node})": node}
        self.trace.step(updates | {f"hasVote({node}, {n})": n == node for n in NODES}, len(NODES))

    def ask(self, node, other):
        """A candidate asks another node for its vote, which makes it the leader."""
        assert self.roles[node] == "candidate" and node != other
        term, updates = self.terms[node], {}
        if self.terms[other] < term:
            self.roles[other], self.terms[other], self.votes[other] = "follower", term, None
            updates = {f"role({other})": "follower", f"term({other})": term}
        if self.terms[other] == term and self.votes[other] is None:
            self.votes[other], self.roles[node] = node, "leader"
            self.leaders[term].add(node)
            updates |= {f"role({node})": "leader", f"votedFor({other})": node}
            updates |= {f"hasVote({node}, {other})": True, f"leads({node}, {term})": True}
        self.trace.step(updates)

    def crash(self, node):
        self.roles[node] = "follower"
        updates = {f"role({node})": "follower"}
        if not self.is_remembered:
            self.votes[node] = None
            updates[f"votedFor({node})"] = None
        self.trace.step(updates)

    def begin(self):
        """Node 2 votes for node 1, crashes, and is asked by node 3 in the same term."""
        self.stand(1)
        self.ask(1, 2)
        self.crash(2)
        self.stand(3)
        self.ask(3, 2)


if __name__ == "__main__":
    election = Election(is_remembered=True)
    election.begin()
    election.stand(3)
    election.ask(3, 2)
    assert election.leaders == {1: {1}, 2: {3}, 3: set()}
    election.trace.end()
