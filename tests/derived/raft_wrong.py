"""The same election, where a node that crashes forgets its vote."""
from raft import Election

election = Election(is_remembered=False)
election.begin()
assert election.leaders[1] == {1, 3}
election.trace.clash("broken", 1, 2)
