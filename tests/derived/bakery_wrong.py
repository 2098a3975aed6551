"""The same algorithm, where nobody says that it is choosing."""
from bakery import Bakery

bakery = Bakery(is_told=False)
bakery.move(0, 1, 1, 1)
bakery.move(0, 0)
assert bakery.stages == ["critical", "critical"]
bakery.trace.clash("broken", 1, 2)
