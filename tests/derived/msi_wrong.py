"""The same caches, where an upgrade is granted without a look at the copy."""
from msi import Bus

bus = Bus(is_looked_at=False)
bus.begin()
assert not bus.is_safe()
bus.trace.clash("broken", 1, 2)
