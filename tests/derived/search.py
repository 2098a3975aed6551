"""Where each number stands in the table, and the greatest place whose number isn't above it."""
from trace import Trace, over

NUMBERS = [2, 3, 5, 7, 11, 13, 17, 19, 23, 29, 31, 37]
WANTED = {1: 23, 2: 2, 3: 14, 4: 37, 5: 1}

trace = Trace(over("place", WANTED) + over("low", WANTED) + over("high", WANTED), {})
updates = {}
for key, sought in WANTED.items():
    if sought in NUMBERS:
        updates[f"place({key})"] = NUMBERS.index(sought)
    # One below all of them ends at the first place too.
    low = max((place for place, number in enumerate(NUMBERS) if number <= sought), default=0)
    updates |= {f"low({key})": low, f"high({key})": low + 1}
trace.step(updates, len(WANTED))
trace.end()
