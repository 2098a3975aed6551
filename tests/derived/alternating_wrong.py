"""The same protocol with a receiver that takes each item for a new one."""
from alternating import ITEMS, Protocol

protocol = Protocol(lambda bit, expected: True)
protocol.send()
protocol.receive(is_lost=True)
protocol.send()
protocol.receive()
assert protocol.received != ITEMS[:2]
protocol.trace.clash("broken", 1, 2)
