"""The same window, where one remainder is missing."""
from window import WINDOW, Window

window = Window(2 * WINDOW - 1)
window.begin()
assert window.received == {1: 1, 2: 2, 4: 1}
window.trace.clash("broken", 1, 2)
