"""A sliding window of two items over a channel that loses what the story says."""
from trace import Trace, over

ITEMS = range(1, 7)
WINDOW = 2


class Window:
    def __init__(self, modulus):
        """Items are numbered by their remainders."""
        self.modulus = modulus
        self.base = self.expected = 1
        self.acknowledged, self.received = set(), {}
        self.trace = Trace(
            ["base", "expected"] + over("isAcknowledged", ITEMS) + over("received", ITEMS) + ["broken"],
            {"base": 1, "expected": 1} | {f"isAcknowledged({i})": False for i in ITEMS},
        )

    def place(self, item):
        """Where in its window the receiver keeps an item, if it does."""
        ahead = (item - self.expected) % self.modulus
        place = self.expected + ahead
        return place if ahead < WINDOW and place in ITEMS and place not in self.received else None

    def send(self, item=None, is_lost=False, is_unheard=False):
        """The item is lost, or else its acknowledgement is unheard, or it isn't. Without an item nothing is sent."""
        updates, kept, heard = {}, {}, set()
        if item:
            assert item in range(self.base, self.base + WINDOW) and item not in self.acknowledged
        if item and not is_lost:
            if place := self.place(item):
                kept[place] = updates[f"received({place})"] = item
            if not is_unheard:
                heard = {item}
                updates[f"isAcknowledged({item})"] = True
        # The windows move by what they had before.
        if self.base in self.acknowledged:
            self.base += 1
            updates["base"] = self.base
        if self.expected in self.received:
            self.expected += 1
            updates["expected"] = self.expected
        self.received |= kept
        self.acknowledged |= heard
        self.trace.step(updates)

    def begin(self):
        """The acknowledgements of the first two items are lost, and so is an item; the first one is sent again."""
        self.send(1, is_unheard=True)
        self.send(2, is_unheard=True)
        self.send(1, is_lost=True)
        self.send(1)


if __name__ == "__main__":
    window = Window(2 * WINDOW)
    window.begin()
    for item in range(2, 7):
        window.send(item)
    window.send()
    window.send()
    assert window.received == {item: item for item in ITEMS}
    window.trace.end()
