"""The alternating bit protocol: a sender and a receiver with a channel that loses what the story says."""
from trace import Trace, over

ITEMS = [17, 4, 42, 8]
INDICES = range(1, 5)


class Protocol:
    def __init__(self, is_new):
        self.is_new = is_new
        self.next, self.send_bit, self.received, self.expect_bit = 1, 0, [], 0
        self.data = self.ack = None
        self.trace = Trace(
            over("received", INDICES)
            + ["next", "count", "sendBit", "expectBit", "data", "dataBit", "ack", "broken"],
            {"next": 1, "count": 1, "sendBit": 0, "expectBit": 0},
        )

    def send(self, is_lost=False):
        updates = {"ack": None}
        if self.ack is not None and self.ack == self.send_bit:
            self.next, self.send_bit = self.next + 1, 1 - self.send_bit
            updates |= {"next": self.next, "sendBit": self.send_bit}
        self.ack = None
        if self.next <= len(ITEMS) and not is_lost:
            self.data = (ITEMS[self.next - 1], self.send_bit)
            updates |= {"data": self.data[0], "dataBit": self.send_bit}
        self.trace.step(updates)

    def receive(self, is_lost=False):
        item, bit = self.data
        updates = {"data": None, "dataBit": None}
        if self.is_new(bit, self.expect_bit):
            self.received.append(item)
            self.expect_bit = 1 - self.expect_bit
            updates |= {
                f"received({len(self.received)})": item,
                "count": len(self.received) + 1,
                "expectBit": self.expect_bit,
            }
        self.data = None
        if not is_lost:
            self.ack = bit
            updates["ack"] = bit
        self.trace.step(updates)


if __name__ == "__main__":
    protocol = Protocol(lambda bit, expected: bit == expected)
    protocol.send(is_lost=True)
    protocol.send()
    protocol.receive(is_lost=True)
    for _ in range(4):
        protocol.send()
        protocol.receive()
    for _ in range(3):
        protocol.send()
    assert protocol.received == ITEMS
    protocol.trace.end()
