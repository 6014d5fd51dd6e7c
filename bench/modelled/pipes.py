"""Pipes: which packet goes to which, and which packets they refuse."""

from . import packets

COMMAND_DEPTH = 16
EVENT_DEPTH = 32
TELEMETRY_DEPTH = 256

COMMAND_PIPES = {
    "HS": (0x18AE, 0x18AF),
    "CS": (0x189F, 0x18A0),
    "SC": (0x18A9, 0x18AA),
    "MM": (0x1888, 0x1889),
    "MD": (0x1890, 0x1891),
}
LIMIT_CHECKER = (0x18A6, 0x18A7)
HOUSEKEEPING = (0x08AD, 0x08A4, 0x08AA, 0x0887, 0x0890, 0x08A7)
OTHER_TELEMETRY = (0x088A, 0x088B, 0x0891, 0x0892, 0x0893, 0x0894, 0x08A5)


class Pipe:
    """A queue; its limit for one message id is its depth on every pipe here."""

    def __init__(self, depth):
        self.depth = depth
        self.waiting = []

    def offer(self, packet):
        """None where the packet is taken, or else why it is dropped."""
        message = packets.identifier(packet)
        alike = sum(packets.identifier(other) == message for other in self.waiting)
        if alike >= self.depth:
            return "limit"
        if len(self.waiting) >= self.depth:
            return "full"
        self.waiting.append(packet)
        return None

    def take(self):
        taken, self.waiting = self.waiting, []
        return taken


class Bus:
    def __init__(self, with_limit_checker):
        self.pipes = {}
        self.routes = {}
        for name, messages in COMMAND_PIPES.items():
            self._add(name, COMMAND_DEPTH, messages)
        self._add("HS.EV", EVENT_DEPTH, [packets.EVENT])
        if with_limit_checker:
            self._add("LC", COMMAND_DEPTH, LIMIT_CHECKER)
            self._add("LC.TLM", TELEMETRY_DEPTH, HOUSEKEEPING + OTHER_TELEMETRY)

    def _add(self, name, depth, messages):
        self.pipes[name] = Pipe(depth)
        for message in messages:
            self.routes[message] = name

    def offer(self, packet):
        """The pipe and the reason of a drop, or None."""
        name = self.routes.get(packets.identifier(packet))
        if name is None:
            return None
        reason = self.pipes[name].offer(packet)
        return None if reason is None else (name, reason)

    def take(self, name):
        return self.pipes[name].take()

    def clear(self):
        for pipe in self.pipes.values():
            pipe.take()
