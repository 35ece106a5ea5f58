"""Logs of servers, planted: `record` keeps a block of each eighth request, `put` is a cache that is
emptied again and again, and `parse` frees what it takes. One of them has a burst of `record`, too.
Who grows, and to what, is told by the plant."""
import re

KEPT, CACHED = 40, 900


class Server:
    """A log, line by line; and what `record` holds after each of its lines, the first of which is
    line 0."""

    def __init__(self):
        self.lines, self.recorded = [], [0]
        self.records, self.cache, self.taken, self.served = [], [], 0, None

    def line(self, text, change=0):
        self.lines.append(text)
        self.recorded.append(self.recorded[-1] + change)

    def ask(self, who, size):
        """Who asks for a block, at a place of its own."""
        self.taken += 16
        self.line(f"@ {who} + 0x{self.taken:x} 0x{size:x}", size if who == "record" else 0)
        return self.taken

    def serve(self, number, tooth):
        """One request. The cache is emptied, but for a block, when it holds as many as a tooth
        has."""
        parsed = self.ask("parse", 300 + number % 7)
        if number % 8 == 0:
            self.records.append(self.ask("record", KEPT))
        self.cache.append(self.ask("put", CACHED + number % 5))
        self.line(f"- 0x{parsed:x}")
        if len(self.cache) == tooth:
            self.empty(self.cache[1:])
            del self.cache[1:]

    def empty(self, cache):
        for place in cache:
            self.line(f"- 0x{place:x}")

    def shut_down(self):
        """The program frees what it holds, and takes a block for every second one of `record`."""
        self.served = len(self.lines)
        for number, place in enumerate(self.records):
            self.line(f"- 0x{place:x}", -KEPT)
            if number % 2 == 0:
                self.line(f"- 0x{self.ask('parse', 20):x}")
        self.empty(self.cache)

    def text(self):
        return "\n".join(self.lines) + "\n"


def shut_down_server():
    """It frees all at its end. Its cache has one great block for a while in the last quarter."""
    server = Server()
    for number in range(1200):
        server.serve(number, 90)
        if number == 1000:
            spike = server.ask("put", 700_000)
        if number == 1010:
            server.empty([spike])
    server.shut_down()
    return server


def killed_server():
    """A signal ends it right behind the cache's fall."""
    server = Server()
    for number in range(1063):
        server.serve(number, 100 if number < 900 else 160)
    return server


def running_server():
    """Its log is still written, and its cache is nearly full: its last tenth of lines is the upper
    part of a tooth."""
    server = Server()
    for number in range(1190):
        server.serve(number, 300)
    return server


def bursting_server():
    """Between its requests 300 and 600 `record` holds a hundred blocks more, so that what it holds
    falls behind them."""
    server = Server()
    for number in range(1200):
        server.serve(number, 90)
        if number == 300:
            burst = [server.ask("record", KEPT) for _ in range(100)]
        if number == 600:
            for place in burst:
                server.line(f"- 0x{place:x}", -KEPT)
    return server


SERVERS = {"a server that shuts down": shut_down_server, "a server that is killed": killed_server,
           "a server that runs": running_server, "a server with a burst": bursting_server}
TOLD = re.compile(r"(?:Until line ([\d,]+), where the program begins to give back what it holds: )?"
                  r"record: from ([\d,]+) bytes early on to ([\d,]+)( at the end)?\.")


def is_told(told, server):
    """Whether a head tells `record` alone, and what it holds behind a tenth of the lines, and at
    the end. Of a server that shuts down it tells what is held where it begins to: at the last line
    drawn before, or the one before that."""
    found = TOLD.fullmatch(told)
    if not found:
        return False
    until, early, most = (number and int(number.replace(",", "")) for number in found.groups()[:3])
    step, last = -(-len(server.lines) // 200), server.served or len(server.lines)
    is_early = server.recorded[(last - 2 * step) // 10] <= early <= server.recorded[last // 10
                                                                                    + step]
    if server.served is None:
        return is_early and until is None and found[4] is not None and most == server.recorded[-1]
    return (is_early and found[4] is None and until is not None and last - 2 * step <= until <= last
            and most == server.recorded[until])
