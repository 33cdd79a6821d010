"""Peers that come and go: some close, some reset, some stop reading or writing for a while."""

import time

from soak_parts.typist import exchange
from soak_parts.words import completion

# How many typists of a process reset with learnings under way.
RESETS = 100


class Comers:
    """The peers of a process that come and go, and the books that those may have left who reset."""

    def __init__(self, peers):
        self.peers, self.draw = peers, peers.draw
        self.many = "4か ".encode() * 400, completion("か", peers.words.after("か")) * 400
        self.resets = {}
        self.is_over = False

    def come(self, typist):
        """Peers that come, one behind another, and go or reset or stop for a while."""
        kinds = [self.goes, self.goes, self.ends, self.is_bad, self.resets_at_once, self.resets_in_a_request]
        kinds += [self.resets_unread, self.stops_writing, self.stops_reading, self.types, self.types_slowly]
        kinds += [self.types_and_resets]
        while not self.is_over:
            kind = self.draw.choice(kinds)
            self.peers.counts[kind.__name__.replace("_", " ")] += 1
            yield from kind(typist)
            yield

    def goes(self, _):
        """A client that is answered, and closes."""
        peer = self.peers.connect()
        peer.ask(*self.peers.pick(30))
        yield
        peer.check()
        peer.close()

    def ends(self, _):
        """A client that says that it ends, behind requests."""
        peer = self.peers.connect()
        asked, told = self.peers.pick(30)
        peer.ask(asked + b"0", told)
        yield
        peer.check()
        peer.check_end()

    def is_bad(self, _):
        """A client that sends what is no request."""
        peer = self.peers.connect()
        asked, told = self.peers.pick(30)
        bad = self.draw.choice([b"9", b"\0", b"G", b"\xff", b"1" + b"a" * 256 + b" "])
        peer.ask(asked + bad, told + b"0\n")
        yield
        peer.check()
        peer.check_end()

    def resets_at_once(self, _):
        self.peers.connect().reset()
        yield

    def resets_in_a_request(self, _):
        peer = self.peers.connect()
        peer.ask(*self.peers.pick(5))
        peer.check()
        peer.socket.sendall("1か".encode()[:3])
        yield
        peer.reset()

    def resets_unread(self, _):
        """A client that does not read a reply, and resets."""
        peer = self.peers.connect(small=True)
        peer.socket.sendall(self.many[0])
        since = time.monotonic()
        while time.monotonic() < since + self.draw.random():
            yield
        peer.reset()

    def stops_writing(self, _):
        """A client that stops in the middle of a request, and goes on."""
        peer = self.peers.connect()
        asked, told = self.peers.pick(30)
        cut = self.draw.randrange(len(asked))
        peer.socket.sendall(asked[:cut])
        since = time.monotonic()
        while time.monotonic() < since + 2:
            yield
        peer.ask(asked[cut:], told)
        peer.check()
        peer.close()

    def stops_reading(self, _):
        """A client whose replies the system can't take, and who reads them in the end."""
        peer = self.peers.connect(small=True)
        peer.ask(*self.many)
        since = time.monotonic()
        while time.monotonic() < since + 3:
            yield
        peer.check()
        self.peers.counts["requests"] += 400
        peer.close()

    def types(self, typist):
        """A typist who types for a while."""
        peer = self.peers.connect(typist)
        peer.ask(*self.peers.lines(typist, 30))
        yield
        peer.check()
        peer.close()

    def types_slowly(self, typist):
        """A typist who stops in the middle of a line and reads nothing meanwhile, and goes on."""
        peer = self.peers.connect(typist)
        asked, told = self.peers.lines(typist, 30)
        cut = self.draw.randrange(len(asked))
        peer.socket.sendall(asked[:cut])
        since = time.monotonic()
        while time.monotonic() < since + 1:
            yield
        peer.ask(asked[cut:], told)
        peer.check()
        peer.close()

    def types_and_resets(self, _):
        """A typist who resets while words are learnt. The books that may be left are kept."""
        if len(self.resets) == RESETS:
            return
        number = 1000 * (self.peers.number + 1) + len(self.resets)
        typist = self.peers.typist(number, number)
        typist.readings = typist.readings[:1]
        peer = self.peers.connect(typist)
        lines = typist.choose()
        peer.ask(*exchange(lines))
        peer.check()
        left = [typist.book.dump()]
        unanswered = []
        for _ in range(self.draw.randrange(40)):
            unanswered += typist.choose()
            left.append(typist.book.dump())
        peer.socket.sendall("".join(f"{keys}\n" for keys, _ in unanswered).encode())
        self.resets[number] = left
        if self.draw.randrange(2):
            yield
        peer.reset()
