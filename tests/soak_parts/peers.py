"""What the peers of one process have in common: their draws, the dictionary, and what is counted of them."""

import collections
import random

from soak_parts.peer import Peer
from soak_parts.typist import Typist, exchange
from soak_parts.words import Words


class Peers:
    """Makes the peers of one process, and what they ask."""

    def __init__(self, number, seed, server):
        self.number, self.server = number, server
        self.draw = random.Random(f"{seed} {number}")
        self.words = Words(random.Random(seed))
        self.pairs = self.words.requests(self.draw)
        self.counts = collections.Counter()

    def typist(self, number, book):
        """A typist, who learns in a book."""
        return Typist(self.words, self.draw, number, book, self.counts)

    def pick(self, count):
        """Requests of clients, and their replies."""
        asked, told = zip(*self.draw.choices(self.pairs, k=count))
        self.counts["requests"] += count
        return b"".join(asked), b"".join(told)

    def lines(self, typist, count):
        """Lines of a typist, and their answers."""
        lines = typist.lines(count)
        self.counts["requests"] += len(lines)
        self.counts["typists' lines"] += len(lines)
        return exchange(lines)

    def connect(self, typist=None, small=False):
        """A connection, of a typist or of a client."""
        peer = Peer(self.server.port, self.server.run.pid, small)
        self.counts["connections"] += 1
        if typist:
            peer.ask(*exchange(typist.begin()))
        return peer
