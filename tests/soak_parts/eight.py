"""The eight peers of a process, which ask turn by turn until enough is answered."""

import socket
import time

from soak_parts.comers import Comers
from soak_parts.peers import Peers
from soak_parts.words import SHARED, completion, conversion
from tools.syllables import kana


class Eight:
    """Three clients and three typists that stay, and two peers that come and go."""

    def __init__(self, number, seed, server, requests, learnings, told):
        self.number, self.told = number, told
        self.requests, self.learnings = requests, learnings
        self.peers = Peers(number, seed, server)
        self.counts = self.peers.counts
        self.typists = [self.peers.typist(number * 10 + place, number * 10 + place) for place in (1, 2, 3, 4, 5)]
        if number == 0:
            self.typists[2] = self.peers.typist(100, 0)
        self.comers = Comers(self.peers)

    def run(self):
        """Asks until enough is answered."""
        clients = [self.peers.connect() for _ in range(3)]
        sessions = [self.peers.connect(typist) for typist in self.typists[:3]]
        passing = [self.comers.come(typist) for typist in self.typists[3:]]
        turns = 0
        while self.counts["requests"] < self.requests or self.counts["learnings"] < self.learnings:
            turns += 1
            self.ask(clients, sessions, passing)
            if turns % 20 == 0:
                place = turns // 20 % 3
                sessions[place].close()
                sessions[place] = self.peers.connect(self.typists[place])
            self.told[2 * self.number] = self.counts["requests"]
            self.told[2 * self.number + 1] = self.counts["learnings"]
        self.end(clients + sessions, passing)

    def ask(self, clients, sessions, passing):
        """Has each peer ask once, with more requests or more lines, whichever are behind."""
        ahead = self.counts["requests"] * self.learnings - self.counts["learnings"] * self.requests
        for client in clients:
            client.ask(*self.peers.pick(20 if ahead > 0 else 400))
        for typist, session in zip(self.typists, sessions):
            session.ask(*self.peers.lines(typist, 5 if ahead < 0 else 40))
        for each in passing:
            next(each)
        for each in clients + sessions:
            each.check()
        if self.number == 0:
            clients[0].ask(*self.ask_shared(self.typists[2]))
            clients[0].check()

    def ask_shared(self, typist):
        """Requests for what the typist of the shared book has learnt, and their replies."""
        readings = typist.book.newest(SHARED) + self.peers.words.after(SHARED)
        asked, told = ["4" + SHARED + " "], [completion(SHARED, readings)]
        for typed in typist.readings:
            asked.append(f"1{kana(typed)} ")
            told.append(conversion(kana(typed), typist.candidates(("nasi", kana(typed)))))
        self.counts["requests"] += len(asked)
        self.counts["of the shared book"] += len(asked)
        return "".join(asked).encode(), b"".join(told)

    def end(self, staying, passing):
        """Waits until the last comers have gone, and ends those that stay."""
        self.comers.is_over = True
        for each in passing:
            for _ in each:
                time.sleep(0.01)
        for each in staying:
            each.check()
            each.socket.shutdown(socket.SHUT_WR)
            each.check_end()
