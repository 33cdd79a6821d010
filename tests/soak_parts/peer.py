"""Connections that check what they are sent."""

import os
import socket

import tools.server
from tools.patience import HANG, part_for


class Wrong(Exception):
    """What was seen is not what had to be seen."""


class Peer:
    """A connection that checks what it is sent."""

    def __init__(self, port, pid, small=False):
        self.pid = pid
        self.socket = socket.socket()
        self.socket.settimeout(HANG)
        if small:
            self.socket.setsockopt(socket.SOL_SOCKET, socket.SO_RCVBUF, 4096)
        self.socket.connect(("127.0.0.1", port))
        self.socket.setsockopt(socket.IPPROTO_TCP, socket.TCP_NODELAY, 1)
        self.wanted = []

    def ask(self, asked, told):
        """Sends bytes, and keeps what is to be answered."""
        self.socket.sendall(asked)
        self.wanted.append(told)

    def part(self, count):
        """At most so many bytes that are sent to it; none at the end."""
        return part_for(self.socket, self.pid, count)

    def check(self):
        """Receives what is to be answered."""
        wanted = b"".join(self.wanted)
        self.wanted = []
        got, fault = bytearray(), "the end"
        while len(got) < len(wanted):
            try:
                part = self.part(min(len(wanted) - len(got), 1 << 18))
            except OSError as seen:
                part, fault = b"", repr(seen)
            if not part:
                break
            got += part
        if got != wanted:
            same = len(os.path.commonprefix([bytes(got), wanted]))
            more = f", and {fault} behind {len(got)} of {len(wanted)} bytes" if len(got) < len(wanted) else ""
            near = slice(max(0, same - 150), same + 150)
            raise Wrong(f"{bytes(got[near])!r}, and not {wanted[near]!r}{more}")

    def check_end(self):
        """Checks that the server has closed the connection, and that it sent no more."""
        try:
            part = self.part(200)
        except OSError as fault:
            raise Wrong(f"{fault!r} where the end was to come") from fault
        if part:
            raise Wrong(f"{part!r} where the end was to come")
        self.socket.close()

    def close(self):
        """Closes the connection."""
        self.socket.close()

    def reset(self):
        """Closes the connection so that the other side is told of a reset."""
        tools.server.reset(self.socket)
