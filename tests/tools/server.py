"""Runs of `serve`, and connections to them."""

import contextlib
import pathlib
import re
import socket
import struct
import subprocess


def free_port():
    """A port of loopback that nobody has."""
    with socket.socket() as taken:
        taken.bind(("127.0.0.1", 0))
        return taken.getsockname()[1]


def reset(peer):
    """Closes a connection so that the other side is told of a reset."""
    peer.setsockopt(socket.SOL_SOCKET, socket.SO_LINGER, struct.pack("ii", 1, 0))
    peer.close()


def answer_to(port, stream, seconds):
    """What a stream is answered, up to the end of the connection or a reset."""
    told = b""
    with contextlib.suppress(ConnectionError), socket.create_connection(("127.0.0.1", port), seconds) as peer:
        peer.sendall(stream)
        peer.shutdown(socket.SHUT_WR)
        while part := peer.recv(4096):
            told += part
    return told


class Server:
    """A run of `serve` in a folder, over a learned file and the dictionary `words`, whose port is open."""

    def __init__(self, program, folder, learned="learned", more=(), begin=None):
        self.port = free_port()
        words = [program, "serve", "--learned", learned, "--dict", "words", *more, "--port", str(self.port)]
        pipes = {"stdout": subprocess.PIPE, "stderr": subprocess.PIPE}
        self.run = subprocess.Popen(words, cwd=folder, preexec_fn=begin, **pipes)
        assert self.run.stdout.readline() == b"ready\n", self.run.stderr.read()

    def most_memory(self):
        """The most kilobytes of memory that the run has had."""
        told = pathlib.Path(f"/proc/{self.run.pid}/status").read_text()
        return int(re.search(r"VmHWM:\s+(\d+) kB", told).group(1))
