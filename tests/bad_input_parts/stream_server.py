"""A server that is sent streams, whole or in pieces."""

import pathlib
import signal
import socket

from bad_input_parts.failed import Failed
from bad_input_parts.good_input import DICTIONARY
from tools.learned_file import NAMES
from tools.patience import HANG, PATIENCE, part_for
from tools.server import Server, reset


class StreamServer(Server):
    """A run of `serve` in a folder of its own."""

    def __init__(self, program, folder):
        self.folder = pathlib.Path(folder)
        self.folder.mkdir()
        (self.folder / "words").write_bytes(DICTIONARY)
        super().__init__(program, folder, more=("--limit", "20000"))

    def part(self, peer):
        """Bytes that are sent to a peer; none at the end."""
        try:
            return part_for(peer, self.run.pid, 1 << 16)
        except TimeoutError as fault:
            raise Failed(f"it sent nothing for {HANG} seconds") from fault

    def answer_to(self, pieces):
        """What is answered to bytes that are sent in these pieces, and whether the connection was reset."""
        got, is_reset = [], False
        with socket.create_connection(("127.0.0.1", self.port), HANG * PATIENCE) as peer:
            try:
                for piece in pieces:
                    peer.sendall(piece)
                peer.shutdown(socket.SHUT_WR)
            except TimeoutError as fault:
                raise Failed("it took no more bytes") from fault
            except OSError:
                is_reset = True
            peer.settimeout(HANG)
            try:
                while part := self.part(peer):
                    got.append(part)
            except ConnectionResetError:
                is_reset = True
            reset(peer)
        return b"".join(got), is_reset

    def check_good(self):
        """Checks that the server goes on."""
        asked = b"2" + "1ちょう> ".encode()
        if self.run.poll() is not None or self.answer_to([asked]) != ("skk-desk-1.0 1/超/\n".encode(), False):
            raise Failed(f"no good answer behind it; the server has the status {self.run.poll()}")

    def end(self):
        """Ends the run: its status, and both learned files."""
        self.run.send_signal(signal.SIGTERM)
        self.run.communicate(timeout=HANG)
        paths = [self.folder / name for name in NAMES]
        return self.run.returncode, tuple(path.read_bytes() if path.exists() else b"" for path in paths)
