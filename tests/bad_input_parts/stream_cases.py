"""The cases of streams."""

import re
import signal

from bad_input_parts.breaking import broken_content
from bad_input_parts.failed import Failed
from bad_input_parts.learned_pair import book_of, check_dump, write_pair
from bad_input_parts.learned_reader import dump_of, state_of
from bad_input_parts.reply_reader import check_replies
from bad_input_parts.stream_server import StreamServer


class StreamCases:
    """Streams, sent to a server that serves all of them, and to another one in other pieces."""

    name = "stream"

    def __init__(self, programs, streams):
        self.programs, self.streams = programs, streams
        self.servers = []
        self.sent = 0

    def run(self, draw, given):
        """Runs a case, whose bytes are put into `given`: what it ended as."""
        stream = given["stream"] = broken_content(draw, self.streams)
        if not self.servers:
            self.servers = [StreamServer(self.programs.program, name) for name in ("first", "second")]
        cuts = sorted(draw.choices(range(len(stream) + 1), k=draw.randrange(4)))
        pieces = [stream[since:until] for since, until in zip([0, *cuts], [*cuts, len(stream)])]
        (whole, was_reset), (cut, is_reset) = self.servers[0].answer_to([stream]), self.servers[1].answer_to(pieces)
        if was_reset or is_reset:
            if not (whole.startswith(cut) and is_reset or cut.startswith(whole) and was_reset):
                raise Failed(f"{whole!r}, and in pieces {cut!r}")
            return "replies and a reset"
        if whole != cut:
            raise Failed(f"{whole!r}, and in pieces {cut!r}")
        return self.end_of(stream, whole)

    def end_of(self, stream, told):
        """What a stream ended as that was answered so, and whether the servers go on, behind each tenth of them."""
        if not check_replies(stream, told):
            raise Failed(f"{told!r} is no answer to it")
        self.sent += 1
        if self.sent % 10 == 0:
            for server in self.servers:
                server.check_good()
        if re.search(rb"(?:^|\n| )0\n$", told):
            return "closed with 0"
        return "replies" if told else "no reply"

    def end(self):
        """Ends the servers, which must have learnt the same: what is wrong with that, or None."""
        if not self.servers:
            return None
        first, second = [server.end() for server in self.servers]
        if first != second or first[0] != -signal.SIGTERM:
            return f"two servers ended with {first[0]} and {second[0]}, or learnt otherwise"
        write_pair(first[1])
        rows, _ = state_of(first[1])
        for number in {0, 1, 2, 3, *(book for book, _, _ in rows)}:
            book = book_of(self.programs, number)
            if book != dump_of(rows, number):
                return f"book {number} of a server is {book!r}"
            check_dump(self.programs, book)
        return None

    def kill(self):
        """Kills the servers."""
        for server in self.servers:
            server.run.kill()
