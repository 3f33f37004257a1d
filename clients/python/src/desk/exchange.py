"""A running program that is sent commands and replies to them, each reply tied to its command.

A thread sends a whole command, reads its whole reply, and only then takes the next command. Whoever waits
for a reply may be broken off at any moment, as by Ctrl-C. The thread goes on all the same, since an exception
that a signal raises comes in the main thread alone. So no command gets a reply that was due to one before.
"""
from __future__ import annotations

import os
import signal
import subprocess
import threading
import weakref
from copy import copy
from queue import SimpleQueue
from typing import List, NamedTuple, Optional, Sequence, Tuple, Union

from .errors import Ended, Trouble
from .program import began_badly, not_started
from .transport import Command, Reply, Taken, nothing_kept

CHUNK = 65536


class Request(NamedTuple):
    """What the thread is asked: a command's bytes, none where its turn alone is waited for, None to close."""

    sent: Optional[bytes]
    taken: Taken
    answers: SimpleQueue[Union[Reply, Trouble]]


class Exchange:
    """A running program that answers commands, in the order in which they are asked. It is a `Transport`."""

    def __init__(self, words: Sequence[str]) -> None:
        """Starts the program, in a session of its own, so that Ctrl-C in a terminal doesn't reach it.

        Trouble: it can't be started.
        """
        pipe = subprocess.PIPE
        try:
            self._run = subprocess.Popen(
                words, bufsize=0, stdin=pipe, stdout=pipe, stderr=pipe, start_new_session=True)
        except OSError as fault:
            raise not_started(words[0], fault) from fault
        # A simple queue is in no state between two that a broken-off call could leave it in.
        self._requests: SimpleQueue[Optional[Request]] = SimpleQueue()
        threading.Thread(target=_serve, args=(self._run, self._requests), daemon=True).start()
        self._owner = os.getpid()
        weakref.finalize(self, _end, self._owner, self._run, self._requests)

    @classmethod
    def begun(cls, words: Sequence[str]) -> Exchange:
        """Starts the program, and waits until it has replied, so that its options are taken.

        Malformed: it refused its options. Ended: it ended for another cause. Trouble: it can't be started.
        """
        exchange = cls(words)
        try:
            exchange.ask(Command("list"))
        except Ended as ended:
            exchange.close()
            raise began_badly(ended) from None
        except BaseException:
            exchange.close()
            raise
        return exchange

    @property
    def process(self) -> int:
        """The number of the program's process."""
        return self._run.pid

    def ask(self, command: Command, taken: Taken = nothing_kept) -> Reply:
        """Sends a command and waits for its reply.

        `taken` gets the reply before the next command is sent, also where this call is broken off.
        """
        answer = self._answer(command.sent(), taken)
        if isinstance(answer, Trouble):
            raise answer
        return answer

    def wait(self, taken: Taken = nothing_kept) -> bool:
        """Waits until no reply is due any more, and calls then. Where the program is gone it doesn't, and says so."""
        return not isinstance(self._answer(b"", taken), Trouble)

    def close(self) -> None:
        """Ends the program, whatever it is at. A second time does nothing."""
        if os.getpid() == self._owner:
            self._run.kill()
        self._answer(None, nothing_kept)

    def _answer(self, sent: Optional[bytes], taken: Taken) -> Union[Reply, Trouble]:
        if os.getpid() != self._owner:  # a fork has no thread
            return Trouble("the desk is one of another process")
        request = Request(sent, taken, SimpleQueue())
        self._requests.put(request)
        return request.answers.get()


def _end(owner: int, run: subprocess.Popen[bytes], requests: SimpleQueue[Optional[Request]]) -> None:
    """Ends the program and the thread of an exchange that nothing refers to, but not from a fork of its process."""
    if os.getpid() == owner:
        run.kill()
        requests.put(None)


def _serve(run: subprocess.Popen[bytes], requests: SimpleQueue[Optional[Request]]) -> None:
    """The thread: it answers each request in turn."""
    signal.pthread_sigmask(signal.SIG_BLOCK, signal.valid_signals())
    talk = _Talk(run)
    request = requests.get()
    while request:
        request.answers.put(talk.answer(request))
        del request  # it may be what keeps the exchange alive
        request = requests.get()
    talk.close()


class _Talk:
    """The thread's end of the program's pipes, and why there are no more answers once it knows."""

    def __init__(self, run: subprocess.Popen[bytes]) -> None:
        assert run.stdin and run.stdout and run.stderr  # all three are pipes
        self._run, self._rest = run, bytearray()
        self._input, self._output, self._errors = run.stdin, run.stdout, run.stderr
        self._fault: Optional[Trouble] = None

    def answer(self, request: Request) -> Union[Reply, Trouble]:
        if request.sent is None:
            self.close()
        if self._fault:
            return copy(self._fault)
        try:
            if request.sent:
                self._write(request.sent)
            reply = self._reply() if request.sent else Reply([])
            request.taken(reply)
            return reply
        except Ended as ended:
            self._fault = ended
            return copy(ended)
        except BaseException as fault:  # what is still due can't be told
            self._fault = Trouble(f"the call before was broken off by {fault!r}, and replies can't be told apart")
            return Trouble(f"the call was broken off by {fault!r}")

    def close(self) -> None:
        """Lets the program go, which was killed."""
        for pipe in (self._input, self._output, self._errors):
            pipe.close()
        self._run.wait()
        self._fault = Trouble("the desk is closed")

    def _write(self, sent: bytes) -> None:
        left = memoryview(sent)
        try:
            while left:
                left = left[self._input.write(left):]
        except OSError as fault:
            raise self._ended() from fault

    def _reply(self) -> Reply:
        begin, lines = 0, 0
        words, end = self._line(begin)
        while words[0] in ("branch", "intervention") or words[0] == "bookmark" and words[2] == "on":
            begin, lines = end, lines + 1
            words, end = self._line(begin)
        if lines != (int(words[1]) if words[0] == "listed" else 0):
            raise ValueError("another number of lines")
        size = int(words[3]) if words[0] == "bookmark" and words[2] == "current" else 0
        while len(self._rest) < end + size:
            self._read()
        if len(self._rest) > end + size:
            raise ValueError("more than one reply")
        text, self._rest = bytes(self._rest[end:] if size else self._rest[:begin]), bytearray()
        return Reply(words, text)

    def _line(self, begin: int) -> Tuple[List[str], int]:
        """The words of the line that begins there, and where the next one does."""
        looked = begin
        while (end := self._rest.find(b"\n", looked)) < 0:
            looked = len(self._rest)
            self._read()
        return self._rest[begin:end].decode("latin-1").split(), end + 1

    def _read(self) -> None:
        found = self._output.read(CHUNK)
        if not found:
            raise self._ended()
        self._rest += found

    def _ended(self) -> Ended:
        said, status = self._errors.read().decode(errors="replace").strip(), self._run.wait()
        return Ended(f"the program ended with status {status}{said and ': '}{said}", status, said)
