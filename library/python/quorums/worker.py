"""Calls in a process of their own, which can be ended; and the loop of such a process.

A process answers one call after another. It ends with the one that started it, also in the midst of a call.
"""

from __future__ import annotations

import os
import pickle
import select
import signal
import struct
import subprocess
import sys
import threading
import time
from typing import Any, BinaryIO

SIZE = struct.Struct(">Q")
PACKAGE = os.path.dirname(os.path.abspath(__file__))


class Ended(Exception):
    """A call was ended from another thread."""


class Lost(Exception):
    """The process of a call ended before its answer came."""


class Stop:
    """Ends calls from another thread: give it as `stop`, and call `end`. All later calls with it are ended too."""

    def __init__(self) -> None:
        self.lock = threading.Lock()
        self.workers: set[Worker] = set()
        self.ended = False

    def end(self) -> None:
        with self.lock:
            self.ended = True
            for it in self.workers:
                it.kill()

    def add(self, worker: Worker) -> None:
        with self.lock:
            self.workers.add(worker)
            if self.ended:
                worker.kill()

    def remove(self, worker: Worker) -> None:
        with self.lock:
            self.workers.discard(worker)


class Worker:
    """A process that answers calls."""

    def __init__(self) -> None:
        path = os.pathsep.join([os.path.dirname(PACKAGE), *filter(None, [os.environ.get("PYTHONPATH")])])
        words = [sys.executable, "-P", "-c", "from quorums.worker import main; main()"]
        self.process = subprocess.Popen(
            words, stdin=subprocess.PIPE, stdout=subprocess.PIPE, bufsize=0, env={**os.environ, "PYTHONPATH": path}
        )

    def kill(self) -> None:
        self.process.kill()

    def close(self) -> None:
        """Ends the process and waits for it."""
        self.kill()
        self.process.wait()
        for it in (self.process.stdin, self.process.stdout):
            if it:
                it.close()

    def call(self, name: str, arguments: tuple[Any, ...], until: float | None = None) -> Any:
        """The value of a task; raises what it raised, TimeoutError, or Lost. After these two the process is of no
        more use."""
        data = pickle.dumps((name, arguments))
        source, sink = self.process.stdout, self.process.stdin
        assert source is not None and sink is not None
        try:
            write(sink, data)
        except OSError:
            raise Lost(self.why()) from None
        if until is not None and not select.select([source], [], [], max(0.0, until - time.monotonic()))[0]:
            raise TimeoutError("the call was ended after its time")
        found = frame(source)
        if found is None:
            raise Lost(self.why())
        done, value = pickle.loads(found)
        if not done:
            raise value
        return value

    def why(self) -> str:
        status = self.process.wait()
        return (
            f"the process of the call ended by signal {-status}"
            if status < 0
            else f"the process of the call ended with status {status}"
        )


class Idle:
    """Processes that wait for the next call."""

    def __init__(self) -> None:
        self.lock = threading.Lock()
        self.workers: list[Worker] = []

    def take(self) -> Worker:
        with self.lock:
            while self.workers:
                it = self.workers.pop()
                if it.process.poll() is None:
                    return it
                it.close()
        return Worker()

    def give(self, worker: Worker) -> None:
        with self.lock:
            self.workers.append(worker)


IDLE = Idle()


def run(name: str, *arguments: Any, timeout: float | None = None, stop: Stop | None = None) -> Any:
    """The value of a task in a process of its own. Raises TimeoutError after `timeout` seconds, Ended if `stop`
    ends it, Lost, and what the task raises."""
    if timeout is not None and (isinstance(timeout, bool) or not isinstance(timeout, (int, float))):
        raise TypeError(f"timeout must be a number of seconds, not {type(timeout).__name__}")
    if stop is not None and not isinstance(stop, Stop):
        raise TypeError(f"stop must be a Stop, not {type(stop).__name__}")
    if stop is not None and stop.ended:
        raise Ended("the call was ended")
    worker, kept = IDLE.take(), False
    until = None if timeout is None else time.monotonic() + timeout
    try:
        if stop is not None:
            stop.add(worker)
        value = worker.call(name, arguments, until)
        kept = True
        return value
    except Lost:
        if stop is not None and stop.ended:
            raise Ended("the call was ended") from None
        raise
    except TimeoutError:
        raise TimeoutError(f"not answered in {timeout} s") from None
    except Exception:
        # (the task's own, after which the process goes on)
        kept = True
        raise
    finally:
        if stop is not None:
            stop.remove(worker)
        if kept and worker.process.poll() is None:
            IDLE.give(worker)
        else:
            worker.close()


def write(sink: Any, data: bytes) -> None:
    """Writes a frame: its size and its bytes."""
    left = memoryview(SIZE.pack(len(data)) + data)
    while left:
        left = left[sink.write(left) :]


def exactly(source: Any, count: int) -> bytes | None:
    """This many bytes, or none where the source ends first."""
    parts = []
    while count:
        part = source.read(min(count, 1 << 20))
        if not part:
            return None
        parts.append(part)
        count -= len(part)
    return b"".join(parts)


def frame(source: Any) -> bytes | None:
    """The next frame, if the source does not end first."""
    head = exactly(source, SIZE.size)
    return None if head is None else exactly(source, SIZE.unpack(head)[0])


def task(name: str) -> Any:
    """What is called by a name."""
    if name == "answer":
        from .binding import answer

        return answer
    from .summary import row_of

    return {"row": row_of}[name]


def done(data: bytes) -> bytes:
    """The frame that answers a frame."""
    try:
        name, arguments = pickle.loads(data)
        return pickle.dumps((True, task(name)(*arguments)))
    except Exception as raised:
        return pickle.dumps((False, raised))


def serve(source: BinaryIO, sink: Any) -> None:
    """Answers frames until the source ends, in the midst of a call too."""
    waiting: list[bytes] = []
    ready = threading.Semaphore(0)

    def read_all() -> None:
        while (data := frame(source)) is not None:
            waiting.append(data)
            ready.release()
        os._exit(0)

    threading.Thread(target=read_all, daemon=True).start()
    while True:
        ready.acquire()
        try:
            write(sink, done(waiting.pop(0)))
        except BrokenPipeError:
            os._exit(0)


def main() -> None:
    signal.signal(signal.SIGINT, signal.SIG_IGN)
    sink = os.fdopen(os.dup(1), "wb", buffering=0)
    os.dup2(2, 1)
    serve(os.fdopen(os.dup(0), "rb", buffering=0), sink)
