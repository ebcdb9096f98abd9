"""Commands that are started as groups of processes, each with all that it starts: none goes on where the program is ended
by a signal, or has waited too long."""

from __future__ import annotations

import concurrent.futures
import contextlib
import os
import signal
import subprocess
import threading
import time
from typing import Any, Iterator, Sequence

import usage

# How many seconds a group that is told to end has for what it leaves, such as its folders.
PATIENCE = 10.0
_turn = threading.Lock()
_running: list[subprocess.Popen[Any]] = []
_are_ended = False


def has_ended(process: subprocess.Popen[Any]) -> bool:
    """Whether its first process has ended. While that is not reaped, its group is no other's."""
    try:
        return process.returncode is not None or bool(
            os.waitid(os.P_PID, process.pid, os.WEXITED | os.WNOWAIT | os.WNOHANG))
    except ChildProcessError:
        return True


def end(processes: Sequence[subprocess.Popen[Any]], patience: float = PATIENCE) -> None:
    """Ends groups as ^C does, and then by force."""
    last = time.monotonic() + patience
    for number in (signal.SIGINT, signal.SIGKILL):
        for it in processes:
            with contextlib.suppress(ProcessLookupError):
                os.killpg(it.pid, number)
        while number == signal.SIGINT and not all(map(has_ended, processes)) and time.monotonic() < last:
            time.sleep(0.02)


@contextlib.contextmanager
def started(words: Sequence[str | os.PathLike[str]], **how: Any) -> Iterator[subprocess.Popen[Any]]:
    """Starts a command, whose group ends where the block is left early. What was ended with the program is no result."""
    with _turn:
        check()
        # (only the main thread sees a signal)
        with usage.whole() if threading.current_thread() is threading.main_thread() else contextlib.nullcontext():
            process = subprocess.Popen(words, start_new_session=True, **how)
            _running.append(process)
    try:
        yield process
        check()
    except BaseException:
        end([process])
        process.wait()
        raise
    finally:
        with _turn:
            _running.remove(process)


def check() -> None:
    if _are_ended:
        raise usage.Ended("ended")


def run(words: Sequence[str | os.PathLike[str]], octets: Any = None, timeout: float | None = None,
        **how: Any) -> subprocess.CompletedProcess[Any]:
    """Runs a command to its end: its status, and what its pipes bring."""
    with started(words, **how) as process:
        out, errors = process.communicate(octets, timeout)
    return subprocess.CompletedProcess(words, process.returncode, out, errors)


@contextlib.contextmanager
def in_pool(count: int | None) -> Iterator[concurrent.futures.ThreadPoolExecutor]:
    """A pool of threads that start commands. Where its block is left early nothing more begins, and what runs ends."""
    global _are_ended
    with concurrent.futures.ThreadPoolExecutor(count) as pool:
        try:
            yield pool
        except BaseException:
            pool.shutdown(wait=False, cancel_futures=True)
            with _turn:
                _are_ended = True
                running = [*_running]
            end(running)
            raise
