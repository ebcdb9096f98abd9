"""What a program does with its words: `--help` prints the comment at its head, and words that it does not take end it
with status 2, its usage and the cause on standard error.

    tools/usage.py SCRIPT WORD..     the same for a SCRIPT in another language, which takes no words

The usage is those lines of the comment that begin with four spaces and the program's path, or with `NAME=VALUE` before
it. Their continuations are not part of it.
"""

from __future__ import annotations

import atexit
import contextlib
import errno
import io
import os
import pathlib
import re
import shutil
import signal
import sys
from typing import Iterator, NoReturn, Optional, Sequence, TextIO

TOP = pathlib.Path(__file__).resolve().parent.parent

# Without standard error `print` writes what belongs there to standard output; without standard input nothing says so.
if sys.stderr is None:
    sys.stderr = open(os.devnull, "w")
if sys.stdin is None:
    sys.stdin = open(os.open(os.devnull, os.O_WRONLY))
# With PYTHONUNBUFFERED a write that a signal interrupts leaves its rest out, and nothing says so.
if sys.stdout is not None and isinstance(getattr(sys.stdout, "buffer", None), io.RawIOBase):
    names = sys.stdout.encoding, sys.stdout.errors
    whole = io.BufferedWriter(sys.stdout.detach())  # type: ignore[arg-type]
    sys.stdout = sys.__stdout__ = io.TextIOWrapper(whole, *names, line_buffering=True)  # type: ignore[misc]


class Ended(BaseException):
    """A signal that ends the program."""


# What is not to be left in its middle, where a signal is only seen after it.
_whole: list[bool] = []


@contextlib.contextmanager
def whole() -> Iterator[None]:
    """A block that no signal leaves early, as while a process is started: `Ended` is raised within a second after it."""
    _whole.append(True)
    try:
        yield
    finally:
        _whole.pop()


def end_at_signals() -> None:
    """From now on SIGINT and SIGTERM raise `Ended` in the main thread; a second one ends the program at once."""
    ours = [it for it in (signal.SIGINT, signal.SIGTERM) if signal.getsignal(it) != signal.SIG_IGN]

    def end(number: int, _: object) -> None:
        for it in ours:
            signal.signal(it, signal.SIG_DFL)
        lost.append(Ended(f"ended by {signal.Signals(number).name}"))
        again()

    lost: list[object] = []

    def again(*_: object) -> None:
        if lost and not _whole:
            raise Ended(lost.pop())

    def ignored(fault: sys.UnraisableHookArgs) -> None:
        if isinstance(fault.exc_value, Ended):
            lost.append(fault.exc_value)
        else:
            sys.__unraisablehook__(fault)

    for it in ours:
        signal.signal(it, end)
    # (one that comes just before a wait begins does not end that, and what is raised while Python drops something is
    # ignored: then the next alarm does it)
    sys.unraisablehook = ignored
    signal.signal(signal.SIGALRM, again)
    signal.setitimer(signal.ITIMER_REAL, 1.0, 1.0)
    atexit.register(signal.setitimer, signal.ITIMER_REAL, 0.0)


class Head:
    """A program's path in the repository, and the comment at its head."""

    def __init__(self, path: str, comment: str) -> None:
        file = pathlib.Path(path).resolve()
        self.path = str(file.relative_to(TOP)) if file.is_relative_to(TOP) else file.name
        self.comment = comment.strip("\n")

    def usage(self) -> str:
        form = re.compile(rf"    ((?:\w+=\S+ )*{re.escape(self.path)}(?: .*)?)")
        found = [match[1] for match in map(form.fullmatch, self.comment.split("\n")) if match]
        return "usage: " + "\n       ".join(found or [self.path])

    def check(self, words: Sequence[str]) -> None:
        """Ends the program with its comment where that is asked for."""
        if any(it in ("-h", "--help") for it in words):
            # (a pipe to a reader that has read enough ends it, as it does other programs)
            signal.signal(signal.SIGPIPE, signal.SIG_DFL)
            try:
                print(self.comment, flush=True)
            except OSError as fault:
                drop_output()
                sys.exit(f"{self.path}: standard output: {fault.strerror}")
            sys.exit(0)

    def wrong(self, cause: str) -> NoReturn:
        print(f"{self.usage()}\n{self.path}: {cause}", file=sys.stderr)
        sys.exit(2)


def output() -> TextIO:
    """Standard output, or an OSError where it was closed from the beginning."""
    if sys.stdout is None:
        raise OSError(errno.EBADF, "it is closed")
    return sys.stdout


def write(path: pathlib.Path, text: str) -> None:
    """Writes a file whole, or leaves it as it was, as on a disk that is full; octets that are no text are those that were
    read as `surrogateescape`."""
    path = path.resolve()
    new = path.with_name(f".{path.name}.{os.getpid()}")
    try:
        new.write_bytes(text.encode(errors="surrogateescape"))
        if path.exists():
            shutil.copymode(path, new)
        new.replace(path)
    finally:
        new.unlink(missing_ok=True)


def print_done(text: str) -> None:
    """Prints what was done. Where that can't be printed the fault has it."""
    try:
        print(text, flush=True)
    except OSError as fault:
        raise OSError(fault.errno, f"{fault.strerror}: {text}") from fault
    except Ended as ended:
        raise Ended(f"{ended}: {text}") from None


def drop_output() -> None:
    """Drops what standard output could not be given: it is not tried again at the end."""
    if sys.stdout is not None:
        os.dup2(os.open(os.devnull, os.O_WRONLY), sys.stdout.fileno())


def main_head() -> Head:
    """That of the program that runs."""
    return Head(sys.argv[0], sys.modules["__main__"].__doc__ or "")


def wrong(cause: str) -> NoReturn:
    """Ends the program, whose words are wrong for this cause."""
    main_head().wrong(cause)


def words(most: Optional[int] = None, options: Sequence[str] = (), least: int = 0) -> list[str]:
    """The program's words: at least `least` and at most `most` of them, without the options. Others end it."""
    found, head = sys.argv[1:], main_head()
    head.check(found)
    for word in found:
        if word.startswith("--") and word not in options:
            head.wrong(f"{word}: no such option")
    count = sum(it not in options for it in found)
    if count < least or most is not None and count > most:
        head.wrong("too few words" if count < least else "too many words")
    return found


def program(words: Sequence[str], name: str = "siploc") -> str:
    """The program that the first of these words names, or without one that which the gate has built."""
    path = pathlib.Path(words[0] if words else TOP / f"crates/{name}/out/{name}").absolute()
    if not (path.is_file() and os.access(path, os.X_OK)):
        wrong(f"{path}: no such program; dev/try --program {name} FILE makes one")
    return str(path)


def command(name: str) -> str:
    """The path of a command that the program needs, which ends without it."""
    path = shutil.which(name)
    if path is None:
        sys.exit(f'{main_head().path}: {name}: {os.strerror(errno.ENOENT)} (README.md, "Install and run", says what is needed)')
    return path


def number(word: str) -> int:
    """The number that a word is."""
    return int(word) if re.fullmatch("[0-9]+", word) else wrong(f"{word}: not a number")


def comment_of(script: str) -> str:
    """The comment at the head of a script whose comments begin with `#`, without what tests/in-use/run reads there."""
    found = []
    for line in pathlib.Path(script).read_text().split("\n")[1:]:
        if not line.startswith("#"):
            break
        if not re.fullmatch("# (gate|(packages|minutes):.*)", line):
            found.append(line[2:])
    return "\n".join(found)


def main() -> NoReturn:
    script, *rest = sys.argv[1:] or wrong("too few words")
    head = Head(script, comment_of(script))
    head.check(rest)
    head.wrong("it takes no words")


if __name__ == "__main__":
    main()
