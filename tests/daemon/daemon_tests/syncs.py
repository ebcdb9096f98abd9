"""What a library that is preloaded does to the operations of a daemon on files."""

from __future__ import annotations

import mmap
import pathlib
import struct
import subprocess

from daemon_tests.support import TOP


class Syncs:
    """What a preloaded library (tests/daemon/slow_sync.c) does to a daemon's syncs of files, and to its writes into
    them."""

    def __init__(self, folder: pathlib.Path) -> None:
        shared, library = folder / "syncs", folder / "slow_sync.so"
        shared.write_bytes(bytes(mmap.PAGESIZE))
        with shared.open("r+b") as file:
            self.page = mmap.mmap(file.fileno(), mmap.PAGESIZE)
        subprocess.run(["cc", "-O2", "-shared", "-fPIC", "-o", library, TOP / "tests/daemon/slow_sync.c"], check=True)
        self.environment = {"LD_PRELOAD": str(library), "SLOW_SYNC": str(shared)}

    def put(self, place: int, number: int) -> None:
        struct.pack_into("q", self.page, 8 * place, number)

    def wait(self, waits: bool) -> None:
        """Each sync waits from now on, or those that wait go on."""
        self.put(0, waits)

    def fail(self, name: str, error: int) -> None:
        """Each sync fails from now on, or each write into a file, or each opening of a file to append to."""
        self.put({"sync": 1, "write": 2, "open": 3}[name], error)

    def begun(self) -> int:
        """How many syncs have begun."""
        return self.number(4)

    def number(self, place: int) -> int:
        return struct.unpack_from("q", self.page, 8 * place)[0]

    def watch_folder(self, count: int, error: int) -> None:
        """The so manieth sync of a folder from now on waits, and then fails with an error, if it is one."""
        for place, number in (6, True), (7, False), (8, error), (5, count):
            self.put(place, number)

    def has_begun(self) -> bool:
        """Whether the sync of a folder that is watched has begun."""
        return self.number(7) != 0

    def go_on(self) -> None:
        self.put(6, False)
