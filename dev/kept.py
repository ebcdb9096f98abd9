"""What was proved on this machine, by the sum of all that the proof rests on: in ~/.cache/siploc/proved
(XDG_CACHE_HOME), for 14 days after its last use. Who can write there decides what passes."""

from __future__ import annotations

import contextlib
import hashlib
import os
import shutil
import tempfile
import time
from pathlib import Path
from typing import Iterable, Sequence

CACHE = Path(os.environ.get("XDG_CACHE_HOME") or Path.home() / ".cache") / "siploc/proved"
SECONDS = 14 * 86_400


def digest_of(paths: Iterable[Path]) -> str:
    """A digest of those of these files, and of all files below these folders, that are there, by their names."""
    total = hashlib.sha256()
    for path in paths:
        for file in sorted(path.rglob("*")) if path.is_dir() else [path]:
            if file.is_file():
                total.update(repr((str(file.relative_to(path.parent)), file.stat().st_size)).encode())
                total.update(file.read_bytes())
    return total.hexdigest()


def share(old: str, new: str) -> None:
    """Makes a file of the same octets: the very same file, where the file system can, since none is written into."""
    try:
        os.link(old, new)
    except OSError:
        shutil.copy2(old, new)


def remove(path: Path) -> None:
    """Removes a file or a folder, if there is one."""
    if path.is_dir():
        shutil.rmtree(path)
    else:
        path.unlink(missing_ok=True)


def replace(old: Path, new: Path) -> None:
    """Puts a file or a folder in the place of another."""
    new.parent.mkdir(parents=True, exist_ok=True)
    remove(new)
    if old.is_dir():
        shutil.copytree(old, new, copy_function=share)
    else:
        share(str(old), str(new))


def take(sum_: str, places: Sequence[Path]) -> bool:
    """Puts what was kept under a sum in its places; whether there is any, and it is as it was."""
    kept = CACHE / sum_
    try:
        digest = (kept / "digest").read_text()
        for place in places:
            if (kept / place.name).exists():
                replace(kept / place.name, place)
        os.utime(kept)
    except OSError:
        return False
    is_well = digest == digest_of(places)
    for place in () if is_well else places:
        remove(place)
    return is_well


def put(sum_: str, places: Sequence[Path]) -> None:
    """Keeps what is in these places, whole or not at all. That there is no space for it changes no verdict."""
    with contextlib.suppress(OSError):
        CACHE.mkdir(parents=True, exist_ok=True)
        room = Path(tempfile.mkdtemp(dir=CACHE, prefix="new-"))
        try:
            for place in places:
                if place.exists():
                    replace(place, room / place.name)
            (room / "digest").write_text(digest_of(places))
            shutil.rmtree(CACHE / sum_, ignore_errors=True)
            room.rename(CACHE / sum_)
        finally:
            shutil.rmtree(room, ignore_errors=True)


def forget_old() -> None:
    """Lets go of what was not used for long."""
    for it in CACHE.iterdir() if CACHE.is_dir() else ():
        if it.stat().st_mtime < time.time() - SECONDS:
            shutil.rmtree(it, ignore_errors=True)
