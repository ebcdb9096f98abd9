"""What parts of tests/in-use/run share: Debian packages that are installed where they are missing, and checks that
are counted."""

from __future__ import annotations

import contextlib
import glob
import importlib.util
import os
import shutil
import subprocess
import sys
import tempfile
import traceback
from importlib.machinery import SourceFileLoader
from pathlib import Path
from typing import Any, Callable, Iterator, Mapping, Sequence

HERE = Path(__file__).resolve().parent
POLICY = Path("/usr/sbin/policy-rc.d")


@contextlib.contextmanager
def no_services() -> Iterator[None]:
    """Packages that are installed meanwhile start no service."""
    is_ours = not POLICY.exists()
    if is_ours:
        POLICY.write_text("#!/bin/sh\nexit 101\n")
        POLICY.chmod(0o755)
    try:
        yield
    finally:
        if is_ours:
            POLICY.unlink()


def install(packages: Mapping[str, str]) -> None:
    """Installs the packages of the programs, or of the files, that are missing."""
    os.environ["PATH"] = f"{os.environ.get('PATH', '')}:/usr/sbin:/sbin"
    missing = sorted({package for it, package in packages.items()
                      if not (glob.glob(it) if "/" in it else shutil.which(it))})
    if not missing:
        return
    print(f"apt-get installs {' '.join(missing)}", flush=True)
    with no_services():
        for words in (["update"], ["install", "-y", "--no-install-recommends", *missing]):
            done = subprocess.run(["apt-get", "-o", "DPkg::Lock::Timeout=300", *words], stdin=subprocess.DEVNULL,
                                  env={**os.environ, "DEBIAN_FRONTEND": "noninteractive"}, stdout=subprocess.PIPE,
                                  stderr=subprocess.STDOUT, check=False)
            if done.returncode and words != ["update"]:
                sys.exit(f"apt-get {' '.join(words)}: {done.stdout.decode()[-500:].strip()}")


def module_of(name: str) -> Any:
    """Another part of tests/in-use/run as a module."""
    loader = SourceFileLoader(name, str(HERE / name))
    spec = importlib.util.spec_from_loader(name, loader)
    assert spec is not None
    module = importlib.util.module_from_spec(spec)
    # (a dataclass looks its module up)
    sys.modules[name] = module
    loader.exec_module(module)
    return module


def place_of_test() -> str:
    """The file and the line where a test is now, which `part` runs; of a thread's own part those of its check."""
    frames = [*traceback.walk_stack(sys._getframe(2))]
    names = [it.f_code.co_name for it, _ in frames]
    frame, line = frames[names.index("part") - 1] if "part" in names[1:] else frames[0]
    return f"{os.path.relpath(frame.f_code.co_filename, HERE.parent.parent)}:{line}"


class Count:
    """Checks that passed and failed. Each that failed is printed."""

    def __init__(self) -> None:
        self.passed = self.failed = 0

    def expect(self, is_so: object, text: str) -> None:
        self.passed += bool(is_so)
        self.failed += not is_so
        if not is_so:
            print(f"NOT  {place_of_test()}: {text}", flush=True)

    def part(self, test: Callable[..., None], *words: object) -> None:
        """A test; one that breaks has failed."""
        try:
            test(self, *words)
        except Exception:
            self.expect(False, f"{test.__name__}: {traceback.format_exc()}")

    def refuses(self, words: Sequence[str], cause: str, octets: bytes = b"") -> None:
        """A program that ends with status 1, its cause on standard error, and nothing on standard output."""
        with tempfile.TemporaryFile() as out, tempfile.TemporaryFile() as errors:
            status = subprocess.run([*words], input=octets, stdout=out, stderr=errors, timeout=120,
                                    check=False).returncode
            out.seek(0), errors.seek(0)
            printed, said = out.read().decode(), errors.read().decode()
        is_so = status == 1 and not printed and cause in said and "Traceback" not in said
        self.expect(is_so,
                    f"{' '.join(words)}: status {status}, {printed[-300:]!r}, {said[-600:]!r}, and not {cause!r}")

    def example(self, words: Sequence[str], seconds: float) -> None:
        """An example that prints `ok` or `NOT` at each step, and at last `passed`."""
        last = ""
        with subprocess.Popen([*words], stdin=subprocess.DEVNULL, stdout=subprocess.PIPE, text=True) as process:
            assert process.stdout is not None
            for line in process.stdout:
                print(line, end="", flush=True)
                self.passed += line.startswith("ok  ")
                self.failed += line.startswith("NOT ")
                last = line.strip()
            process.wait(seconds)
        self.expect(last == "passed" and process.returncode == 0, f"{words[0]} ended with {process.returncode}: {last}")

    def end(self) -> int:
        """Prints the counts; the status."""
        print(f"{self.passed} passed, {self.failed} failed")
        return 1 if self.failed or not self.passed else 0
