"""What is at the paths of settings and arguments: pipes, devices, links and folders in place of files; and what becomes
of files where the standard streams are closed."""

from __future__ import annotations

import os
import pathlib
import signal
import socket
import subprocess
from typing import Sequence

from daemon_tests.support import PATIENCE, PROGRAM, Checks, Client, ended_start, started, stopped, test, until


def refused(checks: Checks, folder: pathlib.Path, words: Sequence[str], begin: str, word: str = "") -> None:
    """Checks that the program ends at once with one message that begins so and has this word."""
    try:
        ran = subprocess.run([PROGRAM, *words], cwd=folder, stdin=subprocess.DEVNULL, capture_output=True, text=True,
                             timeout=PATIENCE, check=False)
    except subprocess.TimeoutExpired:
        checks.expect(False, f"it goes on: {words}")
        return
    said = "".join(it for it in ran.stderr.splitlines(keepends=True) if it.startswith("siplocd"))
    checks.expect(ran.returncode == 1 and not ran.stdout and said.startswith(begin) and said.count("\n") == 1
                  and word in said, (words, ran))


def no_files(folder: pathlib.Path) -> list[pathlib.Path]:
    """Paths at which there is something that is not a file."""
    os.mkfifo(folder / "pipe")
    (folder / "folder").mkdir()
    (folder / "link").symlink_to("pipe")
    with socket.socket(socket.AF_UNIX) as listener:
        listener.bind(str(folder / "socket"))
    return [*(folder / name for name in ("pipe", "folder", "link", "socket")), pathlib.Path("/dev/null")]


@test
def refuses_what_is_no_file(checks: Checks, folder: pathlib.Path) -> None:
    listen = f'listen = ["unix:{folder}/s"]\n'
    for path in no_files(folder):
        refused(checks, folder, ["check", "--config", str(path)], f"siplocd: settings {path}: ", "not a regular file")
        refused(checks, folder, ["--config", str(path)], f"siplocd: settings {path}: ", "not a regular file")
        at = folder / "pipe" if path.name == "link" else path
        refused(checks, folder, [f'{listen}state = "{path}"'], f"siplocd: state {at}: ", "not a regular file")
        refused(checks, folder, ["check-state", str(path)], f"siplocd: state {at}: ", "not a regular file")
        if path.name != "folder":
            refused(checks, folder, [f'{listen}archive = "{path}"'], f"siplocd: archive {path}: ")
            refused(checks, folder, ["replay", str(path)], f"siplocd: replay {path}: ")
    for ending in ".lock", ".log", ".new", ".log.new", ".log.torn":
        path = folder / f"state{ending}"
        for make in path.mkdir, lambda at=path: os.mkfifo(at):
            make()
            refused(checks, folder, [f'{listen}state = "{folder}/state"'], f"siplocd: state {path}: ", "regular file")
            path.rmdir() if path.is_dir() else path.unlink()
    checks.expect(not (folder / "pipe.lock").exists(), "it has made a file before")
    (folder / "dangling").symlink_to("nowhere")
    refused(checks, folder, [f'{listen}state = "{folder}/dangling"'], f"siplocd: state {folder}/dangling: ", "link")
    refused(checks, folder, ["check-state", f"{folder}/dangling"], f"siplocd: state {folder}/dangling: ", "link")


@test
def replays_no_pipe_and_no_device(checks: Checks, folder: pathlib.Path) -> None:
    archive = folder / "archive"
    archive.mkdir()
    page = archive / "000002-0000000000000000"
    with started(checks, folder, f'archive = "{archive}"') as daemon:
        with Client(daemon.address) as client:
            client.ask("find sip:192.0.2.1")
        stopped(checks, daemon, 1)
    for make in lambda: os.mkfifo(page), lambda: page.symlink_to("/dev/zero"), page.mkdir:
        make()
        refused(checks, folder, ["replay", str(archive)], f"siplocd: replay {page}: ", "not a regular file")
        page.rmdir() if page.is_dir() else page.unlink()
    # That of a page that is being written is nothing yet.
    os.mkfifo(archive / "new")
    ran = subprocess.run([PROGRAM, "replay", str(archive)], capture_output=True, text=True, timeout=PATIENCE,
                         check=False)
    checks.equal((ran.returncode, ran.stdout, ran.stderr), (0, "run 000001 1\nreplayed 1\n", ""), "the page")


@test
def replays_an_archive_at_the_top_of_a_disk(checks: Checks, folder: pathlib.Path) -> None:
    archive, page = folder / "archive", "000001-0000000000000000"
    # What file systems have there: folders with what was found, and with what was; and a page that was removed while
    # it was read.
    for name in "lost+found", ".snapshot", ".zfs":
        (archive / name).mkdir(mode=0o700, parents=True)
        (archive / name / page).write_text("another one")
    (archive / ".nfs000000000c0ffee000000001").write_text("cut off")
    before = sorted(archive.iterdir())
    with started(checks, folder, f'archive = "{archive}"') as daemon:
        with Client(daemon.address) as client:
            client.ask("find sip:192.0.2.1")
        stopped(checks, daemon, 1)
    checks.equal(sorted(archive.iterdir()), sorted([*before, archive / page]), "what is there")

    def replayed() -> tuple[int, str]:
        ran = subprocess.run([PROGRAM, "replay", str(archive)], capture_output=True, text=True, timeout=PATIENCE,
                             check=False)
        return ran.returncode, ran.stdout + ran.stderr

    checks.equal(replayed(), (0, "run 000001 1\nreplayed 1\n"), "with what file systems have there")
    # All else is told: what a copy left of a page, files of such names, other folders, and links to folders.
    (archive / "lost+found" / page).unlink()
    (archive / "lost+found").rmdir()
    for name in f".{page[:-1]}1.Xy1Z2a", f"{page}.bak", "lost+found", ".hidden", "news", "new~":
        (archive / name).write_bytes((archive / page).read_bytes())
        checks.equal(replayed(), (1, f"siplocd: replay {archive}/{name}: misnamed\n"), f"a file {name}")
        (archive / name).unlink()
    for make in (archive / "found").mkdir, lambda: (archive / "lost+found").symlink_to(folder):
        make()
        checks.expect(replayed()[1].endswith("found: not a regular file\n"), replayed())
        (archive / "found").rmdir() if (archive / "found").is_dir() else (archive / "lost+found").unlink()


@test
def settings_may_come_from_an_open_pipe(checks: Checks, folder: pathlib.Path) -> None:
    for text, wanted in (b"idle = 5\n", (0, b"ok\n", b"")), (b"idle = 0\n", (1, b"", None)):
        ran = subprocess.run([PROGRAM, "check", "--config", "/dev/stdin"], input=text, capture_output=True,
                             timeout=PATIENCE, check=False)
        checks.equal((ran.returncode, ran.stdout, ran.stderr if wanted[2] is not None else None), wanted, text)


@test
def refuses_settings_without_end(checks: Checks, folder: pathlib.Path) -> None:
    path = folder / "siplocd.toml"
    path.write_bytes(b"#" * ((1 << 20) - 1) + b"\n")
    ran = subprocess.run([PROGRAM, "check", "--config", str(path)], capture_output=True, text=True, timeout=PATIENCE,
                         check=False)
    checks.equal((ran.returncode, ran.stdout, ran.stderr), (0, "ok\n", ""), "the longest settings")
    path.write_bytes(b"#" * (1 << 20) + b"\n")
    for words in ["check", "--config", str(path)], ["--config", str(path)]:
        refused(checks, folder, words, f"siplocd: settings {path}: ", "too large")


@test
def refuses_an_archive_that_takes_no_page(checks: Checks, folder: pathlib.Path) -> None:
    archive = folder / "archive"
    archive.mkdir()
    settings = f'archive = "{archive}"\non_failure = '
    for make in (archive / "new").mkdir, lambda: os.mkfifo(archive / "new"):
        make()
        for on_failure in "end", "read":
            status, said = ended_start(folder, f'{settings}"{on_failure}"')
            checks.equal((status, said), (1, f"siplocd: archive {archive}/new: not a regular file\n"), on_failure)
        (archive / "new").rmdir() if (archive / "new").is_dir() else (archive / "new").unlink()
    # No one makes a file there, whoever the tests are run by.
    status, said = ended_start(folder, 'archive = "/proc"')
    checks.expect(status == 1 and said.startswith("siplocd: archive /proc/new: ") and said.count("\n") == 1,
                  (status, said))
    for run, on_failure in enumerate(("end", "read"), 1):
        (archive / "new").write_text("cut off")
        with started(checks, folder, f'{settings}"{on_failure}"') as daemon:
            checks.expect(not (archive / "new").exists(), f"what a kill left has space: {on_failure}")
            with Client(daemon.address) as client:
                client.ask("find sip:192.0.2.1")
            stopped(checks, daemon, 1)
        checks.equal(sorted(it.name for it in archive.iterdir()),
                     [f"{it:06}-0000000000000000" for it in range(1, run + 1)], "its files")


@test
def prints_into_no_file(checks: Checks, folder: pathlib.Path) -> None:
    state, address = folder / "state", f"unix:{folder}/lines"
    settings = f'listen = ["{address}"]\ncontrol = "unix:{folder}/control"\nlog = "debug"\nstate = "{state}"\n'
    for closed in ">&-", "<&- >&-", "<&- >&- 2>&-", "2>&-":
        process = subprocess.Popen(["sh", "-c", f'exec "$0" "$@" {closed}', PROGRAM, settings], cwd=folder,
                                   stdin=subprocess.DEVNULL, stdout=subprocess.DEVNULL, stderr=subprocess.DEVNULL)
        try:
            if not until(lambda: (folder / "control").exists() or process.poll() is not None):
                checks.expect(False, f"not ready: {closed}")
                continue
            with Client(address) as client:
                checks.equal(client.ask("zone example.com. 1\na A 192.0.2.1"), ["ok zone 1 0 0 1"], closed)
                checks.equal(client.ask("drop example.com."), ["ok drop 1"], closed)
                checks.equal(client.ask("find sip:192.0.2.1:1"), ["target 1 udp 192.0.2.1 1", "ok find 1"], closed)
            for number in range(3):
                is_open = os.path.exists(f"/proc/{process.pid}/fd/{number}")
                checks.expect(is_open and os.readlink(f"/proc/{process.pid}/fd/{number}") == "/dev/null",
                              f"{number} is another file: {closed}")
        finally:
            process.send_signal(signal.SIGKILL)
            process.wait()
        (folder / "control").unlink(missing_ok=True)
        texts = [it.read_bytes() for it in folder.iterdir() if it.is_file()]
        checks.expect(not any(word in text for text in texts for word in (b"ready ", b"event=")), (closed, texts))
        ran = subprocess.run([PROGRAM, "check-state", str(state)], capture_output=True, text=True, timeout=PATIENCE,
                             check=False)
        checks.expect(ran.returncode == 0 and ran.stdout.endswith("ok state\n"), (closed, ran))
