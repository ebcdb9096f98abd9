"""Its start: arguments, settings, and where it listens."""

from __future__ import annotations

import ctypes
import os
import pathlib
import re
import select
import socket
import stat
import struct
import subprocess

import siploc
from commits import log_of, state_of
from daemon_tests.support import (
    PATIENCE,
    PROGRAM,
    TOP,
    Checks,
    Client,
    Daemon,
    ended_start,
    polled,
    started,
    stopped,
    test,
    until,
)
from started import free_ports


def first_session() -> list[tuple[str, list[str]]]:
    """The README's session: each line, or load, with its reply."""
    turns: list[tuple[str, list[str]]] = []
    for line in (TOP / "examples/first.txt").read_text().splitlines():
        if line.startswith("> "):
            if turns and not turns[-1][1]:
                turns[-1] = (f"{turns[-1][0]}\n{line[2:]}", [])
            else:
                turns.append((line[2:], []))
        elif line[:1] not in ("#", "$", ""):
            turns[-1][1].append(line)
    return turns


@test
def serves_the_session_of_the_readme(checks: Checks, folder: pathlib.Path) -> None:
    unix = f"unix:{folder}/s"
    # (moves of the host's clock would be events, too)
    with started(checks, folder, 'clock = "lines"', unix=unix) as daemon:
        for address in daemon.addresses[:-1]:
            with Client(address) as client:
                for line, wanted in first_session():
                    checks.equal(client.ask(line), wanted, (address, line))
                checks.equal(client.ask("release tcp 192.0.2.2 5060"), ["ok release"], address)
                checks.equal(client.ask("drop example.com."), ["ok drop 3"], address)
                checks.equal(client.ask("quit"), ["ok quit"], address)
                checks.expect(client.is_ended(), address)
        with siploc.connect(unix) as session:
            session.load("example.com.", "server1 A 192.0.2.1")
            found = [tuple(it) for it in session.find("sip:server1.example.com:5070")]
            checks.equal(found, [("udp", "192.0.2.1", 5070)], "the Python client")
        # Each session: a load, two questions, a hold, a release and a drop; and those of the Python client.
        stopped(checks, daemon, 3 * 6 + 2)
    checks.equal(sorted(it.name for it in folder.iterdir() if it.is_socket()), [], "sockets that are left")


@test
def prints_where_it_listens(checks: Checks, folder: pathlib.Path) -> None:
    listen, control = ["127.0.0.1:0", f"unix:{folder}/s", "[::1]:0", "127.0.0.1:0"], "127.0.0.1:0"
    with started(checks, folder, listen=listen, control=control) as daemon:
        checks.equal(len({*daemon.addresses}), 5, f"addresses, {daemon.lines}")
        for address in daemon.addresses[:-1]:
            with Client(address) as client:
                checks.equal(client.ask("find sip:192.0.2.1:9"), ["target 1 udp 192.0.2.1 9", "ok find 1"], address)
        # Control lines over TCP.
        checks.expect(re.fullmatch(r"ok now \d+", daemon.tell("now")[-1]), daemon.tell("now"))
        names = "events targets NoAddress NotAvailable NoTransport AllHeld kept current queued records held clients " \
                "pages waiting resident"
        checks.equal(" ".join(daemon.stats()), names, "stats")
        checks.equal([daemon.stats().get(it) for it in ("events", "pages", "waiting")], [4, 0, 0], "events and pages")
        checks.equal(daemon.tell("page"), ["ok page 0 4"], "page")
        checks.expect(until(lambda: daemon.stats()["pages"] == 1), daemon.stats())
        checks.equal(daemon.stats()["waiting"], 0, "waiting")
        ran = subprocess.run([PROGRAM, "tell", daemon.control, "zones"], capture_output=True, text=True, check=False,
                             timeout=PATIENCE)
        checks.equal((ran.returncode, ran.stdout, ran.stderr), (0, "ok zones 0\n", ""), "tell")
        stopped(checks, daemon, 4)


@test
def prints_help_version_and_usage(checks: Checks, folder: pathlib.Path) -> None:
    for words, status in (["--help"], 0), (["--version"], 0), (["--unknown", "x"], 2), (["a", "b", "c"], 2), (["tell"],
                                                                                                              2):
        ran = subprocess.run([PROGRAM, *words], cwd=folder, capture_output=True, text=True, timeout=PATIENCE,
                             check=False)
        checks.equal(ran.returncode, status, words)
        text, other = (ran.stdout, ran.stderr) if status == 0 else (ran.stderr, ran.stdout)
        checks.expect("siplocd" in text and not other, (words, ran.stdout, ran.stderr))


@test
def refuses_wrong_settings(checks: Checks, folder: pathlib.Path) -> None:
    with socket.create_server(("127.0.0.1", 0)) as listener:
        taken = listener.getsockname()[1]
        for settings, cause in [
            ("clients = 0", "clients"), ("clock = 1", "clock"), ('clock = "sun"', "clock"),
            ("sessions = 1", "sessions"),
            ("unknown = 1", "unknown"), ("mode = 512", "mode"), ("listen = []", "listen"), ("idle = 0", "idle"),
            ("find = 1", "find"),
            ('listen = ["192.0.2.1:5099"]', "listen"), (f'listen = ["unix:{"x" * 108}"]', "listen"), ("= 1", "G1"),
            (f'listen = ["127.0.0.1:{taken}"]', f"127.0.0.1:{taken}"),
            (f'find = ["127.0.0.1:{taken}"]', f"127.0.0.1:{taken}"),
            ('listen = [{ at = "127.0.0.1:0", mode = 384 }]', "listen"),
            (f'find = [{{ at = "unix:{folder}/f" }}]', "find"),
            (f'control = {{ at = "unix:{folder}/c", mode = 512 }}', "control"), ("find = [{ mode = 384 }]", "find"),
            (f'control = {{ at = "unix:{folder}/c", mode = 384, x = 1 }}', "control"),
            ('find = ["example.com:1"]', "find"),
            (f'listen = ["unix:{folder}/none/s"]', f"{folder}/none/s"),
            ('state = ""', "state"), (f'state = "{folder}/none/state"', f"{folder}/none/state"),
            ("zone_octets = -1", "zone_octets"),
        ]:
            status, said = ended_start(folder, settings)
            checks.expect(status == 1 and said.startswith("siplocd:") and said.count("\n") == 1 and cause in said,
                          (settings, status, said))


@test
def its_sockets_are_its_own(checks: Checks, folder: pathlib.Path) -> None:
    unix = f"unix:{folder}/s"
    path = folder / "s"
    with started(checks, folder, unix=unix) as daemon:
        checks.equal(oct(stat.S_IMODE(path.stat().st_mode)), "0o600", "mode")
        other = folder / "other"
        other.mkdir()
        # (with a state all addresses are tried before it is read)
        for state in "", f'state = "{other}/state"\n':
            checks.equal(ended_start(other, f'{state}listen = ["{unix}"]'),
                         (1, f"siplocd: listen {unix}: another siplocd has it\n"), f"live, {state}")
        with Client(unix) as client:
            checks.equal(client.ask("repair"), ["ok repair"], "after another start")
        daemon.kill()
    checks.expect(path.is_socket(), "the socket of a daemon that was killed")
    with started(checks, folder, "mode = 432", unix=unix) as daemon:
        checks.equal(oct(stat.S_IMODE(path.stat().st_mode)), "0o660", "mode")
        with Client(unix) as client:
            checks.equal(client.ask("repair"), ["ok repair"], "where a socket was stale")
        stopped(checks, daemon, 0)
    checks.expect(not path.exists(), "the socket is removed")
    longest = f"unix:{folder}/" + "s" * (107 - len(str(folder)) - 1)
    with started(checks, folder, unix=longest) as daemon, Client(longest) as client:
        checks.equal(client.ask("repair"), ["ok repair"], "at the longest path")
        stopped(checks, daemon, 0)
    path.write_text("a file")
    for state in "", f'state = "{folder}/state"\n':
        checks.equal(ended_start(folder, f'{state}listen = ["{unix}"]'),
                     (1, f"siplocd: listen {unix}: a file that is no socket is there\n"), f"no socket, {state}")
        checks.equal(path.read_text(), "a file", f"what was there, {state}")


@test
def each_socket_may_have_a_mode_of_its_own(checks: Checks, folder: pathlib.Path) -> None:
    paths = [folder / name for name in ("plain", "own", "ask", "control")]
    settings = f'''mode = 432
listen = ["unix:{paths[0]}", {{ at = "unix:{paths[1]}", mode = 384 }}]
find = [{{ at = "unix:{paths[2]}", mode = 438 }}]
control = {{ at = "unix:{paths[3]}", mode = 256 }}'''
    addresses = [f"unix:{path}" for path in paths]
    with started(checks, folder, settings, listen=addresses[:2], find=addresses[2:3], control=addresses[3],
                 umask=0) as daemon:
        modes = [oct(stat.S_IMODE(path.stat().st_mode)) for path in paths]
        checks.equal(modes, ["0o660", "0o600", "0o666", "0o400"], "modes")
        for address, reply in zip(addresses, (["ok repair"], ["ok repair"], ["err D3"])):
            with Client(address) as client:
                checks.equal(client.ask("repair"), reply, address)
        stopped(checks, daemon, 0)


class Watch:
    """What happens to the names in a folder from now on (inotify)."""

    KINDS = {4: "changed", 0x80: "moved here", 0x100: "made", 0x200: "removed"}

    def __init__(self, folder: pathlib.Path) -> None:
        system = ctypes.CDLL(None, use_errno=True)
        self.file = system.inotify_init1(os.O_CLOEXEC)
        if self.file < 0 or system.inotify_add_watch(self.file, os.fsencode(folder), sum(self.KINDS)) < 0:
            raise OSError(ctypes.get_errno(), "inotify")
        self.seen: list[tuple[str, str]] = []

    def __enter__(self) -> "Watch":
        return self

    def __exit__(self, *_: object) -> None:
        os.close(self.file)

    def see(self, seconds: float) -> list[tuple[str, str]]:
        """Waits until there is more, and returns what happened to which name, all from the beginning on."""
        if polled(self.file, select.POLLIN, seconds):
            octets, place = os.read(self.file, 1 << 16), 0
            while place < len(octets):
                _, kind, _, count = struct.unpack_from("iIII", octets, place)
                name = os.fsdecode(octets[place + 16:place + 16 + count].rstrip(b"\0"))
                self.seen.append((self.KINDS.get(kind & 0xFFF, str(kind)), name))
                place += 16 + count
        return self.seen


@test
def a_socket_has_its_mode_from_the_first_moment(checks: Checks, folder: pathlib.Path) -> None:
    # Without a mask of its own the system would give all permissions to it.
    for settings, mode in ("", "0o600"), ("mode = 432", "0o660"), ("", "0o600"):
        path = folder / f"s{mode}"
        with Watch(folder) as watch:
            daemon = Daemon(folder, settings, unix=f"unix:{path}", umask=0, waits=False)
            try:
                until(lambda: any(name == path.name for _, name in watch.see(0.1)) or daemon.process.poll() is not None)
                checks.equal(oct(stat.S_IMODE(path.stat().st_mode)), mode, "mode at first sight")
                checks.expect(until(daemon.is_ready), f"not ready: {daemon.lines}, {daemon.said()!r}")
                checks.equal([it for it, name in watch.see(0) if name == path.name], ["moved here"], "what happened")
                checks.equal(oct(stat.S_IMODE(path.stat().st_mode)), mode, "mode")
            finally:
                daemon.kill()
            path.unlink()


@test
def a_start_at_a_taken_address_leaves_no_page(checks: Checks, folder: pathlib.Path) -> None:
    archive, state, file = folder / "archive", folder / "state", folder / "file"
    archive.mkdir()
    state.write_bytes(state_of(b"# page 0\nzone example.com. 1\na.example.com. A 192.0.2.1\n"))
    adds = [f"add n{number}.example.com. A 192.0.2.1\n".encode() for number in range(300)]
    (folder / "state.log").write_bytes(log_of(state.read_bytes(), [b"".join(adds)]))
    file.write_text("a file")
    # (pages of fewer events than there are changes)
    settings = f'archive = "{archive}"\nstate = "{state}"\njournal = 60\nclock = "lines"\n'
    with socket.create_server(("127.0.0.1", 0)) as listener, started(checks, folder, unix=f"unix:{folder}/s") as other:
        taken, free = f"127.0.0.1:{listener.getsockname()[1]}", f"127.0.0.1:{free_ports(1)[0]}"
        live = other.addresses[2]
        for name, address in ("listen", f'["{taken}"]'), ("find", f'["{taken}"]'), ("control", f'"{taken}"'), \
                ("metrics", f'"{taken}"'), ("listen", f'["{free}", "{live}"]'), ("listen", f'["unix:{file}"]'), \
                ("listen", f'["unix:{folder}/none/s"]'), ("listen", f'["{free}", "{free}"]'), \
                ("find", f'["unix:{folder}/f", "unix:{folder}/f"]'):
            inner = folder / "inner"
            inner.mkdir(exist_ok=True)
            status, said = ended_start(inner, f"{settings}{name} = {address}")
            checks.expect(status == 1 and said.startswith("siplocd: listen ") and said.count("\n") == 1,
                          (name, address, status, said))
            checks.equal(list(archive.iterdir()), [], f"pages of a start at {name} = {address}")
        with Client(live) as client:
            checks.equal(client.ask("repair"), ["ok repair"], "the other daemon")
    checks.equal((file.read_text(), (folder / "f").exists()), ("a file", False), "what is at paths")
    with started(checks, folder, settings) as daemon:
        checks.equal(daemon.tell("zones"), ["zone example.com. 301", "ok zones 1"], "zones")
        stopped(checks, daemon, 301)
    ran = subprocess.run([PROGRAM, "replay", str(archive)], capture_output=True, text=True, timeout=PATIENCE,
                         check=False)
    checks.equal((ran.returncode, ran.stdout, ran.stderr), (0, "run 000001 301\nreplayed 301\n", ""), "replay")
