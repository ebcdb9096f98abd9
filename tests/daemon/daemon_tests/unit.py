"""The unit of systemd and its settings, as examples/ has them: who may connect where."""

from __future__ import annotations

import configparser
import os
import pathlib
import re
import shlex
import socket
import subprocess
import time

from daemon_tests.support import PATIENCE, PROGRAM, TOP, Checks, started, stopped, test, until

# Users and groups that nobody has: of the daemon, of the proxy, of another program; the group that the unit names.
DAEMON, PROXY, OTHER, NAMED = 64_101, 64_102, 64_103, 64_104


def may_connect(path: pathlib.Path, user: int, groups: list[int]) -> bool:
    """Whether a process of a user, whose own group has the user's number, can connect to a socket."""
    child = os.fork()
    if child == 0:
        try:
            os.setgroups(groups)
            os.setgid(user)
            os.setuid(user)
            socket.socket(socket.AF_UNIX).connect(str(path))
        except BaseException:
            os._exit(1)
        os._exit(0)
    return os.waitpid(child, 0)[1] == 0


def read_unit() -> configparser.ConfigParser:
    """The unit, whose words have the control address in place of its variable."""
    text = (TOP / "examples/siplocd.service").read_text()
    control = re.search(r"^Environment=CONTROL=(.*)$", text, re.M)
    unit = configparser.ConfigParser(interpolation=None, strict=False)
    unit.read_string(re.sub(r"\$\{?CONTROL\b\}?", control[1] if control else "", text))
    return unit


@test
def the_unit_starts_it_again_for_as_long_as_it_takes(checks: Checks, _folder: pathlib.Path) -> None:
    """By default systemd gives up after five starts within ten seconds, as when a disk is full for a minute."""
    unit = read_unit()
    checks.equal(unit["Service"].get("Restart"), "on-failure", "what is started again")
    # (systemd.service(5) takes an end by these for success, as a service that handles them ends)
    checks.equal({*unit["Service"].get("RestartForceExitStatus", "").split()}, {"SIGHUP", "SIGINT", "SIGTERM"},
                 "the signals after which it is started again")
    checks.equal(unit["Unit"].get("StartLimitIntervalSec"), "0", "the limit of starts")
    checks.expect(int(unit["Service"].get("RestartSec", "0")) >= 1, "it is started again at once, and again")


def unit_stop(unit: configparser.ConfigParser) -> list[str]:
    """The words of the unit's ExecStop, without the `-` that has systemd pass over its failure."""
    return unit["Service"]["ExecStop"].removeprefix("-").split(" ")


@test
def a_stop_by_hand_is_no_failure_of_the_unit(checks: Checks, folder: pathlib.Path) -> None:
    """Where the process has ended by itself with status 0, systemd runs ExecStop all the same: if that failed, the unit
    would have failed, and be started again."""
    unit = read_unit()
    with started(checks, folder) as daemon:
        stopped(checks, daemon)
    words = [PROGRAM, *unit_stop(unit)[1:]]
    words[words.index("tell") + 1] = daemon.control
    ran = subprocess.run(words, capture_output=True, timeout=PATIENCE, check=False)
    checks.expect(ran.returncode == 0 or unit["Service"]["ExecStop"].startswith("-"),
                  f"the unit's stop once more: status {ran.returncode}, {ran.stderr!r}")


def unit_wait(unit: configparser.ConfigParser, address: str, of: int) -> subprocess.Popen[bytes]:
    """The unit's wait for a process at a control address."""
    words = unit["Service"].get("ExecStartPost", "/bin/false").removeprefix("-")
    words = words.replace("unix:/var/lib/siplocd/control.sock", address).replace("/usr/local/bin/siplocd", PROGRAM)
    return subprocess.Popen(shlex.split(words), env={**os.environ, "MAINPID": str(of)}, stderr=subprocess.DEVNULL)


@test
def the_unit_has_started_when_it_answers(checks: Checks, folder: pathlib.Path) -> None:
    """What is ordered after the unit finds it answering. A start that has failed is waited for no longer, and one that
    takes too long is none that has failed."""
    unit, address = read_unit(), f"unix:{folder}/control"
    bound = int((re.search(r"timeout ([0-9]+) ", unit["Service"].get("ExecStartPost", "")) or "00")[1])
    checks.expect(0 < bound < int(unit["Service"].get("TimeoutStartSec", "0")),
                  "the wait has no end before that of systemd, which ends the daemon")
    checks.expect(unit["Service"].get("ExecStartPost", "").startswith("-"), "a wait that fails ends the daemon")
    checks.equal(unit["Service"].get("Type"), "exec", "when its wait begins: a process of root's is taken for none")
    early = unit_wait(unit, address, os.getpid())
    time.sleep(1)
    checks.equal(early.poll(), None, "its wait, before the daemon was there")
    with started(checks, folder) as daemon:
        checks.equal(early.wait(PATIENCE), 0, "its wait, with a daemon that answers")
        stopped(checks, daemon)
    late = unit_wait(unit, address, daemon.process.pid)
    checks.expect(until(lambda: late.poll() is not None), "it waits for a daemon that has ended")
    late.kill()
    late.wait()


@test
def the_unit_lets_the_proxy_in(checks: Checks, folder: pathlib.Path) -> None:
    unit = read_unit()
    # A group that is made at the start can have no members.
    group = NAMED if unit["Service"].get("Group") else DAEMON
    checks.expect(group == NAMED, "the unit names no group that a proxy could join")
    if os.geteuid():
        return
    folder.chmod(0o711)
    run, state = folder / "run", folder / "state"
    for path, mode in ((run, 0o755), (state, 0o700)):
        path.mkdir(mode)
        os.chown(path, DAEMON, group)
    text = (TOP / "examples/siplocd.toml").read_text().replace("127.0.0.1:5099", "127.0.0.1:0")
    text = text.replace("/run/siplocd/", f"{run}/").replace("/var/lib/siplocd/", f"{state}/")
    stop = [it.replace("/run/siplocd/", f"{run}/").replace("/var/lib/siplocd/", f"{state}/") for it in unit_stop(unit)]
    process = subprocess.Popen([PROGRAM, text], user=DAEMON, group=group, extra_groups=[], stdout=subprocess.DEVNULL,
                               cwd="/")
    try:
        lines, control = run / "lines.sock", pathlib.Path(stop[2].removeprefix("unix:"))
        checks.expect(until(lambda: lines.exists() and control.exists()),
                      f"it does not listen at {lines} and {control}")
        members = [group] if group == NAMED else []
        checks.expect(may_connect(lines, PROXY, members), "the proxy can't connect")
        checks.expect(not may_connect(lines, OTHER, []), "another program can connect")
        checks.expect(not may_connect(control, PROXY, members), "the proxy can connect to the control address")
        words = [PROGRAM, *stop[1:]]
        checks.equal(subprocess.run(words, user=DAEMON, group=group, extra_groups=[], stdout=subprocess.PIPE, text=True,
                                    timeout=PATIENCE, check=False).stdout, "ok stop\n", "the unit's stop")
        checks.equal(process.wait(PATIENCE), 0, "its status")
    finally:
        process.kill()
        process.wait()


@test
def a_restore_is_the_daemons(checks: Checks, folder: pathlib.Path) -> None:
    """What root has put back, also where root has started a daemon over it by hand, is the daemon's by the words of
    docs/use/OPERATING.md."""
    named = re.search(r"`chown siplocd: ([^`]*)`", (TOP / "docs/use/OPERATING.md").read_text())
    if os.geteuid():
        return
    folder.chmod(0o711)
    state = folder / "lib/state"
    state.parent.mkdir()
    with started(checks, folder, f'state = "{state}"') as daemon:
        stopped(checks, daemon)
    os.chown(state.parent, DAEMON, DAEMON)
    for pattern in named[1].split(" ") if named else ():
        for file in state.parent.glob(pattern.replace("FILE", "state")):
            os.chown(file, DAEMON, DAEMON)
    process = subprocess.Popen([PROGRAM, f'listen = ["127.0.0.1:0"]\nstate = "{state}"\nstdin = "stop"'], user=DAEMON,
                               group=DAEMON, extra_groups=[], stdin=subprocess.PIPE, stdout=subprocess.PIPE,
                               stderr=subprocess.PIPE, cwd="/")
    out, errors = process.communicate(timeout=PATIENCE)
    checks.expect(process.returncode == 0 and out.endswith(b"closed 0\n"), f"{process.returncode}, {errors!r}")
