"""Settings from a file, and what is said of wrong ones and of wrong arguments."""

from __future__ import annotations

import pathlib
import re
import subprocess

from daemon_tests.support import PATIENCE, PROGRAM, TOP, Checks, Client, started, stopped, test


def run(*words: str, folder: pathlib.Path) -> tuple[int, str, str]:
    """The status of the program with these words, and what it prints on standard output and error."""
    ran = subprocess.run([PROGRAM, *words], cwd=folder, capture_output=True, text=True, timeout=PATIENCE, check=False)
    return ran.returncode, ran.stdout, ran.stderr


@test
def reads_its_settings_from_a_file(checks: Checks, folder: pathlib.Path) -> None:
    path = folder / "siplocd.toml"
    with started(checks, folder, 'clock = "lines"\nclients = 3\n', file=path) as daemon:
        with Client(daemon.address) as client:
            checks.equal(client.ask("clock 5"), ["ok clock 5"], "the setting `clock`")
        stopped(checks, daemon, 1)
    for words in (["check", f"--config={path}"], ["check", "--config", path.name]):
        checks.equal(run(*words, folder=folder), (0, "ok\n", ""), words)
    checks.equal(run("check", "--config", str(TOP / "examples/siplocd.toml"), folder=folder), (0, "ok\n", ""),
                 "the example")
    (folder / "empty").write_text("")
    checks.equal(run("check", "--config", "empty", folder=folder), (0, "ok\n", ""), "no settings")


@test
def says_what_is_wrong_in_a_file(checks: Checks, folder: pathlib.Path) -> None:
    path = folder / "wrong.toml"
    for text, place, word in [
        ("# one\n\nlisten = []\n", "3: listen: G3: ", "not empty"),
        ('listen = [\n  "127.0.0.1:1",\n]\nclients = 0', "4: clients: G3: ", "1 to 65536"),
        ('listen = ["127.0.0.1:1"]\nfind = [\n  "127.0.0.1:2",\n  "192.0.2.1:3",\n]\nidle = 1\n', "2: find: G3: ",
         "addresses"),
        ('state = """\nidle = 0\n"""\nidle = 0\n', "4: idle: G3: ", "1 to 86400"),
        ('"idle" = 0\n', "1: idle: G3: ", "1 to 86400"),
        ('clients = 1\n\n[control]\nat = "unix:c"\nmode = 512\n', "3: control: G3: ", "address"),
        ('log = "loud"\n', "1: log: G3: ", '"debug"'),
        ('metrics = "192.0.2.1:9464"\n', "1: metrics: G3: ", "127.0.0.1:9464"),
        # (it says where it may listen, and not that this is no address)
        ('listen = ["0.0.0.0:5099"]\n', "1: listen: G3: ", "of the loopback or Unix sockets"),
        ('find = ["192.0.2.1:5097"]\n', "1: find: G3: ", "of the loopback or Unix sockets"),
        ('control = "[::]:5098"\n', "1: control: G3: ", "of the loopback or a Unix socket"),
        ('metrics = "0.0.0.0:9464"\n', "1: metrics: G3: ", "of the loopback or a Unix socket"),
        ("mode = 512\n", "1: mode: G3: ", "0 to 511, as 0o660"),
        ('\r\ntransports = ["udp", "udp"]\r\n', "2: transports: G3: ", "none twice"),
        ("idle = 1\nunknown = 1\n", "2: unknown: G2: ", "zone_octets"),
        ("sessions = 1\n", "1: sessions: G2: ", "no such key"),
        ("a.b = 1\n", "1: a: G2: ", "no such key"),
        ("idle = 1\nidle = 2\n", "2: G1: ", ""),
        ("idle = 1\nmode =\n", "2: G1: ", ""),
        ("\n\n\n= 1", "4: G1: ", ""),
    ]:
        path.write_bytes(text.encode())
        for words in (["check", "--config", str(path)], ["--config", str(path)]):
            status, printed, said = run(*words, folder=folder)
            checks.expect(status == 1 and not printed and said.startswith(f"{path}:{place}") and said.count("\n") == 1
                          and word in said and len(said) > len(f"{path}:{place}") + 1,
                          (text, words, status, printed, said))
    # Each key that the documents have is one of those that are named.
    path.write_text("unknown = 1\n")
    named = set(re.findall(r"[a-z_]+",
                           run("check", "--config", str(path), folder=folder)[2].partition("there are ")[2]))
    tables = re.findall(r"<!-- table settings .*?<!-- end -->", (TOP / "docs/use/FORMATS.md").read_text(), re.S)
    told = {key for table in tables for key in re.findall(r"^\| `([a-z_]+)` \|", table, re.M)} - {"sessions"}
    checks.expect(len(told) > 15 and told <= named, f"keys that are not named: {told - named}")
    path.write_bytes(b"state = \"\xff\"\n")
    for words in (["check", "--config", str(path)], ["check", "--config", f"{folder}/none"], ["--config", str(folder)]):
        status, printed, said = run(*words, folder=folder)
        checks.expect(status == 1 and not printed
                      and re.fullmatch(rf"siplocd: settings {re.escape(words[-1])}: .+\n", said),
                      (words, status, printed, said))


def numbers_of_the_document() -> list[tuple[str, int, int]]:
    """The settings of the daemon that are numbers, each with the least and the greatest, as the document has them."""
    tables = re.findall(r"<!-- table settings .*?<!-- end -->", (TOP / "docs/use/FORMATS.md").read_text(), re.S)
    rows = re.findall(r"^\| `([a-z_]+)` \| ([0-9]+) to (2\^40|[0-9,]+)", "\n".join(tables), re.M)
    return [(key, int(least), 1 << 40 if most == "2^40" else int(most.replace(",", "")))
            for key, least, most in rows if key != "sessions"]


@test
def allows_the_numbers_that_the_document_has(checks: Checks, folder: pathlib.Path) -> None:
    path, numbers = folder / "siplocd.toml", numbers_of_the_document()
    checks.expect(len(numbers) > 10, f"settings that are numbers: {numbers}")
    for place in 1, 2:
        path.write_text("".join(f"{it[0]} = {it[place]}\n" for it in numbers))
        checks.equal(run("check", "--config", str(path), folder=folder), (0, "ok\n", ""), path.read_text())
    for key, least, most in numbers:
        for value in least - 1, most + 1:
            path.write_text(f"{key} = {value}\n")
            status, printed, said = run("check", "--config", str(path), folder=folder)
            allowed = f"{path}:1: {key}: G3: {least} to {most}"
            checks.expect(status == 1 and not printed and said.startswith(allowed), (key, value, status, printed, said))


@test
def names_the_first_setting_that_is_wrong(checks: Checks, folder: pathlib.Path) -> None:
    """Of its own settings first, by their keys, and then of those that it has from `siploc`, among which are others."""
    path = folder / "siplocd.toml"
    for text, place in [
        ("archive = 1\naaa = 1\n", "1: archive: G3: "), ("zone_octets = -1\nstate = 1\n", "2: state: G3: "),
        ("entries = -1\nlisten = []\n", "2: listen: G3: "), ("workers = 65\naaa = 1\n", "2: aaa: G2: "),
        ("zzz = 1\nworkers = 65\n", "2: workers: G3: "),
    ]:
        path.write_text(text)
        status, _, said = run("check", "--config", str(path), folder=folder)
        checks.expect(status == 1 and said.startswith(f"{path}:{place}"), (text, status, said))


@test
def names_what_is_wrong_in_its_arguments(checks: Checks, folder: pathlib.Path) -> None:
    for words, word in [
        (["--unknown"], "--unknown"), (["", "more"], "more"), (["tell"], "ADDRESS"), (["tell", "unix:c"], "LINE"),
        (["tell", "a", "b", "c"], "'c'"), (["replay"], "FOLDER"), (["check"], "--config"), (["--config"], "--config"),
        (["--config", "a", "--config", "b"], "--config"), (["--config", "a", ""], "--config"),
        (["check", "--config"], "--config"),
        (["check", "--config", "a", "b"], "'b'"), (["replay", "a", "--config", "b"], "--config"),
    ]:
        status, printed, said = run(*words, folder=folder)
        checks.expect(status == 2 and not printed and word in said and "Usage: siplocd" in said,
                      (words, status, printed, said))
    ran = subprocess.run([PROGRAM.encode(), b"\xff"], cwd=folder, capture_output=True, timeout=PATIENCE, check=False)
    checks.expect(ran.returncode == 2 and not ran.stdout and b"UTF-8" in ran.stderr and b"Usage: siplocd" in ran.stderr,
                  ran)
    for words, word in ([], "--config"), (["check"], "--config"), (["tell"], "LINE"), (["replay"], "FOLDER"):
        for option in "--help", "-h":
            status, printed, said = run(*words, option, folder=folder)
            checks.expect(status == 0 and "Usage: siplocd" in printed and word in printed and not said,
                          (words, printed, said))
    status, printed, said = run("--version", folder=folder)
    checks.expect(status == 0 and re.fullmatch(r"siplocd \d+\.\d+(\+\w+)*\n", printed) and not said,
                  (status, printed, said))
