"""What a Redis must be for a stream of changes, which tools/publish and tools/apply tell at their start."""

from __future__ import annotations

import contextlib
import sys
from typing import Dict, List

import changelog


def tell(tool: str, stream: changelog.Stream) -> None:
    """Says on standard error what this Redis may lose. Raises `Fault` where it can't have a stream."""
    try:
        found = [f"Redis at {stream.address} {it}" for it in doubts(facts_of(stream))]
    except changelog.Fault as fault:
        # (a user of Redis need not have the right to ask, nor a Redis the command)
        if not any(it in str(fault) for it in ("NOPERM", "unknown command")):
            raise
        found = [f"{fault}: what it may lose is not known"]
    for it in found:
        print(f"{tool}: {it}", file=sys.stderr, flush=True)


def facts_of(stream: changelog.Stream) -> Dict[str, str]:
    """What `INFO` says."""
    facts: Dict[str, str] = {}
    for line in changelog.bytes_of(stream.ask([[b"INFO"]])[0]).decode("utf-8", "replace").split("\r\n"):
        name, _, value = line.partition(":")
        facts[name] = value
    if facts.get("redis_mode") == "sentinel":
        raise changelog.Fault(f"{stream.address} is a Sentinel, which has no streams: name the master")
    with contextlib.suppress(ValueError):
        if int(facts.get("redis_version", "").partition(".")[0]) < 7:
            raise changelog.Fault(f"Redis at {stream.address} has the version {facts['redis_version']}: "
                                  "it needs Redis 7")
    return facts


def doubts(facts: Dict[str, str]) -> List[str]:
    """What a Redis with these facts may lose."""
    found = []
    policy = facts.get("maxmemory_policy", "noeviction")
    if policy != "noeviction" and facts.get("maxmemory") != "0":
        found.append("evicts what it was given when its memory is full: its maxmemory-policy is "
                     f"{policy}, and not noeviction")
    if facts.get("aof_enabled") == "0":
        found.append("loses what came after its last save where it ends: its appendonly is no")
    if facts.get("role") == "slave":
        found.append("is a replica: it takes no changes, and has others late, or not while its master is away")
    return found
