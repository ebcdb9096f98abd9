"""The pages: an overview, and why a URI has its targets. They are asked for by GET, change nothing, and have no script.

All that comes from without is escaped: by the templates, and in pictures by `picture.label`.
"""

from __future__ import annotations

import re
import runpy
import time
import types
from typing import Any, NamedTuple, Optional

import flask
import werkzeug.exceptions
import werkzeug.serving
import zone_text
from markupsafe import Markup
from zone_text import plain, siploc

from . import picture, plot
from .daemon import Control, Fault, Held, Overview, Sampler
from .records import Records, fits

explain = types.SimpleNamespace(**runpy.run_path(str(zone_text.TOP / "tools/explain")))
# The longest URI that is asked for, and how many zones and holds a page lists.
LONGEST, LISTED = 2_000, 200
# How many seeds there are.
SEEDS = 1 << 64
HEADERS = {
    "Content-Security-Policy": "default-src 'none'; style-src 'self'; form-action 'self'; base-uri 'none'; "
                               "frame-ancestors 'none'",
    "X-Content-Type-Options": "nosniff", "Referrer-Policy": "no-referrer", "Cache-Control": "no-store"}
NAMES = ("127.0.0.1", "localhost", "[::1]")
# The tiles of the overview: what of `stats` they show, and how it is called.
TILES = [("records", "records"), ("held", "held endpoints"), ("clients", "clients"), ("kept", "kept answers"),
         ("waiting", "pages waiting"), ("queued", "repairs queued")]

# What the columns of a picture are, by the kind of record.
KEYS = {"NAPTR": "NAPTR: order, preference, services, replacement.",
        "SRV": "SRV: priority, weight, server, and how often it is the first of its priority."}


class Site(NamedTuple):
    """What the pages are about."""
    address: str
    control: Control
    sampler: Sampler
    records: Records


class Found(NamedTuple):
    """The result of a URI."""
    told: Any
    held: list[Held]
    state: Optional[Any]
    note: str


class Quiet(werkzeug.serving.WSGIRequestHandler):
    """Requests are not logged, and one that does not come within ten seconds ends its connection."""

    timeout = 10

    def log(self, *_: Any) -> None:
        pass


def server(site: Site, port: int) -> werkzeug.serving.BaseWSGIServer:
    return werkzeug.serving.make_server("127.0.0.1", port, made_app(site), threaded=True, request_handler=Quiet)


def made_app(site: Site) -> flask.Flask:
    app = flask.Flask("look", root_path=str(zone_text.TOP / "tools/look_page"), static_url_path="/static")
    app.jinja_env.filters.update(count=lambda it: f"{it:,}", octets=print_octets, seconds=print_seconds,
                                 clock=print_clock)

    @app.before_request
    def is_for_this_machine() -> None:
        # (a page of another site whose name leads here is not served)
        if re.sub(r":[0-9]+$", "", flask.request.host) not in NAMES:
            flask.abort(403, "this page is for its own machine: ask 127.0.0.1")

    @app.after_request
    def with_headers(reply: flask.Response) -> flask.Response:
        reply.headers.update(HEADERS)
        return reply

    @app.get("/")
    def overview() -> str:
        seen = site.control.overview()
        return flask.render_template(
            "overview.html", site=site, seen=seen, tiles=TILES, listed=LISTED, curves=plot.CURVES,
            plot=plot.plot(site.sampler.rates(), time.monotonic()), answers=answers(seen))

    @app.get("/why")
    def why() -> Any:
        return asked(site, flask.request.args.get("uri", "").strip(), flask.request.args.get("seed", ""))

    @app.errorhandler(Fault)
    def is_away(fault: Fault) -> Any:
        return flask.render_template("fault.html", site=site, title="The daemon is away", text=str(fault), is_away=True), 503

    @app.errorhandler(werkzeug.exceptions.HTTPException)
    def is_none(fault: Any) -> Any:
        return flask.render_template("fault.html", site=site, title=fault.name, text=fault.description), fault.code

    return app


def answers(seen: Overview) -> list[tuple[str, int]]:
    """How often the answers had targets, and each reason that there were none."""
    return [("with targets", seen.stats["targets"]),
            *((name, seen.stats[name]) for name in explain.REASONS)]


def asked(site: Site, uri: str, seed: str) -> Any:
    """The page of a URI."""
    if not uri:
        return flask.render_template("why.html", site=site, uri="")
    if len(uri) > LONGEST or any(it.isspace() for it in uri) or not uri.isascii() or not uri.isprintable():
        text = f"A URI here has at most {LONGEST:,} octets, all of them printable ASCII, and no blank."
        return flask.render_template("why.html", site=site, uri=uri[:LONGEST], refused=("not asked", text)), 400
    if seed and not (re.fullmatch("[0-9]{1,20}", seed) and int(seed) < SEEDS):
        flask.abort(400, "a seed is a number below 2^64")
    try:
        found = ask(site, uri, int(seed) if seed else None)
    except siploc.Refused as fault:
        return flask.render_template("why.html", site=site, uri=uri, refused=(fault.code, fault.meaning)), 400
    except siploc.Error as fault:
        raise Fault(f"no session at {site.address}: {fault}") from None
    story = explain.Story(found.state, found.told, uri.lower().startswith("sips:"))
    try:
        images, gap = [*map(Markup, picture.draw(picture.Route(uri, found.state, story, found.held)))], ""
    except Fault as fault:
        images, gap = [], str(fault)
    return flask.render_template(
        "why.html", site=site, uri=uri, seed=seed, next=(int(seed or 0) + 1) % SEEDS, found=found, images=images, gap=gap,
        targets=[(it, left(found.held, it), story.sets_of(it) if found.state else []) for it in found.told.targets],
        keys=[KEYS[kind] for kind in KEYS if found.state and any(it[1] == kind and it[2] for it in found.told.reads)],
        reason=explain.REASONS.get(found.told.reason, ""), lines=list(story.lines()) if found.state else [],
        reads=[(plain.print_name(name), kind, count) for name, kind, count in found.told.reads])


def ask(site: Site, uri: str, seed: Optional[int]) -> Found:
    """Asks the daemon, and reads the records that its reply rests on."""
    with siploc.connect(site.address, 10) as session:
        answer, reads = session.find(uri, seed=seed), session.deps(uri)
    told = explain.Told([[it.transport, it.address, str(it.port)] for it in answer.targets], answer.reason,
                        [(plain.read_name(it.name.encode()), it.kind, it.records) for it in reads])
    held, note = site.control.held(), ""
    try:
        state = site.records.state()
        if state is None:
            note = "The records themselves are shown where this page is started with --settings that have a state."
        elif not fits(state, told.reads):
            state, note = None, "The state's files and the daemon differ just now, so that records are not shown."
    except Fault as fault:
        state, note = None, str(fault)
    return Found(told, held, state, note)


def left(held: list[Held], target: list[str]) -> Optional[int]:
    return next((it.left for it in held if [it.transport, it.address, str(it.port)] == target), None)


def print_octets(count: int) -> str:
    return f"{count / (1 << 20):,.0f} MiB"


def print_seconds(ms: int) -> str:
    seconds = ms / 1000
    if seconds < 60:
        return f"{seconds:.1f} s"
    minutes, rest = divmod(int(seconds), 60)
    return f"{minutes} min {rest:02} s" if minutes < 60 else f"{minutes // 60:,} h {minutes % 60:02} min"


def print_clock(ms: int) -> str:
    """When so many milliseconds are over; with the day where that is not within one."""
    form = "%H:%M:%S" if ms < 43_200_000 else "%Y-%m-%d %H:%M"
    try:
        return time.strftime(form, time.localtime(time.time() + ms / 1000))
    except (ValueError, OverflowError, OSError):
        return "beyond the calendar"
