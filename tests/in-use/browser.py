"""A headless Chromium for parts of tests/in-use/run, by its driver's WebDriver lines."""

from __future__ import annotations

import base64
import json
import re
import subprocess
import urllib.request
from pathlib import Path
from typing import Any, Optional

ARGUMENTS = ["--headless=new", "--no-sandbox", "--disable-gpu", "--disable-dev-shm-usage", "--hide-scrollbars"]


class Browser:
    """A browser as wide as a desktop's window, or as a phone."""

    def __init__(self, folder: Path, width: int, height: int) -> None:
        with (folder / "driver.log").open("ab") as log:
            self.process = subprocess.Popen(["chromedriver", "--port=0"], stdin=subprocess.DEVNULL,
                                            stdout=subprocess.PIPE, stderr=log, text=True)
        assert self.process.stdout is not None
        port: Optional[re.Match[str]] = None
        while not port:
            line = self.process.stdout.readline()
            if not line:
                raise OSError("chromedriver does not start")
            port = re.search(r"successfully on port ([0-9]+)", line)
        self.at = f"http://127.0.0.1:{port[1]}/session"
        metrics = {"width": width, "height": height, "pixelRatio": 1}
        options = {"args": [*ARGUMENTS, f"--user-data-dir={folder}/profile"],
                   "mobileEmulation": {"deviceMetrics": metrics}}
        wanted = {"capabilities": {"alwaysMatch": {"browserName": "chrome", "goog:chromeOptions": options,
                                                   "unhandledPromptBehavior": "ignore"}}}
        self.at += "/" + self.send("", wanted)["sessionId"]

    def __enter__(self) -> Browser:
        return self

    def __exit__(self, *_: object) -> None:
        try:
            urllib.request.urlopen(urllib.request.Request(self.at, method="DELETE"), timeout=20).close()
        finally:
            self.process.terminate()
            self.process.wait(20)

    def send(self, path: str, words: dict[str, Any]) -> Any:
        ask = urllib.request.Request(self.at + path, json.dumps(words).encode(), {"Content-Type": "application/json"})
        with urllib.request.urlopen(ask, timeout=60) as reply:
            return json.load(reply)["value"]

    def open(self, url: str) -> None:
        self.send("/url", {"url": url})

    def value(self, script: str) -> Any:
        """What an expression of the page is."""
        return self.send("/execute/sync", {"script": f"return {script}", "args": []})

    def picture(self, path: Path, is_whole: bool = True) -> None:
        """The whole page, or what the window shows of it, as a PNG."""
        whole = self.send("/goog/cdp/execute", {"cmd": "Page.captureScreenshot",
                                                "params": {"captureBeyondViewport": is_whole}})
        path.write_bytes(base64.b64decode(whole["data"]))
