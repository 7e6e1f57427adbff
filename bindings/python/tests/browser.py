"""Headless Chromium, driven by its DevTools protocol over a pair of pipes, with the standard library alone."""

from __future__ import annotations

import base64
import json
import os
import select
import shutil
import signal
import struct
import subprocess
import tempfile
import time
import zlib
from collections.abc import Callable
from pathlib import Path
from types import TracebackType
from typing import Any, Final

from .support import PATIENCE

#: A viewport of a common laptop.
LAPTOP: Final = (1366, 768)

#: The protocol's names and key codes of the keys that the tests press.
KEYS: Final = {
    "ArrowLeft": 37,
    "ArrowUp": 38,
    "ArrowRight": 39,
    "ArrowDown": 40,
    "PageUp": 33,
    "PageDown": 34,
    "End": 35,
    "Home": 36,
    "Tab": 9,
    "Enter": 13,
}
SHIFT: Final = 8


def find_chromium() -> str | None:
    """The browser's program, if it is installed."""
    return shutil.which("chromium") or shutil.which("chromium-browser")


class Browser:
    """One page of a headless browser of its own, with a profile of its own that is deleted at the end."""

    def __init__(self, size: tuple[int, int] = LAPTOP) -> None:
        program = find_chromium()
        if program is None:
            raise FileNotFoundError("chromium is not installed (bindings/python/check installs it)")
        self._profile = tempfile.TemporaryDirectory(prefix="lock-bench-browser-", ignore_cleanup_errors=True)
        theirs_in, ours_out = os.pipe()
        ours_in, theirs_out = os.pipe()
        arguments = [
            program,
            "--headless=new",
            "--remote-debugging-pipe",
            f"--user-data-dir={self._profile.name}",
            f"--window-size={size[0]},{size[1]}",
            "--no-first-run",
            "--no-default-browser-check",
            "--disable-background-networking",
            "--disable-component-update",
            "--disable-sync",
            "--disable-gpu",
            "--hide-scrollbars",
            # The sandbox needs a user other than root, and the pages are the project's own.
            "--no-sandbox",
            "about:blank",
        ]
        # The protocol wants the pipes as descriptors 3 and 4.
        self._process = subprocess.Popen(
            ["/bin/sh", "-c", f'exec "$0" "$@" 3<&{theirs_in} 4>&{theirs_out}', *arguments],
            pass_fds=(theirs_in, theirs_out),
            stdin=subprocess.DEVNULL,
            stdout=subprocess.DEVNULL,
            stderr=subprocess.DEVNULL,
            start_new_session=True,
        )
        os.close(theirs_in)
        os.close(theirs_out)
        self._in, self._out = ours_in, ours_out
        self._read = b""
        self._number = 0
        self._session: str | None = None
        #: Every event since the last `forget`.
        self.events: list[dict[str, Any]] = []
        target = next(t for t in self.call("Target.getTargets")["targetInfos"] if t["type"] == "page")
        self._session = self.call("Target.attachToTarget", targetId=target["targetId"], flatten=True)["sessionId"]
        for domain in ("Page", "Runtime", "Log", "Network"):
            self.call(f"{domain}.enable")
        self.resize(*size)

    def __enter__(self) -> Browser:
        return self

    def __exit__(self, kind: type[BaseException] | None, error: BaseException | None, trace: TracebackType | None) -> None:
        self.close()

    def close(self) -> None:
        """Ends the browser and what it started."""
        os.close(self._out)
        os.close(self._in)
        try:
            self._process.wait(5)
        except subprocess.TimeoutExpired:
            # The browser leads a session of its own, so this ends it and its children and nothing else.
            os.killpg(self._process.pid, signal.SIGKILL)
            self._process.wait()
        self._profile.cleanup()

    def call(self, method: str, **parameters: Any) -> dict[str, Any]:
        """Calls a method of the protocol and gives its result."""
        self._number += 1
        number = self._number
        message: dict[str, Any] = {"id": number, "method": method, "params": parameters}
        if self._session is not None:
            message["sessionId"] = self._session
        rest = memoryview(json.dumps(message).encode() + b"\0")
        while rest:
            rest = rest[os.write(self._out, rest) :]
        deadline = time.monotonic() + PATIENCE
        while True:
            answer = self._next(deadline)
            if answer is None:
                raise TimeoutError(f"{method}: no answer")
            if answer.get("id") == number:
                if "error" in answer:
                    raise RuntimeError(f"{method}: {answer['error']['message']}")
                result: dict[str, Any] = answer["result"]
                return result
            self.events.append(answer)

    def _next(self, deadline: float) -> dict[str, Any] | None:
        """The next message, or None where none comes in time."""
        while b"\0" not in self._read:
            left = deadline - time.monotonic()
            if left <= 0 or not select.select([self._in], [], [], left)[0]:
                return None
            got = os.read(self._in, 1 << 20)
            if not got:
                raise RuntimeError("the browser has ended")
            self._read += got
        message, self._read = self._read.split(b"\0", 1)
        decoded: dict[str, Any] = json.loads(message)
        return decoded

    def forget(self) -> None:
        """Drops the events so far."""
        self.events.clear()

    def named(self, method: str) -> list[dict[str, Any]]:
        """The parameters of the events of this name since the last `forget`."""
        return [event["params"] for event in self.events if event.get("method") == method]

    def resize(self, wide: int, high: int) -> None:
        """Gives the page this many points."""
        self.call("Emulation.setDeviceMetricsOverride", width=wide, height=high, deviceScaleFactor=1, mobile=False)

    def media(self, kind: str = "", **features: str) -> None:
        """Has the page see this medium (`print`) and these features (`prefers_color_scheme="dark"`)."""
        named = [{"name": name.replace("_", "-"), "value": value} for name, value in features.items()]
        self.call("Emulation.setEmulatedMedia", media=kind, features=named)

    def open(self, page: Path, fragment: str = "") -> None:
        """Opens a file and waits until the page has drawn itself."""
        # The same file with another fragment would not be loaded again.
        self.call("Page.navigate", url="about:blank")
        self.call("Page.navigate", url=page.resolve().as_uri() + fragment)
        self.wait(lambda: self.value("document.readyState === 'complete' && performance.getEntriesByName('drawn').length > 0") is True, f"{page} is drawn")

    def wait(self, is_so: Callable[[], bool], what: str) -> None:
        """Waits until something is so."""
        deadline = time.monotonic() + PATIENCE
        while not is_so():
            if time.monotonic() > deadline:
                raise TimeoutError(f"in vain: {what}")
            time.sleep(0.005)

    def value(self, expression: str) -> Any:
        """The value of a script's expression in the page; a promise's, once it has one."""
        result = self.call("Runtime.evaluate", expression=expression, returnByValue=True, awaitPromise=True)
        if "exceptionDetails" in result:
            raise RuntimeError(f"{expression}: {result['exceptionDetails']}")
        return result["result"].get("value")

    def settle(self) -> None:
        """Waits until what was asked for is drawn."""
        drawn = "new Promise((done) => requestAnimationFrame(() => requestAnimationFrame(done)))"
        try:
            self.value(drawn)
        except RuntimeError as error:
            if "navigated" not in str(error):
                raise
            self.value(drawn)  # What was clicked led to another page, which is drawn too.

    def press(self, key: str, modifiers: int = 0, times: int = 1) -> None:
        """Presses a key, as a keyboard would."""
        text = {"text": "\r"} if key == "Enter" else {}
        for _ in range(times):
            parameters = {"key": key, "code": key, "windowsVirtualKeyCode": KEYS[key], "modifiers": modifiers}
            self.call("Input.dispatchKeyEvent", type="keyDown" if text else "rawKeyDown", **text, **parameters)
            self.call("Input.dispatchKeyEvent", type="keyUp", **parameters)
        self.settle()

    def click(self, x: float, y: float, to: tuple[float, float] | None = None) -> None:
        """Clicks at a point of the viewport, or drags from there to another."""
        at: dict[str, Any] = {"x": x, "y": y, "button": "left", "clickCount": 1}
        self.call("Input.dispatchMouseEvent", type="mousePressed", **at)
        if to is not None:
            at |= {"x": to[0], "y": to[1]}
            self.call("Input.dispatchMouseEvent", type="mouseMoved", buttons=1, **at)
        self.call("Input.dispatchMouseEvent", type="mouseReleased", **at)
        self.settle()

    def box(self, selector: str) -> tuple[float, float, float, float]:
        """An element's left, top, width and height in the viewport, once it is scrolled into view."""
        quoted = json.dumps(selector)
        self.value(f"document.querySelector({quoted}).scrollIntoView({{block: 'nearest'}})")
        self.settle()
        box = self.value(f"(({{x, y, width, height}}) => [x, y, width, height])(document.querySelector({quoted}).getBoundingClientRect())")
        return (box[0], box[1], box[2], box[3])

    def click_on(self, selector: str) -> None:
        """Clicks on the middle of an element."""
        x, y, wide, high = self.box(selector)
        self.click(x + wide / 2, y + high / 2)

    def text(self, selector: str) -> str:
        """An element's text."""
        return str(self.value(f"document.querySelector({json.dumps(selector)}).textContent"))

    def picture(self, file: Path) -> None:
        """Takes a picture of the viewport."""
        file.write_bytes(base64.b64decode(self.call("Page.captureScreenshot", format="png")["data"]))

    def colours(self, selector: str) -> list[tuple[int, int, int]]:
        """The points of an element as they are painted, line by line."""
        x, y, wide, high = self.box(selector)
        clip = {"x": x, "y": y, "width": wide, "height": high, "scale": 1}
        return read_png(base64.b64decode(self.call("Page.captureScreenshot", format="png", clip=clip)["data"]))

    def printed(self) -> bytes:
        """The page as printed, a PDF."""
        return base64.b64decode(self.call("Page.printToPDF", preferCSSPageSize=True, printBackground=False)["data"])

    def complaints(self) -> list[str]:
        """Errors and warnings of the page since the last `forget`: thrown, on the console, or in the browser's log."""
        return [
            *(str(thrown["exceptionDetails"]) for thrown in self.named("Runtime.exceptionThrown")),
            *(str(said["args"]) for said in self.named("Runtime.consoleAPICalled") if said["type"] in ("error", "warning", "assert")),
            *(str(entry["entry"]) for entry in self.named("Log.entryAdded") if entry["entry"]["level"] in ("error", "warning")),
        ]

    def requests(self) -> list[str]:
        """The addresses that the page asked for since the last `forget`, but for pages that were opened and for data within the page."""
        sent = [event["request"]["url"] for event in self.named("Network.requestWillBeSent") if event.get("type") != "Document"]
        return [url for url in sent if not url.startswith("data:")]


def read_png(data: bytes) -> list[tuple[int, int, int]]:
    """The points of a picture as the browser writes it: 8 bits a colour, with or without alpha."""
    wide, _, depth, kind = struct.unpack(">IIBB", data[16:26])
    if depth != 8 or kind not in (2, 6):
        raise ValueError(f"a picture of {depth} bits, kind {kind}")
    size = 3 if kind == 2 else 4
    packed, at = b"", 8
    while at < len(data):
        (length,) = struct.unpack(">I", data[at : at + 4])
        if data[at + 4 : at + 8] == b"IDAT":
            packed += data[at + 8 : at + 8 + length]
        at += 12 + length
    raw, stride = zlib.decompress(packed), wide * size
    points: list[tuple[int, int, int]] = []
    above = bytes(stride)
    for start in range(0, len(raw), stride + 1):
        line = _unfiltered(raw[start], raw[start + 1 : start + 1 + stride], above, size)
        points += ((line[i], line[i + 1], line[i + 2]) for i in range(0, stride, size))
        above = line
    return points


def _unfiltered(kind: int, line: bytes, above: bytes, size: int) -> bytes:
    """A line of a picture from its filtered bytes and the line above it."""
    out = bytearray(line)
    for i, value in enumerate(line):
        left = out[i - size] if i >= size else 0
        corner = above[i - size] if i >= size else 0
        guess = left + above[i] - corner
        nearest = min((left, above[i], corner), key=lambda other: abs(guess - other))
        out[i] = (value + (0, left, above[i], (left + above[i]) // 2, nearest)[kind]) & 0xFF
    return bytes(out)
