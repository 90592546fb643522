"""Drives Chromium without a window, by its DevTools protocol over a pipe, for tests of a page."""

from __future__ import annotations

import base64
import fcntl
import json
import os
import shutil
import subprocess
import tempfile
from pathlib import Path
from typing import Any

PROGRAMS = ("chromium", "chromium-browser", "google-chrome")


def program() -> str | None:
    """The path of the browser, if it is there."""
    return next(filter(None, map(shutil.which, PROGRAMS)), None)


class Browser:
    """A browser with a profile of its own, and one page."""

    def __init__(self) -> None:
        found = program()
        assert found is not None
        self.profile = tempfile.mkdtemp(prefix="souper-page-")
        theirs, self.written = os.pipe()
        self.read, also_theirs = os.pipe()
        from_us, to_us = (fcntl.fcntl(end, fcntl.F_DUPFD, 10) for end in (theirs, also_theirs))
        # The browser reads commands from its descriptor 3, and writes answers to 4.
        self.process = subprocess.Popen(
            ["bash", "-c", f'exec "$@" 3<&{from_us} 4>&{to_us} {from_us}<&- {to_us}>&-', "bash",
             found, "--headless=new", "--remote-debugging-pipe", f"--user-data-dir={self.profile}",
             "--no-sandbox", "--disable-gpu", "--no-first-run", "--hide-scrollbars",
             "--disable-background-networking", "--disable-component-update", "about:blank"],
            pass_fds=(from_us, to_us), stdin=subprocess.DEVNULL, stdout=subprocess.DEVNULL,
            stderr=subprocess.DEVNULL, start_new_session=True,
        )
        for end in (theirs, also_theirs, from_us, to_us):
            os.close(end)
        self.rest = b""
        self.number = 0
        self.session: str | None = None
        self.events: list[dict[str, Any]] = []
        target = self.call("Target.createTarget", url="about:blank")["targetId"]
        self.session = self.call("Target.attachToTarget", targetId=target, flatten=True)["sessionId"]
        for domain in ("Page", "Runtime", "Network", "Log"):
            self.call(f"{domain}.enable")

    def close(self) -> None:
        self.session = None
        try:
            self.call("Browser.close")
        except (OSError, EOFError):
            self.process.kill()
        self.process.wait(30)
        os.close(self.written)
        os.close(self.read)
        shutil.rmtree(self.profile, ignore_errors=True)

    def call(self, method: str, **parameters: Any) -> dict[str, Any]:
        """The result of a command."""
        self.number += 1
        message: dict[str, Any] = {"id": self.number, "method": method, "params": parameters}
        if self.session is not None:
            message["sessionId"] = self.session
        data = json.dumps(message).encode() + b"\0"
        while data:
            data = data[os.write(self.written, data) :]
        while True:
            found = self.message()
            if found.get("id") == self.number:
                if "error" in found:
                    raise RuntimeError(f"{method}: {found['error']}")
                result: dict[str, Any] = found["result"]
                return result
            self.events.append(found)

    def message(self) -> dict[str, Any]:
        """The next answer or event."""
        while b"\0" not in self.rest:
            read = os.read(self.read, 1 << 20)
            if not read:
                raise EOFError("the browser has ended")
            self.rest += read
        first, _, self.rest = self.rest.partition(b"\0")
        found: dict[str, Any] = json.loads(first)
        return found

    def wait_for(self, method: str) -> dict[str, Any]:
        """The parameters of the next event of a method."""
        while True:
            for position, event in enumerate(self.events):
                if event.get("method") == method:
                    parameters: dict[str, Any] = self.events.pop(position)["params"]
                    return parameters
            self.events.append(self.message())

    def go(self, address: str) -> None:
        """Goes to an address, and waits until the page is loaded."""
        self.events.clear()
        self.call("Page.navigate", url=address)
        self.wait_for("Page.loadEventFired")

    def run(self, script: str) -> Any:
        """The value of an expression of the page's script, or what its promise resolves to."""
        found = self.call(
            "Runtime.evaluate", expression=script, awaitPromise=True, returnByValue=True,
            userGesture=True,
        )
        if "exceptionDetails" in found:
            raise RuntimeError(f"{script}: {found['exceptionDetails']}")
        return found["result"].get("value")

    def press(self, key: str, modifiers: int = 0, text: str = "") -> None:
        """Presses a key and lets it go. Modifiers are a sum: 1 Alt, 2 Control, 8 Shift."""
        code = {"Tab": 9, "Enter": 13, " ": 32, "ArrowRight": 39, "ArrowDown": 40, "ArrowLeft": 37,
                "ArrowUp": 38, "a": 65, "End": 35, "+": 107, "-": 109, "0": 48}[key]
        codes = {" ": "Space", "a": "KeyA", "+": "NumpadAdd", "-": "NumpadSubtract", "0": "Digit0"}
        named = {"key": key, "code": codes.get(key, key)}
        sent = {**named, "windowsVirtualKeyCode": code, "modifiers": modifiers}
        pressed = {"type": "keyDown", "text": text} if text else {"type": "rawKeyDown"}
        self.call("Input.dispatchKeyEvent", **pressed, **sent)
        self.call("Input.dispatchKeyEvent", type="keyUp", **sent)

    def type(self, text: str) -> None:
        """Types a text where the focus is."""
        self.call("Input.insertText", text=text)

    def window(self, width: int, height: int, *, is_phone: bool = False, scale: float = 1) -> None:
        self.call("Emulation.setDeviceMetricsOverride", width=width, height=height,
                  deviceScaleFactor=scale, mobile=is_phone)

    def colors(self, scheme: str) -> None:
        """The scheme of colors that the page sees, ``light`` or ``dark``."""
        features = [{"name": "prefers-color-scheme", "value": scheme}]
        self.call("Emulation.setEmulatedMedia", features=features)

    def picture(self, path: Path, *, is_whole: bool = True) -> None:
        """Writes what the page looks like, as PNG."""
        found = self.call("Page.captureScreenshot", format="png", captureBeyondViewport=is_whole,
                          **({"clip": self._whole()} if is_whole else {}))
        path.write_bytes(base64.b64decode(found["data"]))

    def _whole(self) -> dict[str, float]:
        size = self.call("Page.getLayoutMetrics")["cssContentSize"]
        return {**size, "scale": 1}
