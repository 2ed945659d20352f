"""A headless Chromium, driven by its debugging protocol through a pair of pipes."""

from __future__ import annotations

import json
import os
import select
import shutil
import subprocess
import tempfile
import time
from types import TracebackType
from typing import Any, Dict, List, Optional, Type

BROWSER = shutil.which("chromium") or shutil.which("chromium-browser") or shutil.which("google-chrome")

# how long an answer is waited for, in seconds
_PATIENCE = 60.0

# a page that nobody looks at isn't slowed down, and the browser asks nothing of a small /dev/shm or of a network
_FLAGS = """
    --headless=new --remote-debugging-pipe --disable-gpu --no-first-run --hide-scrollbars --mute-audio
    --disable-dev-shm-usage --disable-background-timer-throttling --disable-backgrounding-occluded-windows
    --disable-renderer-backgrounding --disable-background-networking --disable-breakpad --disable-extensions
    --disable-component-update --disable-sync --disable-hang-monitor
""".split()

# what the browser tells where the page's process has ended
_CRASHES = ("Inspector.targetCrashed", "Target.targetCrashed")


class NoAnswer(RuntimeError):
    """The browser gave no answer: it ended, the page's process ended, or nothing came for a long time."""


class Chromium:
    """A browser with one page. `events` has what it told beside its answers."""

    def __init__(self) -> None:
        self._room = tempfile.TemporaryDirectory(prefix="virage-chromium-", ignore_cleanup_errors=True)
        to_it, self._write = os.pipe()
        self._read, from_it = os.pipe()
        flags = _FLAGS + [f"--user-data-dir={self._room.name}"] + (["--no-sandbox"] if os.geteuid() == 0 else [])
        # the browser reads its descriptor 3 and writes to its descriptor 4
        call = ["bash", "-c", f'exec "$@" 3<&{to_it} 4>&{from_it}', "bash", str(BROWSER), *flags, "about:blank"]
        quiet = subprocess.DEVNULL
        self._process = subprocess.Popen(call, pass_fds=(to_it, from_it), stdin=quiet, stdout=quiet, stderr=quiet)
        os.close(to_it)
        os.close(from_it)
        self._buffer = b""
        self._last = 0
        self.events: List[Dict[str, Any]] = []
        self._session: Optional[str] = None
        target = self.send("Target.createTarget", url="about:blank")["targetId"]
        self._session = self.send("Target.attachToTarget", targetId=target, flatten=True)["sessionId"]
        for domain in ("Inspector", "Page", "Runtime", "Network", "Log", "Accessibility"):
            self.send(f"{domain}.enable")

    def __enter__(self) -> Chromium:
        return self

    def __exit__(
        self, kind: Optional[Type[BaseException]], stop: Optional[BaseException], at: Optional[TracebackType]
    ) -> None:
        os.close(self._write)
        try:
            self._process.wait(10.0 if kind is NoAnswer else _PATIENCE)
        except subprocess.TimeoutExpired:
            self._process.kill()
            self._process.wait()
        os.close(self._read)
        self._room.cleanup()

    def send(self, method: str, **parameters: Any) -> Dict[str, Any]:
        """Has the browser do something, and gives its answer."""
        self._last += 1
        message: Dict[str, Any] = {"id": self._last, "method": method, "params": parameters}
        if self._session is not None:
            message["sessionId"] = self._session
        left = json.dumps(message).encode() + b"\0"
        while left:
            left = left[os.write(self._write, left):]
        while True:
            said = self._next()
            if said.get("id") == self._last:
                if "error" in said:
                    raise RuntimeError(f"{method}: {said['error']}")
                return dict(said["result"])
            self.events.append(said)

    def open(self, path: str) -> None:
        """Opens a file, and waits until it is there."""
        self.events.clear()
        self.send("Page.navigate", url=f"file://{path}")
        while not any(event.get("method") == "Page.loadEventFired" for event in self.events):
            self.events.append(self._next())

    def value(self, expression: str) -> Any:
        """The value of an expression of the page's script language."""
        answer = self.send("Runtime.evaluate", expression=expression, returnByValue=True)
        if "exceptionDetails" in answer:
            raise RuntimeError(f"{expression}: {answer['exceptionDetails']}")
        return answer["result"].get("value")

    def press(self, key: str, code: int) -> None:
        """Presses a key and lets it go."""
        given = {"key": key, "code": key, "windowsVirtualKeyCode": code, "text": "\r" if key == "Enter" else ""}
        self.send("Input.dispatchKeyEvent", type="keyDown", **given)
        self.send("Input.dispatchKeyEvent", type="keyUp", key=key, code=key, windowsVirtualKeyCode=code)

    def resize(self, width: int, height: int = 800) -> None:
        """Gives the page this size."""
        self.send("Emulation.setDeviceMetricsOverride", width=width, height=height, deviceScaleFactor=1, mobile=False)

    def dark(self, wanted: bool) -> None:
        """Has the page shown in the dark or in the light."""
        scheme = {"name": "prefers-color-scheme", "value": "dark" if wanted else "light"}
        self.send("Emulation.setEmulatedMedia", features=[scheme])

    def _next(self) -> Dict[str, Any]:
        end = time.monotonic() + _PATIENCE
        while b"\0" not in self._buffer:
            ready, _, _ = select.select([self._read], [], [], max(0.0, end - time.monotonic()))
            if not ready:
                raise NoAnswer(f"the browser says nothing for {_PATIENCE:.0f} s")
            piece = os.read(self._read, 1 << 16)
            if not piece:
                raise NoAnswer("the browser has ended")
            self._buffer += piece
        message, _, self._buffer = self._buffer.partition(b"\0")
        said = dict(json.loads(message))
        if said.get("method") in _CRASHES:
            raise NoAnswer("the page's process has ended")
        return said
