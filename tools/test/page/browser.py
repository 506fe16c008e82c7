"""A headless Chromium, spoken to over two pipes: no port is opened, and nothing but the standard library is needed."""
from __future__ import annotations

import base64
import contextlib
import json
import os
import select
import shutil
import signal
import subprocess
import tempfile
import time
from typing import Any

from serving import WITH_US

NAMES = ("chromium", "chromium-browser", "google-chrome-stable", "google-chrome")
WORDS = ("--headless", "--disable-gpu", "--no-first-run", "--disable-background-networking", "--disable-component-update",
         "--disable-dev-shm-usage", "--disable-extensions", "--disable-breakpad", "--hide-scrollbars", "--remote-debugging-pipe")
SECONDS = 300  # for what a page has to do; nothing is timed by it
KEYS = {"Enter": 13, "ArrowRight": 39, "ArrowLeft": 37, "ArrowUp": 38, "ArrowDown": 40, "Tab": 9, "Escape": 27}
SHIFT, CONTROL = 8, 2


class Late(Exception):
    """The page wasn't as wanted in time."""


def found() -> str | None:
    """A Chromium, None where there is none."""
    return os.environ.get("CHROMIUM") or next(filter(None, map(shutil.which, NAMES)), None)


class Pipe:
    """Messages of the DevTools protocol to a browser and from it, each with a byte 0 behind it."""

    def __init__(self, folder: str, binary: str) -> None:
        self.number, self.rest = 0, b""
        their_in, self.out = os.pipe()
        self.into, their_out = os.pipe()
        words = [binary, *(["--no-sandbox"] if os.geteuid() == 0 else []), *WORDS, f"--user-data-dir={folder}", "about:blank"]
        self.child = subprocess.Popen(
            [*WITH_US, "bash", "-c", 'exec "$@" 3<&"$IN" 4>&"$OUT"', "bash", *words], pass_fds=(their_in, their_out), stdin=subprocess.DEVNULL,
            stdout=subprocess.DEVNULL, stderr=subprocess.DEVNULL, start_new_session=True,
            env=os.environ | {"IN": str(their_in), "OUT": str(their_out), "HOME": folder, "TMPDIR": folder})
        os.close(their_in)
        os.close(their_out)

    def send(self, message: dict[str, Any]) -> int:
        self.number += 1
        os.write(self.out, json.dumps(message | {"id": self.number}).encode() + b"\0")
        return self.number

    def next(self, ends: float) -> dict[str, Any]:
        """The next message."""
        while b"\0" not in self.rest:
            if not select.select([self.into], [], [], max(0, ends - time.monotonic()))[0]:
                raise Late("the browser says nothing")
            more = os.read(self.into, 1 << 20)
            if not more:
                raise Late("the browser has ended")
            self.rest += more
        line, self.rest = self.rest.split(b"\0", 1)
        return json.loads(line)

    def close(self) -> None:
        """Ends the browser, with all that it began: it leads a group of its own."""
        with contextlib.suppress(OSError):
            os.killpg(self.child.pid, signal.SIGTERM)
        with contextlib.suppress(subprocess.TimeoutExpired):
            self.child.wait(10)
        with contextlib.suppress(OSError):
            os.killpg(self.child.pid, signal.SIGKILL)
        self.child.wait()
        for end in self.out, self.into:
            os.close(end)


class Browser:
    """One browser with one page. `faults` has what the page has logged as an error since it was cleared."""

    def __init__(self, width: int = 1280, height: int = 800, is_dark: bool = False, is_still: bool = True) -> None:
        binary = found()
        if binary is None:
            raise Late("there is no Chromium")
        self.folder, self.faults, self.session = tempfile.mkdtemp(prefix="propane-browser."), list[str](), ""
        self.pipe = Pipe(self.folder, binary)
        try:
            target = self.ask("Target.createTarget", url="about:blank")["targetId"]
            self.session = self.ask("Target.attachToTarget", targetId=target, flatten=True)["sessionId"]
            for domain in "Page", "Runtime", "Log":
                self.ask(f"{domain}.enable")
            self.look(width, height, is_dark, is_still)
        except BaseException:
            self.close()
            raise

    def look(self, width: int, height: int, is_dark: bool = False, is_still: bool = True) -> None:
        """The size of the page, and what its user prefers."""
        self.ask("Emulation.setDeviceMetricsOverride", width=width, height=height, deviceScaleFactor=1, mobile=False)
        self.ask("Emulation.setEmulatedMedia", features=[
            {"name": "prefers-color-scheme", "value": "dark" if is_dark else "light"},
            {"name": "prefers-reduced-motion", "value": "reduce" if is_still else "no-preference"}])

    def ask(self, method: str, **given: object) -> dict[str, Any]:
        """What a method of the protocol gives."""
        number = self.pipe.send({"method": method, "params": given, **({"sessionId": self.session} if self.session else {})})
        ends = time.monotonic() + SECONDS
        while time.monotonic() < ends:
            said = self.pipe.next(ends)
            self.note(said)
            if said.get("id") == number:
                if "error" in said:
                    raise Late(f"{method}: {said['error']}")
                return said["result"]
        raise Late(method)

    def note(self, said: dict[str, Any]) -> None:
        """Keeps what is an error of the page."""
        if said.get("method") == "Runtime.exceptionThrown":
            told = said["params"]["exceptionDetails"]
            self.faults.append(told.get("exception", {}).get("description") or told["text"])
        elif said.get("method") == "Log.entryAdded" and said["params"]["entry"]["level"] == "error":
            self.faults.append(said["params"]["entry"]["text"])

    def go(self, address: str) -> None:
        self.ask("Page.navigate", url=address)

    def eval(self, script: str) -> Any:
        """The value of a script in the page."""
        said = self.ask("Runtime.evaluate", expression=script, returnByValue=True, awaitPromise=True)
        if "exceptionDetails" in said:
            raise Late(said["exceptionDetails"].get("exception", {}).get("description", "a fault in the page"))
        return said["result"].get("value")

    def wait(self, script: str, seconds: float = SECONDS) -> Any:
        """Waits until what the script says is true, and gives it."""
        ends = time.monotonic() + seconds
        while time.monotonic() < ends:
            with contextlib.suppress(Late):
                value = self.eval(script)
                if value:
                    return value
            time.sleep(0.02)
        raise Late(f"not in {seconds} seconds: {script}")

    def middle(self, selector: str) -> tuple[float, float]:
        """The middle of an element, which is first brought into sight."""
        return self.wait(f"(()=>{{const e=document.querySelector({json.dumps(selector)});if(!e)return null;"
                         f"e.scrollIntoView?.({{block:'nearest'}});const r=e.getBoundingClientRect();return [r.x+r.width/2,r.y+r.height/2]}})()", 20)

    def mouse(self, kind: str, x: float, y: float, **more: object) -> None:
        self.ask("Input.dispatchMouseEvent", type=kind, x=x, y=y, **more)

    def hover(self, selector: str) -> None:
        self.mouse("mouseMoved", *self.middle(selector))

    def click_at(self, x: float, y: float, modifiers: int = 0) -> None:
        self.mouse("mouseMoved", x, y)
        for kind in "mousePressed", "mouseReleased":
            self.mouse(kind, x, y, button="left", clickCount=1, modifiers=modifiers)

    def click(self, selector: str, modifiers: int = 0) -> None:
        self.click_at(*self.middle(selector), modifiers)

    def drag(self, selector: str, dx: float, dy: float) -> None:
        x, y = self.middle(selector)
        self.mouse("mouseMoved", x, y)
        self.mouse("mousePressed", x, y, button="left", clickCount=1)
        for part in range(1, 6):
            self.mouse("mouseMoved", x + dx * part / 5, y + dy * part / 5, button="left", buttons=1)
        self.mouse("mouseReleased", x + dx, y + dy, button="left", clickCount=1)

    def type(self, text: str) -> None:
        """Puts a text in as one insertion."""
        self.ask("Input.insertText", text=text)

    def key(self, key: str, code: str = "", text: str = "", modifiers: int = 0) -> None:
        for kind in "keyDown", "keyUp":
            self.ask("Input.dispatchKeyEvent", type=kind, key=key, code=code or key, windowsVirtualKeyCode=KEYS.get(key, 0), modifiers=modifiers,
                     **({"text": text} if text and kind == "keyDown" else {}))

    def picture(self) -> bytes:
        """A screenshot as PNG."""
        return base64.b64decode(self.ask("Page.captureScreenshot", format="png")["data"])

    def close(self) -> None:
        self.pipe.close()
        shutil.rmtree(self.folder, ignore_errors=True)
