"""Chromium without a window, over two pipes: the DevTools protocol needs no driver, no port and no library."""
import base64
import itertools
import json
import os
import select
import shutil
import subprocess
import tempfile
import time
from pathlib import Path
from typing import Any

PATIENCE = 300
WORDS = ("--headless=new", "--no-sandbox", "--disable-gpu", "--disable-dev-shm-usage", "--hide-scrollbars", "--no-first-run", "--remote-debugging-pipe",
         "--disable-background-networking", "--disable-component-update", "--disable-extensions", "--mute-audio", "--force-color-profile=srgb",
         "--disable-features=Translate,OptimizationHints,MediaRouter")


def found() -> str | None:
    return shutil.which("chromium") or shutil.which("chromium-browser") or shutil.which("google-chrome")


class Failed(Exception):
    """The browser, or a script in its page, said that something failed."""


class Browser:
    """A browser with one page. What the page writes to its console, and what it throws, is kept in `said`."""

    def __init__(self) -> None:
        self.folder = tempfile.TemporaryDirectory(prefix="page-browser-")
        to_read, self.to = os.pipe()
        self.out, to_write = os.pipe()
        # The browser reads 3 and writes 4; the shell puts our pipes there.
        self.process = subprocess.Popen(
            ["nice", "sh", "-c", f'exec "$0" "$@" 3<&{to_read} 4>&{to_write}', found(), *WORDS, f"--user-data-dir={self.folder.name}", "about:blank"],
            pass_fds=(to_read, to_write), stdin=subprocess.DEVNULL, stdout=subprocess.DEVNULL, stderr=subprocess.DEVNULL)
        os.close(to_read)
        os.close(to_write)
        self.numbers, self.rest, self.said, self.events = itertools.count(1), b"", [], []
        self.session: str | None = None
        target = next(it for it in self.ask("Target.getTargets")["targetInfos"] if it["type"] == "page")["targetId"]
        self.session = self.ask("Target.attachToTarget", targetId=target, flatten=True)["sessionId"]
        for domain in ("Page", "Runtime", "Log", "DOM"):
            self.ask(f"{domain}.enable")
        self.size(1280, 800)

    def close(self) -> None:
        self.process.terminate()
        self.process.wait()
        os.close(self.to)
        os.close(self.out)
        self.folder.cleanup()

    # ---- The protocol: messages of JSON, each ended by a zero byte.

    def ask(self, method: str, **words: Any) -> dict:
        number = next(self.numbers)
        message = {"id": number, "method": method, "params": words, **({"sessionId": self.session} if self.session else {})}
        self.write(json.dumps(message).encode() + b"\0")
        until = time.monotonic() + PATIENCE
        while True:
            answer = self.message(until)
            if answer.get("id") == number:
                if "error" in answer:
                    raise Failed(f"{method}: {answer['error']['message']}")
                return answer["result"]

    def write(self, data: bytes) -> None:
        while data:
            data = data[os.write(self.to, data):]

    def message(self, until: float) -> dict:
        while b"\0" not in self.rest:
            if not select.select([self.out], [], [], max(0, until - time.monotonic()))[0]:
                raise Failed("the browser does not answer")
            part = os.read(self.out, 1 << 20)
            if not part:
                raise Failed("the browser ended")
            self.rest += part
        line, _, self.rest = self.rest.partition(b"\0")
        message = json.loads(line)
        self.hear(message)
        return message

    def hear(self, message: dict) -> None:
        method, words = message.get("method"), message.get("params", {})
        if method == "Runtime.consoleAPICalled":
            self.said.append(" ".join(str(it.get("value", it.get("description"))) for it in words["args"]))
        elif method == "Runtime.exceptionThrown":
            details = words["exceptionDetails"]
            self.said.append(details.get("exception", {}).get("description") or details["text"])
        elif method == "Log.entryAdded":
            self.said.append(words["entry"]["text"])
        elif method:
            self.events.append(method)

    # ---- What a check does.

    def run(self, script: str, *words: Any) -> Any:
        """What a script in the page returns; `a` has the words."""
        text = f"(async a => {{ {script} }})({json.dumps(words)})"
        answer = self.ask("Runtime.evaluate", expression=text, awaitPromise=True, returnByValue=True, userGesture=True)
        if "exceptionDetails" in answer:
            raise Failed(answer["exceptionDetails"].get("exception", {}).get("description", "a script failed"))
        return answer["result"].get("value")

    def wait(self, condition: str, seconds: float = 60) -> float:
        """Waits until a condition holds, and returns the seconds that took."""
        began = time.monotonic()
        while not self.run(f"return Boolean({condition})"):
            if time.monotonic() - began > seconds:
                raise Failed(f"after {seconds} seconds not so: {condition}; the page says {self.run('return document.body.innerText')[:300]!r}")
            time.sleep(0.03)
        return time.monotonic() - began

    def open(self, address: str) -> None:
        self.ask("Page.navigate", url="about:blank")
        self.ask("Page.navigate", url=address)
        self.wait("document.body && (document.body.dataset.ready !== undefined || document.querySelector('#trouble:not([hidden])'))")

    def give(self, *files: Path) -> None:
        """Chooses files, as a user does."""
        root = self.ask("DOM.getDocument")["root"]["nodeId"]
        node = self.ask("DOM.querySelector", nodeId=root, selector="#pick")["nodeId"]
        self.ask("DOM.setFileInputFiles", nodeId=node, files=[str(it) for it in files])

    def settled(self) -> None:
        """Waits until nothing is read, and what was asked for is drawn."""
        self.wait("document.body.dataset.busy === undefined", PATIENCE)
        self.run("await new Promise(done => requestAnimationFrame(() => setTimeout(done, 60)))")

    def key(self, key: str, text: str = "") -> None:
        codes = {"ArrowDown": 40, "ArrowUp": 38, "ArrowLeft": 37, "ArrowRight": 39, "Enter": 13, "Escape": 27, "Tab": 9, "Home": 36, "End": 35,
                 "PageDown": 34, "PageUp": 33}
        words = {"key": key, "windowsVirtualKeyCode": codes.get(key, ord(key[0].upper())), **({"text": text or key} if len(key) == 1 else {})}
        if key == "Enter":
            words["text"] = "\r"
        self.ask("Input.dispatchKeyEvent", type="keyDown", **words)
        self.ask("Input.dispatchKeyEvent", type="keyUp", **{k: v for k, v in words.items() if k != "text"})
        self.run("await new Promise(done => setTimeout(done, 40))")

    def type(self, text: str) -> None:
        self.ask("Input.insertText", text=text)

    def click(self, selector: str) -> None:
        """Clicks the middle of an element with the mouse."""
        x, y = self.run("""const it = document.querySelector(a[0]); it.scrollIntoView({block: "nearest", inline: "nearest"});
            const {left, top, width, height} = it.getBoundingClientRect(); return [left + Math.min(width / 2, 40), top + height / 2]""", selector)
        for kind in ("mousePressed", "mouseReleased"):
            self.ask("Input.dispatchMouseEvent", type=kind, x=x, y=y, button="left", clickCount=1)
        self.run("await new Promise(done => setTimeout(done, 60))")

    def text(self, selector: str) -> str:
        return self.run("return document.querySelector(a[0])?.innerText ?? ''", selector)

    def place(self) -> str:
        return self.run("await new Promise(done => setTimeout(done, 60)); return location.hash")

    def size(self, width: int, height: int, scale: float = 1, mobile: bool = False) -> None:
        self.ask("Emulation.setDeviceMetricsOverride", width=width, height=height, deviceScaleFactor=scale, mobile=mobile)

    def media(self, **features: str) -> None:
        self.ask("Emulation.setEmulatedMedia", features=[{"name": name.replace("_", "-"), "value": value} for name, value in features.items()])

    def picture(self) -> bytes:
        return base64.b64decode(self.ask("Page.captureScreenshot", format="png")["data"])
