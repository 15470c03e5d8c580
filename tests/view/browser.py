"""A headless Chromium that reads one page after another, told what to do over a pipe (the protocol of its developer tools)."""
import base64
import fcntl
import json
import os
import select
import subprocess
import time

SECONDS = 60  # for an answer
FLAGS = """--headless --no-sandbox --disable-gpu --disable-dev-shm-usage --no-first-run --disable-extensions --disable-sync
    --disable-background-networking --disable-component-update --hide-scrollbars --remote-debugging-pipe""".split()


def high(descriptor):
    """The same file by a number that is none of those which the browser takes."""
    number = fcntl.fcntl(descriptor, fcntl.F_DUPFD, 20)
    os.close(descriptor)
    return number


class Browser:
    """Its profile lies in `folder`."""

    def __init__(self, folder):
        (theirs_in, ours_out), (ours_in, theirs_out) = (map(high, os.pipe()) for _ in range(2))
        self.process = subprocess.Popen(
            ["chromium", *FLAGS, f"--user-data-dir={folder}/profile", "about:blank"],
            pass_fds=(3, 4), stdin=subprocess.DEVNULL, stdout=subprocess.DEVNULL, stderr=subprocess.DEVNULL,
            preexec_fn=lambda: (os.dup2(theirs_in, 3), os.dup2(theirs_out, 4)),
        )
        os.close(theirs_in)
        os.close(theirs_out)
        self.reads, self.writes, self.rest, self.number, self.session, self.events = ours_in, ours_out, b"", 0, None, []
        target = self.call("Target.createTarget", url="about:blank")["targetId"]
        self.session = self.call("Target.attachToTarget", targetId=target, flatten=True)["sessionId"]
        for domain in ("Page", "Runtime", "Log", "Network"):
            self.call(f"{domain}.enable")

    def call(self, method, **params):
        """Asks for something, and answers what came of it; events that come before are kept."""
        self.number += 1
        session = {"sessionId": self.session} if self.session else {}
        os.write(self.writes, json.dumps({"id": self.number, "method": method, "params": params, **session}).encode() + b"\0")
        while True:
            message = self.message()
            if message.get("id") == self.number:
                if "error" in message:
                    raise RuntimeError(f"{method}: {message['error']}")
                return message["result"]
            self.events.append(message)

    def message(self):
        until = time.monotonic() + SECONDS
        while b"\0" not in self.rest:
            if not select.select([self.reads], [], [], max(0, until - time.monotonic()))[0]:
                raise RuntimeError("the browser doesn't answer")
            piece = os.read(self.reads, 1 << 16)
            if not piece:
                raise RuntimeError("the browser has gone")
            self.rest += piece
        first, self.rest = self.rest.split(b"\0", 1)
        return json.loads(first)

    def open(self, path, width, height=900):
        """Shows a page in a window of this size."""
        self.events.clear()
        self.call("Emulation.setDeviceMetricsOverride", width=width, height=height, deviceScaleFactor=1, mobile=width < 500)
        self.call("Page.navigate", url=f"file://{path}")
        while not any(event.get("method") == "Page.loadEventFired" for event in self.events):
            self.events.append(self.message())

    def complaints(self):
        """What it has said against the page, and what it has loaded but the page."""
        for event in self.events:
            params = event.get("params", {})
            if event.get("method") in ("Log.entryAdded", "Runtime.exceptionThrown", "Runtime.consoleAPICalled"):
                yield json.dumps(params)[:300]
            elif event.get("method") == "Network.requestWillBeSent" and params.get("type") != "Document":
                yield f"it loads {params['request']['url'][:100]}"

    def tell(self, script):
        """What a script says of the page."""
        told = self.call("Runtime.evaluate", expression=script, returnByValue=True)
        if "exceptionDetails" in told:
            raise RuntimeError(json.dumps(told["exceptionDetails"])[:500])
        return told["result"].get("value")

    def press(self, key, code):
        for kind in ("rawKeyDown", "keyUp"):
            self.call("Input.dispatchKeyEvent", type=kind, key=key, code=key, windowsVirtualKeyCode=code)

    def media(self, scheme="light", kind="screen"):
        features = [{"name": "prefers-color-scheme", "value": scheme}]
        self.call("Emulation.setEmulatedMedia", media=kind, features=features)

    def picture(self):
        return base64.b64decode(self.call("Page.captureScreenshot", captureBeyondViewport=True)["data"])

    def pdf(self):
        return base64.b64decode(self.call("Page.printToPDF", printBackground=True)["data"])

    def close(self):
        try:
            self.call("Browser.close")
            self.process.wait(SECONDS)
        except (RuntimeError, OSError, subprocess.TimeoutExpired):
            self.process.kill()
            self.process.wait()
