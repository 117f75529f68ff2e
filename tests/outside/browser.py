"""A headless Chromium with one page, worked by its debugging pipe, where a null byte ends each message."""
import base64
import fcntl
import itertools
import json
import os
import select
import signal
import subprocess
import time

PATIENCE = 30  # seconds
WORDS = [f"--{each}" for each in (
    "headless=new", "no-sandbox", "remote-debugging-pipe", "hide-scrollbars", "disable-gpu", "disable-dev-shm-usage",
    "no-first-run", "no-default-browser-check", "disable-background-networking", "disable-component-update",
    "disable-default-apps", "disable-extensions", "disable-sync", "disable-background-timer-throttling",
    "disable-renderer-backgrounding", "disable-backgrounding-occluded-windows")]


class NoAnswer(Exception):
    """The browser doesn't answer, or has ended."""


class Browser:
    """A browser with one page. It ends, with all its processes, as its `with` ends."""

    def __init__(self, program, folder):
        (self.reading, wrote), (read, self.writing) = os.pipe(), os.pipe()
        high = [fcntl.fcntl(each, fcntl.F_DUPFD, 20) for each in (read, wrote)]
        words = [*WORDS, f"--user-data-dir={folder}", "about:blank"]
        command = f'exec "$0" "$@" 3<&{high[0]} 4>&{high[1]}'
        self.process = subprocess.Popen(["/bin/bash", "-c", command, program, *words], pass_fds=high,
                                        start_new_session=True, stdin=subprocess.DEVNULL, stdout=subprocess.DEVNULL,
                                        stderr=subprocess.DEVNULL)
        for each in (*high, read, wrote):
            os.close(each)
        self.numbers, self.came, self.session, self.faults = itertools.count(1), b"", None, []
        try:
            target = self.ask("Target.createTarget", url="about:blank")["targetId"]
            self.session = self.ask("Target.attachToTarget", targetId=target, flatten=True)["sessionId"]
            for domain in ("Inspector", "Page", "Runtime", "Log"):
                self.ask(f"{domain}.enable")
        except NoAnswer:
            self.__exit__()
            raise

    def ask(self, method, **parameters):
        """What the browser answers. What a page reports as wrong meanwhile is kept in `faults`."""
        number = next(self.numbers)
        message = {"id": number, "method": method, "params": parameters}
        if self.session:
            message["sessionId"] = self.session
        try:
            os.write(self.writing, json.dumps(message).encode() + b"\0")
        except BrokenPipeError:
            raise NoAnswer(method) from None
        while True:
            while b"\0" not in self.came:
                more = select.select([self.reading], [], [], PATIENCE)[0] and os.read(self.reading, 1 << 20)
                if not more:
                    raise NoAnswer(f"{method} {parameters}")
                self.came += more
            text, _, self.came = self.came.partition(b"\0")
            answer = json.loads(text)
            if answer.get("id") == number:
                if "error" in answer:
                    raise SystemExit(f"{method}: {answer['error']}")
                return answer["result"]
            if answer.get("method") in ("Inspector.targetCrashed", "Inspector.detached"):
                raise NoAnswer(text)
            if answer.get("method") in ("Runtime.exceptionThrown", "Log.entryAdded"):
                self.faults.append(answer["params"])

    def value(self, expression):
        """The value of an expression in the page; of a promise, what comes of it."""
        found = self.ask("Runtime.evaluate", expression=expression, returnByValue=True, awaitPromise=True)
        if "exceptionDetails" in found:
            raise SystemExit(f"{expression}: {found['exceptionDetails']}")
        return found["result"].get("value")

    def wait(self, expression):
        """Waits until an expression is true in the page."""
        end = time.monotonic() + PATIENCE
        while not self.value(expression):
            if time.monotonic() > end:
                raise SystemExit(f"the page never comes to {expression}: {self.value('document.body.innerText')}")
            time.sleep(0.05)

    def size(self, width, height, scheme="light"):
        self.ask("Emulation.setDeviceMetricsOverride", width=width, height=height, deviceScaleFactor=1, mobile=False)
        self.ask("Emulation.setEmulatedMedia", features=[{"name": "prefers-color-scheme", "value": scheme}])

    def key(self, key, code, text=""):
        for kind in ("keyDown", "keyUp"):
            self.ask("Input.dispatchKeyEvent", type=kind, key=key, code=key if key != " " else "Space",
                     windowsVirtualKeyCode=code, **({"text": text} if text and kind == "keyDown" else {}))

    def picture(self, path):
        path.write_bytes(base64.b64decode(self.ask("Page.captureScreenshot", format="png")["data"]))

    def __enter__(self):
        return self

    def __exit__(self, *_):
        os.killpg(self.process.pid, signal.SIGKILL)
        self.process.wait()
        os.close(self.reading), os.close(self.writing)
