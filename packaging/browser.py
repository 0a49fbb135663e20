"""A headless Chromium, told what to do through pipes: what test-page and picture-page share."""
import base64
import json
import os
import select
import shutil
import signal
import subprocess
import tempfile
import time

NAMES = ("chromium-headless-shell", "chromium", "chromium-browser", "google-chrome")
# No request of its own, and no folder of the user. Its sandbox would need rights that a test may lack, and it sees only our page.
OPTIONS = ("--headless", "--no-sandbox", "--disable-gpu", "--disable-dev-shm-usage", "--hide-scrollbars", "--no-first-run",
           "--disable-background-networking", "--disable-component-update", "--disable-default-apps", "--disable-extensions",
           "--disable-sync", "--no-default-browser-check", "--mute-audio", "--remote-debugging-pipe")


def path():
    """The program, or None."""
    return next((found for name in NAMES if (found := shutil.which(name))), None)


class Browser:
    """A browser with one page."""

    def __init__(self, patience):
        self.patience, self.number, self.session, self.came = patience, 0, None, b""
        # What the page did wrong: exceptions, and what its policy or the network refused.
        self.complaints = []
        self.folder = tempfile.TemporaryDirectory(prefix="gmd-browser-")
        its_input, self.input = os.pipe()
        self.output, its_output = os.pipe()
        # Chromium takes commands at descriptor 3, and answers at 4.
        self.process = subprocess.Popen(
            ["bash", "-c", f'exec "$@" 3<&{its_input} 4>&{its_output}', "bash", path(), *OPTIONS,
             f"--user-data-dir={self.folder.name}", "about:blank"],
            pass_fds=(its_input, its_output), stdin=subprocess.DEVNULL, stdout=subprocess.DEVNULL, stderr=subprocess.DEVNULL,
            env={**os.environ, "HOME": self.folder.name, "TMPDIR": self.folder.name}, start_new_session=True)
        os.close(its_input)
        os.close(its_output)
        target = self.tell("Target.createTarget", url="about:blank")["targetId"]
        self.session = self.tell("Target.attachToTarget", targetId=target, flatten=True)["sessionId"]
        for part in ("Page", "Log", "Runtime"):
            self.tell(f"{part}.enable")

    def __enter__(self):
        return self

    def __exit__(self, *_):
        os.killpg(self.process.pid, signal.SIGKILL)
        self.process.wait()
        os.close(self.input)
        os.close(self.output)
        for _ in range(50):
            try:
                self.folder.cleanup()
                return
            except OSError:
                # The last of its processes may still be writing.
                time.sleep(0.1)

    def tell(self, method, **parameters):
        """The answer to a command."""
        self.number += 1
        command = {"id": self.number, "method": method, "params": parameters}
        if self.session:
            command["sessionId"] = self.session
        os.write(self.input, json.dumps(command).encode() + b"\0")
        deadline = time.monotonic() + self.patience
        while True:
            answer = self.next_message(deadline)
            if answer.get("id") == self.number:
                if "error" in answer:
                    raise RuntimeError(f"{method}: {answer['error']['message']}")
                return answer["result"]
            if answer.get("method") in ("Log.entryAdded", "Runtime.exceptionThrown"):
                self.complaints.append(str(answer["params"])[:400])

    def next_message(self, deadline):
        while b"\0" not in self.came:
            if not select.select([self.output], [], [], max(deadline - time.monotonic(), 0))[0]:
                raise TimeoutError("the browser doesn't answer")
            piece = os.read(self.output, 1 << 20)
            if not piece:
                raise EOFError("the browser has ended")
            self.came += piece
        text, _, self.came = self.came.partition(b"\0")
        return json.loads(text)

    def show(self, address, width, height, scheme="light", scripts=True):
        """Opens a page in a window of this size, as a telephone has it if it is narrow."""
        self.tell("Emulation.setScriptExecutionDisabled", value=not scripts)
        self.tell("Emulation.setDeviceMetricsOverride", width=width, height=height, deviceScaleFactor=1, mobile=width < 600)
        self.tell("Emulation.setEmulatedMedia", features=[{"name": "prefers-color-scheme", "value": scheme}])
        # A page that is opened once more must not be taken for the one that was there.
        self.ask("window.isOld = true")
        self.tell("Page.navigate", url=address)
        deadline = time.monotonic() + self.patience
        while self.ask("window.isOld || document.readyState !== 'complete' || location.href === 'about:blank'"):
            if time.monotonic() > deadline:
                raise TimeoutError(f"{address} isn't there")
            time.sleep(0.05)

    def ask(self, expression):
        """The value of an expression in the page."""
        answer = self.tell("Runtime.evaluate", expression=expression, returnByValue=True, awaitPromise=True)
        if "exceptionDetails" in answer:
            raise RuntimeError(f"{expression}: {answer['exceptionDetails'].get('exception', {}).get('description')}")
        return answer["result"].get("value")

    def picture(self, height=None):
        """A PNG of the window, or of the page to this height."""
        return base64.b64decode(self.tell("Page.captureScreenshot", format="png", captureBeyondViewport=height is not None)["data"])
