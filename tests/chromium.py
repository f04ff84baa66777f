"""A headless Chromium, driven over its DevTools pipe: one tab, every answer awaited, what happened kept."""
import json
import os
import select
import shutil
import signal
import subprocess
import tempfile
import time

COMMANDS = ("chromium", "chromium-browser", "google-chrome", "google-chrome-stable")
PATIENCE = 60  # seconds
OPTIONS = ["--headless=new", "--remote-debugging-pipe", "--disable-gpu", "--no-first-run", "--hide-scrollbars",
           "--disable-background-networking", "--disable-component-update", "--disable-extensions"]
READS, WRITES = 3, 4  # the descriptors at which Chromium expects its pipe


def path():
    """Where Chromium is, or None."""
    return next(filter(None, map(shutil.which, COMMANDS)), None)


class Chromium:
    def __init__(self):
        self.folder = tempfile.mkdtemp(prefix="chromium-")
        its_input, self.output = os.pipe()
        self.input, its_output = os.pipe()

        def lay_pipe():
            # both are doubled first: one of them may stand where the other goes
            reads, writes = os.dup(its_input), os.dup(its_output)
            os.dup2(reads, READS)
            os.dup2(writes, WRITES)

        # as root it runs only without its sandbox; it opens nothing but our own pages
        options = [*OPTIONS, *(["--no-sandbox"] if os.geteuid() == 0 else []), f"--user-data-dir={self.folder}"]
        self.process = subprocess.Popen([path(), *options, "about:blank"], preexec_fn=lay_pipe, close_fds=False, start_new_session=True,
                                        stdin=subprocess.DEVNULL, stdout=subprocess.DEVNULL, stderr=subprocess.DEVNULL)
        os.close(its_input)
        os.close(its_output)
        self.pending, self.number, self.events, self.session, self.patience = b"", 0, [], None, PATIENCE
        tab = next(target for target in self.call("Target.getTargets")["targetInfos"] if target["type"] == "page")
        self.session = self.call("Target.attachToTarget", targetId=tab["targetId"], flatten=True)["sessionId"]
        for domain in ("Page", "Runtime", "Network", "Log", "DOM"):
            self.call(domain + ".enable")

    def __enter__(self):
        return self

    def __exit__(self, *_):
        os.killpg(self.process.pid, signal.SIGKILL)
        self.process.wait()
        os.close(self.input)
        os.close(self.output)
        shutil.rmtree(self.folder, ignore_errors=True)

    def message(self):
        while b"\0" not in self.pending:
            ready, _, _ = select.select([self.input], [], [], PATIENCE)
            part = os.read(self.input, 1 << 20) if ready else b""
            if not part:
                raise RuntimeError("Chromium has ended, or says nothing any more")
            self.pending += part
        message, self.pending = self.pending.split(b"\0", 1)
        return json.loads(message)

    def call(self, method, **parameters):
        self.number += 1
        asked = {"id": self.number, "method": method, "params": parameters}
        if self.session:
            asked["sessionId"] = self.session
        os.write(self.output, json.dumps(asked).encode() + b"\0")
        while True:
            message = self.message()
            if message.get("id") != self.number:
                self.events.append(message)
            elif "error" in message:
                raise RuntimeError(f"{method}: {message['error']}")
            else:
                return message["result"]

    def open(self, address):
        """Opens an address anew and waits until it is loaded."""
        self.call("Page.navigate", url="about:blank")
        self.events.clear()
        self.call("Page.navigate", url=address)
        self.wait("document.readyState === 'complete' && location.href !== 'about:blank'")

    def run(self, script):
        """The value of a script in the page."""
        result = self.call("Runtime.evaluate", expression=script, awaitPromise=True, returnByValue=True)
        if "exceptionDetails" in result:
            raise RuntimeError(f"{script}: {result['exceptionDetails']}")
        return result["result"].get("value")

    def wait(self, script):
        """Waits until a script's value is true."""
        until = time.monotonic() + self.patience
        while not self.run(script):
            if time.monotonic() > until:
                raise RuntimeError(f"never true: {script}")
            time.sleep(0.005)

    def happened(self, method):
        return [event["params"] for event in self.events if event.get("method") == method]

    def window(self, width, height):
        self.call("Emulation.setDeviceMetricsOverride", width=width, height=height, deviceScaleFactor=1, mobile=False)

    def press(self, key, code, text=""):
        for kind in ("keyDown", "keyUp"):
            self.call("Input.dispatchKeyEvent", type=kind, key=key, code=key, windowsVirtualKeyCode=code, text=text if kind == "keyDown" else "")

    def type(self, text):
        self.call("Input.insertText", text=text)
