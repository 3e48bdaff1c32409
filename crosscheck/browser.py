"""Drives a browser without a window, over its own protocol: Chromium by a pipe, Firefox by a socket. No package is needed.

What runs in a page is an expression of JavaScript, whose value comes back as JSON. A browser remembers what its pages asked for and what went
wrong in them: faults of scripts, and what the page's policy refused.
"""

import json
import os
import shutil
import subprocess
import time
from base64 import b64decode, b64encode
from pathlib import Path
from queue import Empty, Queue
from socket import create_connection
from struct import pack, unpack
from tempfile import TemporaryDirectory
from threading import Thread

# How long an answer may take: the machine may have other work. One that is asked of a page that goes away may never come.
SECONDS, SECONDS_OF_LEAVING = 120, 3
WIDTH, HEIGHT = 1280, 900
# What each page does before its own scripts: it keeps what its policy refuses.
WATCH = "window.refused = []; addEventListener('securitypolicyviolation', event => refused.push(`${event.effectiveDirective} ${event.blockedURI}`));"
# For each key its code, the number of its code in Chromium, the text it types there, and its number in Firefox.
KEYS = {
    "Tab": ("Tab", 9, "", "\ue004"),
    "Enter": ("Enter", 13, "\r", "\ue007"),
    "Escape": ("Escape", 27, "", "\ue00c"),
    "ArrowLeft": ("ArrowLeft", 37, "", "\ue012"),
    "ArrowUp": ("ArrowUp", 38, "", "\ue013"),
    "ArrowRight": ("ArrowRight", 39, "", "\ue014"),
    "ArrowDown": ("ArrowDown", 40, "", "\ue015"),
    "Home": ("Home", 36, "", "\ue011"),
    "End": ("End", 35, "", "\ue010"),
    "PageUp": ("PageUp", 33, "", "\ue00e"),
    "PageDown": ("PageDown", 34, "", "\ue00f"),
    " ": ("Space", 32, " ", " "),
}


class BrowserFault(Exception):
    """A browser that does not answer, or answers with a fault."""


class Browser:
    """One browser with one page."""

    name = ""
    programs = ()

    def __init__(self):
        self.folder = TemporaryDirectory(ignore_cleanup_errors=True)
        self.process, self.next, self.answers, self.requests, self.faults, self.patience = None, 0, Queue(), [], [], SECONDS
        try:
            self.start(self.program(), Path(self.folder.name))
        except BaseException:
            self.close()
            raise

    @classmethod
    def program(cls):
        """The path of the program, or None where it is not there."""
        return next(filter(None, map(shutil.which, cls.programs)), None)

    def __enter__(self):
        return self

    def __exit__(self, *_fault):
        self.close()

    def close(self):
        if self.process:
            self.process.terminate()
            try:
                self.process.wait(10)
            except subprocess.TimeoutExpired:
                self.process.kill()
                self.process.wait()
        self.folder.cleanup()

    # the protocol

    def write(self, message):
        raise NotImplementedError

    def messages(self):
        """Each message that the browser sends."""
        raise NotImplementedError

    def heard(self, message):
        """An event."""
        raise NotImplementedError

    def listen(self):
        """Reads what the browser sends, beside all else."""
        try:
            for message in self.messages():
                if "id" in message and message["id"] is not None:
                    self.answers.put(message)
                else:
                    self.heard(message)
        except (OSError, ValueError):
            pass
        self.answers.put(None)

    def call(self, method, **params):
        self.next += 1
        self.write({"id": self.next, "method": method, "params": params, **self.session_of(method)})
        until = time.monotonic() + self.patience
        while True:
            try:
                answer = self.answers.get(timeout=max(0.01, until - time.monotonic()))
            except Empty:
                raise BrowserFault(f"{self.name}: no answer to {method}") from None
            if answer is None:
                raise BrowserFault(f"{self.name}: it has ended before {method}")
            if answer["id"] != self.next:
                continue
            if "error" in answer:
                raise BrowserFault(f"{self.name}: {method}: {answer.get('message') or answer['error']}")
            return answer["result"]

    def session_of(self, _method):
        return {}

    # what a page does

    def open(self, path, fragment=""):
        """Opens a file, and waits until it is there."""
        self.requests.clear()
        self.faults.clear()
        self.go(Path(path).resolve().as_uri() + fragment)

    def run(self, expression):
        """The value of an expression in the page."""
        return json.loads(self.told(f"(async () => JSON.stringify(await ({expression}) ?? null))()"))

    def wait_for(self, expression, seconds=SECONDS):
        """Waits until an expression holds, and gives its value."""
        until = time.monotonic() + seconds
        while not (value := self.run(expression)):
            if time.monotonic() > until:
                raise BrowserFault(f"{self.name}: {expression} does not come to hold")
            time.sleep(0.02)
        return value

    def arrive(self, url):
        """Waits until the page of an address is there. Before that a page may go away while it is asked."""
        until = time.monotonic() + SECONDS
        there = f"location.href.startsWith({json.dumps(url.split('#')[0])}) && document.readyState === 'complete'"
        self.patience = SECONDS_OF_LEAVING
        try:
            while not self.holds(there):
                if time.monotonic() > until:
                    raise BrowserFault(f"{self.name}: {url} does not open")
                time.sleep(0.05)
        finally:
            self.patience = SECONDS

    def holds(self, expression):
        """Whether an expression holds, and there is a page that can be asked."""
        try:
            return self.run(expression)
        except BrowserFault:
            return False

    def keys(self, *names):
        for name in names:
            self.key(name)

    def wrong(self):
        """What went wrong in the page that is open: what its policy refused, and faults of its scripts."""
        return [f"the policy refused {one}" for one in self.run("window.refused")] + self.faults

    def asked_for(self):
        """What the page asked for, besides itself."""
        asked = self.run("performance.getEntriesByType('resource').map(one => one.name)")
        own = self.run("location.href.replace(/#.*/, '')")
        return [one for one in [*self.requests, *asked] if one.split("#")[0] != own and not one.startswith(("data:", "blob:", "about:", "chrome:"))]


class Chromium(Browser):
    """Chromium, by the protocol of its own tools."""

    name = "Chromium"
    programs = ("chromium", "chromium-browser", "google-chrome")
    FLAGS = ["--headless=new", "--remote-debugging-pipe", "--no-first-run", "--disable-background-networking", "--disable-gpu", "--disable-dev-shm-usage"]
    FLAGS += ["--mute-audio", "--hide-scrollbars", "--disable-extensions", "--no-default-browser-check"]

    def start(self, program, folder):
        self.session = None
        reads, self.out = os.pipe()
        self.into, writes = os.pipe()
        # The browser reads its descriptor 3 and writes to 4. A shell puts them there, whatever the numbers are here.
        flags = [*self.FLAGS, f"--user-data-dir={folder}", *["--no-sandbox"] * (os.geteuid() == 0), "about:blank"]
        line = f'exec "$0" "$@" 3<&{reads} 4>&{writes}'
        self.process = subprocess.Popen(["bash", "-c", line, program, *flags], pass_fds=(reads, writes), stderr=subprocess.DEVNULL, stdout=subprocess.DEVNULL)
        os.close(reads)
        os.close(writes)
        Thread(target=self.listen, daemon=True).start()
        target = self.call("Target.createTarget", url="about:blank")["targetId"]
        self.session = self.call("Target.attachToTarget", targetId=target, flatten=True)["sessionId"]
        for domain in ("Page", "Runtime", "Network", "Log"):
            self.call(f"{domain}.enable")
        self.call("Page.addScriptToEvaluateOnNewDocument", source=WATCH)
        self.size(WIDTH, HEIGHT)

    def close(self):
        super().close()
        for one in (getattr(self, "out", None), getattr(self, "into", None)):
            if one is not None:
                try:
                    os.close(one)
                except OSError:
                    pass

    def session_of(self, method):
        return {} if method.startswith("Target.") or self.session is None else {"sessionId": self.session}

    def write(self, message):
        text = json.dumps(message).encode() + b"\0"
        while text:
            text = text[os.write(self.out, text) :]

    def messages(self):
        rest = b""
        while part := os.read(self.into, 1 << 20):
            *whole, rest = (rest + part).split(b"\0") if b"\0" in part else ([] + [rest + part])
            yield from map(json.loads, whole)

    def heard(self, message):
        method, params = message.get("method"), message.get("params", {})
        if method == "Network.requestWillBeSent":
            self.requests.append(params["request"]["url"])
        elif method == "Runtime.exceptionThrown":
            details = params["exceptionDetails"]
            self.faults.append(details.get("exception", {}).get("description", details["text"]))
        elif method == "Log.entryAdded" and params["entry"]["level"] == "error":
            self.faults.append(params["entry"]["text"])

    def go(self, url):
        # Where only the fragment differs the document would stay.
        self.call("Page.navigate", url="about:blank")
        self.requests.clear()
        wrong = self.call("Page.navigate", url=url).get("errorText")
        if wrong:
            raise BrowserFault(f"{self.name}: {url}: {wrong}")
        self.arrive(url)

    def told(self, expression):
        ran = self.call("Runtime.evaluate", expression=expression, awaitPromise=True, returnByValue=True)
        if "exceptionDetails" in ran:
            raise BrowserFault(f"{self.name}: {ran['exceptionDetails'].get('exception', {}).get('description')}")
        return ran["result"]["value"]

    def key(self, name, shift=False):
        code, number, text, _other = KEYS[name]
        params = {"key": name, "code": code, "windowsVirtualKeyCode": number, "modifiers": 8 if shift else 0}
        self.call("Input.dispatchKeyEvent", type="keyDown", **params, **({"text": text} if text else {}))
        self.call("Input.dispatchKeyEvent", type="keyUp", **params)

    def type(self, text):
        self.call("Input.insertText", text=text)

    def size(self, width, height):
        self.call("Emulation.setDeviceMetricsOverride", width=width, height=height, deviceScaleFactor=1, mobile=False)

    def theme(self, name):
        self.call("Emulation.setEmulatedMedia", features=[{"name": "prefers-color-scheme", "value": name}])

    def shot(self, path, whole=False):
        """A picture of what is seen, or of the whole page."""
        clip = {}
        if whole:
            size = self.call("Page.getLayoutMetrics")["cssContentSize"]
            clip = {"clip": {"x": 0, "y": 0, "width": size["width"], "height": size["height"], "scale": 1}, "captureBeyondViewport": True}
        Path(path).write_bytes(b64decode(self.call("Page.captureScreenshot", format="png", **clip)["data"]))

    def printed(self, path):
        """The page on paper, as a PDF."""
        Path(path).write_bytes(b64decode(self.call("Page.printToPDF", printBackground=False, preferCSSPageSize=True)["data"]))

    def accessible(self):
        """Each node that one who does not see the page is told of: its role, its name, what describes it."""
        nodes = self.call("Accessibility.getFullAXTree")["nodes"]
        return [
            {part: one.get(part, {}).get("value", "") for part in ("role", "name", "description")}
            for one in nodes
            if not one["ignored"]
        ]


class Firefox(Browser):
    """Firefox, by WebDriver BiDi."""

    name = "Firefox"
    programs = ("firefox-esr", "firefox")
    SETTINGS = {
        "app.update.auto": False,
        "browser.shell.checkDefaultBrowser": False,
        "datareporting.policy.dataSubmissionEnabled": False,
        "toolkit.telemetry.enabled": False,
        "browser.newtabpage.enabled": False,
        "network.captive-portal-service.enabled": False,
        "network.connectivity-service.enabled": False,
        "ui.systemUsesDarkTheme": 0,
        # Without a window that has the focus keys press no button.
        "focusmanager.testmode": True,
    }

    def start(self, program, folder):
        (folder / "user.js").write_text("".join(f"user_pref({json.dumps(name)}, {json.dumps(value)});\n" for name, value in self.SETTINGS.items()))
        words = [program, "--headless", "--no-remote", "--profile", str(folder), "--remote-debugging-port=0", "about:blank"]
        # A window manager, a home and a session of the user are not needed.
        settings = {**os.environ, "HOME": str(folder), "MOZ_HEADLESS": "1"}
        self.process = subprocess.Popen(words, stdout=subprocess.DEVNULL, stderr=subprocess.PIPE, env=settings, text=True)
        port = self.port()
        Thread(target=lambda: [None for _line in self.process.stderr], daemon=True).start()
        self.connect(port)
        Thread(target=self.listen, daemon=True).start()
        self.call("session.new", capabilities={})
        self.context = self.call("browsingContext.create", type="window")["context"]
        self.call("browsingContext.activate", context=self.context)
        self.call("session.subscribe", events=["network.beforeRequestSent", "log.entryAdded"])
        self.call("script.addPreloadScript", functionDeclaration=f"() => {{ {WATCH} }}")
        self.size(WIDTH, HEIGHT)

    def port(self):
        for line in self.process.stderr:
            if "BiDi listening on ws://" in line:
                return int(line.rsplit(":", 1)[1])
        raise BrowserFault(f"{self.name}: it does not start")

    def connect(self, port):
        """Opens a web socket."""
        self.socket = create_connection(("127.0.0.1", port), SECONDS)
        key = b64encode(os.urandom(16)).decode()
        self.socket.sendall(
            f"GET /session HTTP/1.1\r\nHost: 127.0.0.1:{port}\r\nUpgrade: websocket\r\nConnection: Upgrade\r\n"
            f"Sec-WebSocket-Key: {key}\r\nSec-WebSocket-Version: 13\r\n\r\n".encode()
        )
        head = b""
        while b"\r\n\r\n" not in head:
            head += self.socket.recv(1)
        if b" 101 " not in head.split(b"\r\n")[0]:
            raise BrowserFault(f"{self.name}: no web socket")
        self.socket.settimeout(None)

    def close(self):
        if hasattr(self, "socket"):
            self.socket.close()
        super().close()

    def frame(self, kind, content):
        length = len(content)
        size = bytes([128 | length]) if length < 126 else pack("!BH", 254, length) if length < 1 << 16 else pack("!BQ", 255, length)
        mask = os.urandom(4)
        self.socket.sendall(bytes([128 | kind]) + size + mask + bytes(one ^ mask[place % 4] for place, one in enumerate(content)))

    def write(self, message):
        self.frame(1, json.dumps(message).encode())

    def read(self, count):
        got = b""
        while len(got) < count:
            part = self.socket.recv(min(count - len(got), 1 << 20))
            if not part:
                raise OSError("the browser has ended")
            got += part
        return got

    def messages(self):
        whole = b""
        while True:
            first, second = self.read(2)
            length = second & 127
            length = unpack("!H", self.read(2))[0] if length == 126 else unpack("!Q", self.read(8))[0] if length == 127 else length
            content, kind = self.read(length), first & 15
            if kind == 8:
                return
            if kind == 9:
                self.frame(10, content)
                continue
            if kind == 10:
                continue
            whole += content
            if first & 128:
                yield json.loads(whole)
                whole = b""

    def heard(self, message):
        params = message.get("params", {})
        if message.get("method") == "network.beforeRequestSent":
            self.requests.append(params["request"]["url"])
        elif message.get("method") == "log.entryAdded" and params["level"] == "error":
            self.faults.append(params["text"])

    def go(self, url):
        self.call("browsingContext.navigate", context=self.context, url="about:blank", wait="none")
        self.arrive("about:blank")
        self.requests.clear()
        self.call("browsingContext.navigate", context=self.context, url=url, wait="none")
        self.arrive(url)

    def told(self, expression):
        ran = self.call("script.evaluate", expression=expression, target={"context": self.context}, awaitPromise=True)
        if ran["type"] != "success":
            raise BrowserFault(f"{self.name}: {ran['exceptionDetails']['text']}")
        return ran["result"]["value"]

    def key(self, name, shift=False):
        value = KEYS[name][3]
        presses = [{"type": "keyDown", "value": value}, {"type": "keyUp", "value": value}]
        if shift:
            presses = [{"type": "keyDown", "value": "\ue008"}, *presses, {"type": "keyUp", "value": "\ue008"}]
        self.call("input.performActions", context=self.context, actions=[{"type": "key", "id": "keys", "actions": presses}])

    def type(self, text):
        presses = [{"type": kind, "value": one} for one in text for kind in ("keyDown", "keyUp")]
        self.call("input.performActions", context=self.context, actions=[{"type": "key", "id": "keys", "actions": presses}])

    def size(self, width, height):
        self.call("browsingContext.setViewport", context=self.context, viewport={"width": width, "height": height})

    def shot(self, path, whole=False):
        origin = "document" if whole else "viewport"
        Path(path).write_bytes(b64decode(self.call("browsingContext.captureScreenshot", context=self.context, origin=origin)["data"]))

    def printed(self, path):
        Path(path).write_bytes(b64decode(self.call("browsingContext.print", context=self.context)["data"]))


ALL = [Chromium, Firefox]


def there():
    """The browsers of this machine."""
    return [one for one in ALL if one.program()]
