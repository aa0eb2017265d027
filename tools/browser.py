"""A page of crates/pool_audit/page.html with data in it, and a headless Chromium that shows it, spoken to by the DevTools protocol over
two pipes. `tools/pages` and `tools/tries/page.py` have it in common."""
import base64
import contextlib
import fcntl
import hashlib
import json
import os
import select
import shutil
import signal
import struct
import subprocess
import tempfile
import time
import zlib

TOP = os.path.dirname(os.path.dirname(os.path.realpath(__file__)))
PAGE = os.path.join(TOP, "crates", "pool_audit", "page.html")
PLACE = "/*DATA*/null"
SECONDS = 60
KEYS = {"Tab": 9, "Escape": 27, "End": 35, "Home": 36, "ArrowLeft": 37, "ArrowUp": 38, "ArrowRight": 39, "ArrowDown": 40}
WORDS = ["--headless", "--disable-gpu", "--no-first-run", "--disable-extensions", "--disable-background-networking", "--disable-sync",
         "--disable-component-update", "--disable-default-apps", "--disable-renderer-backgrounding",
         "--disable-backgrounding-occluded-windows",
         "--hide-scrollbars", "--force-color-profile=srgb", "--remote-debugging-pipe"]


def program():
    """The browser, or None where there is none."""
    return shutil.which("chromium")


def page_text():
    with open(PAGE, encoding="utf-8") as file:
        return file.read()


def filled(text, data):
    """The page with the data in it."""
    return text.replace(PLACE, data.replace("<", "\\u003c"), 1)


def high(pipe_end):
    """The same end of a pipe under a number that is not one of the two which the browser takes."""
    copy = fcntl.fcntl(pipe_end, fcntl.F_DUPFD_CLOEXEC, 10)
    os.close(pipe_end)
    return copy


# Of a PNG in base64: the 256 colours that it has most of, and the place of the nearest one for each of its pixels.
FEW_COLOURS = """async text => {
  const image = new Image();
  image.src = "data:image/png;base64," + text;
  await image.decode();
  const { width, height } = image, pen = Object.assign(document.createElement("canvas"), { width, height }).getContext("2d");
  pen.drawImage(image, 0, 0);
  const seen = new Uint32Array(pen.getImageData(0, 0, width, height).data.buffer), counts = new Map();
  for (const it of seen) counts.set(it, (counts.get(it) ?? 0) + 1);
  const parts = it => [it & 255, it >> 8 & 255, it >> 16 & 255];
  const far = (one, other) => one.reduce((all, it, at) => all + (it - other[at]) ** 2, 0);
  const most = [...counts].sort((one, other) => other[1] - one[1]).slice(0, 256).map(it => parts(it[0])), places = new Map();
  for (const it of counts.keys()) {
    const one = parts(it);
    places.set(it, most.reduce((best, other, at) => far(one, other) < far(one, most[best]) ? at : best, 0));
  }
  const coded = bytes => {
    let text = "";
    for (let at = 0; at < bytes.length; at += 8192) text += String.fromCharCode(...bytes.slice(at, at + 8192));
    return btoa(text);
  };
  return { width, palette: coded(most.flat()), places: coded(Uint8Array.from(seen, it => places.get(it))) };
}"""


def chunk(kind, data):
    return struct.pack(">I", len(data)) + kind + data + struct.pack(">I", zlib.crc32(kind + data))


def note_of(data):
    """What a picture says of the data that it shows: by this it is known when it is of other data."""
    return b"Comment\0data " + hashlib.sha256(data.encode()).hexdigest().encode()


def png(width, palette, places, data):
    """A PNG of the data whose pixels are places in a palette."""
    rows = [b"\0" + places[at:at + width] for at in range(0, len(places), width)]
    head = chunk(b"IHDR", struct.pack(">IIBBBBB", width, len(rows), 8, 3, 0, 0, 0)) + chunk(b"tEXt", note_of(data)) + chunk(b"PLTE", palette)
    return b"\x89PNG\r\n\x1a\n" + head + chunk(b"IDAT", zlib.compress(b"".join(rows), 9)) + chunk(b"IEND", b"")


class Failed(Exception):
    """The browser refused a command, or a script of the page's failed."""


class Browser:
    """One page of one browser. `events` are those that came since they were last taken."""

    def __init__(self, folder):
        given, asks = map(high, os.pipe())
        answers, gives = map(high, os.pipe())
        words = [program(), *WORDS, f"--user-data-dir={folder}", *(["--no-sandbox"] if os.geteuid() == 0 else []), "about:blank"]

        def place_pipes():
            os.dup2(given, 3)
            os.dup2(gives, 4)

        self.process = subprocess.Popen(words, stdin=subprocess.DEVNULL, stdout=subprocess.DEVNULL, stderr=subprocess.DEVNULL,
                                        preexec_fn=place_pipes, pass_fds=(3, 4), start_new_session=True)
        os.close(given)
        os.close(gives)
        self.asks, self.answers = asks, answers
        self.rest, self.count, self.session, self.events = b"", 0, None, []
        target = next(it for it in self.ask("Target.getTargets")["targetInfos"] if it["type"] == "page")
        self.session = self.ask("Target.attachToTarget", targetId=target["targetId"], flatten=True)["sessionId"]
        for domain in ["Page", "Runtime", "Network", "Log", "DOM"]:
            self.ask(f"{domain}.enable")
        self.ask("Performance.enable", timeDomain="threadTicks")

    def read(self, until):
        """The next message of the browser."""
        while b"\0" not in self.rest:
            if not select.select([self.answers], [], [], max(0, until - time.monotonic()))[0]:
                raise Failed("no answer in time")
            came = os.read(self.answers, 1 << 20)
            if not came:
                raise Failed("the browser ended")
            self.rest += came
        message, _, self.rest = self.rest.partition(b"\0")
        return json.loads(message)

    def send(self, method, **params):
        self.count += 1
        message = {"id": self.count, "method": method, "params": params, **({"sessionId": self.session} if self.session else {})}
        text = json.dumps(message).encode() + b"\0"
        while text:
            text = text[os.write(self.asks, text):]
        return self.count

    def keep(self, event):
        """An event for later. A dialog, which would stop the page, is closed."""
        self.events.append(event)
        if event.get("method") == "Page.javascriptDialogOpening":
            self.send("Page.handleJavaScriptDialog", accept=True)

    def ask(self, method, **params):
        """The answer to a command. Events that come before it are kept."""
        number, until = self.send(method, **params), time.monotonic() + SECONDS
        while True:
            answer = self.read(until)
            if answer.get("id") == number:
                if "error" in answer:
                    raise Failed(f"{method}: {answer['error']}")
                return answer["result"]
            self.keep(answer)

    def worked(self):
        """The seconds of processor time that the page has taken, which do not depend on what else the machine does."""
        return next(it["value"] for it in self.ask("Performance.getMetrics")["metrics"] if it["name"] == "TaskDuration")

    def wait_for(self, method):
        until = time.monotonic() + SECONDS
        while not any(it.get("method") == method for it in self.events):
            self.keep(self.read(until))

    def run(self, script):
        """The value of a script in the page."""
        done = self.ask("Runtime.evaluate", expression=script, returnByValue=True, awaitPromise=True)
        if "exceptionDetails" in done:
            raise Failed(f"{script}: {done['exceptionDetails']}")
        return done["result"].get("value")

    def settle(self):
        """Waits until what was asked for is drawn, or until it is clear that no frame comes."""
        self.run("new Promise(done => { requestAnimationFrame(() => requestAnimationFrame(done)); setTimeout(done, 5000); })")

    def show(self, width, height=900, dark=False, media="screen"):
        self.ask("Emulation.setDeviceMetricsOverride", width=width, height=height, deviceScaleFactor=1, mobile=False)
        scheme = {"name": "prefers-color-scheme", "value": "dark" if dark else "light"}
        self.ask("Emulation.setEmulatedMedia", media=media, features=[scheme])

    def open_url(self, url):
        """Loads it, and drops the events of what was shown before."""
        self.events = []
        self.ask("Page.navigate", url=url)
        self.wait_for("Page.loadEventFired")
        self.settle()

    def open(self, path):
        self.open_url(f"file://{path}")

    def move(self, x, y, kind="mouseMoved", **more):
        self.ask("Input.dispatchMouseEvent", type=kind, x=x, y=y, **more)
        self.settle()

    def click(self, x, y, times=1):
        for count in range(1, times + 1):
            for kind in ["mousePressed", "mouseReleased"]:
                self.ask("Input.dispatchMouseEvent", type=kind, x=x, y=y, button="left", clickCount=count)
        self.settle()

    def press(self, key, shift=False):
        text = {"text": key} if len(key) == 1 else {}
        for kind in ["keyDown", "keyUp"]:
            self.ask("Input.dispatchKeyEvent", type=kind, key=key, windowsVirtualKeyCode=KEYS.get(key, 0), modifiers=8 if shift else 0,
                     **(text if kind == "keyDown" else {}))
        self.settle()

    def picture(self, path, data):
        """A PNG of the whole page, which shows the data, of 256 colours, which take less than half of the room."""
        size = self.ask("Page.getLayoutMetrics")["cssContentSize"]
        clip = {"x": 0, "y": 0, "width": size["width"], "height": size["height"], "scale": 1}
        done = self.ask("Page.captureScreenshot", format="png", captureBeyondViewport=True, clip=clip)
        self.open_url("about:blank")
        seen = self.run(f"({FEW_COLOURS})({json.dumps(done['data'])})")
        with open(path, "wb") as file:
            file.write(png(seen["width"], base64.b64decode(seen["palette"]), base64.b64decode(seen["places"]), data))

    def end(self):
        for pipe_end in (self.asks, self.answers):
            os.close(pipe_end)
        with contextlib.suppress(ProcessLookupError):
            os.killpg(self.process.pid, signal.SIGKILL)
        self.process.wait()


@contextlib.contextmanager
def started():
    """A browser and a folder for its pages, both gone in the end."""
    with tempfile.TemporaryDirectory(ignore_cleanup_errors=True) as folder:
        browser = Browser(os.path.join(folder, "profile"))
        try:
            yield browser, folder
        finally:
            browser.end()


def put_page(folder, name, text):
    path = os.path.join(folder, name)
    with open(path, "w", encoding="utf-8") as file:
        file.write(text)
    return path
