"""A headless Chromium that is led over two pipes (its DevTools protocol, a message a JSON text with a zero byte behind it)."""
import base64
import fcntl
import json
import os
import shutil
import struct
import subprocess
import tempfile
import zlib
from collections import Counter

NAMES = ("chromium", "chromium-browser", "google-chrome")
FLAGS = ["--headless", "--no-sandbox", "--disable-gpu", "--hide-scrollbars", "--no-first-run", "--remote-debugging-pipe"]
KEYS = {"Enter": 13, "End": 35, "Home": 36, "ArrowLeft": 37, "ArrowRight": 39}
SHIFT = 8
# Lower numbers are those that the browser expects its own pipes at.
HIGH = 20


def program():
    """The installed Chromium, or None."""
    return next((found for found in map(shutil.which, NAMES) if found), None)


class Browser:
    def __init__(self, path):
        self.home = tempfile.mkdtemp()
        orders, self.orders = self.pipe()
        self.replies, replies = self.pipe()

        def pipes():
            os.dup2(orders, 3)
            os.dup2(replies, 4)

        self.process = subprocess.Popen([path, *FLAGS, f"--user-data-dir={self.home}"], preexec_fn=pipes, pass_fds=(3, 4),
                                        stdin=subprocess.DEVNULL, stdout=subprocess.DEVNULL, stderr=subprocess.DEVNULL)
        os.close(orders)
        os.close(replies)
        self.rest, self.count, self.heard = b"", 0, []

    @staticmethod
    def pipe():
        ends = os.pipe()
        moved = [fcntl.fcntl(end, fcntl.F_DUPFD_CLOEXEC, HIGH) for end in ends]
        for end in ends:
            os.close(end)
        return moved

    def message(self):
        while b"\0" not in self.rest:
            more = os.read(self.replies, 1 << 20)
            if not more:
                raise RuntimeError("the browser has ended")
            self.rest += more
        text, self.rest = self.rest.split(b"\0", 1)
        return json.loads(text)

    def call(self, method, session=None, **params):
        """Makes a call and gives its result; events that come in between are kept."""
        self.count += 1
        order = {"id": self.count, "method": method, "params": params, **({"sessionId": session} if session else {})}
        data = json.dumps(order).encode() + b"\0"
        while data:
            data = data[os.write(self.orders, data):]
        while True:
            reply = self.message()
            if reply.get("id") == self.count:
                if "error" in reply:
                    raise RuntimeError(f"{method}: {reply['error']}")
                return reply["result"]
            self.heard.append(reply)

    def wait(self, method, session):
        while not any(one.get("method") == method and one.get("sessionId") == session for one in self.heard):
            self.heard.append(self.message())

    def close(self):
        self.call("Browser.close")
        self.process.wait(timeout=30)
        shutil.rmtree(self.home, ignore_errors=True)


class Tab:
    """A page from a file, at a size, light or dark."""

    def __init__(self, browser, path, size, dark=False):
        self.browser = browser
        self.target = browser.call("Target.createTarget", url="about:blank")["targetId"]
        self.session = browser.call("Target.attachToTarget", targetId=self.target, flatten=True)["sessionId"]
        for domain in ("Page", "Runtime", "Network"):
            self.call(f"{domain}.enable")
        self.call("Emulation.setDeviceMetricsOverride", width=size[0], height=size[1], deviceScaleFactor=1, mobile=size[0] < 500)
        self.call("Emulation.setTouchEmulationEnabled", enabled=True)
        scheme = {"name": "prefers-color-scheme", "value": "dark" if dark else "light"}
        self.call("Emulation.setEmulatedMedia", features=[scheme])
        self.call("Page.navigate", url=f"file://{path}")
        browser.wait("Page.loadEventFired", self.session)

    def call(self, method, **params):
        return self.browser.call(method, self.session, **params)

    def value(self, script):
        """What a script gives."""
        result = self.call("Runtime.evaluate", expression=script, returnByValue=True)
        if "exceptionDetails" in result:
            raise RuntimeError(result["exceptionDetails"])
        return result["result"].get("value")

    def said(self, method):
        return [one["params"] for one in self.browser.heard if one.get("method") == method and one.get("sessionId") == self.session]

    def press(self, key, shift=False):
        for kind in ("rawKeyDown", "keyUp"):
            modifiers = SHIFT if shift else 0
            self.call("Input.dispatchKeyEvent", type=kind, key=key, code=key, windowsVirtualKeyCode=KEYS[key], modifiers=modifiers)

    def draw(self, places):
        """A finger that goes from place to place."""
        self.call("Input.dispatchTouchEvent", type="touchStart", touchPoints=[places[0]])
        for place in places[1:]:
            self.call("Input.dispatchTouchEvent", type="touchMove", touchPoints=[place])
        self.call("Input.dispatchTouchEvent", type="touchEnd", touchPoints=[])

    def picture(self, path):
        with open(path, "wb") as out:
            out.write(base64.b64decode(self.call("Page.captureScreenshot", format="png")["data"]))

    def close(self):
        self.browser.call("Target.closeTarget", targetId=self.target)


# ---- a smaller picture

def chunks(png):
    place = 8
    while place < len(png):
        length, kind = struct.unpack(">I4s", png[place:place + 8])
        yield kind, png[place + 8:place + 8 + length]
        place += 12 + length


def lines(width, deep, data):
    """The lines of pixels, after the filters of PNG are undone."""
    above = bytes(width * deep)
    for start in range(0, len(data), 1 + width * deep):
        kind, line = data[start], bytearray(data[start + 1:start + 1 + width * deep])
        for at in range(len(line)) if kind else ():
            left, up, corner = (line[at - deep] if at >= deep else 0), above[at], (above[at - deep] if at >= deep else 0)
            near = min((left, up, corner), key=lambda one: abs(left + up - corner - one))
            line[at] = (line[at] + (0, left, up, (left + up) // 2, near)[kind]) & 255
        yield bytes(line)
        above = line


def few_colours(png):
    """The same picture in at most 256 colours, each of sixteen levels of red, green and blue."""
    found = list(chunks(png))
    width, height, _, kind = struct.unpack(">IIBB", found[0][1][:10])
    deep = {2: 3, 6: 4}[kind]
    data = zlib.decompress(b"".join(body for name, body in found if name == b"IDAT"))
    rounded = bytes((level + 8) // 17 * 17 for level in range(256))
    rows = [[line[at:at + 3].translate(rounded) for at in range(0, len(line), deep)] for line in lines(width, deep, data)]
    palette = [colour for colour, _ in Counter(pixel for row in rows for pixel in row).most_common(256)]
    far = lambda one, other: sum((a - b) ** 2 for a, b in zip(one, other))
    places = {}
    for pixel in {pixel for row in rows for pixel in row}:
        places[pixel] = palette.index(min(palette, key=lambda one: far(one, pixel)))
    packed = zlib.compress(b"".join(b"\0" + bytes(places[pixel] for pixel in row) for row in rows), 9)
    chunk = lambda name, body: struct.pack(">I", len(body)) + name + body + struct.pack(">I", zlib.crc32(name + body))
    head = struct.pack(">IIBBBBB", width, height, 8, 3, 0, 0, 0)
    return png[:8] + chunk(b"IHDR", head) + chunk(b"PLTE", b"".join(palette)) + chunk(b"IDAT", packed) + chunk(b"IEND", b"")
