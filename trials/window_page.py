#!/usr/bin/env python3
"""Looks at the page of the window in Chromium (Debian's package), headless: compares the numbers that it shows with those that were
sent, looks whether a name of a host became a part of it, walks it with the keyboard and as a screen reader does, and takes pictures at
three widths, light and dark: of an array that is well, of one whose controller is down, whose disk failed, hangs and is back, and gone.

usage: trials/window_page.py [--pictures FOLDER [--seconds COUNT]]     two hosts work for so long before the first picture

The program is ./arrayd, or what the environment's ARRAYD names. Ends with status 1 where something is otherwise.
"""

import argparse
import base64
import json
import math
import os
import shutil
import signal
import socket
import struct
import subprocess
import sys
import tempfile
import time
import urllib.request

from cases import Mounted, NotHere, is_so
from free_port import free_port
from initiator import GOOD, Session
from running import PORT, TARGET, Array, Wrong, made

AT = free_port()
DEBUG = free_port()
NAME = "iqn.2000-01.test:<script>document.title='owned'</script>"
ALIAS = "<script>document.title='owned'</script>"


class Browser:
    """A page of a browser, told by the DevTools protocol over a WebSocket (RFC 6455)."""

    def __init__(self, folder):
        words = ["chromium", "--headless=new", "--no-sandbox", "--disable-gpu", f"--remote-debugging-port={DEBUG}",
                 f"--user-data-dir={folder}/browser", "--hide-scrollbars", "about:blank"]
        self.process = subprocess.Popen(words, stdout=subprocess.DEVNULL, stderr=subprocess.DEVNULL)
        self.socket, self.number = self.connect(self.address()), 0
        self.do("Page.enable")

    @staticmethod
    def address():
        for _ in range(300):
            try:
                with urllib.request.urlopen(f"http://127.0.0.1:{DEBUG}/json") as answer:
                    pages = [one for one in json.load(answer) if one["type"] == "page"]
                if pages:
                    return pages[0]["webSocketDebuggerUrl"].split(str(DEBUG), 1)[1]
            except OSError:
                pass
            time.sleep(0.1)
        raise Wrong("no browser")

    @staticmethod
    def connect(path):
        peer = socket.create_connection(("127.0.0.1", DEBUG), timeout=30)
        key = base64.b64encode(os.urandom(16)).decode()
        peer.sendall((f"GET {path} HTTP/1.1\r\nHost: 127.0.0.1:{DEBUG}\r\nUpgrade: websocket\r\nConnection: Upgrade\r\n"
                      f"Sec-WebSocket-Key: {key}\r\nSec-WebSocket-Version: 13\r\n\r\n").encode())
        head = b""
        while not head.endswith(b"\r\n\r\n"):
            head += peer.recv(1)
        return peer

    def take(self, count):
        data = b""
        while len(data) < count:
            part = self.socket.recv(count - len(data))
            if not part:
                raise Wrong("the browser is gone")
            data += part
        return data

    def message(self):
        whole = b""
        while True:
            first, length = self.take(2)
            length &= 0x7F
            if length == 126:
                length = struct.unpack(">H", self.take(2))[0]
            elif length == 127:
                length = struct.unpack(">Q", self.take(8))[0]
            whole += self.take(length)
            if first & 0x80:
                return json.loads(whole)

    def do(self, method, **words):
        self.number += 1
        data = json.dumps({"id": self.number, "method": method, "params": words}).encode()
        size = struct.pack(">BH", 0xFE, len(data)) if len(data) > 125 else bytes([0x80 | len(data)])
        mask = os.urandom(4)
        self.socket.sendall(b"\x81" + size + mask + bytes(b ^ mask[at % 4] for at, b in enumerate(data)))
        while True:
            message = self.message()
            if message.get("id") == self.number:
                if "error" in message:
                    raise Wrong(f"{method}: {message['error']}")
                return message["result"]

    def value(self, expression):
        told = self.do("Runtime.evaluate", expression=expression, returnByValue=True, awaitPromise=True)
        if "exceptionDetails" in told:
            raise Wrong(f"{expression}: {told['exceptionDetails']}")
        return told["result"].get("value")

    def until(self, expression, seconds=20):
        end = time.monotonic() + seconds
        while not self.value(expression):
            if time.monotonic() > end:
                raise Wrong(f"never: {expression}")
            time.sleep(0.1)

    def picture(self, path, width, is_dark):
        self.look(width, is_dark)
        height = min(2400, self.value("document.documentElement.scrollHeight"))
        self.do("Emulation.setDeviceMetricsOverride", width=width, height=height, deviceScaleFactor=1, mobile=False)
        time.sleep(0.3)
        shot = self.do("Page.captureScreenshot", format="png")
        with open(path, "wb") as file:
            file.write(base64.b64decode(shot["data"]))

    def look(self, width, is_dark):
        self.do("Emulation.setDeviceMetricsOverride", width=width, height=900, deviceScaleFactor=1, mobile=False)
        scheme = "dark" if is_dark else "light"
        self.do("Emulation.setEmulatedMedia", features=[{"name": "prefers-color-scheme", "value": scheme}])
        time.sleep(0.3)

    def points_at(self, selector):
        """The pointer stands in the middle of this element."""
        box = self.value(f"(e => {{ e.scrollIntoView(); const b = e.getBoundingClientRect(); return [b.x + b.width / 2, b.y + b.height / 2]; }})"
                         f"(document.querySelector('{selector}'))")
        self.do("Input.dispatchMouseEvent", type="mouseMoved", x=box[0], y=box[1])

    def key(self, name, code):
        for kind in ("keyDown", "keyUp"):
            self.do("Input.dispatchKeyEvent", type=kind, key=name, code=name, windowsVirtualKeyCode=code,
                    text="\r" if name == "Enter" and kind == "keyDown" else "")

    def end(self):
        self.process.terminate()
        self.process.wait()


def cells(page, table, key):
    return page.value(f"[...document.querySelectorAll('#{table} td[data-key={key}]')].map(cell => cell.textContent)")


def numbers(page, first):
    """What the tables show of what was sent."""
    page.until("document.querySelectorAll('#unit_table tbody tr').length === 2")
    is_so("commands", cells(page, "unit_table", "commands"), ["13", "3"])
    is_so("bytes read", cells(page, "unit_table", "read"), ["28 KiB", "0 B"])
    is_so("bytes written", cells(page, "unit_table", "written"), ["12 KiB", "0 B"])
    is_so("conflicts", cells(page, "unit_table", "conflicts"), ["0", "0"])
    is_so("sessions", cells(page, "session_table", "isid"), ["0x400001370000", "0x400001370001"])
    is_so("name", cells(page, "session_table", "initiator"), [NAME, "iqn.2000-01.test:other"])
    page.until("document.getElementById('well').textContent === '\u2714 well'")
    before = page.value("past.length")
    for _ in range(5):
        first.read(0, 0, 8)
    page.until("document.querySelector('#unit_table td[data-key=commands]').textContent === '18'")
    is_so("what went on", page.value(f"past.length > {before} && past.some(point => point.one > 0)"), True)
    is_so("commands then", cells(page, "unit_table", "commands"), ["18", "3"])


def registrations(page, first, second):
    """The keys that two hosts register, and the reservation that one holds."""
    is_so("none", page.value("document.getElementById('registration_count').textContent"), "(0)")
    for end in (first.reserve_out(1, 0, new_key=0xABC), second.reserve_out(1, 0, new_key=0xDEF),
                first.reserve_out(1, 1, kind=5, key=0xABC)):
        is_so("GOOD", end.status, GOOD)
    page.until("document.querySelectorAll('#registration_table tbody tr').length === 2")
    page.until("document.querySelector('#registration_table td[data-key=holds]').textContent !== ''")
    is_so("unit", cells(page, "registration_table", "unit"), ["1", "1"])
    is_so("who is registered", cells(page, "registration_table", "initiator"), [NAME, "iqn.2000-01.test:other"])
    is_so("its ISID", cells(page, "registration_table", "isid"), ["0x400001370000", "0x400001370001"])
    is_so("its key", cells(page, "registration_table", "key"), ["0xabc", "0xdef"])
    is_so("who holds nothing", cells(page, "registration_table", "holds")[1], "")


def is_unharmed(page):
    """No name of a host is a part of the page."""
    page.until("document.title === '\u2714 well - arrayd'")
    is_so("scripts", page.value("document.scripts.length"), 1)


CHARTS = ["Commands", "Bytes", "Latency", "Unit 0: bytes", "Unit 0: mean time", "Unit 1: bytes", "Unit 1: mean time"]
TABLES = ["Units", "Calls that failed", "Sessions", "Registrations", "Controllers"]


def rates(page):
    """Of each path what it does now, what it did in all, and what was not GOOD apart."""
    shown = "[...document.querySelectorAll('#units [data-unit=\"0\"] .pair tbody tr')].map(row => row.innerText.split(/[\\n\\t]+/).filter(Boolean))"
    rows = {row[0]: row[1:] for row in page.value(shown)}
    is_so("rows", list(rows), ["state", "commands", "not GOOD", "read", "written"])
    is_so("states", rows["state"], ["active/optimized", "active/non-optimized"])
    is_so("in all", (rows["read"][1::2], rows["written"][1::2], rows["not GOOD"][1::2]), (["48 KiB", "0 B"], ["12 KiB", "0 B"], ["1", "1"]))
    is_so("a second", all(text.endswith("/s") for name in ("commands", "read", "written") for text in rows[name][::2]), True)


def past_of_before(page):
    """Charts begin with what the array kept before the page was opened, and have a gap where it began anew."""
    grows = [{"at": 1000 + 10 * at, "units": [{"reads": 10 * at, "writes": 0, "read_bytes": 40960 * at, "written_bytes": 0,
                                               "read_micros": 1500 * at, "write_micros": 0}] * 2} for at in range(3)]
    anew = [{"at": 1030 + 10 * at, "units": [{name: 0 for name in grows[0]["units"][0]}] * 2} for at in range(2)]
    told = page.value(f"""(async () => {{ const [real, was] = [window.fetch, kept];
        window.fetch = async () => ({{ ok: true, json: async () => ({{ step_seconds: 10, points: {json.dumps(grows + anew)} }}) }});
        const is = await recall(), all = [is, stepsOf(u => [u.read_bytes, u.written_bytes], 1), stepsOf(u => [u.reads]), means(0)];
        window.fetch = real; kept = was; return all; }})()""")
    is_so("asked", told[0], True)
    is_so("bytes of a unit", [step["values"] for step in told[1]], [[4096, 0], [4096, 0], [None, None], [0, 0]])
    is_so("READs of all", [(step["at"], step["values"]) for step in told[2]], [(1010, [2]), (1020, [2]), (1030, [None]), (1040, [0])])
    is_so("mean times", [step["values"] for step in told[3]], [[150, None], [150, None], [None, None], [None, None]])


def times_in_words(page):
    """A time of which the buckets alone are known."""
    is_so("words", page.value("[bounds[0], 1000, bounds.at(-1), 2 * bounds.at(-1)].map(within)"), ["\u2264 10 \u00b5s", "\u2264 1 ms", "\u2264 10 s", "> 10 s"])
    axis = page.value("(a => a.marks.map(m => m[1]))(decades(3000))")
    is_so("axis of times", axis, ["10 \u00b5s", "100 \u00b5s", "1 ms", "10 ms"])
    is_so("axes", page.value("[[1, 1000], [700, 1000], [1023, 1024], [1500000, 1024]].map(([n, s]) => linear(rate, s)(n).part(n))"),
          [1, 0.7, 1023 / 1024, 1500000 / (2 << 20)])


def tells_values(page):
    """A chart tells its values where the pointer stands, and by the arrows."""
    read = lambda: page.value("charts.bytes.reading.textContent")
    is_so("nothing yet", read(), "")
    page.points_at("#charts .card:nth-child(2) svg")
    page.until("/^[0-9:]{8} UTC: read .*, written /.test(charts.bytes.reading.textContent)")
    page.points_at("h1")
    is_so("and nothing then", read(), "")
    page.value("charts.bytes.svg.focus()")
    page.key("ArrowLeft", 37)
    last = read()
    page.key("ArrowLeft", 37)
    is_so("one before", (last != read(), " UTC: read " in read()), (True, True))
    page.key("Escape", 27)
    is_so("let go", read(), "")
    before = page.value("heard")
    page.until(f"heard > {before}")
    is_so("focus stays", page.value("document.activeElement === charts.bytes.svg"), True)


def is_reached_by_keys(page):
    page.value("document.activeElement.blur()")
    reached = []
    for _ in range(1 + len(CHARTS) + len(TABLES)):
        page.key("Tab", 9)
        reached.append(page.value("(document.activeElement.id || document.activeElement.getAttribute('aria-label') || 'none').split(',')[0]"))
    is_so("by Tab", reached, ["pause", *CHARTS, *TABLES])
    nodes = page.do("Accessibility.getFullAXTree")["nodes"]
    of = lambda role: {node["name"]["value"] for node in nodes if node.get("role", {}).get("value") == role and "name" in node}
    is_so("regions", set(TABLES) <= of("region"), True)
    is_so("charts have a text", {name.split(",")[0] for name in of("image") | of("img")} >= set(CHARTS), True)
    is_so("heads of columns and rows", (of("columnheader") >= {"unit", "controller 1"}, of("rowheader") >= {"state", "not GOOD"}), (True, True))
    page.value("document.getElementById('pause').focus()")
    page.key("Enter", 13)
    is_so("pressed", page.value("document.getElementById('pause').getAttribute('aria-pressed')"), "true")
    page.key("Enter", 13)
    is_so("and again", page.value("document.getElementById('pause').getAttribute('aria-pressed')"), "false")


def stays_selected(page):
    """What somebody has selected outlasts what is heard next."""
    page.value("getSelection().selectAllChildren(document.querySelector('#session_table td'))")
    before = page.value("heard")
    page.until(f"heard > {before}")
    is_so("selected", page.value("getSelection().toString()"), NAME)
    page.value("getSelection().removeAllRanges()")


def stands_still(page, array):
    """An array that stands still does not answer, and the page says since when."""
    os.kill(array.process.pid, signal.SIGSTOP)
    try:
        page.until("document.getElementById('well').textContent.includes('does not answer')")
        is_so("title", page.value("document.title"), "\u2718 the array does not answer - arrayd")
        page.until("/heard [0-9]+ s ago/.test(document.getElementById('heard').textContent)")
    finally:
        os.kill(array.process.pid, signal.SIGCONT)
    page.until("document.getElementById('well').textContent.includes('well')")


def fits(page):
    for width in (320, 400, 1000, 2000):
        page.look(width, False)
        is_so(f"fits {width}", page.value("document.documentElement.scrollWidth <= innerWidth"), True)
        if width >= 1000:
            cut = "[...document.querySelectorAll('.wide')].filter(e => e.scrollWidth > e.clientWidth).map(e => e.getAttribute('aria-label'))"
            is_so(f"tables that are cut at {width}", page.value(cut), [])


def pictures(page, folder, name):
    if folder:
        page.value("document.activeElement.blur()")
        for width in (400, 1000, 2000):
            for is_dark in (False, True):
                page.picture(f"{folder}/window-{name}-{width}-{'dark' if is_dark else 'light'}.png", width, is_dark)


def worked(hosts, seconds):
    """Hosts work for so many seconds, now more and now less, so that pictures have lines."""
    end = time.monotonic() + seconds
    while (left := end - time.monotonic()) > 0:
        for unit, host in enumerate(hosts):
            for _ in range(1 + int(8 * (1 + math.sin(left / (11 + 7 * unit))))):
                host.read(unit, 0, 64)
            host.write(unit, 0, bytes(8192))
        hosts[0].flush(0)
        time.sleep(0.05)


def tried(folder, to, seconds):
    disks = [made(f"{folder}/disk{unit}", 4096) for unit in range(2)]
    with Array(disks, more={"ARRAYD_HTTP": f"127.0.0.1:{AT}"}) as array:
        first = Session("127.0.0.1", PORT, TARGET, NAME, 0x400001370000, keys=[("InitiatorAlias", ALIAS)], timeout=20)
        second = Session("127.0.0.1", PORT + 4, TARGET, "iqn.2000-01.test:other", 0x400001370001, timeout=20)
        for unit in range(2):
            for session in (first, second):
                session.command(unit, [0] * 6)
        for _ in range(7):
            first.read(0, 0, 8)
        for _ in range(3):
            first.write(0, 0, bytes(4096))
        first.command(0, [0] * 6)
        first.command(1, [0] * 6)
        page = Browser(folder)
        try:
            page.do("Page.navigate", url=f"http://127.0.0.1:{AT}/")
            numbers(page, first)
            registrations(page, first, second)
            is_unharmed(page)
            rates(page)
            times_in_words(page)
            past_of_before(page)
            is_reached_by_keys(page)
            tells_values(page)
            stays_selected(page)
            stands_still(page, array)
            fits(page)
            worked([first, second], seconds)
            pictures(page, to, "healthy")
            array.ask("down 1")
            page.until("document.querySelectorAll('.wire.none').length === 2")
            is_so("owners", cells(page, "unit_table", "owner"), ["controller 2", "controller 2"])
            is_so("degraded", page.value("document.getElementById('well').textContent"), "\u26a0 degraded")
            pictures(page, to, "down")
            # The disk of unit 1 becomes shorter: a read behind its end fails.
            os.truncate(disks[1], 512)
            second.command(1, [0] * 6)
            second.command(1, [0x28, 0, 0, 0, 0, 100, 0, 0, 1, 0], expected=512)
            page.until("document.querySelectorAll('#problems li').length === 2")
            is_so("wrong", page.value("document.getElementById('well').textContent"), "\u2718 1 wrong")
            pictures(page, to, "failed")
            os.truncate(disks[1], 4096 * 512)
            second.read(1, 100, 1)
            page.until("document.getElementById('well').textContent.includes('degraded')")
            is_so("what was", cells(page, "failure_table", "call"), ["read"])
            is_so("is over", cells(page, "failure_table", "over") != ["no"], True)
            pictures(page, to, "over")
            array.kill()
            page.until("document.getElementById('well').textContent.includes('does not answer')")
            pictures(page, to, "gone")
        finally:
            page.end()


def hung(folder, to):
    """A disk that hangs, and one that is back."""
    with Mounted(folder) as place, Array(place.that_hangs(), more={"ARRAYD_HTTP": f"127.0.0.1:{AT}", "ARRAYD_DEADLINE": "3"}) as array:
        host = Session("127.0.0.1", PORT, TARGET, timeout=60)
        host.ready(0)
        page = Browser(folder)
        try:
            page.do("Page.navigate", url=f"http://127.0.0.1:{AT}/")
            page.until("document.title === '\u2714 well - arrayd'")
            with place.frozen():
                host.submit(0, [0x2A, 0, 0, 0, 0, 0, 0, 0, 1, 0], out=bytes(512))
                page.until("document.title === '\u2718 1 wrong - arrayd'")
                is_so("which", page.value("document.querySelector('#problems li').textContent.includes('unit 0')"), True)
                pictures(page, to, "hung")
            page.until("document.title === '\u2714 well - arrayd'")
            is_so("what was", cells(page, "failure_table", "call")[:1], ["hung"])
            pictures(page, to, "back")
        finally:
            page.end()
        array.quit()


def main():
    words = argparse.ArgumentParser()
    words.add_argument("--pictures")
    words.add_argument("--seconds", type=int, default=0)
    wanted = words.parse_args()
    if not shutil.which("chromium"):
        print("left  page: no chromium")
        return
    for name, trial in (("page", lambda folder: tried(folder, wanted.pictures, wanted.seconds)), ("hung", lambda folder: hung(folder, wanted.pictures))):
        with tempfile.TemporaryDirectory(ignore_cleanup_errors=True) as folder:
            try:
                trial(folder)
            except NotHere as lack:
                print(f"left  {name}: {lack}")
                continue
            except Wrong as why:
                print(f"WRONG {name}: {why}")
                sys.exit(1)
        print(f"ok    {name}")


if __name__ == "__main__":
    main()
