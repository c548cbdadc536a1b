"""A browser without a window for the tests of pages, driven by Chrome's DevTools protocol."""
import json
import os
import select
import shutil
import subprocess
import time

PROGRAMS = ["chromium", "chromium-browser", "google-chrome", "chrome"]
PATIENCE = 60.0  # seconds, for an answer, and until a page is there


class Amiss(Exception):
    """The browser fails, or a page isn't what it has to be."""


def need(is_so, what):
    if not is_so:
        raise Amiss(what)


def browser_program():
    """The path of a browser, or None where there is none."""
    return next(filter(None, map(shutil.which, PROGRAMS)), None)


class Browser:
    """A browser with one page. It keeps what it has to keep in `folder`, and goes on until `with` ends."""

    def __init__(self, program, folder):
        words = ["--headless=new", "--no-sandbox", "--disable-gpu", "--no-first-run", "--remote-debugging-pipe", "--window-size=1200,750",
                 "--user-data-dir=" + folder, "about:blank"]
        # it hears by the descriptor 3, and answers by 4
        wired = ["sh", "-c", 'exec "$@" 3<&0 4>&1 </dev/null >/dev/null', "sh", program, *words]
        self.process = subprocess.Popen(wired, stdin=subprocess.PIPE, stdout=subprocess.PIPE, stderr=subprocess.DEVNULL, bufsize=0)
        self.rest, self.number, self.session, self.events = b"", 0, None, []
        try:
            target = self.ask("Target.createTarget", url="about:blank")["targetId"]
            self.session = self.ask("Target.attachToTarget", targetId=target, flatten=True)["sessionId"]
            for domain in ("Page", "Runtime", "Log", "Network"):
                self.ask(domain + ".enable")
        except BaseException:
            self.kill()
            raise

    def __enter__(self):
        return self

    def __exit__(self, *_):
        try:
            self.ask("Browser.close")
            self.process.wait(PATIENCE)
        except (Amiss, subprocess.TimeoutExpired):
            pass
        self.kill()

    def kill(self):
        self.process.kill()
        self.process.wait()
        self.process.stdin.close()
        self.process.stdout.close()

    def ask(self, method, **parts):
        """What the browser answers to a call of the protocol. The events that come meanwhile are kept."""
        self.number += 1
        asked = {"id": self.number, "method": method, "params": parts, **({"sessionId": self.session} if self.session else {})}
        until = time.monotonic() + PATIENCE
        try:
            self.process.stdin.write(json.dumps(asked).encode() + b"\0")
        except OSError as error:
            raise Amiss("the browser hears no more: %s" % error) from error
        while True:
            answer = self.read(until)
            if answer.get("id") == self.number:
                need("error" not in answer, "%s: %s" % (method, answer.get("error")))
                return answer["result"]
            self.events.append(answer)

    def read(self, until):
        while b"\0" not in self.rest:
            need(select.select([self.process.stdout], [], [], max(0, until - time.monotonic()))[0], "the browser doesn't answer")
            piece = self.process.stdout.read(65536)
            need(piece, "the browser has ended")
            self.rest += piece
        first, _, self.rest = self.rest.partition(b"\0")
        return json.loads(first)

    def open(self, address, is_there="true"):
        """Opens a page, and waits until it is loaded and an expression is true in it. No event of an earlier page is kept."""
        self.ask("Page.navigate", url="about:blank")
        self.events = []
        self.ask("Page.navigate", url=address)
        until = time.monotonic() + PATIENCE
        while not self.value("document.readyState === 'complete' && location.protocol !== 'about:' && (%s)" % is_there):
            need(time.monotonic() < until, "the page isn't there")
            time.sleep(0.02)
        self.settle()

    def settle(self):
        """Waits until what is due was painted."""
        self.ask("Runtime.evaluate", expression="new Promise((done) => requestAnimationFrame(() => requestAnimationFrame(done)))", awaitPromise=True)

    def value(self, expression):
        """The value of an expression in the page."""
        answer = self.ask("Runtime.evaluate", expression=expression, returnByValue=True)
        need("exceptionDetails" not in answer, "%s: %s" % (expression[:80], answer.get("exceptionDetails", {}).get("exception", {}).get("description")))
        return answer["result"].get("value")

    def key(self, key, code=None, text=None):
        for kind in ("keyDown", "keyUp"):
            self.ask("Input.dispatchKeyEvent", type=kind, key=key, code=code or key, **({"text": text} if text and kind == "keyDown" else {}))
        self.settle()

    def click(self, selector):
        box = "document.querySelector(%s).getBoundingClientRect()" % json.dumps(selector)
        place = self.value("(it => [it.x + it.width / 2, it.y + it.height / 2])(%s)" % box)
        for kind in ("mousePressed", "mouseReleased"):
            self.ask("Input.dispatchMouseEvent", type=kind, x=place[0], y=place[1], button="left", clickCount=1)
        self.settle()

    def check_quiet(self, own):
        """Whether the page threw nothing, said nothing in the console, and asked for nothing but what begins with `own`."""
        for event in self.events:
            method, parts = event.get("method"), event.get("params", {})
            need(method not in ("Runtime.exceptionThrown", "Runtime.consoleAPICalled"), "the page says %s" % json.dumps(parts)[:300])
            need(method != "Log.entryAdded" or parts["entry"]["level"] not in ("error", "warning"), "the browser says %s" % json.dumps(parts)[:300])
            url = parts["request"]["url"] if method == "Network.requestWillBeSent" else own
            need(url.startswith((own, "about:")), "a request for %s" % url)
