"""A page in Chromium, over a pipe to it, in Firefox, over WebDriver BiDi, and in WebKitGTK, whose
engine is that of Safari, over WebDriver: each is driven in the same words. Firefox needs
python3-websocket, and WebKitGTK Xvfb and WebKitWebDriver."""
import base64
import json
import os
import pathlib
import re
import select
import shutil
import signal
import subprocess
import tempfile
import time
import urllib.error
import urllib.request

KEYS = {
    # the code of each key, its number, the text that it writes, and its character in WebDriver
    "Enter": ("Enter", 13, "\r", "\ue007"), "Space": ("Space", 32, " ", " "),
    "Tab": ("Tab", 9, "", "\ue004"),
    "ArrowUp": ("ArrowUp", 38, "", "\ue013"), "ArrowDown": ("ArrowDown", 40, "", "\ue015"),
    "Delete": ("Delete", 46, "", "\ue017"),
    "ArrowLeft": ("ArrowLeft", 37, "", "\ue012"), "ArrowRight": ("ArrowRight", 39, "", "\ue014"),
    "Home": ("Home", 36, "", "\ue011"),
    "End": ("End", 35, "", "\ue010"), "Escape": ("Escape", 27, "", "\ue00c"),
}
ALT, SHIFT = 1, 8
MIDDLE = """(() => {{
  const it = document.querySelector({selector}); it.scrollIntoView({{block: "center"}});
  const {{left, top, width, height}} = it.getBoundingClientRect();
  return [left + width / 2, top + height / 2]; }})()"""


class BrowserError(Exception):
    """What a browser does not do."""


def opened(name):
    """The browser of this name, or of this path."""
    return Firefox(name) if "firefox" in name else WebKit(
        name) if "MiniBrowser" in name else Chromium(name)


class Browser:
    """A browser with one page, in a room of its own, and the folder to which it saves."""

    # whether it is driven as far as this: a drag from outside, scripts before those of a page, dark
    # windows, and windows of any size
    has_drags = has_scripts = has_looks = has_windows = False

    def __init__(self):
        self.room = pathlib.Path(tempfile.mkdtemp(prefix="pslink-page-"))
        self.saved = self.room / "saved"
        self.saved.mkdir()
        self.log = open(self.room / "log", "w+")
        self.started, self.number, self.events = [], 0, []

    def start(self, words, around=None, **how):
        """Starts a program in a group of its own, so that what it starts ends with it, and with all
        its files in the room."""
        around = {**os.environ, "HOME": str(self.room), "TMPDIR": str(self.room), **(around or {})}
        process = subprocess.Popen(
            words, stdin=subprocess.DEVNULL, stdout=self.log, stderr=self.log,
            start_new_session=True, env=around, **how)
        self.started.append(process)
        return process

    def close(self):
        for process in reversed(self.started):
            for sign in (signal.SIGTERM, signal.SIGKILL):
                try:
                    os.killpg(process.pid, sign)
                    process.wait(5)
                except (ProcessLookupError, subprocess.TimeoutExpired):
                    continue
        self.log.close()
        for _ in range(20):
            shutil.rmtree(self.room, ignore_errors=True)
            if not self.room.exists():
                return
            time.sleep(0.1)

    def until(self, expression, seconds=20):
        """Whether the expression becomes true."""
        end = time.monotonic() + seconds
        while time.monotonic() < end:
            try:
                if self.value(expression):
                    return True
            except BrowserError:
                pass  # the page is not there yet
            time.sleep(0.01)
        return False

    def middle(self, selector):
        return self.value(MIDDLE.format(selector=json.dumps(selector)))

    def took(self, name, seconds=20):
        """The bytes of the file of this name that the browser saved, which is then removed; None if
        there is none."""
        path, end = self.saved / name, time.monotonic() + seconds
        while time.monotonic() < end:
            if path.exists() and not any(
                    it.suffix in (".part", ".crdownload", ".wkdownload")
                    for it in self.saved.iterdir()):
                taken = path.read_bytes()
                path.unlink()
                return taken
            time.sleep(0.02)
        return None

    def drop(self, selector, paths):
        """Hands files over as a drop does, where the browser has no drag of its own to drive."""
        given = json.dumps(
            [[path.name, base64.b64encode(path.read_bytes()).decode()] for path in paths])
        self.value(f"""(() => {{
          const moved = new DataTransfer();
          const bytes = (text) => Uint8Array.from(atob(text), (it) => it.charCodeAt(0));
          for (const [name, text] of {given}) moved.items.add(new File([bytes(text)], name));
          for (const type of ["dragenter", "dragover", "drop"])
            document.querySelector({json.dumps(selector)}).dispatchEvent(
              new DragEvent(type, {{dataTransfer: moved, bubbles: true, cancelable: true}}));
        }})()""")

    def click_at(self, x, y):
        """Clicks what is at a place of the window."""
        self.value(f"document.elementFromPoint({x}, {y}).click()")

    def choosing(self, paths, act):
        """Gives files to the button, where the window in which files are chosen cannot be
        driven."""
        self.give("#choose", paths)

    def keys(self, key, held):
        """The actions of WebDriver for a key."""
        press = [KEYS[key][3], *(["\ue00a"] if held & ALT else [])]
        return [{"type": "key", "id": "keys",
                 "actions": [*({"type": "keyDown", "value": it} for it in reversed(press)),
                             *({"type": "keyUp", "value": it} for it in press)]}]

    @staticmethod
    def typed(text):
        return [{"type": "key", "id": "keys",
                 "actions": [{"type": kind, "value": it} for it in text for kind in (
                                 "keyDown", "keyUp")]}]


class Chromium(Browser):
    """The pipe is the descriptors 3 and 4 of the browser; a message ends with a zero byte."""

    has_drags = has_scripts = has_looks = has_windows = True
    WORDS = ["--headless=new", "--no-sandbox", "--disable-gpu", "--remote-debugging-pipe",
             "--no-first-run", "--disable-background-networking", "--disable-component-update",
             "--hide-scrollbars", "--disable-sync", "--disable-extensions", "--lang=en"]

    def __init__(self, browser):
        super().__init__()
        (theirs_in, self.to), (self.back, theirs_out) = os.pipe(), os.pipe()
        self.rest = b""

        def connect():
            for end, number in ((os.dup(theirs_in), 3), (os.dup(theirs_out), 4)):
                os.dup2(end, number)

        self.start(
            [browser, *self.WORDS, f"--user-data-dir={self.room}/profile", "about:blank"],
            preexec_fn=connect, pass_fds=(3, 4))
        os.close(theirs_in)
        os.close(theirs_out)
        self.session = None
        target = self.first_page()
        self.session = self.ask("Target.attachToTarget", targetId=target, flatten=True)["sessionId"]
        for domain in ("Page", "Network", "Runtime", "DOM", "Log"):
            self.ask(f"{domain}.enable")
        self.version = self.ask("Browser.getVersion")["product"]
        self.ask(
            "Browser.setDownloadBehavior", behavior="allow", downloadPath=str(self.saved),
            eventsEnabled=True)

    def first_page(self):
        for _ in range(200):
            pages = [
                it for it in self.ask("Target.getTargets")["targetInfos"] if it["type"] == "page"]
            if pages:
                return pages[0]["targetId"]
            time.sleep(0.05)
        raise BrowserError("the browser has no page")

    def close(self):
        os.close(self.to)
        os.close(self.back)
        super().close()

    def ask(self, method, **parameters):
        self.number += 1
        message = {"id": self.number, "method": method, "params": parameters,
                   **({"sessionId": self.session} if self.session else {})}
        os.write(self.to, json.dumps(message).encode() + b"\0")
        while (got := self.message()).get("id") != self.number:
            self.events.append(got)
        if "error" in got:
            raise BrowserError(f"{method}: {got['error']}")
        return got["result"]

    def message(self, seconds=60):
        while b"\0" not in self.rest:
            if not select.select([self.back], [], [], seconds)[0]:
                raise BrowserError("the browser does not answer")
            part = os.read(self.back, 1 << 20)
            if not part:
                raise BrowserError("the browser ended")
            self.rest += part
        first, self.rest = self.rest.split(b"\0", 1)
        return json.loads(first)

    def go(self, url):
        self.ask("Page.navigate", url=url)

    def before_each_page(self, script):
        """Runs a script in each page before the page's own; the answer is for `no_more`."""
        return self.ask("Page.addScriptToEvaluateOnNewDocument", source=script)["identifier"]

    def no_more(self, script):
        self.ask("Page.removeScriptToEvaluateOnNewDocument", identifier=script)

    def value(self, expression):
        got = self.ask(
            "Runtime.evaluate", expression=expression, returnByValue=True, awaitPromise=True,
            userGesture=True)
        if "exceptionDetails" in got:
            raise BrowserError(got["exceptionDetails"])
        return got["result"].get("value")

    def give(self, selector, paths):
        node = self.ask(
            "DOM.querySelector", nodeId=self.ask("DOM.getDocument")["root"]["nodeId"],
            selector=selector)["nodeId"]
        self.ask("DOM.setFileInputFiles", nodeId=node, files=[str(it) for it in paths])

    def choosing(self, paths, act):
        """Answers with files when an act opens the window in which files are chosen."""
        self.ask("Page.setInterceptFileChooserDialog", enabled=True)
        act()
        end = time.monotonic() + 5
        while not (asked := [
                       it for it in self.events if it.get("method") == "Page.fileChooserOpened"]):
            if time.monotonic() > end:
                raise BrowserError("no files are asked for")
            self.value("0")
        self.ask(
            "DOM.setFileInputFiles", backendNodeId=asked[-1]["params"]["backendNodeId"],
            files=[str(it) for it in paths])
        self.ask("Page.setInterceptFileChooserDialog", enabled=False)

    def drop(self, selector, paths):
        x, y = self.middle(selector)
        data = {"items": [], "files": [str(it) for it in paths], "dragOperationsMask": 1}
        for kind in ("dragEnter", "dragOver", "drop"):
            self.ask("Input.dispatchDragEvent", type=kind, x=x, y=y, data=data)

    def click(self, selector):
        self.click_at(*self.middle(selector))

    def click_at(self, x, y):
        for kind in ("mousePressed", "mouseReleased"):
            self.ask("Input.dispatchMouseEvent", type=kind, x=x, y=y, button="left", clickCount=1)

    def key(self, key, held=0):
        code, number, text, _ = KEYS[key]
        name = " " if key == "Space" else key
        for kind in ("keyDown", "keyUp"):
            self.ask(
                "Input.dispatchKeyEvent", type=kind, key=name, code=code,
                windowsVirtualKeyCode=number, modifiers=held,
                **({"text": text} if text and kind == "keyDown" else {}))

    def write(self, text):
        self.ask("Input.insertText", text=text)

    def look(self, width=1000, height=800, dark=False):
        """Makes the window as wide, and light or dark."""
        self.ask(
            "Emulation.setDeviceMetricsOverride", width=width, height=height, deviceScaleFactor=1,
            mobile=False)
        self.ask(
            "Emulation.setEmulatedMedia",
            features=[{"name": "prefers-color-scheme", "value": "dark" if dark else "light"}])

    def shot(self, path, height=None):
        """A picture of the page, or of its upper part of this height."""
        width, whole = self.value(
            "[document.documentElement.clientWidth, "
            "Math.ceil(document.documentElement.getBoundingClientRect().height)]")
        clip = {"x": 0, "y": 0, "width": width, "height": min(whole, height or whole), "scale": 1}
        taken = self.ask(
            "Page.captureScreenshot", format="png", captureBeyondViewport=True, clip=clip)
        path.write_bytes(base64.b64decode(taken["data"]))

    def shot_of(self, selector, path, height):
        """A picture of a part of the page, of its upper part of this height."""
        left, top, width, whole = self.value(
            f"(() => {{ const it = document.querySelector({selector!r}).getBoundingClientRect(); "
            "return [it.left + scrollX, it.top + scrollY, it.width, it.height]; })()")
        clip = {"x": max(0, left - 16), "y": top, "width": width + 32, "height": min(whole, height),
                "scale": 1}
        taken = self.ask(
            "Page.captureScreenshot", format="png", captureBeyondViewport=True, clip=clip)
        path.write_bytes(base64.b64decode(taken["data"]))

    def requested(self):
        return {it["params"]["request"]["url"]
                for it in self.events
                if it.get("method") == "Network.requestWillBeSent"}

    def complaints(self):
        kinds = ("Runtime.exceptionThrown", "Log.entryAdded", "Runtime.consoleAPICalled")
        return [it["params"] for it in self.events if it.get("method") in kinds]


class Firefox(Browser):
    PREFERENCES = {
        "browser.download.folderList": 2, "browser.download.useDownloadDir": True,
        "browser.download.always_ask_before_handling_new_types": False,
        "browser.helperApps.neverAsk.saveToDisk":
            "application/octet-stream,application/json,text/plain",
        "focusmanager.testmode": True,
        "browser.download.alwaysOpenPanel": False,
        "datareporting.policy.dataSubmissionEnabled": False,
    }
    has_scripts = has_windows = True

    def __init__(self, browser):
        super().__init__()
        import websocket  # of the package python3-websocket, which no other browser needs
        profile = self.room / "profile"
        profile.mkdir()
        preferences = {**self.PREFERENCES, "browser.download.dir": str(self.saved)}
        (profile / "user.js").write_text("".join(
            f"user_pref({json.dumps(name)}, {json.dumps(value)});\n"
            for name, value in preferences.items()))
        self.start(
            [browser, "--headless", "--no-remote", "--profile", str(profile),
             "--remote-debugging-port=0"])
        self.socket = websocket.create_connection(
            f"{self.address()}/session", max_size=None, suppress_origin=True, timeout=60)
        made = self.ask("session.new", capabilities={})["capabilities"]
        self.version = f"{made['browserName']} {made['browserVersion']}"
        self.context = self.ask("browsingContext.getTree")["contexts"][0]["context"]
        self.ask("browsingContext.activate", context=self.context)
        self.ask("session.subscribe", events=["network.beforeRequestSent", "log.entryAdded"])

    def address(self):
        for _ in range(600):
            found = re.search(r"ws://[\d.]+:\d+", (self.room / "log").read_text())
            if found:
                return found[0]
            time.sleep(0.1)
        raise BrowserError("the browser does not listen")

    def ask(self, method, **parameters):
        self.number += 1
        self.socket.send(json.dumps({"id": self.number, "method": method, "params": parameters}))
        while (got := json.loads(self.socket.recv())).get("id") != self.number:
            self.events.append(got)
        if got["type"] == "error":
            raise BrowserError(f"{method}: {got}")
        return got["result"]

    def go(self, url):
        self.ask("browsingContext.navigate", context=self.context, url=url, wait="complete")

    def before_each_page(self, script):
        return self.ask(
            "script.addPreloadScript", functionDeclaration=f"() => {{ {script} }}")["script"]

    def no_more(self, script):
        self.ask("script.removePreloadScript", script=script)

    def value(self, expression):
        got = self.ask(
            "script.evaluate",
            expression=f"(async () => JSON.stringify(await ({expression}) ?? null))()",
            awaitPromise=True, userActivation=True, target={"context": self.context})
        if got["type"] != "success":
            raise BrowserError(got["exceptionDetails"])
        return json.loads(got["result"]["value"])

    def node(self, selector):
        return {"sharedId": self.ask(
                    "browsingContext.locateNodes", context=self.context,
                    locator={"type": "css", "value": selector})["nodes"][0]["sharedId"]}

    def give(self, selector, paths):
        self.ask(
            "input.setFiles", context=self.context, element=self.node(selector),
            files=[str(it) for it in paths])

    def click(self, selector):
        # (a picture that comes into view is drawn, and moves what is below it)
        self.middle(selector)
        self.until("document.body.getAttribute('aria-busy') !== 'true'", 5)
        self.middle(selector)
        where = {"type": "element", "element": self.node(selector)}
        self.ask(
            "input.performActions", context=self.context,
            actions=[{"type": "pointer", "id": "mouse",
                      "actions": [{"type": "pointerMove", "x": 0, "y": 0, "origin": where},
                                  {"type": "pointerDown", "button": 0},
                                  {"type": "pointerUp", "button": 0}]}])

    def click_at(self, x, y):
        self.ask(
            "input.performActions", context=self.context,
            actions=[{"type": "pointer", "id": "mouse",
                      "actions": [{"type": "pointerMove", "x": x, "y": y},
                                  {"type": "pointerDown", "button": 0},
                                  {"type": "pointerUp", "button": 0}]}])

    def key(self, key, held=0):
        self.ask("input.performActions", context=self.context, actions=self.keys(key, held))
        # a window that is not seen never has the focus of the system, and then a key on a button
        # makes no click
        if key in ("Enter", "Space") and not self.value("document.hasFocus()"):
            self.value(
                "document.activeElement.matches('button, summary') && "
                "document.activeElement.click()")

    def write(self, text):
        self.ask("input.performActions", context=self.context, actions=self.typed(text))

    def look(self, width=1000, height=800, dark=False):
        self.ask(
            "browsingContext.setViewport", context=self.context,
            viewport={"width": width, "height": height})

    def shot(self, path, height=None):
        path.write_bytes(base64.b64decode(self.ask(
            "browsingContext.captureScreenshot", context=self.context, origin="document")["data"]))

    def requested(self):
        return {it["params"]["request"]["url"]
                for it in self.events
                if it.get("method") == "network.beforeRequestSent"}

    def complaints(self):
        return [it["params"] for it in self.events if it.get("method") == "log.entryAdded"]


class WebKit(Browser):
    """The browser is the path of MiniBrowser."""

    DISPLAY, PORT = ":97", 4497

    def __init__(self, browser):
        super().__init__()
        self.start(["Xvfb", self.DISPLAY, "-screen", "0", "1200x1000x24"])
        time.sleep(1)
        self.saved = self.room
        self.start(["WebKitWebDriver", f"--port={self.PORT}"], {
            "DISPLAY": self.DISPLAY, "WEBKIT_DISABLE_DMABUF_RENDERER": "1"})
        time.sleep(1)
        wanted = {"alwaysMatch": {"webkitgtk:browserOptions": {
                                      "binary": browser, "args": ["--automation"]}}}
        made = self.ask("POST", "/session", {"capabilities": wanted})
        self.session = f"/session/{made['sessionId']}"
        self.version = (f"{made['capabilities']['browserName']} "
                        f"{made['capabilities']['browserVersion']}")
        self.ask("POST", f"{self.session}/timeouts", {"script": 600000, "pageLoad": 60000})

    def close(self):
        try:
            self.ask("DELETE", self.session)
        finally:
            super().close()

    def ask(self, method, path, body=None):
        asked = urllib.request.Request(
            f"http://127.0.0.1:{self.PORT}{path}", method=method,
            data=None if body is None else json.dumps(body).encode(),
            headers={"Content-Type": "application/json"})
        try:
            with urllib.request.urlopen(asked) as answer:
                return json.load(answer)["value"]
        except urllib.error.HTTPError as error:
            raise BrowserError(error.read().decode()) from error

    def go(self, url):
        self.ask("POST", f"{self.session}/url", {"url": url})

    def value(self, expression):
        script = ("const done = arguments[arguments.length - 1]; "
                  f"(async () => JSON.stringify(await ({expression}) ?? null))().then((it) => "
                  "done([it]), (it) => done(String(it)))")
        got = self.ask("POST", f"{self.session}/execute/async", {"script": script, "args": []})
        if isinstance(got, str):
            raise BrowserError(got)
        return json.loads(got[0])

    def element(self, selector):
        found = self.ask("POST", f"{self.session}/element", {
            "using": "css selector", "value": selector})
        return f"{self.session}/element/{next(iter(found.values()))}"

    def give(self, selector, paths):
        self.ask("POST", f"{self.element(selector)}/value", {"text": "\n".join(map(str, paths))})

    def click(self, selector):
        self.middle(selector)
        try:
            self.ask("POST", f"{self.element(selector)}/click", {})
        except BrowserError:  # (the driver does not find the place of each element)
            self.value(f"document.querySelector({json.dumps(selector)}).click()")

    def act(self, actions):
        self.ask("POST", f"{self.session}/actions", {"actions": actions})

    def key(self, key, held=0):
        self.act(self.keys(key, held))

    def write(self, text):
        self.act(self.typed(text))

    def look(self, width=1000, height=800, dark=False):
        self.ask("POST", f"{self.session}/window/rect", {"width": width, "height": height})

    def took(self, name, seconds=20):
        """The same, where a file has its name before all of it is there."""
        path, before, end = self.saved / name, None, time.monotonic() + seconds
        while not path.exists() or path.stat().st_size != before:
            if time.monotonic() > end:
                return None
            before = path.stat().st_size if path.exists() else None
            time.sleep(0.1)
        return super().took(name)

    def requested(self):
        return set()

    def complaints(self):
        return []
