"""A browser with the page in it, used as a person uses it: by clicks, keys, drops. What the page shows and holds is read by probe.js."""

import base64
import pathlib
import time

from selenium import webdriver
from selenium.common.exceptions import JavascriptException, WebDriverException
from selenium.webdriver.chrome.options import Options
from selenium.webdriver.chrome.service import Service
from selenium.webdriver.common.by import By

HERE = pathlib.Path(__file__).resolve().parent
ROOT = HERE.parents[1]
PATIENCE = 30

KEYS = {  # name: key, code, number, text
    "Tab": ("Tab", "Tab", 9, ""), "Enter": ("Enter", "Enter", 13, "\r"), "Space": (" ", "Space", 32, " "),
    "Left": ("ArrowLeft", "ArrowLeft", 37, ""), "Up": ("ArrowUp", "ArrowUp", 38, ""),
    "Right": ("ArrowRight", "ArrowRight", 39, ""), "Down": ("ArrowDown", "ArrowDown", 40, ""),
    "Home": ("Home", "Home", 36, ""), "End": ("End", "End", 35, ""), "Escape": ("Escape", "Escape", 27, ""),
    "[": ("[", "BracketLeft", 219, "["), "]": ("]", "BracketRight", 221, "]"),
}
SHIFT = 8


class Wrong(Exception):
    """The page is not as it should be."""


def same(what, got, want):
    if got != want:
        raise Wrong(f"{what}: {shorten(got)}, not {shorten(want)}")


def holds(what, truth):
    if not truth:
        raise Wrong(what)


def shorten(value):
    text = repr(value)
    return text if len(text) < 700 else f"{text[:340]} .. {text[-340:]}"


def start():
    options = Options()
    options.binary_location = "/usr/bin/chromium"
    for word in ("--headless=new", "--no-sandbox", "--disable-gpu", "--window-size=1400,1000", "--disable-dev-shm-usage"):
        options.add_argument(word)
    options.set_capability("goog:loggingPrefs", {"browser": "ALL"})
    return webdriver.Chrome(service=Service("/usr/bin/chromedriver"), options=options)


class Page:
    """The page of a file, in a browser."""

    def __init__(self, driver, path, folder):
        self.driver = driver
        self.url = pathlib.Path(path).resolve().as_uri()
        self.folder = pathlib.Path(folder)
        self.probe = (HERE / "probe.js").read_text(encoding="utf-8")

    # ---- opening

    def open(self, link=None):
        """The page anew, as from the disk."""
        self.driver.get("about:blank")
        self.driver.get(link or self.url)
        self.ready()

    def ready(self):
        self.wait("the page runs", lambda: self.js("return document.body.dataset.ready") == "yes")
        self.js(self.probe)

    def wait(self, what, test):
        end = time.monotonic() + PATIENCE
        while not test():
            if time.monotonic() > end:
                raise Wrong(f"waited in vain: {what}; the page says: {self.message()}")
            time.sleep(0.01)

    def js(self, script, *args):
        try:
            return self.driver.execute_script(script, *args)
        except JavascriptException as error:
            raise Wrong(f"script: {error.msg.splitlines()[0]}") from error

    def cdp(self, name, **args):
        return self.driver.execute_cdp_cmd(name, args)

    def errors(self):
        """What went wrong by the browser's console, since the last call."""
        return [entry["message"] for entry in self.driver.get_log("browser") if entry["level"] == "SEVERE"]

    # ---- the mouse

    def click(self, selector):
        """A click in the middle of an element, which has to be seen, enabled and not covered there."""
        place = self.js("return probe.place(arguments[0])", selector)
        if isinstance(place, str):
            raise Wrong(f"{selector}: {place}")
        self.press(*place)

    def press(self, x, y):
        for kind in ("mousePressed", "mouseReleased"):
            self.cdp("Input.dispatchMouseEvent", type=kind, x=x, y=y, button="left", clickCount=1)

    def drop(self, path, selector="#upload"):
        """A file dropped on an element."""
        x, y = self.js("return probe.place(arguments[0])", selector)
        data = {"items": [], "files": [str(path)], "dragOperationsMask": 1}
        for kind in ("dragEnter", "dragOver", "drop"):
            self.cdp("Input.dispatchDragEvent", type=kind, x=x, y=y, data=data)

    # ---- the keyboard

    def key(self, name, modifiers=0):
        key, code, number, text = KEYS[name]
        event = {"key": key, "code": code, "windowsVirtualKeyCode": number, "modifiers": modifiers}
        self.cdp("Input.dispatchKeyEvent", **event, **({"type": "keyDown", "text": text} if text else {"type": "rawKeyDown"}))
        self.cdp("Input.dispatchKeyEvent", **event, type="keyUp")

    def focus(self):
        """Where the focus is: the element's data-key or id."""
        return self.js("return probe.focus()")

    # ---- fields

    def fill(self, name, text):
        """Another text in a field, whose old one is chosen first, as it is when Tab comes to it."""
        problem = self.js("return probe.enter(arguments[0])", name)
        holds(f"field {name}: {problem}", problem is None)
        if str(text):
            self.cdp("Input.insertText", text=str(text))
        else:
            self.cdp("Input.dispatchKeyEvent", type="rawKeyDown", key="Delete", code="Delete", windowsVirtualKeyCode=46)
        same(f"field {name}", self.js("return document.getElementById(arguments[0]).value", name), str(text))

    def choose(self, name, value):
        """An option of a list, by the arrow keys."""
        way = self.js("return probe.way(arguments[0], arguments[1])", name, str(value))
        for _ in range(abs(way)):
            self.key("Down" if way > 0 else "Up")
        same(f"list {name}", self.js("return document.getElementById(arguments[0]).value", name), str(value))

    def give(self, name, path):
        """A file, to a file field."""
        self.driver.find_element(By.ID, name).send_keys(str(path))

    # ---- what a person does

    def send(self, command, **fields):
        """A command by the master's form. Fields: flash_address, data, length, new_address, type, raw, to."""
        self.choose("command", command)
        for name, text in fields.items():
            self.fill(name.replace("_", "-"), text)
        self.click("#send")

    def board(self, bus, **settings):
        """Another board, by its dialog: bus, and M, page, S, O, type, serial and so on."""
        self.click("#show-board")
        self.choose("set-bus", bus)
        if "page" in settings:
            self.choose("set-page", settings.pop("page"))
        for name, value in settings.items():
            self.fill(f"set-{name}", value)
        self.click("#set-board")

    def line(self, text):
        """A line, as the forms do it."""
        return self.js("childbus.run(arguments[0])", text)

    # ---- what is seen and held

    def screen(self):
        return self.js("return probe.screen()")

    def snapshot(self):
        return self.js("return probe.snapshot()")

    def message(self):
        try:
            return self.js("const node = document.getElementById('message'); return node.hidden ? '' : node.textContent")
        except (Wrong, WebDriverException):
            return ""

    def flash(self):
        return base64.b64decode(self.js("return probe.base64(childbus.session.flash)"))

    def picture(self, name, scale=0.5):
        """A picture of the window, kept in the folder."""
        width, height = self.js("return [innerWidth, innerHeight]")
        top = self.js("return scrollY")
        clip = {"x": 0, "y": top, "width": width, "height": height, "scale": scale}
        data = base64.b64decode(self.cdp("Page.captureScreenshot", format="png", clip=clip)["data"])
        (self.folder / f"{name}.png").write_bytes(data)
        return data
