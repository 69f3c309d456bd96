"""The browsers that selenium drives, without a window: Chromium by chromedriver, and Firefox by its Marionette, since Debian
doesn't have geckodriver."""

from __future__ import annotations

import json
import os
import re
import shutil
import signal
import subprocess
import tempfile
from collections.abc import Iterator
from contextlib import contextmanager, suppress
from dataclasses import dataclass
from pathlib import Path
from subprocess import DEVNULL
from typing import Any, TextIO

import pytest
from selenium import webdriver
from selenium.common.exceptions import WebDriverException
from selenium.webdriver.chrome.service import Service
from selenium.webdriver.remote.command import Command
from selenium.webdriver.remote.file_detector import UselessFileDetector
from selenium.webdriver.remote.webdriver import WebDriver
from support.programs import Peer, wait_until

# The width and the height that a page has of a window.
WINDOW = (1280, 800)
CHROMIUM = ("--headless=new", "--disable-gpu", "--no-first-run", "--hide-scrollbars")
FIREFOX = ("--headless", "--no-remote", "--marionette", "--remote-allow-system-access")
# Any free port, what pages write to their consoles on the browser's output, and a folder of one's own for files.
PREFERENCES = {"marionette.port": 0, "devtools.console.stdout.content": True, "browser.download.folderList": 2}
# Seconds in which Firefox has to listen, to do a command, and to end.
START, PATIENCE, END = 120, 300, 20
# The commands that the tests use, by their names for selenium and for Marionette.
NAMES = {
    Command.NEW_SESSION: "WebDriver:NewSession",
    Command.GET: "WebDriver:Navigate",
    Command.REFRESH: "WebDriver:Refresh",
    Command.W3C_GET_CURRENT_WINDOW_HANDLE: "WebDriver:GetWindowHandle",
    Command.W3C_GET_WINDOW_HANDLES: "WebDriver:GetWindowHandles",
    Command.SWITCH_TO_WINDOW: "WebDriver:SwitchToWindow",
    Command.NEW_WINDOW: "WebDriver:NewWindow",
    Command.CLOSE: "WebDriver:CloseWindow",
    Command.SET_WINDOW_RECT: "WebDriver:SetWindowRect",
    Command.CLICK_ELEMENT: "WebDriver:ElementClick",
    Command.CLEAR_ELEMENT: "WebDriver:ElementClear",
    Command.SEND_KEYS_TO_ELEMENT: "WebDriver:ElementSendKeys",
    Command.W3C_EXECUTE_SCRIPT: "WebDriver:ExecuteScript",
    Command.W3C_ACTIONS: "WebDriver:PerformActions",
    Command.SCREENSHOT: "WebDriver:TakeScreenshot",
}
# What Firefox's console got from pages as errors since it was asked last: exceptions, and failures of the network and of the
# policy. Errors of the browser's own parts are left out.
CONSOLE = """
const messages = Services.console.getMessageArray().filter(one => one instanceof Ci.nsIScriptError);
Services.console.reset();
return messages.filter(one => !(one.flags & Ci.nsIScriptError.warningFlag) && !one.isFromChromeContext)
  .map(one => ({ level: 'SEVERE', source: one.category, message: `${one.errorMessage} ${one.sourceName}`, timestamp: 0 }));
"""
# How Firefox's output has what pages write to their consoles. The browser's own parts begin with a name and a colon, as
# `services.settings: `, and one of them tells at its first start for how many web sites it does nothing.
OWN_PARTS = r'[\w.]+: |"Skipping" [0-9]+ "un-needed interventions"'
CALLS = re.compile(rf"^console\.(error|assert|warn): (?!{OWN_PARTS})(.*)", re.M)


@dataclass(frozen=True)
class Browser:
    """A browser under selenium, and the folder of the files that pages give it to keep."""

    name: str
    driver: WebDriver
    downloads: Path

    def __str__(self) -> str:
        return f"{self.name} {self.driver.capabilities['browserVersion']}"


def path_of(package: str, *names: str) -> str:
    """The path of the first of these programs that is there. Fails the test, naming the package, if none is."""
    for name in names:
        if path := shutil.which(name):
            return path
    pytest.fail(f"there is no {' or '.join(names)}: install the package {package} of packages.txt", pytrace=False)


@contextmanager
def chromium(downloads: Path) -> Iterator[Browser]:
    """Chromium, until the end of the context. Files that pages give it go to the folder `downloads`."""
    options = webdriver.ChromeOptions()
    options.binary_location = path_of("chromium", "chromium", "chromium-browser", "google-chrome")
    # Chromium refuses to sandbox its processes if it runs as root.
    for option in CHROMIUM + (("--no-sandbox",) if os.geteuid() == 0 else ()):
        options.add_argument(option)
    options.add_experimental_option("prefs", {"download.default_directory": str(downloads)})
    options.set_capability("goog:loggingPrefs", {"browser": "ALL"})
    with webdriver.Chrome(service=Service(path_of("chromium-driver", "chromedriver")), options=options) as driver:
        yield Browser("chromium", driver, downloads)


class Marionette(Peer):
    """A connection to a Firefox that listens at this port and writes its output to this file. It does the commands of
    selenium, which are those of WebDriver (https://www.w3.org/TR/webdriver2/).

    A packet is `LENGTH:[0,NUMBER,NAME,PARAMETERS]`, and its answer is `LENGTH:[1,NUMBER,ERROR,RESULT]`.
    """

    def __init__(self, port: int, output: TextIO) -> None:
        super().__init__(port, patience=PATIENCE)
        self.output = output
        # Marionette says first who it is.
        self.packet()

    def packet(self) -> Any:
        """Waits for the next packet of Marionette's, and returns its JSON. Raises OSError if the browser has ended."""
        size = b""
        while (digit := self.file.read(1)) != b":":
            if not digit:
                raise OSError("the browser has ended")
            size += digit
        return json.loads(self.file.read(int(size)))

    def result(self, name: str, **parameters: object) -> Any:
        """Does a command, one at a time, and returns its result or the `value` in it. Raises WebDriverException."""
        packet = json.dumps([0, 0, name, parameters])
        self.send(f"{len(packet)}:{packet}")
        _, _, error, result = self.packet()
        if error:
            raise WebDriverException(f"{error['error']}: {error['message']}")
        return result["value"] if isinstance(result, dict) and result.keys() == {"value"} else result

    def console(self) -> list[dict[str, object]]:
        """What pages wrote to their consoles as errors and warnings since the last call, as chromedriver lists it."""
        self.result("Marionette:SetContext", value="chrome")
        messages: list[dict[str, object]] = self.result("WebDriver:ExecuteScript", script=CONSOLE, args=[])
        self.result("Marionette:SetContext", value="content")
        for kind, message in CALLS.findall(self.output.read()):
            level = "WARNING" if kind == "warn" else "SEVERE"
            messages.append({"level": level, "source": "console-api", "message": message, "timestamp": 0})
        return messages

    def execute(self, command: str, parameters: dict[str, Any]) -> dict[str, object]:
        """Does a command for selenium, and returns {"value": result}. Raises WebDriverException if it fails."""
        if command == Command.GET_LOG:
            return {"value": self.console()}
        # A screenshot is of the window, and not of all of the page.
        more = {"full": False} if command == Command.SCREENSHOT else {}
        return {"value": self.result(NAMES[command], **parameters, **more)}


@contextmanager
def firefox(downloads: Path) -> Iterator[Browser]:
    """Firefox with a profile of its own, until the end of the context. Files of pages go to the folder `downloads`."""
    with tempfile.TemporaryDirectory(prefix="firefox-", ignore_cleanup_errors=True) as profile:
        port, output = Path(profile, "MarionetteActivePort"), Path(profile, "output")
        preferences = PREFERENCES | {"browser.download.dir": str(downloads)}
        lines = (f"user_pref({json.dumps(name)}, {json.dumps(one)});\n" for name, one in preferences.items())
        Path(profile, "user.js").write_text("".join(lines))
        command = [path_of("firefox-esr", "firefox-esr", "firefox"), *FIREFOX, "--profile", profile, "about:blank"]
        with output.open("wb") as file:
            # In a group of its own, so that all of its processes can be ended.
            process = subprocess.Popen(command, stdin=DEVNULL, stdout=file, stderr=file, start_new_session=True)
        try:
            wait_until(lambda: port.exists() and port.read_text() or process.poll() is not None, START)
            with output.open(errors="replace") as log:
                if not port.exists():
                    raise OSError(f"Firefox doesn't listen: {log.read()}")
                with Marionette(int(port.read_text()), log) as marionette:
                    # A file that is typed into a field is at hand, since the browser runs here.
                    how: dict[str, Any] = {
                        "options": webdriver.FirefoxOptions(),
                        "file_detector": UselessFileDetector(),
                    }
                    yield Browser("firefox", webdriver.Remote(marionette, **how), downloads)
        finally:
            process.terminate()
            with suppress(subprocess.TimeoutExpired):
                process.wait(END)
            with suppress(ProcessLookupError):
                os.killpg(process.pid, signal.SIGKILL)
            process.wait()


BROWSERS = {"chromium": chromium, "firefox": firefox}
