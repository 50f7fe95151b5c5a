"""A headless Chromium, driven over the WebDriver protocol by chromedriver: https://www.w3.org/TR/webdriver2/."""

from __future__ import annotations

import base64
import http.client
import json
import os
import re
import shutil
import subprocess
import time
from typing import Any, Dict, List

INSTALL = "apt-get install chromium chromium-driver"
"""How Debian gets what this needs."""

_ELEMENT = "element-6066-11e4-a52e-4f735466cecf"  # the name that the protocol gives to a reference to an element
_PATIENCE = 60  # seconds for one answer of the driver


class Browser:
    """One session of a browser. A context manager, which ends it."""

    def __init__(self) -> None:
        """Raises FileNotFoundError where Chromium or its driver isn't installed."""
        chromium, driver = shutil.which("chromium"), shutil.which("chromedriver")
        if chromium is None or driver is None:
            raise FileNotFoundError(f"Chromium and its driver aren't installed: {INSTALL}")
        self._driver = subprocess.Popen([driver, "--port=0"], stdout=subprocess.PIPE, stderr=subprocess.DEVNULL, text=True)
        self._session = ""
        try:
            self._port = self._told_port()
            options: Dict[str, Any] = {"binary": chromium, "args": ["--headless=new", "--disable-gpu", "--hide-scrollbars"]}
            if os.geteuid() == 0:
                options["args"].append("--no-sandbox")  # Chromium has no sandbox for root
            wanted = {"browserName": "chrome", "goog:chromeOptions": options, "goog:loggingPrefs": {"browser": "ALL"}}
            self._session = self._call("POST", "/session", capabilities={"alwaysMatch": wanted})["sessionId"]
        except BaseException:
            self.close()
            raise

    def __enter__(self) -> "Browser":
        return self

    def __exit__(self, *_: object) -> None:
        self.close()

    def close(self) -> None:
        """Ends the browser and its driver."""
        try:
            if self._session:
                self.ask("DELETE", "")
        finally:
            self._driver.terminate()
            self._driver.wait()
            assert self._driver.stdout is not None
            self._driver.stdout.close()

    def ask(self, method: str, path: str, **body: Any) -> Any:
        """One command of the session; answers its value. Raises RuntimeError with what the driver says is wrong."""
        return self._call(method, f"/session/{self._session}{path}", **body)

    def shape(self, width: int, height: int, is_phone: bool = False) -> None:
        """Gives the page so many pixels, as on a phone or a desk."""
        parameters = {"width": width, "height": height, "deviceScaleFactor": 1, "mobile": is_phone}
        self.ask("POST", "/goog/cdp/execute", cmd="Emulation.setDeviceMetricsOverride", params=parameters)

    def open(self, address: str) -> None:
        """Goes to the address, and waits until it is loaded."""
        self.ask("POST", "/url", url=address)

    @property
    def address(self) -> str:
        """Where it is."""
        return str(self.ask("GET", "/url"))

    def find(self, selector: str) -> "List[Element]":
        """The elements that a CSS selector names."""
        found = self.ask("POST", "/elements", using="css selector", value=selector)
        return [Element(self, each[_ELEMENT]) for each in found]

    def one(self, selector: str) -> "Element":
        """The one element that a CSS selector names. Raises RuntimeError where there isn't just one."""
        found = self.find(selector)
        if len(found) != 1:
            raise RuntimeError(f"{len(found)} elements are {selector}")
        return found[0]

    def run(self, script: str, *arguments: object) -> Any:
        """What a function with this body in the page returns."""
        return self.ask("POST", "/execute/sync", script=script, args=list(arguments))

    def texts(self, selector: str) -> List[str]:
        """The texts of the elements that a CSS selector names."""
        return list(self.run("return [...document.querySelectorAll(arguments[0])].map(e => e.textContent.trim())", selector))

    def press(self, key: str) -> None:
        """Presses a key and lets it go: a letter, or one of the protocol's, as \ue004 for the tabulator."""
        steps = [{"type": "keyDown", "value": key}, {"type": "keyUp", "value": key}]
        self.ask("POST", "/actions", actions=[{"type": "key", "id": "keys", "actions": steps}])

    def tabs(self) -> List[str]:
        """The names of the tabs."""
        return list(self.ask("GET", "/window/handles"))

    def new_tab(self) -> str:
        """Opens a tab and goes there; answers its name."""
        name = str(self.ask("POST", "/window/new", type="tab")["handle"])
        self.go_to(name)
        return name

    def go_to(self, tab: str) -> None:
        """Goes to a tab."""
        self.ask("POST", "/window", handle=tab)

    def picture(self) -> bytes:
        """What is seen, as a PNG."""
        return base64.b64decode(self.ask("GET", "/screenshot"))

    def complaints(self) -> List[str]:
        """What the browser complained of since the last call: scripts that failed, files that weren't there."""
        return [each["message"] for each in self.ask("POST", "/se/log", type="browser")]

    def _told_port(self) -> int:
        assert self._driver.stdout is not None
        for line in self._driver.stdout:
            told = re.search(r"started successfully on port ([0-9]+)", line)
            if told:
                return int(told.group(1))
        raise RuntimeError("the driver ended before it began")

    def _call(self, method: str, path: str, **body: Any) -> Any:
        connection = http.client.HTTPConnection("127.0.0.1", self._port, timeout=_PATIENCE)
        try:
            connection.request(method, path, json.dumps(body) if method == "POST" else None)
            value = json.load(connection.getresponse())["value"]
        finally:
            connection.close()
        if isinstance(value, dict) and "error" in value:
            raise RuntimeError(f"{value['error']}: {value['message']}")
        return value


class Element:
    """An element of a page, for as long as the page stands."""

    def __init__(self, browser: Browser, name: str) -> None:
        self._browser = browser
        self._path = f"/element/{name}"

    def click(self) -> None:
        """Clicks it."""
        self._browser.ask("POST", f"{self._path}/click")

    def follow(self) -> None:
        """Clicks it, and waits for the page that it leads to. Raises RuntimeError where none comes."""
        self._browser.run("window.isLeft = true")
        self.click()
        end = time.monotonic() + _PATIENCE
        while not self._browser.run("return !window.isLeft && document.readyState === 'complete'"):
            if time.monotonic() > end:
                raise RuntimeError("the click led to no other page")
            time.sleep(0.02)

    def write(self, text: str) -> None:
        """Writes into it, in place of what stands there."""
        self._browser.ask("POST", f"{self._path}/clear")
        self._browser.ask("POST", f"{self._path}/value", text=text)

    @property
    def text(self) -> str:
        """What is seen of its text."""
        return str(self._browser.ask("GET", f"{self._path}/text"))

    @property
    def is_shown(self) -> bool:
        """Whether it is seen."""
        return bool(self._browser.ask("GET", f"{self._path}/displayed"))
