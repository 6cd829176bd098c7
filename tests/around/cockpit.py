"""Cockpit with the page on the loopback address, a machine with gateways for it, and a browser."""
from __future__ import annotations

import os
import pathlib
import shutil
import socket
import subprocess
from typing import Sequence

from selenium import webdriver
from selenium.common.exceptions import WebDriverException
from selenium.webdriver.chrome.options import Options
from selenium.webdriver.chrome.service import Service
from selenium.webdriver.common.by import By
from selenium.webdriver.remote.webelement import WebElement
from urllib3.exceptions import HTTPError

from programs import Program, wait_for
from services import CONTRIB

PAGE_FOLDER = CONTRIB / "cockpit/enogate"
SERVER = "/usr/lib/cockpit/cockpit-ws"
UNIT = "/etc/systemd/system/multi-user.target.wants/enogate@{name}.service"
# A stand-in for systemctl: the state of each service is in a file, and the orders to services are in another one.
SYSTEMCTL = """#!/bin/sh
for unit; do :; done
case $1 in
start | restart | enable)
    echo "$*" >>"{folder}/orders"
    printf 'ActiveState=active\\nSubState=running\\n' >"{folder}/$unit" ;;
stop)
    echo "$*" >>"{folder}/orders"
    printf 'ActiveState=inactive\\nSubState=dead\\n' >"{folder}/$unit" ;;
*) cat "{folder}/$unit" 2>/dev/null || printf 'ActiveState=inactive\\nSubState=dead\\n' ;;
esac
"""


def mount(*words: str | pathlib.Path) -> None:
    subprocess.run(["mount", *words], check=True)


class Machine:
    """The directories of a machine with gateways, below a folder: they are mounted where the page and enogatectl look
    for them. The process must have mounts of its own."""

    def __init__(self, work: pathlib.Path):
        self.work, self.services = work, work / "services"
        for folder in (self.services, work / "bin"):
            folder.mkdir(exist_ok=True)
        for mount_point, source_name in (("/run", "run/enogate"), ("/var/log", "log/enogate")):
            mount("-t", "tmpfs", "test", mount_point)
            os.mkdir(f"{mount_point}/enogate")
            mount("--bind", work / source_name, f"{mount_point}/enogate")
        # The state of the bridge is beside files that other programs need.
        for name in ("upper", "work"):
            os.mkdir(f"/run/{name}")
        mount("-t", "overlay", "test", "/var/lib", "-o", "lowerdir=/var/lib,upperdir=/run/upper,workdir=/run/work")
        os.makedirs("/var/lib/enogate-mqtt", exist_ok=True)
        mount("--bind", work / "lib/enogate-mqtt", "/var/lib/enogate-mqtt")
        os.makedirs("/var/lib/enogate", exist_ok=True)
        for folder in ("/var/lib/enogate", "/etc/default", "/etc/systemd/system", "/var/backups"):
            mount("-t", "tmpfs", "test", folder)
        for folder in ("/etc/systemd/system/multi-user.target.wants", "/var/backups/enogate"):
            os.mkdir(folder)
        self.mount_devices()
        shutil.copy(CONTRIB / "enogate.default", "/etc/default/enogate")
        (work / "bin/enogatectl").symlink_to(CONTRIB / "enogatectl")
        systemctl = work / "bin/systemctl"
        systemctl.write_text(SYSTEMCTL.format(folder=self.services))
        systemctl.chmod(0o755)

    def mount_devices(self) -> None:
        """Mounts a directory over /dev that has the same files, and can get others."""
        device_folders = ("pts", "shm")
        for name in (*device_folders, "upper-dev", "work-dev"):
            os.mkdir(f"/run/{name}")
        for name in device_folders:
            mount("--bind", f"/dev/{name}", f"/run/{name}")
        mount("-t", "overlay", "test", "/dev", "-o", "lowerdir=/dev,upperdir=/run/upper-dev,workdir=/run/work-dev")
        for name in device_folders:
            mount("--bind", f"/run/{name}", f"/dev/{name}")
        os.makedirs("/dev/serial/by-id", exist_ok=True)

    def add(self, name: str, serial: pathlib.Path) -> None:
        """Adds the settings of a gateway."""
        pathlib.Path(f"/etc/default/enogate-{name}").write_text(f"BASE=FF800000\nSERIAL={serial}\n")

    def enable(self, name: str) -> None:
        """From now on, its service is started at boot."""
        os.symlink("/usr/lib/systemd/system/enogate@.service", UNIT.format(name=name))

    def disable(self, name: str) -> None:
        os.unlink(UNIT.format(name=name))

    def orders(self) -> list[str]:
        """The orders that the services were given."""
        path = self.services / "orders"
        return path.read_text().splitlines() if path.exists() else []

    def set_state(self, name: str, active: str, sub: str) -> None:
        """Sets the state of its service."""
        (self.services / f"enogate@{name}.service").write_text(f"ActiveState={active}\nSubState={sub}\n")


class Cockpit(Program):
    """Cockpit, with the page of this tree. `words` are put before its command."""

    def __init__(self, work: pathlib.Path, words: Sequence[str] = ()):
        super().__init__(work / "cockpit.journal")
        self.work, self.words = work, words
        self.port = 0

    def start(self) -> None:
        """Starts it, and waits until it answers. The bridge takes the home of the user from the list of users, so
        XDG_DATA_HOME names the folder of the page. Two variables keep the bridge from starting programs that stay."""
        pages = self.work / "share/cockpit/enogate"
        shutil.copytree(PAGE_FOLDER, pages, dirs_exist_ok=True)
        with (pages / "tables.js").open("wb") as file:
            subprocess.run([PAGE_FOLDER.with_name("tables")], stdout=file, check=True)
        with socket.socket() as free:
            free.bind(("127.0.0.1", 0))
            self.port = free.getsockname()[1]
        address = ["--address", "127.0.0.1", "--port", str(self.port)]
        command = [SERVER, "--no-tls", *address, "--local-session=cockpit-bridge"]
        path = f"{self.work / 'bin'}:/usr/sbin:/usr/bin:/sbin:/bin"
        variables = {"XDG_DATA_HOME": str(self.work / "share"), "PATH": path,
                     "DBUS_SESSION_BUS_ADDRESS": "unix:path=/nonexistent", "SSH_AUTH_SOCK": "/nonexistent"}
        self.run([*self.words, *command], **variables)
        assert wait_for(self.answers, bool), self.journal()

    def keep(self) -> None:
        """Starts it again if it has ended, as it does if its only session ends: a browser that changes pages slowly may
        close the connection of one page before it opens that of the next one."""
        if not self.is_running():
            self.start()

    def answers(self) -> bool:
        try:
            socket.create_connection(("127.0.0.1", self.port)).close()
        except OSError:
            return False
        return True

    @property
    def address(self) -> str:
        return f"http://127.0.0.1:{self.port}/cockpit/@localhost/enogate/index.html"


class Browser:
    """A headless browser."""

    def __enter__(self) -> Browser:
        self.start()
        return self

    def start(self) -> None:
        options = Options()
        for word in ("--headless=new", "--no-sandbox", "--disable-gpu", "--disable-dev-shm-usage",
                     "--window-size=1300,850"):
            options.add_argument(word)
        options.binary_location = "/usr/bin/chromium"
        options.set_capability("goog:loggingPrefs", {"browser": "ALL"})
        # Cockpit makes a certificate of its own.
        options.set_capability("acceptInsecureCerts", True)
        self.driver = webdriver.Chrome(service=Service("/usr/bin/chromedriver"), options=options)
        self.driver.execute_cdp_cmd("Performance.enable", {})

    def keep(self) -> None:
        """Starts it again if it has crashed."""
        try:
            self.driver.title
        except (WebDriverException, HTTPError):
            self.driver.quit()
            self.start()

    def __exit__(self, *_: object) -> None:
        self.driver.quit()

    def open(self, address: str) -> None:
        self.driver.get(address)

    def find(self, selector: str) -> WebElement:
        return self.driver.find_element(By.CSS_SELECTOR, selector)

    def run(self, script: str, *values: object) -> object:
        """The value that a script returns."""
        return self.driver.execute_script(script, *values)

    def text(self, selector: str) -> str:
        """The text of the first element, also if it is not visible; empty if there is none."""
        return str(self.run("return document.querySelector(arguments[0])?.textContent.trim() ?? ''", selector))

    def click(self, selector: str) -> None:
        self.find(selector).click()

    def save_files_in(self, folder: pathlib.Path) -> None:
        """Files that are downloaded from now on are saved there."""
        behaviour = {"behavior": "allow", "downloadPath": str(folder)}
        self.driver.execute_cdp_cmd("Browser.setDownloadBehavior", behaviour)

    def resize(self, width: int, height: int) -> None:
        """The page has this size from now on, as on a phone."""
        size = {"width": width, "height": height, "deviceScaleFactor": 1, "mobile": True}
        self.driver.execute_cdp_cmd("Emulation.setDeviceMetricsOverride", size)

    def set_language(self, languages: str) -> None:
        """The user prefers these languages from now on, as the header Accept-Language has them."""
        words = {"userAgent": self.run("return navigator.userAgent"), "acceptLanguage": languages}
        self.driver.execute_cdp_cmd("Network.setUserAgentOverride", words)

    def reset_size(self) -> None:
        self.driver.execute_cdp_cmd("Emulation.clearDeviceMetricsOverride", {})

    def type(self, selector: str, text: str) -> None:
        """Replaces the text of a field."""
        field = self.find(selector)
        field.clear()
        field.send_keys(text)

    def complaints(self) -> list[str]:
        """What the browser has complained about since the last call."""
        entries = self.driver.get_log("browser")
        return [entry["message"] for entry in entries if entry["level"] in ("SEVERE", "WARNING")]

    def heap(self) -> int:
        """How many bytes the scripts use."""
        self.driver.execute_cdp_cmd("HeapProfiler.collectGarbage", {})
        metrics = self.driver.execute_cdp_cmd("Performance.getMetrics", {})["metrics"]
        return next(int(metric["value"]) for metric in metrics if metric["name"] == "JSHeapUsedSize")

    def shoot(self, path: pathlib.Path) -> None:
        self.driver.save_screenshot(str(path))


