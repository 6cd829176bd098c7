"""Logins at Cockpit through PAM, and what each user sees and may do on the page. tests/around/login has booted a system
with a gateway, which is at ROOT, and runs these tests in its network."""
from __future__ import annotations

import base64
import contextlib
import http.client
import os
import pathlib
import re
import ssl
import subprocess
import tarfile
import unittest
from dataclasses import dataclass
from typing import Callable

from selenium.common.exceptions import WebDriverException

from cockpit import Browser
from programs import wait_for
from services import CONTRIB

ROOT = pathlib.Path(os.environ.get("ROOT", "/nonexistent"))
# The command that runs another one on the system.
ENTER = os.environ.get("ENTER", "false").split()
SCREENSHOTS = os.environ.get("SCREENSHOTS")
HOST, PORT = "127.0.0.1", 9090
FILES = "/cockpit/@localhost/enogate/"
LINES = ROOT / "var/log/enogate/hall.lines"
ADMINISTRATOR, GROUP_MEMBER = ("chief", "chief-password"), ("tech", "tech-password")
OTHER_USER = "guest", "guest-password"
PAGE_FRAME = "iframe[name='cockpit1:localhost/enogate']"
# The problem of an order with administrative rights, or nothing.
GIVE_SCRIPT = """
const [done] = arguments;
window.cockpit.spawn(["enogatectl", "hall", "learn", "on"], { superuser: "require" })
    .then(() => done(""), error => done(error.problem));
"""
# A click on a button that the page has disabled.
CLICK_SCRIPT = """
const button = document.querySelector(arguments[0]);
button.disabled = false;
button.click();
"""
UNAUTHORIZED = 401
# The certificate is one that nobody knows.
UNVERIFIED = ssl._create_unverified_context()  # pylint: disable=protected-access


@dataclass(frozen=True)
class Response:
    """The response to a request."""
    status: int
    cookie: str
    text: bytes


def request_file(path: str, **headers: str) -> Response:
    """Asks Cockpit for a file."""
    with contextlib.closing(http.client.HTTPSConnection(HOST, PORT, context=UNVERIFIED, timeout=60)) as connection:
        connection.request("GET", path, headers=headers)
        response = connection.getresponse()
        return Response(response.status, (response.getheader("Set-Cookie") or "").split(";")[0], response.read())


def request_login(user: str, password: str) -> Response:
    """The response to a login."""
    credentials = base64.b64encode(f"{user}:{password}".encode()).decode()
    return request_file("/cockpit/login", Authorization=f"Basic {credentials}")


def order_processes(user: str) -> list[pathlib.Path]:
    """The processes that give the orders of pages on the system with the rights of this user. Those of a page that was
    left may run a little longer."""
    process_numbers = []
    for process in pathlib.Path("/proc").glob("[0-9]*"):
        with contextlib.suppress(OSError):
            words = (process / "cmdline").read_text().split("\0")
            is_of_user = process.stat().st_uid == uid_of(user)
            if "--serve" in words and is_of_user and os.path.samefile(process / "root", ROOT):
                process_numbers.append(process)
    return process_numbers


def uid_of(user: str) -> int:
    """The number of a user of the system."""
    [uid] = re.findall(f"^{user}:[^:]*:([0-9]+):", (ROOT / "etc/passwd").read_text(), re.MULTILINE)
    return int(uid)


def inside(*words: str) -> str:
    """What a command prints on the system, also if it fails."""
    return subprocess.run([*ENTER, *words], stdout=subprocess.PIPE, stderr=subprocess.STDOUT, text=True,
                          check=False).stdout.strip()


def reported_mode() -> str:
    """The mode of the learn window that the last line with a status reports."""
    return re.findall('"mode":"([^"]*)"', LINES.read_text())[-1]


class ServedFiles(unittest.TestCase):
    """The files of the page, and the login without a browser."""

    def test_they_are_served_only_after_a_login(self):
        names = [path.name for path in (CONTRIB / "cockpit/enogate").iterdir()]
        for name in names:
            self.assert_refused(name)
        response = request_login(*GROUP_MEMBER)
        self.assertEqual(response.status, 200)
        for name in names:
            file_response = request_file(FILES + name, Cookie=response.cookie)
            self.assertEqual((file_response.status, file_response.text),
                             (200, (CONTRIB / "cockpit/enogate" / name).read_bytes()), name)

    def test_a_wrong_password_an_unknown_user_and_a_wrong_cookie_are_refused(self):
        for user, password in (("tech", "chief-password"), ("nobody", "x")):
            response = request_login(user, password)
            self.assertEqual((response.status, response.cookie), (UNAUTHORIZED, ""), user)
        self.assert_refused("index.html", Cookie="cockpit=dj0yO2s9MTIz")

    def assert_refused(self, name: str, **headers: str) -> None:
        """Instead of a page there is the form for the login, and instead of another file nothing."""
        response = request_file(FILES + name, **headers)
        self.assertEqual(response.status, 200 if name.endswith(".html") else UNAUTHORIZED, name)
        self.assertEqual(b"login-password-input" in response.text, name.endswith(".html"), name)


class PageInShell(unittest.TestCase):
    """The page in Cockpit's own shell, after its form for the login."""

    def setUp(self) -> None:
        self.browser = self.enterContext(Browser())

    def shortDescription(self) -> None:
        """Only the names of tests are printed, without their docstrings."""

    def wait(self, observe: Callable[[], bool]) -> None:
        """Waits until this is so. An element may not be there yet."""
        def look() -> bool:
            with contextlib.suppress(WebDriverException):
                return observe()
            return False
        self.assertTrue(wait_for(look, bool))

    def wait_for_text(self, selector: str, text: str) -> None:
        observation = wait_for(lambda: self.browser.text(selector), lambda observation: text in observation)
        self.assertIn(text, observation)

    def log_in(self, user: str, password: str, state: str = "live") -> None:
        """Logs in with the form, and goes to the page in its frame."""
        self.browser.open(f"https://{HOST}:{PORT}/enogate")
        self.wait(lambda: self.browser.find("#login-user-input").is_displayed())
        self.browser.type("#login-user-input", user)
        self.browser.type("#login-password-input", password)
        self.browser.click("#login-button")
        self.enter_frame()
        self.wait_for_text("#feed", state)

    def enter_frame(self) -> None:
        """From now on, elements are those of the page."""
        self.browser.driver.switch_to.default_content()
        self.wait(lambda: self.browser.find(PAGE_FRAME).is_displayed())
        self.browser.driver.switch_to.frame(self.browser.find(PAGE_FRAME))

    def turn_on_administrative_access(self, password: str) -> None:
        """Asks for it at the top of Cockpit, with the password of the user."""
        self.browser.driver.switch_to.default_content()
        self.browser.click("#super-user-indicator button")
        field = "#switch-to-admin-access-password"
        self.wait(lambda: self.browser.find(field).is_displayed())
        self.browser.type(field, password)
        self.browser.click(".pf-c-modal-box__footer .pf-m-primary")

    def turn_off_administrative_access(self) -> None:
        """Limits the access at the top of Cockpit."""
        self.browser.driver.switch_to.default_content()
        self.browser.click("#super-user-indicator button")
        button = ".pf-c-modal-box__footer .pf-m-primary"
        self.wait(lambda: self.browser.find(button).is_displayed())
        self.browser.click(button)

    def shoot(self, name: str) -> None:
        self.browser.driver.switch_to.default_content()
        if SCREENSHOTS:
            self.browser.shoot(pathlib.Path(SCREENSHOTS) / f"{name}.png")
        self.enter_frame()

    def assert_is_read_only(self) -> None:
        """No button works, the page says why, and an order with administrative rights is refused. Users of this test
        who may give no orders may not read the lines either."""
        self.wait_for_text("#read-only", "You can see nothing, since the lines cannot be read.")
        for name in ("teach-open", "teach-close", "gateway-refresh", "gateway-restart", "gateway-backup",
                     "gateway-setup"):
            self.assertFalse(self.browser.find(f"#{name}").is_enabled(), name)
        self.assert_is_not_root()

    def assert_is_not_root(self) -> None:
        self.assertEqual(self.browser.driver.execute_async_script(GIVE_SCRIPT), "access-denied")

    def rename(self, label: str) -> None:
        """Changes the label of the device, in its view."""
        self.browser.click("#tab-devices")
        self.wait(lambda: self.browser.find("#devices-rows a").is_displayed())
        self.browser.click("#devices-rows a")
        self.wait(lambda: self.browser.find("#device-edit").is_displayed())
        self.browser.click("#device-edit")
        self.browser.type("#edit-label", label)
        self.browser.click("#edit-save")
        self.wait_for_text("#device-label", label)

    def test_an_administrator_may_act_after_administrative_access_was_turned_on(self):
        """This user is not in the group of the gateway, so only the administrative access shows the lines."""
        self.log_in(*ADMINISTRATOR, state="lost")
        self.assert_is_read_only()
        self.turn_on_administrative_access(ADMINISTRATOR[1])
        self.enter_frame()
        self.wait_for_text("#feed", "live")
        self.wait(lambda: not self.browser.find("#read-only").is_displayed())
        self.rename("Back door")
        self.assertIn('"label":"Back door"', LINES.read_text())
        self.browser.click("#tab-add")
        self.browser.click("#teach-open")
        self.wait_for_text("#window", "Learn window open")
        self.shoot("administrator")
        self.browser.click("#teach-close")
        self.wait(lambda: not self.browser.find("#window").is_displayed())
        # The other tests look for this label.
        self.rename("Front door")
        self.assert_has_an_address()

    def assert_has_an_address(self) -> None:
        """Cockpit's own address has that of the view, so a reload of Cockpit opens it again."""
        self.browser.driver.switch_to.default_content()
        self.wait(lambda: self.browser.driver.current_url.endswith("/enogate#/device/01800ABC"))
        self.browser.driver.refresh()
        self.enter_frame()
        self.wait_for_text("#device-label", "Front door")
        self.browser.click("#tab-overview")
        self.browser.click("#gateway-journal")
        self.browser.driver.switch_to.default_content()
        self.wait(lambda: self.browser.driver.current_url.endswith("/system/services#/enogate%40hall.service"))

    def test_all_orders_end_with_the_administrative_access(self):
        self.log_in(*ADMINISTRATOR, state="lost")
        self.assertEqual(order_processes("root"), [])
        self.turn_on_administrative_access(ADMINISTRATOR[1])
        self.enter_frame()
        self.wait_for_text("#feed", "live")
        self.browser.click("#tab-add")
        self.wait(lambda: self.browser.find("#teach-open").is_enabled())
        self.browser.click("#teach-open")
        self.wait_for_text("#window", "Learn window open")
        self.assertNotEqual(order_processes("root"), [])
        self.turn_off_administrative_access()
        self.enter_frame()
        self.wait(lambda: order_processes("root") == [] and reported_mode() == "closed")
        self.assert_is_read_only()
        self.browser.run(CLICK_SCRIPT, "#teach-close")
        self.wait_for_text("#problem-text", "You have no administrative access: turn it on in Cockpit.")

    def test_a_member_of_the_group_gives_orders_without_becoming_root(self):
        self.log_in(*GROUP_MEMBER)
        self.wait(lambda: self.browser.find("#gateway-refresh").is_enabled())
        for name in ("restart", "backup", "setup"):
            self.assertFalse(self.browser.find(f"#gateway-{name}").is_enabled(), name)
        self.assert_is_not_root()
        self.turn_on_administrative_access(GROUP_MEMBER[1])
        self.wait_for_text(".pf-c-modal-box", "Problem becoming administrator")
        self.browser.click(".pf-c-modal-box__footer button")
        self.enter_frame()
        self.assert_is_not_root()
        self.rename("Side door")
        self.assertIn('"label":"Side door"', LINES.read_text())
        self.assertNotEqual(order_processes(GROUP_MEMBER[0]), [])
        self.assertEqual(order_processes("root"), [])
        self.shoot("member")
        self.rename("Front door")

    def log_in_as_administrator(self) -> None:
        """Logs in as a user with administrative access."""
        self.log_in(*ADMINISTRATOR, state="lost")
        self.turn_on_administrative_access(ADMINISTRATOR[1])
        self.enter_frame()
        self.wait_for_text("#feed", "live")

    def test_an_administrator_sets_up_a_gateway_that_is_started_now_and_at_each_boot(self):
        """Its stick is a terminal: the settings and the unit are real, and only the driver of a stick is not tried."""
        port, unit, settings = "/dev/enocean-yard", "enogate@yard.service", ROOT / "etc/default/enogate-yard"
        self.addCleanup(settings.unlink, missing_ok=True)
        self.addCleanup(inside, "systemctl", "disable", "--now", unit)
        self.assertNotEqual(inside("systemctl", "is-enabled", unit), "enabled")
        self.log_in_as_administrator()
        self.wait(lambda: self.browser.find("#gateway-setup").is_enabled())
        self.browser.click("#gateway-setup")
        self.wait(lambda: self.browser.find("#setup-go").is_enabled())
        self.assertEqual(self.browser.find("#setup-port").get_attribute("value"), port)
        self.browser.type("#setup-name", "yard")
        self.browser.click("#setup-look")
        self.wait_for_text("#setup-result", "Its base ID is FF801000.")
        self.shoot("set-up")
        self.browser.click("#setup-go")
        self.wait_for_text("#gateways [aria-selected=true]", "yard")
        self.wait_for_text("#gateway-stick", f"plugged in ({port})")
        self.assertEqual(self.browser.text("#gateways"), "hallyard")
        self.assertEqual((settings.read_text(), oct(settings.stat().st_mode), settings.owner()),
                         (f"SERIAL={port}\n", "0o100644", "root"))
        self.assertEqual([inside("systemctl", verb, unit) for verb in ("is-enabled", "is-active")],
                         ["enabled", "active"])
        self.wait_for_text("#gateway-service", "running")
        self.wait_for_text("#gateway-module", "FF801000, reported")
        self.wait_for_text("#feed", "live")
        self.assertEqual(inside("enogatectl", "--timeout", "30", "yard", "base"), "FF801000")

    def test_an_administrator_makes_a_backup_and_the_group_may_not(self):
        refused = inside("runuser", "-u", GROUP_MEMBER[0], "--", "enogatectl", "hall", "backup")
        self.assertRegex(refused, "the backup in /var/backups/enogate failed: .*Permission denied")
        self.log_in_as_administrator()
        self.wait(lambda: self.browser.find("#gateway-backup").is_enabled())
        self.browser.click("#gateway-backup")
        self.wait_for_text("#gateway-note", "tar.gz: 1 devices")
        [path] = (ROOT / "var/backups/enogate").iterdir()
        self.assertEqual(self.browser.text("#gateway-note"), f"Backup written: /{path.relative_to(ROOT)}: 1 devices. "
                         "It is on this computer: keep a copy elsewhere.")
        self.assertEqual(path.stat().st_uid, uid_of("enogate"))
        with tarfile.open(path) as archive:
            self.assertIn(b"01800ABC,D5-00-01,Front door", archive.extractfile("devices.csv").read())
            self.assertIn("etc/default/enogate-hall", archive.getnames())
        self.shoot("backup")

    def test_another_user_is_told_that_the_lines_cannot_be_read(self):
        self.log_in(*OTHER_USER, state="lost")
        self.wait_for_text("#attention", "/var/log/enogate/hall.lines is missing, or you may not read it")
        self.assertEqual(self.browser.text("#device-count"), "")
        self.assert_is_read_only()
        self.shoot("guest")


if __name__ == "__main__":
    unittest.main()
