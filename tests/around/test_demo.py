"""The virtual building on the page, on the system that tests/around/demo has booted."""
from __future__ import annotations

from programs import wait_for
from test_login import GROUP_MEMBER, PageInShell


class DemoOnThePage(PageInShell):
    """tests/around/demo runs only the test of this class, by its name."""

    def test_both_gateways_and_all_devices(self):
        """A user of the group sees both gateways; together they have the 50 devices, and each has sent something."""
        self.log_in(*GROUP_MEMBER)
        counts = []
        for name in ("demo-attic", "demo-ground"):
            self.wait(lambda: self.browser.find(f"[data-gateway={name}]").is_displayed())
            self.browser.click(f"[data-gateway={name}]")
            self.wait_for_text("#gateways [aria-selected=true]", name)
            self.wait_for_text("#feed", "live")
            self.browser.click("#tab-devices")
            counts.append(int(wait_for(lambda: self.browser.text("#device-count"), bool)))
        self.shoot("demo")
        self.assertEqual(sum(counts), 50, counts)
        self.assertIn("Entrance window", self.browser.text("#devices-rows"))
