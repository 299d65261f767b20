"""The pages for those who keep old disks: what each command on them prints is what the page shows."""
import unittest

from tests.pages import Runs, broken_links


class Pack(Runs):
    def test_page(self):
        self.played("tools", "pack.md")

    def test_step_by_step(self):
        self.played("tools", "real-pack.md")

    def test_links(self):
        for page in ("pack.md", "real-pack.md"):
            self.assertEqual(broken_links("tools", page), [])


del Runs  # has no page of its own

if __name__ == "__main__":
    unittest.main()
