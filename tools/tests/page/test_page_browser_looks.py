"""How pages look in a browser without a window: to those who see no colours, in the dark, by a screen reader, by keys alone, on paper."""
import itertools

from tests.page.pagebrowser import Browsed

from v6.log.picture import STATES

APART = 15  # of 255: how much two states differ in brightness, point by point from their darkest to their brightest
READABLE = 4.5  # how much brighter a text is than its ground, or darker: the ratio that WCAG asks for
CONTRAST = """(() => {
  const parts = (text) => text.match(/[0-9.]+/g).map(Number);
  const light = (text) => parts(text).slice(0, 3).map((one) => one / 255).map((one) => one <= 0.04045 ? one / 12.92 : ((one + 0.055) / 1.055) ** 2.4)
    .reduce((sum, one, at) => sum + one * [0.2126, 0.7152, 0.0722][at], 0);
  const ground = (one) => {
    while (one.parentElement && parts(getComputedStyle(one).backgroundColor)[3] === 0) one = one.parentElement;
    return getComputedStyle(one).backgroundColor;
  };
  const found = [];
  for (const one of document.body.querySelectorAll("*")) {
    if (one.closest("svg, script, [disabled]") || !one.getClientRects().length) continue;
    if (![...one.childNodes].some((node) => node.nodeType === 3 && node.textContent.trim())) continue;
    const [high, low] = [light(getComputedStyle(one).color), light(ground(one))].sort((a, b) => b - a);
    found.push([one.tagName + " " + one.id, (high + 0.05) / (low + 0.05)]);
  }
  return found;
})()"""
BOXES = """[...document.querySelectorAll("#paper svg rect.edge")].map((one) => one.getBoundingClientRect())
  .map(({ left, top }) => [left, top])"""
FOCUSED = """(({ id, dataset, tagName, textContent, ariaLabel }) => id || dataset.go || tagName + " " + (ariaLabel || textContent))(document.activeElement)"""
CAN_BE = """[...document.querySelectorAll("button, input, select, summary, [tabindex]")].filter((one) => one.checkVisibility({ contentVisibilityAuto: true }) && !one.disabled)
  .map(({ id, dataset, tagName, textContent, ariaLabel }) => id || dataset.go || tagName + " " + (ariaLabel || textContent))"""


class Looks(Browsed):
    def setUp(self):
        super().setUp()
        self.addCleanup(self.browser.sight, "none")
        self.addCleanup(self.browser.size, 1200, 900)

    def test_states_without_colours(self):
        """Any two states of the picture differ in brightness or pattern, in grey, without red and green, in the light and in the dark."""
        self.made(*self.pair(), "--moments", "2")
        for dark in (False, True):
            self.browser.size(1400, 900, dark=dark)
            self.open()
            boxes = self.value(BOXES)[: len(set(STATES.values()))]
            for sight in ("achromatopsia", "deuteranopia", "protanopia"):
                self.browser.sight(sight)
                seen = []
                for left, top in boxes:
                    points = self.browser.pixels(left + 2, top + 2, 10, 6)
                    seen.append(sorted(0.299 * red + 0.587 * green + 0.114 * blue for red, green, blue in points))
                for one, other in itertools.combinations(range(len(seen)), 2):
                    apart = [abs(first - second) for first, second in zip(seen[one], seen[other])]
                    self.assertGreater(sum(apart) / len(apart), APART, (sight, dark, one, other))

    def test_texts_can_be_read(self):
        """Each text stands out from its ground, in the light and in the dark: of the line at the cursor, the process that is chosen, marks."""
        self.made(*self.pair(), "--moments", "2", "--marks", self.put("marks", b"18 Who is woken?\n"))
        for dark in (False, True):
            self.browser.size(1200, 900, dark=dark)
            self.open("#line=30")
            for key in ("", "q"):
                self.browser.keys(key)
                found = self.value(CONTRAST)
                self.assertGreater(len(found), 60)
                self.assertEqual([one for one in found if one[1] < READABLE], [], dark)

    def test_by_keys_alone(self):
        """Tab comes to each button, field and panel that can be scrolled, and the one that is reached is framed."""
        self.made(*self.pair(), "--moments", "2", "--marks", self.put("marks", b"18 Who is woken?\n"))
        self.open("#line=20")
        wanted, found = self.value(CAN_BE), []
        self.assertGreater(len(wanted), 20)
        for _ in range(2 * len(wanted)):
            self.browser.key("Tab")
            name = self.value(FOCUSED)
            if name in found:
                break
            found.append(name)
            width, kind = self.value("(({ outlineWidth, outlineStyle }) => [parseFloat(outlineWidth), outlineStyle])(getComputedStyle(document.activeElement))")
            self.assertTrue(name == "BODY " + name[5:] or width >= 2 and kind != "none", (name, width, kind))
        self.assertEqual(sorted(set(wanted) - set(found)), [])

    def test_names_for_a_reader(self):
        """Each button, field, table and picture has a name, and a heading each part; each new line is told."""
        self.made(*self.pair(), "--moments", "2", "--marks", self.put("marks", b"18 Who is woken?\n"))
        self.open("#line=20")
        nodes, roles = self.browser.ask("Accessibility.getFullAXTree")["nodes"], set()
        for node in nodes:
            role = node.get("role", {}).get("value")
            if role in ("button", "textbox", "searchbox", "combobox", "slider", "spinbutton", "region", "image", "table", "list", "DisclosureTriangle"):
                roles.add(role)
                self.assertTrue(role == "list" or node["name"].get("value"), node)
        self.assertTrue({"button", "searchbox", "combobox", "slider", "spinbutton", "region", "image", "table"} <= roles, roles)
        self.assertEqual(self.value("document.querySelectorAll('#ps th[scope=col]').length"), 13)
        self.assertEqual(self.value("[...document.querySelectorAll('#panels > section')].filter((one) => !one.querySelector('h2')).length"), 0)
        self.assertEqual(self.value("[document.documentElement.lang, document.getElementById('head').getAttribute('aria-live')]"), ["en", "polite"])
        self.assertIn("line 20: ", self.value("document.getElementById('cursor').getAttribute('aria-valuetext')"))
        self.assertEqual(self.value("document.querySelector('#log [aria-current=step]').textContent.trim().slice(0, 2)"), "20")

    def test_nothing_is_wider_than_the_page(self):
        """On a narrow screen one scrolls downwards alone; the picture, the table and what a terminal shows scroll in their places."""
        self.made(*self.pair(), "--moments", "2")
        for width in (360, 800, 1400):
            self.browser.size(width, 800)
            self.open("#line=30")
            self.assertLessEqual(self.value("document.documentElement.scrollWidth"), width)
