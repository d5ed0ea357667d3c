"""Tests of the page in a real browser, against the built program. They want Debian's chromium, chromium-driver, python3-selenium
and python3-pil."""

import functools
import http.server
import json
import os
import re
import signal
import tempfile
import threading
import time
import unittest

from PIL import Image
from selenium import webdriver
from selenium.common.exceptions import NoSuchElementException, SessionNotCreatedException, StaleElementReferenceException
from selenium.webdriver.chrome.options import Options
from selenium.webdriver.chrome.service import Service
from selenium.webdriver.common.action_chains import ActionChains
from selenium.webdriver.common.actions.wheel_input import ScrollOrigin
from selenium.webdriver.common.by import By
from selenium.webdriver.common.keys import Keys

from tests import journals
from tests.common import CATALOGUE, MINUTE, PATIENCE, Case, Console, WithPump, bossd
from tests.stub import UNTIL, Stub

from bossd_console.catalogue import read_catalogue

DAMPER = "ahu1.damper"
DAY = 24 * 60 * MINUTE
# Where the pictures go. Without it they are made and thrown away.
PICTURES = os.environ.get("PICTURES")
COLOURS = 128


def setUpModule():
    global browser
    options = Options()
    options.binary_location = "/usr/bin/chromium"
    for word in ["--headless=new", "--no-sandbox", "--disable-gpu", "--disable-dev-shm-usage", "--no-first-run", "--disable-extensions",
                 "--disable-background-networking", "--disable-lcd-text", "--hide-scrollbars", "--no-proxy-server", "--host-resolver-rules=MAP evil.example 127.0.0.1"]:
        options.add_argument(word)
    options.set_capability("goog:loggingPrefs", {"browser": "ALL"})
    browser = started(options)
    unittest.addModuleCleanup(browser.quit)


def started(options):
    """A browser. On a machine with much other work it may not be there in time."""
    for _ in range(3):
        try:
            return webdriver.Chrome(service=Service("/usr/bin/chromedriver"), options=options)
        except SessionNotCreatedException:
            pass
    return webdriver.Chrome(service=Service("/usr/bin/chromedriver"), options=options)


class Page(Case):
    def setUp(self):
        super().setUp()
        self.addCleanup(self.blank)

    def blank(self):
        while len(browser.window_handles) > 1:
            browser.close()
            browser.switch_to.window(browser.window_handles[-1])
        browser.get("about:blank")
        said = [line["message"] for line in browser.get_log("browser") if line["level"] == "SEVERE" and "favicon" not in line["message"]]
        self.unexpected = [line for line in said if not any(word in line for word in self.expected())]
        self.assertEqual(self.unexpected, [])

    def expected(self):
        """What the browser may complain of: that the server or the console is gone, or refuses."""
        return ["net::ERR_", "status of 4", "status of 5"]

    def open(self, console, where="", wide=1280, high=1000):
        # The window's own frame takes a part of the height.
        browser.set_window_size(wide, high)
        browser.get("about:blank")
        browser.get(console.address + where)
        self.eventually(lambda: self.text("#health") == "answers" and self.find(".group tbody tr"))

    def find(self, selector):
        try:
            return browser.find_element(By.CSS_SELECTOR, selector)
        except NoSuchElementException:
            return None

    def text(self, selector):
        try:
            found = self.find(selector)
            return found.text.replace("\u00a0", " ") if found is not None else ""
        except StaleElementReferenceException:
            return ""

    def texts(self, selector):
        """What stands in all that fit, at one moment."""
        found = browser.execute_script("return [...document.querySelectorAll(arguments[0])].map((it) => it.innerText)", selector)
        return [text.replace("\u00a0", " ") for text in found]

    def row(self, point):
        """What the row of a point shows, by its columns."""
        return browser.execute_script(
            "const {node, cells} = points.get(arguments[0]); return {shown: !node.hidden && !node.closest('.group').hidden,"
            "...Object.fromEntries(Object.entries(cells).map(([key, cell]) => [key, cell.textContent.replace('\u00a0', ' ')]))}", point)

    def see(self, test):
        """Waits until it is so, while what is drawn may be drawn anew."""
        def looked():
            try:
                return test()
            except StaleElementReferenceException:
                return False
        return self.eventually(looked)

    def click(self, selector):
        def clicked():
            found = self.find(selector)
            if found is None or not found.is_displayed() or not found.is_enabled():
                return False
            found.click()
            return True
        self.see(clicked)

    def type(self, name, text):
        found = self.find(f"#ask [name={name}]")
        found.clear()
        found.send_keys(text)

    def picture(self, name):
        folder = PICTURES or self.folder
        os.makedirs(folder, exist_ok=True)
        path = os.path.join(folder, name + ".png")
        browser.save_screenshot(path)
        # With all shades of its letters a picture is three times as large.
        Image.open(path).convert("RGB").quantize(COLOURS, dither=Image.Dither.NONE).save(path, optimize=True)
        self.assertLess(os.path.getsize(path), 150_000)


class Served(Page):
    """A page without a catalogue's file."""

    def test_it_shows_what_the_server_tells_also_of_another_catalogue(self):
        self.open(self.console(catalogue=None), "#point/ahu1.damper")
        self.see(lambda: self.row("ahu1.damper")["value"] == "20.0")
        self.see(lambda: "0.0 to 100.0" in self.text("#pane"))
        self.server.kill()
        with open(CATALOGUE) as file:
            text = file.read().replace("max = 100000", "max = 90000", 1)
        self.server.catalogue, self.server.journal = os.path.join(self.folder, "more.toml"), os.path.join(self.folder, "anew")
        with open(self.server.catalogue, "w") as file:
            file.write(text + '\n[[point]]\nname = "roof.added"\ndriver = "light"\nkind = "binary"\ndefault = 1\n')
        self.server.start()
        self.see(lambda: "roof.added" in self.texts(".group tbody tr a"))
        self.see(lambda: self.row("roof.added")["value"].startswith("1"))
        self.see(lambda: "0.0 to 90.0" in self.text("#pane"))


class WhatIsSeen(Page):
    def test_a_lease_counts_down_reverts_and_ends_while_one_looks(self):
        comfort = self.client("comfort")
        console = self.console()
        self.open(console, "#point/" + DAMPER)
        comfort.submit([bossd.write(DAMPER, 35_000, priority=12, lease=10_000, revert=[(30_000, 6_000)])])
        self.see(lambda: self.row(DAMPER)["left"])
        row = self.row(DAMPER)
        self.assertEqual([row[key] for key in ("value", "from", "priority", "owner", "mark")],
                         ["35.0 %", "lease", "12 Available", "comfort", "✓ settled"])
        left = [self.row(DAMPER)["left"]]
        self.see(lambda: self.row(DAMPER)["left"] != left[0])
        self.assertLess(self.row(DAMPER)["left"], left[0])
        self.see(lambda: self.row(DAMPER)["from"] == "reversion")
        self.see(lambda: self.row(DAMPER)["value"] == "30.0 %")
        self.see(lambda: "A reversion of comfort" in self.text("#whose"))
        self.see(lambda: self.row(DAMPER)["from"] == "default" and self.text("#pane .big") == "20.0 %")
        self.assertEqual([one.split(": ")[1] for one in self.texts("#pane .changes li")], ["20.0 %", "30.0 %", "35.0 %", "20.0 %"])
        self.assertIn("3 changes", self.find("#pane svg").get_attribute("aria-label"))

    def steps(self):
        """What the page shows to come after what stands in the damper's slots."""
        return self.texts("#pane .slots .steps li")

    def see_three_steps_pass(self, end=lambda: None):
        """A lease of comfort that is followed by three steps ends, and they come one after another. `end` ends it, where it is long."""
        self.see(lambda: [one.split(",")[0] for one in self.steps()] == ["50.0 % for 0:10", "40.0 % for 0:10", "30.0 % for 0:30"])
        self.assertEqual([one.split(": ")[1] for one in self.texts("#pane .coming li")],
                         ["50.0 %, reversion at priority 12", "40.0 %, reversion at priority 12", "30.0 %, reversion at priority 12", "20.0 %, its default"])
        end()
        self.see(lambda: [one.split(",")[0] for one in self.steps()] == ["40.0 % for 0:10", "30.0 % for 0:30"])
        self.see(lambda: "A reversion of comfort" in self.text("#whose") and self.text("#pane .big") == "50.0 %")
        self.assertIn("this step until", self.text("#pane .slots"))
        self.see(lambda: [one.split(",")[0] for one in self.steps()] == ["30.0 % for 0:30"])
        self.see(lambda: self.text("#pane .big") == "40.0 %")
        self.assertIsNone(self.find("#known"))

    def test_the_steps_of_a_reversion_whoever_it_is_of(self):
        comfort = self.client("comfort")
        self.client("boiler").submit([bossd.write("boiler.pump", 1, lease=10 * MINUTE)])
        self.open(self.console("--journal", self.server.journal), "#point/" + DAMPER)
        comfort.submit([bossd.write(DAMPER, 60_000, priority=12, lease=15_000, revert=[(50_000, 10_000), (40_000, 10_000), (30_000, 30_000)])])
        self.see_three_steps_pass()
        self.see(lambda: "its last step" in self.text("#pane .slots"))

    def test_the_steps_over_a_log_that_began_anew(self):
        moment, digest = round(time.time() * 1000), read_catalogue(CATALOGUE).digest
        state = journals.state(
            moment, 4, [journals.process(name) for name in ("boiler", "comfort")],
            [journals.running(2, 0, 5, 16), journals.running(3, 1, 0, 12)],
            [journals.lease(3, 1, 0, 12, 60_000, moment + 600_000, [(50_000, 10_000), (40_000, 10_000), (30_000, 30_000)]),
             journals.lease(2, 0, 5, 16, 1, moment + 600_000)])
        self.start_over(journals.journal(digest=digest), journals.kept(1, 70_000, state, digest=digest))
        self.open(self.console("--journal", self.server.journal), "#point/" + DAMPER)
        self.see_three_steps_pass(lambda: self.client("comfort").cancel(3))

    def test_without_a_journal_it_says_what_it_knows(self):
        self.client("comfort").submit([bossd.write(DAMPER, 35_000, lease=10 * MINUTE, revert=[(30_000, MINUTE)])])
        self.open(self.console(), "#point/" + DAMPER)
        self.see(lambda: "not known what follows" in self.text("#pane .slots"))
        self.assertEqual(self.text("#known"), "What comes next is known for leases taken from this page; start the console with --journal to see all.")
        self.open(self.console("--journal", os.path.join(self.folder, "nowhere")), "#point/" + DAMPER)
        self.see(lambda: "the journal is not followed" in self.text("#known") and "neither this file nor" in self.text("#known"))

    def test_a_process_that_holds_nothing(self):
        self.client("silent")
        self.open(self.console("--journal", self.server.journal))
        self.see(lambda: self.text("#process-count") == "1")
        self.click("#processes summary")
        self.click("#processes li a")
        self.see(lambda: "Decides 0 points" in self.text("#pane"))
        self.assertEqual(self.texts("#pane .notices li"), ["none"])

    def test_slots_search_and_filters(self):
        comfort, boiler, fire = self.client("comfort"), self.client("boiler"), self.client("fire-panel")
        comfort.submit([bossd.write(DAMPER, 35_000, priority=12, lease=20 * MINUTE), bossd.write("ahu1.fan", 2, priority=12, lease=10 * MINUTE)])
        boiler.submit([bossd.write("boiler.pump", 1, lease=10 * MINUTE)])
        fire.submit([bossd.write(DAMPER, 0, priority=2, lease=10 * MINUTE)])
        self.open(self.console(), "#point/" + DAMPER)
        self.see(lambda: "fire-panel" in self.text("#pane .slots"))
        slots = self.texts("#pane .slots tbody tr:not(.then)")
        self.assertEqual(len(slots), 16)
        self.assertRegex(slots[1], r"^2 Automatic-Life Safety\s+▶ in force")
        self.assertIn("comfort", slots[11])
        self.see(lambda: "35.0 %, lease at priority 12" in self.text("#pane .coming"))
        shown = functools.partial(browser.execute_script, "return [...points.values()].filter(({node}) => !node.hidden).map(({name}) => name)")
        self.click("#filters [value=overridden]")
        self.see(lambda: shown() == [DAMPER])
        self.click("#filters [value=held]")
        self.see(lambda: shown() == [DAMPER, "ahu1.fan", "boiler.pump"])
        self.find("#search").send_keys("boiler")
        self.see(lambda: shown() == ["boiler.pump"])
        self.find("#search").send_keys("x")
        self.see(lambda: self.text("#none") == "No point fits.")

    def test_a_process_and_its_notices_as_they_come(self):
        comfort = self.client("comfort")
        txn = comfort.submit([bossd.write(DAMPER, 35_000, lease=10 * MINUTE)]).txn
        self.open(self.console())
        self.see(lambda: self.row(DAMPER)["owner"] == "comfort")
        self.click("tr.lease .owner a")
        self.see(lambda: "Decides 1 point" in self.text("#pane"))
        self.client("other").submit([bossd.write(DAMPER, 50_000, lease=10 * MINUTE)])
        self.see(lambda: f"transaction {txn}: the lease on {DAMPER} ended: transaction 2 took its slot" in self.text("#pane .notices"))
        self.see(lambda: "Decides 0 points" in self.text("#pane"))

    def test_a_failed_device(self):
        stub = Stub()
        self.addCleanup(stub.stop)
        console = Console(stub.address)
        self.addCleanup(console.stop)
        self.open(console)
        self.see(lambda: self.row(DAMPER)["mark"] == "✕ failed")
        self.see(lambda: self.text("#banner") == "The server does not have floor2.office: it was started with another catalogue.")
        self.click("#filters [value=failed]")
        self.see(lambda: not self.row("ahu1.fan")["shown"] and self.row(DAMPER)["shown"])
        self.click("tr.trouble a")
        self.see(lambda: re.match(r"✕ device failed: it refused the value, and is tried again; it took 20.0 % last, at [-\d: ]+$", "".join(self.texts("#device"))))
        self.assertEqual(console.metrics()['bossd_points_by_mark{mark="failed"}'], 1)
        self.picture("console-failed-1280")
        stub.fault(round(time.time() * 1000))
        self.see(lambda: console.metrics()["bossd_faults_total"] == 1)
        stub.failed = False
        self.see(lambda: self.row(DAMPER)["mark"] == "✓ settled" and self.text("#none") == "No point fits.")

    def test_the_server_is_killed_and_started_again(self):
        comfort = self.client("comfort")
        comfort.submit([bossd.write(DAMPER, 35_000, lease=10 * MINUTE)])
        self.open(self.console())
        self.see(lambda: self.row(DAMPER)["owner"] == "comfort")
        self.server.kill()
        self.see(lambda: "The server is down: nobody listens at its address." in self.text("#banner") and self.text("#health") == "is down")
        self.assertIn("What stands here is of", self.text("#banner"))
        self.server.start()
        self.see(lambda: "The server is back" in self.text("#banner") and self.text("#health") == "answers")
        self.assertEqual(self.row(DAMPER)["value"], "35.0 %")

    def test_no_worker_is_free(self):
        self.server.stop()
        self.server.workers = 1
        self.server.start()
        console = self.console()
        self.open(console)
        self.server.process.send_signal(signal.SIGSTOP)
        self.see(lambda: "none of its workers is free, or it hangs" in self.text("#banner"))
        self.server.process.send_signal(signal.SIGCONT)
        self.see(lambda: self.text("#health") == "answers")

    def test_the_console_is_gone(self):
        console = self.console()
        self.open(console)
        console.stop()
        self.see(lambda: "The console does not answer" in self.text("#banner"))

    def test_two_pages_at_once(self):
        console, one = self.console("--operator", "operator"), browser.current_window_handle
        self.open(console, f"#token={console.token}")
        browser.switch_to.new_window("tab")
        self.open(console, "#point/" + DAMPER)
        two = browser.current_window_handle
        browser.switch_to.window(one)
        browser.get(console.address + "#point/" + DAMPER)
        self.click("#take")
        self.see(lambda: self.find("#ask-next li"))
        self.type("value", "90")
        self.click("#ask [value=yes]")
        self.see(lambda: self.row(DAMPER)["value"] == "90.0 %")
        browser.switch_to.window(two)
        self.see(lambda: self.row(DAMPER)["value"] == "90.0 %" and self.text("#pane .big") == "90.0 %")


class WhatRunsOn(WithPump, Page):
    """A pump that was let go, and stays on for an hour."""

    def seconds(self, text):
        hours, minutes, seconds = map(int, text.split(":"))
        return hours * 3_600 + minutes * 60 + seconds

    def test_its_device_is_seen_to_run_and_until_when(self):
        reading = self.running(self.client("comfort"))
        self.assertEqual((reading.value, reading.took), (0, 1))
        self.open(self.console("--operator", "operator", catalogue=None), "#point/boiler.pump")
        self.see(lambda: self.row("boiler.pump")["mark"] == "… still 1 on")
        self.assertEqual(self.row("boiler.pump")["value"], "0 off")
        moment = r"(?:\d{4}-\d\d-\d\d )?(\d\d:\d\d:\d\d)"
        wanted = f"… device pending: still 1 on since {moment}, until {moment} at the earliest, by its minimum time"
        # The pane is drawn anew now and then, so its text is taken at one moment.
        found = self.see(lambda: re.fullmatch(wanted, "".join(self.texts("#device"))))
        since, until = map(self.seconds, found.groups())
        self.assertEqual((until - since) % 86_400, self.MIN_ON // 1_000)
        self.picture("held-1280")
        # Off at once is what it is to have, and not what the pump does.
        self.click("#take")
        self.see(lambda: f"its device not before {found[2]}, by its minimum time" in "".join(self.texts("#ask-next")))


class WhatIsChanged(Page):
    def test_an_override_and_its_release_by_keyboard_alone(self):
        self.client("comfort").submit([bossd.write(DAMPER, 35_000, priority=12, lease=60 * MINUTE)])
        console = self.console("--operator", "operator")
        self.open(console)
        self.see(lambda: self.row(DAMPER)["owner"] == "comfort")
        press = lambda *keys: webdriver.ActionChains(browser).send_keys(*keys).perform()
        focused = lambda: browser.execute_script("const it = document.activeElement; return it.id || it.name || it.value || it.textContent")
        press("/", "damper")
        self.see(lambda: not self.row("ahu1.fan")["shown"])
        press(Keys.ARROW_DOWN)
        self.assertEqual(focused(), DAMPER)
        press(Keys.ENTER)
        self.see(lambda: focused() == "pane")
        press(Keys.TAB)
        self.assertEqual(focused(), "close")
        self.see(lambda: self.find("#take"))
        press(Keys.TAB, Keys.TAB)
        if focused() != "take":
            press(Keys.TAB)
        self.see(lambda: self.find("#pane .coming"))
        browser.execute_script("document.getElementById('take').focus()")
        press(Keys.ENTER)
        self.see(lambda: focused() == "value" and "at once: 35.0 %" in self.text("#ask-next"))
        press("80", Keys.TAB, Keys.TAB)
        self.assertEqual(focused(), "minutes")
        press(Keys.TAB, "2")
        self.see(lambda: "Step 2" in self.text("#ask-fields") and "at once: 80.0 %" in self.text("#ask-next"))
        # A live lease comes before the reversion.
        self.assertEqual([line.split(": ", 1)[1] for line in self.text("#ask-next").splitlines()][:2],
                         ["80.0 %, lease at priority 8 Manual Operator", "35.0 %, lease at priority 12"])
        self.find("#ask-token input").send_keys("wrong")
        press(Keys.ENTER)
        self.see(lambda: "Not made: a change wants the console's token" in self.text("#ask-said"))
        self.find("#ask-token input").clear()
        self.find("#ask-token input").send_keys(console.token, Keys.ENTER)
        self.see(lambda: not self.find("#ask").is_displayed() and self.row(DAMPER)["value"] == "80.0 %")
        row = self.row(DAMPER)
        self.assertEqual([row[key] for key in ("from", "priority", "owner")], ["lease", "8 Manual Operator", "operator"])
        self.release()

    def release(self):
        self.click("#pane [id^=prolong]")
        self.see(lambda: "80.0 %, lease at priority 8" in self.text("#ask-next"))
        self.type("minutes", "90")
        self.click("#ask [value=yes]")
        self.see(lambda: not self.find("#ask").is_displayed() and self.row(DAMPER)["left"] > "1:20")
        self.click("#pane [id^=release]")
        self.see(lambda: "at once: 35.0 %, lease at priority 12" in self.text("#ask-next"))
        self.click("#ask [value=yes]")
        self.see(lambda: self.row(DAMPER)["value"] == "35.0 %" and self.row(DAMPER)["owner"] == "comfort")

    def test_a_take_that_the_rules_deny(self):
        stub = Stub()
        self.addCleanup(stub.stop)
        console = Console(stub.address, "--operator", "operator")
        self.addCleanup(console.stop)
        self.open(console, f"#token={console.token}")
        browser.get(console.address + "#point/ahu1.fan")
        self.click("#take")
        self.click("#ask [value=yes]")
        self.see(lambda: self.text("#ask-said").startswith("Denied: operator may not write this point"))
        self.assertEqual(self.find("#ask-said").get_attribute("class"), "denied")

    def test_an_override_that_stands_says_who_set_it(self):
        console = self.console("--operator", "alice", "--overrides", self.overrides().socket)
        self.open(console, f"#token={console.token}")
        browser.get(console.address + "#point/" + DAMPER)
        self.click("#take")
        self.type("value", "80")
        self.click("#ask [name=stands]")
        self.see(lambda: self.text("#ask-next").splitlines() == ["at once: 80.0 %, lease at priority 8 Manual Operator"])
        self.click("#ask [value=yes]")
        self.see(lambda: not self.find("#ask").is_displayed() and self.row(DAMPER)["value"] == "80.0 %")
        self.see(lambda: self.row(DAMPER)["owner"].startswith("people ⚑ ") and self.row(DAMPER)["owner"].endswith(" for alice"))
        self.see(lambda: "for alice at" in self.text("#whose") and "until somebody releases it" in self.text("#whose"))
        self.click("#pane [id^=release]")
        self.click("#ask [value=yes]")
        self.see(lambda: self.row(DAMPER)["owner"] == "" and self.row(DAMPER)["value"] == "20.0 %")

    def test_a_value_that_does_not_fit_is_told_in_units(self):
        console = self.console("--operator", "operator")
        self.open(console, f"#token={console.token}")
        browser.get(console.address + "#point/boiler.flow")
        self.click("#take")
        self.type("value", "95")
        self.see(lambda: "95.0 °C does not fit: a value is to be 20.0 to 75.0 °C" in self.text("#ask-said"))

    def test_looking_only(self):
        self.open(self.console(), "#point/" + DAMPER)
        self.see(lambda: "Slots" in self.text("#pane"))
        self.assertIsNone(self.find("#take"))
        self.assertEqual(self.text("#role"), "Looking only")

    def test_a_lost_answer_is_asked_again_and_made_once(self):
        console = self.console("--operator", "operator")
        self.open(console, f"#token={console.token}")
        console.change("take", id="c-0", point="ahu1.fan", value=2, length=60 * MINUTE)
        browser.get(console.address + "#point/" + DAMPER)
        self.click("#take")
        self.type("value", "80")
        self.see(lambda: "at once: 80.0 %" in self.text("#ask-next"))
        self.server.process.send_signal(signal.SIGSTOP)
        self.click("#ask [value=yes]")
        self.see(lambda: "Asked again, under the same number" in self.text("#ask-said"))
        self.server.process.send_signal(signal.SIGCONT)
        self.see(lambda: not self.find("#ask").is_displayed() and self.row(DAMPER)["value"] == "80.0 %")
        self.assertEqual(self.client("other").submit([bossd.write("boiler.pump", 1, lease=MINUTE)]).txn, 3)


class WhoIsRefused(Page):
    def serve(self, text):
        """A page of another site."""
        folder = tempfile.TemporaryDirectory()
        self.addCleanup(folder.cleanup)
        with open(os.path.join(folder.name, "index.html"), "w", encoding="utf-8") as file:
            file.write(text)

        class Quiet(http.server.SimpleHTTPRequestHandler):
            def log_message(self, *_):
                pass

        site = http.server.ThreadingHTTPServer(("127.0.0.1", 0), functools.partial(Quiet, directory=folder.name))
        threading.Thread(target=site.serve_forever, daemon=True).start()
        self.addCleanup(site.server_close)
        self.addCleanup(site.shutdown)
        return site.server_address[1]

    def expected(self):
        return super().expected() + ["CORS policy", "refused to connect", "X-Frame-Options", "frame-ancestors"]

    def test_a_foreign_page_drives_nothing(self):
        console = self.console("--operator", "operator")
        body = {"id": "x", "point": DAMPER, "value": 90_000, "length": MINUTE}
        site = self.serve(f"""<!doctype html><title>elsewhere</title><iframe src="{console.address}"></iframe><script>
            const told = window.told = {{}}, note = (key) => (it) => {{ told[key] = String(it.status || it); }};
            const body = JSON.stringify({body}), Authorization = "Bearer {console.token}";
            fetch("{console.address}api/points").then(note("read"), note("read"));
            fetch("{console.address}api/take", {{method: "POST", body, mode: "no-cors"}}).then(note("plain"), note("plain"));
            fetch("{console.address}api/take", {{method: "POST", body, headers: {{Authorization, "Content-Type": "application/json"}}}}).then(note("take"), note("take"));
            const stream = new EventSource("{console.address}api/changes");
            stream.onmessage = stream.onopen = note("stream"); stream.onerror = () => {{ told.stream = "refused"; }};
        </script>""")
        browser.get(f"http://evil.example:{site}/")
        told = self.eventually(lambda: (lambda it: it if len(it) == 4 else None)(browser.execute_script("return window.told")))
        self.assertEqual((told["stream"], told["read"], told["take"]), ("refused", "TypeError: Failed to fetch", "TypeError: Failed to fetch"))
        # The name of another site that leads to this machine.
        browser.get(f"http://evil.example:{console.port}/")
        self.assertIn("this is not the address of the console", browser.find_element(By.TAG_NAME, "body").text)
        self.assertEqual(self.client("other").submit([bossd.write(DAMPER, 1_000, lease=MINUTE)]).txn, 1)


class Many(Page):
    def test_4096_points(self):
        catalogue = os.path.join(self.folder, "many.toml")
        names = [f"part{place // 64}.point{place % 64}" for place in range(4_096)]
        with open(catalogue, "w", encoding="utf-8") as file:
            file.write('drivers = ["field"]\n')
            file.writelines(f'[[point]]\nname = "{name}"\ndriver = "field"\nkind = "analog"\nmin = 0\nmax = 100000\ndefault = 0\n' for name in names)
        self.server.stop()
        self.server.catalogue, self.server.journal = catalogue, os.path.join(self.folder, "many")
        self.server.start()
        comfort = self.client("comfort")
        for place in range(0, 2_048, 32):
            comfort.submit([bossd.write(name, 1_000, lease=60 * MINUTE) for name in names[place:place + 32]])
        console = self.console(catalogue=catalogue)
        self.open(console)
        self.see(lambda: browser.execute_script("return [...points.values()].filter(({now}) => now.owner === 'comfort').length") == 2_048)
        name = names[4_000]
        began = time.monotonic()
        comfort.submit([bossd.write(name, 50_000, lease=60 * MINUTE)])
        self.see(lambda: self.row(name)["value"] == "50.0")
        self.assertLess(time.monotonic() - began, PATIENCE)
        # What a search over all takes.
        took = browser.execute_script("const began = performance.now(); search = 'part7.'; siftAll(); return performance.now() - began")
        self.assertLess(took, 2_000)
        self.assertEqual(browser.execute_script("return [...points.values()].filter(({node}) => !node.hidden).length"), 64)


class Pictures(Page):
    def test_pictures(self):
        schedule, comfort, boiler, fire = (self.client(name) for name in ["schedule", "comfort", "boiler-plant", "fire-panel"])
        hour = 60 * MINUTE
        schedule.submit([bossd.write("ahu1.fan", 2, lease=8 * hour), bossd.write("floor2.hall", 1, lease=8 * hour),
                         bossd.write("ahu1.supply", 21_500, lease=8 * hour)])
        comfort.submit([bossd.write(DAMPER, 35_000, priority=12, lease=32 * MINUTE, revert=[(30_000, 5 * MINUTE), (25_000, 5 * MINUTE)]),
                        bossd.write("ahu1.heating", 60_000, priority=12, lease=14 * MINUTE)])
        boiler.submit([bossd.write("boiler.pump", 1, priority=10, lease=20 * MINUTE), bossd.write("boiler.flow", 62_500, priority=10, lease=20 * MINUTE)])
        blinds = fire.submit([bossd.write("floor2.blinds", 100_000, priority=2, lease=hour, revert=[(50_000, 5 * MINUTE), (25_000, 5 * MINUTE), (10_000, 10 * MINUTE)])]).txn
        fire.cancel(blinds)
        console = self.console("--operator", "operator", "--journal", self.server.journal)
        self.open(console, f"#token={console.token}", high=1360)
        self.see(lambda: self.row("boiler.flow")["owner"] == "boiler-plant")
        for value in (45_000, 70_000):
            console.change("take", id=f"c-{value}", point=DAMPER, value=value, length=30 * MINUTE, revert=[[50_000, 5 * MINUTE], [30_000, 5 * MINUTE]])
            self.see(lambda: self.row(DAMPER)["value"] == f"{value / 1000} %")
            time.sleep(2)
        self.click("#list a[href='#point/ahu1.damper']")
        self.see(lambda: self.find("#pane .coming"))
        self.picture("console-1280")
        browser.set_window_size(1280, 1000)
        self.click("#take")
        self.type("value", "90")
        self.type("steps", "2")
        self.see(lambda: "at once: 90.0 %" in self.text("#ask-next") and "reversion at priority 8" in self.text("#ask-next"))
        self.picture("console-take-1280")
        self.click("#ask [value=no]")
        # Chromium's window is no narrower than 500 pixels, so the view is set.
        browser.execute_cdp_cmd("Emulation.setDeviceMetricsOverride", {"width": 400, "height": 800, "deviceScaleFactor": 1, "mobile": True})
        self.addCleanup(browser.execute_cdp_cmd, "Emulation.clearDeviceMetricsOverride", {})
        self.eventually(lambda: self.fits())
        self.picture("console-point-400")
        browser.execute_script("location.hash = '#point/floor2.blinds'")
        self.see(lambda: len(self.texts("#pane .slots .steps li")) == 2)
        browser.execute_script("document.querySelector('#pane .slots').scrollIntoView()")
        self.assertTrue(self.fits())
        self.picture("console-steps-400")
        self.click("#close")
        self.see(lambda: not self.find("#pane").is_displayed())
        self.assertTrue(self.fits())
        self.picture("console-400")

    def fits(self):
        """Whether nothing has to be moved sideways."""
        return browser.execute_script("return document.documentElement.scrollWidth <= 400")


class DayStub(Stub):
    """A server whose point ahu1.damper is held by `comfort`, and below by `schedule`."""

    OWNERS = {40: "comfort", 41: "schedule"}

    def __init__(self):
        super().__init__()
        self.failed, self.until = False, UNTIL

    def read(self, asked):
        if asked["point"] != DAMPER:
            default = read_catalogue(CATALOGUE).points[asked["point"]].default
            return {"ok": "read", "point": asked["point"], "value": default, "from": "default", "mark": "settled"}
        return {**super().read(asked), "txn": 40}

    def array(self, asked):
        told = super().array(asked)
        if asked["point"] == DAMPER:
            told["slots"][11]["txn"] = 40
            told["slots"][15] = {"value": 60_000, "txn": 41, "until": UNTIL - 45 * MINUTE}
        else:
            told["slots"] = [None] * 16
        return told

    def status(self, asked):
        return {"ok": "status", "txn": asked["txn"], "owner": self.OWNERS[asked["txn"]], "stage": "run", "live": 1, "pending": 0}


class ADay(Page):
    """A point's day, by a journal that no program wrote, before a server that is none."""

    def setUp(self):
        folder = tempfile.TemporaryDirectory()
        self.addCleanup(folder.cleanup)
        self.folder = folder.name
        self.addCleanup(self.blank)
        self.stub = DayStub()
        self.addCleanup(self.stub.stop)
        self.now = round(time.time() * 1000)

    def ago(self, hours):
        return self.now - round(hours * 60 * MINUTE)

    def journal(self):
        """A day of the damper. The schedule has it at 30 %, and from twelve hours ago on at 60 % for eight and a half; comfort steps through
        five values in the course of four hours, an operator has it for 40 minutes with two steps back, which show as nobody else has a lease
        then; the schedule took it an hour and a half ago, and comfort an hour ago."""
        def submit(ago, owner, value, priority, minutes, way=()):
            return journals.record(journals.submit(self.ago(ago), owner, journals.write(0, value, priority, minutes * MINUTE, way)))
        records = [journals.record(*[journals.taken_on(self.ago(30), name) for name in ("schedule", "comfort", "operator")]),
                   submit(20, 0, 30_000, 16, 8 * 60), submit(12, 0, 60_000, 16, 8 * 60 + 30)]
        records += [submit(10 - step * 0.8, 1, 35_000 + 9_000 * step, 12, 48) for step in range(5)]
        records += [submit(3, 2, 90_000, 8, 40, [(75_000, 10 * MINUTE), (65_000, 10 * MINUTE)]), submit(1.5, 0, 60_000, 16, 180), submit(1, 1, 35_000, 12, 180)]
        path = os.path.join(self.folder, "journal")
        with open(path, "wb") as file:
            file.write(journals.journal(*records, digest=read_catalogue(CATALOGUE).digest))
        return path

    def coming(self):
        """What the schedule wants: 60 % for three hours more, and 20 % in the evening."""
        path, hour = os.path.join(self.folder, "coming.json"), 60 * MINUTE
        spans = [[self.now - hour, self.now + 3 * hour, 60_000, "week: mon-fri 06:30"], [self.now + 5 * hour, self.now + 9 * hour, 20_000, "evening"]]
        told = {"process": "schedule", "zone": "Europe/Berlin", "written": self.now, "until": self.now + 3 * hour, "file": "week.toml", "reloaded": self.now - hour,
                "sentence": None, "coming": [{"points": [DAMPER, "ahu1.heating"], "priority": 16, "programme": "offices", "spans": spans}], "yielded": [], "refused": []}
        with open(path, "w") as file:
            json.dump(told, file)
        return path

    def opened(self, *words, **more):
        console = Console(self.stub.address, *words)
        self.addCleanup(console.stop)
        self.open(console, "#point/" + DAMPER, **more)
        self.see(lambda: self.find("#day-plot path"))
        return console

    def bars(self):
        """Who held the point, by the titles of the strip."""
        found = browser.execute_script("return [...document.querySelectorAll('#day-plot rect title')].map((it) => it.textContent)")
        return [title.partition(",")[0] for title in found]

    def pressed(self):
        return self.texts("#pane .zoom [aria-pressed=true]")

    def test_the_day_is_seen_zoomed_and_read_as_a_table(self):
        self.opened("--journal", self.journal())
        self.see(lambda: "The last 24 hours" in self.texts("#pane h3"))
        self.assertEqual(self.pressed(), ["24 h"])
        # By hand: the schedule's two, comfort's five, which follow one another, the schedule's again, the operator's with its two steps, the
        # schedule's and comfort's; and the default before the first, before the operator's and after it.
        held = ["schedule"] * 2 + ["comfort"] * 5 + ["schedule"] + ["operator"] * 3 + ["schedule", "comfort"]
        self.see(lambda: self.bars() == held)
        self.assertEqual(self.texts("#pane .legend li"), ["schedule", "comfort", "operator", "pale: a reversion"])
        self.assertIn("between 20.0 % and 90.0 %", self.text("#day-under"))
        self.assertIn("15 changes", self.find("#day-plot").get_attribute("aria-label"))
        self.click("#day-table summary")
        rows = self.see(lambda: (lambda found: found if len(found) == 16 else None)(self.texts("#day-table tbody tr")))
        self.assertEqual([row.split("\t")[1:] for row in (rows[0], rows[2], rows[3], rows[5], rows[15])], [
            ["35.0 %", "lease", "12", "comfort"], ["20.0 %", "default", "", ""], ["65.0 %", "reversion", "8", "operator"], ["90.0 %", "lease", "8", "operator"],
            ["20.0 %", "default", "", ""]])
        self.click("#day-span-1")
        self.see(lambda: self.pressed() == ["6 h"] and self.bars() == ["schedule"] + ["operator"] * 3 + ["schedule", "comfort"])
        self.click("#day-in")
        self.see(lambda: self.pressed() == [] and self.bars() == ["operator"] * 3 + ["schedule", "comfort"])

    def test_the_wheel_keys_and_a_drag(self):
        self.opened("--journal", self.journal())
        self.see(lambda: len(self.bars()) == 13)
        shown = "const it = day; return [it.span, it.last()]"
        plot = self.find("#day-plot")
        browser.execute_script("arguments[0].scrollIntoView({block: 'center'})", plot)
        ActionChains(browser).scroll_from_origin(ScrollOrigin.from_element(plot), 0, -100).perform()
        span, end = self.see(lambda: (lambda it: it if it[0] < DAY else None)(browser.execute_script(shown)))
        self.assertLess(end, self.now - MINUTE)
        ActionChains(browser).click_and_hold(plot).move_by_offset(80, 0).release().perform()
        dragged = browser.execute_script(shown)
        self.assertEqual(dragged[0], span)
        self.assertLess(dragged[1], end - 60 * MINUTE)
        plot = self.find("#day-plot")
        browser.execute_script("arguments[0].focus()", plot)
        for _ in range(20):
            browser.switch_to.active_element.send_keys("+")
        self.see(lambda: browser.execute_script(shown)[0] == 10_000)
        browser.switch_to.active_element.send_keys(Keys.END)
        self.see(lambda: browser.execute_script("return day.end === null"))
        for _ in range(20):
            browser.switch_to.active_element.send_keys("-")
        self.see(lambda: browser.execute_script(shown)[0] == DAY)

    def test_the_page_says_that_there_is_no_journal(self):
        self.opened()
        self.see(lambda: "the console reads no journal" in self.text("#day-note"))
        # It was opened a moment ago, so no day is shown, in which that would not be seen.
        self.see(lambda: self.find("#day-span-3").get_attribute("aria-pressed") == "true")
        self.assertTrue(any(title.startswith("Value since") for title in self.texts("#pane h3")))
        self.assertEqual(self.bars(), ["comfort"])

    def test_what_the_schedule_wants_and_who_decides_meanwhile(self):
        console = self.opened("--schedule", self.coming())
        self.see(lambda: "By the schedule “offices”" in self.texts("#pane h3"))
        said = self.text("#pane .schedule-state")
        self.assertIn("schedule holds it now, at priority 16 Available; comfort decides at priority 12", said)
        rows = [row.split("\t") for row in self.texts("#pane .schedule tbody tr")]
        self.assertEqual(self.texts("#renewed"), [])
        self.assertEqual([(row[0] == "now", *row[2:]) for row in rows], [(True, "60.0 %", "week: mon-fri 06:30"), (False, "20.0 %", "evening")])
        # Another point that it wants, and that nobody has.
        browser.execute_script("location.hash = '#point/ahu1.heating'")
        self.see(lambda: "schedule does not hold it now" in self.text("#pane .schedule-state"))
        browser.execute_script("location.hash = '#process/schedule'")
        self.see(lambda: "1 programme over 2 points, from week.toml" in self.text("#pane"))
        os.remove(os.path.join(self.folder, "coming.json"))
        browser.execute_script("location.hash = '#point/ahu1.damper'")
        self.see(lambda: "there is no such file" in self.text("#pane .schedule-fault"))
        self.assertEqual(console.ask("/api/schedules")[1]["schedules"][0]["process"], "schedule")

    def test_pictures(self):
        self.opened("--journal", self.journal(), "--schedule", self.coming(), high=1500)
        self.see(lambda: len(self.bars()) == 13 and "By the schedule “offices”" in self.texts("#pane h3"))
        self.picture("console-day-1280")
        browser.execute_cdp_cmd("Emulation.setDeviceMetricsOverride", {"width": 400, "height": 800, "deviceScaleFactor": 1, "mobile": True})
        self.addCleanup(browser.execute_cdp_cmd, "Emulation.clearDeviceMetricsOverride", {})
        self.click("#day-span-1")
        self.click("#day-table summary")
        browser.execute_script("document.querySelector('#pane .day').scrollIntoView()")
        self.eventually(lambda: browser.execute_script("const pane = find('pane'); return pane.scrollWidth <= pane.clientWidth && document.documentElement.scrollWidth <= 400"))
        self.picture("console-day-400")


if __name__ == "__main__":
    unittest.main()
