#!/usr/bin/env python3
"""Opens pages of audits in a browser, and says what is wrong with them: what its console complains of, what it asks for, what its policy
lets run, whether each column is sorted both ways, and whether it is as wide as the window, also where that is 400 pixels, is read without
a script, and prints.

browser.py [--program PATH] [--pictures FOLDER]     the pages of gate/pages.py, of the program at PATH, ./seamless where none is given.
                                                    With a folder, pictures of them are put there.

The pages are those of gate/pages.py, and those of the networks of gate/page_networks.py. None of them is larger than 3 MB, and tidy finds
nothing in them, where it is there.

It takes chromium, chromium-driver and python3-selenium of Debian, so it is run by /usr/bin/python3; where they are not there it says so, and
ends with 0. A line for each page; the last one is 'N passed, M failed', and it exits with 1 where one failed."""
import argparse
import base64
import shutil
import subprocess
import sys
import tempfile
from pathlib import Path

import page_networks
from pages import ROOT, audits

BROWSER, DRIVER = Path("/usr/bin/chromium"), Path("/usr/bin/chromedriver")
WIDE, NARROW = 1280, 400
MOST_OCTETS = 3_000_000
# What tidy warns of that HTML allows: an empty element that a chart has for its place, and the parts of a picture.
TIDY = ["tidy", "-q", "-e", "-utf8", "--show-info", "no", "--drop-empty-elements", "no", "--warn-proprietary-attributes", "no"]
INLINE = "var s=document.createElement('script');s.textContent='window.hit=1';document.body.appendChild(s);return window.hit===undefined"
REQUEST = "var done=arguments[0];fetch('https://example.invalid/').then(function(){done(false)},function(){done(true)})"
ROWS = "return document.querySelectorAll('table.sortable tbody tr').length"
UNNAMED = (
    "return [].filter.call(document.querySelectorAll('svg'),function(s){return s.getAttribute('aria-hidden')!=='true'"
    " && !s.getAttribute('aria-label') && !s.parentNode.closest('svg')}).length"
)


class Browser:
    """A browser without a window, and what is found wrong in it."""

    def __init__(self, webdriver, service):
        options = webdriver.ChromeOptions()
        options.binary_location = str(BROWSER)
        for option in ("--headless=new", "--no-sandbox", "--disable-gpu", "--disable-dev-shm-usage", "--hide-scrollbars"):
            options.add_argument(option)
        options.set_capability("goog:loggingPrefs", {"browser": "ALL", "performance": "ALL"})
        self.driver = webdriver.Chrome(options=options, service=service(str(DRIVER)))
        self.driver.set_page_load_timeout(120)
        self.flaws = []

    def expect(self, is_so, flaw):
        if not is_so:
            self.flaws.append(flaw)

    def ask(self, script, *words):
        return self.driver.execute_script(script, *words)

    def tell(self, name, **words):
        return self.driver.execute_cdp_cmd(name, words)

    def set_width(self, width):
        self.tell("Emulation.setDeviceMetricsOverride", width=width, height=1000, deviceScaleFactor=1, mobile=width < WIDE)

    def shoot(self, path):
        if path:
            size = self.tell("Page.getLayoutMetrics")["cssContentSize"]
            clip = {"x": 0, "y": 0, "width": size["width"], "height": size["height"], "scale": 1}
            data = self.tell("Page.captureScreenshot", format="png", captureBeyondViewport=True, clip=clip)["data"]
            path.write_bytes(base64.b64decode(data))

    def column(self, table, at):
        return self.ask("var t=document.querySelectorAll('table.sortable')[arguments[0]],at=arguments[1];return [].map.call(t.tBodies[0].rows,function(r){var v=r.cells[at].getAttribute('data-v');return v===null?r.cells[at].textContent:v})", table, at)

    def look_at_table(self, table):
        """Each column of a table is sorted both ways, and no row is lost."""
        first = self.column(table, 0)
        for at in range(self.ask("return document.querySelectorAll('table.sortable')[arguments[0]].tHead.rows[0].cells.length", table)):
            for press in (0, 1):
                is_number = self.ask("var h=document.querySelectorAll('table.sortable')[arguments[0]].tHead.rows[0].cells[arguments[1]];h.querySelector('button').click();return h.classList.contains('num')", table, at)
                values = self.column(table, at)
                known = [float(it) if is_number else it for it in values if it]
                # Numbers are sorted down at first, and words up.
                down = (press == 0) == is_number
                self.expect(known == sorted(known, reverse=down) and not any(values[len(known) :]), f"column {at} of table {table} is not sorted {'down' if down else 'up'}")
        self.expect(sorted(self.column(table, 0)) == sorted(first), "sorting loses a row")

    def look_at_sorting(self):
        tables = self.ask("return document.querySelectorAll('table.sortable').length")
        for table in range(tables):
            self.look_at_table(table)
        self.expect(self.ask("return document.querySelectorAll('[aria-sort]').length") <= tables, "more than one head of a table tells the order")

    def look_at_safety(self, page):
        """Nothing is complained of or asked for, and the policy lets nothing run that is not the page's own."""
        complaints = [it["message"] for it in self.driver.get_log("browser")]
        self.expect(not complaints, f"the console complains: {complaints[:2]}")
        asked = [it["message"] for it in self.driver.get_log("performance") if '"Network.requestWillBeSent"' in it["message"] and page not in it["message"]]
        self.expect(not asked, f"the page asks for more: {asked[:2]}")
        self.expect(self.ask(INLINE), "an inline script runs")
        self.expect(self.driver.execute_async_script(REQUEST), "a request goes out")
        self.expect(self.ask(UNNAMED) == 0, "a picture has no text")

    def look_at_widths(self, picture):
        """The page is as wide as the window, light and dark."""
        for width in (WIDE, NARROW):
            self.set_width(width)
            self.driver.refresh()
            shown = self.ask("return document.documentElement.scrollWidth")
            self.expect(shown <= width, f"the page is {shown} pixels wide at {width}")
            self.shoot(picture and picture.with_name(f"{picture.name}-{width}.png"))
        self.set_width(WIDE)
        self.tell("Emulation.setEmulatedMedia", features=[{"name": "prefers-color-scheme", "value": "dark"}])
        self.shoot(picture and picture.with_name(f"{picture.name}-dark.png"))
        self.tell("Emulation.setEmulatedMedia", features=[])

    def look_at_paper(self, picture):
        """The page prints, and is whole without a script."""
        rows = self.ask(ROWS)
        self.tell("Emulation.setScriptExecutionDisabled", value=True)
        self.driver.refresh()
        self.expect(not self.driver.find_elements("tag name", "button"), "without a script a button does nothing")
        self.expect(self.ask(ROWS) == rows, "without a script rows are missing")
        paper = base64.b64decode(self.tell("Page.printToPDF", preferCSSPageSize=True, printBackground=True)["data"])
        self.expect(paper.startswith(b"%PDF"), "the page does not print")
        self.tell("Emulation.setScriptExecutionDisabled", value=False)
        if picture:
            picture.with_name(f"{picture.name}.pdf").write_bytes(paper)

    def look_at_file(self, path):
        """The page is not too large, and tidy finds nothing in it."""
        size = path.stat().st_size
        self.expect(size <= MOST_OCTETS, f"the page has {size} octets")
        if shutil.which(TIDY[0]):
            said = subprocess.run([*TIDY, str(path)], capture_output=True, text=True).stderr
            self.expect(not said, f"tidy finds: {said[:300]}")

    def look_at(self, page, picture):
        self.flaws = []
        self.set_width(WIDE)
        # What was said of the page before is none of this one's.
        for kind in ("browser", "performance"):
            self.driver.get_log(kind)
        self.driver.get(page)
        self.look_at_safety(page)
        self.look_at_sorting()
        self.look_at_widths(picture)
        self.look_at_paper(picture)
        return self.flaws


def main():
    parser = argparse.ArgumentParser(description=__doc__.split("\n", maxsplit=1)[0])
    parser.add_argument("--program", default=str(ROOT / "seamless"))
    parser.add_argument("--pictures", type=Path)
    given = parser.parse_args()
    try:
        from selenium import webdriver
        from selenium.webdriver.chrome.service import Service
    except ImportError:
        webdriver = None
    if webdriver is None or not BROWSER.exists() or not DRIVER.exists():
        print("pages are not opened: chromium, chromium-driver and python3-selenium of Debian are not here")
        print("0 passed, 0 failed")
        return 0
    if not shutil.which(TIDY[0]):
        print("tidy of Debian is not here: it looks at no page")
    failed, seen = 0, 0
    browser = Browser(webdriver, Service)
    try:
        with tempfile.TemporaryDirectory() as work:
            for name, audit in audits(Path(work), page_networks.NETWORKS):
                page = Path(work, f"page-{seen}.html")
                page.write_bytes(subprocess.run([given.program, "audit", *audit, "--format", "html"], cwd=ROOT, stdin=subprocess.DEVNULL, capture_output=True).stdout)
                browser.look_at(page.as_uri(), given.pictures and given.pictures / f"page-{seen}")
                browser.look_at_file(page)
                flaws, seen = browser.flaws, seen + 1
                failed += bool(flaws)
                print(f"page of {name} in a browser ... {'FAILED' if flaws else 'ok'}", flush=True)
                for flaw in flaws:
                    print(f"    {flaw}")
    finally:
        browser.driver.quit()
    print(f"{seen - failed} passed, {failed} failed")
    return failed > 0


if __name__ == "__main__":
    sys.exit(main())
