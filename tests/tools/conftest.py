"""Pages of tools/cadf-report in Chromium: the files that they are made of, the browser, and a page in it."""
import json
import os
import shutil
import subprocess
import time

import pytest

from tests import TOP


class Place:
    """A folder with files, and the commands that read them."""

    def __init__(self, cadf, folder):
        self.folder, self.environment = folder, dict(os.environ, CADF=cadf, PATH=os.path.join(TOP, "tools") + os.pathsep + os.environ["PATH"])
        self.cadf = cadf

    def path(self, name):
        return os.path.join(self.folder, name)

    def file(self, name, content):
        with open(self.path(name), "wb") as file:
            file.write(content if isinstance(content, bytes) else json.dumps(content).encode())
        return self.path(name)

    def run(self, *words, **options):
        """What a command writes; `cadf` is the one that is tried."""
        words = [self.cadf if words[0] == "cadf" else words[0], *words[1:]]
        return subprocess.run(words, check=True, stdout=subprocess.PIPE, env=self.environment, cwd=self.folder, **options).stdout

    def page(self, name, *words):
        return self.file(name + ".html", self.run("cadf-report", *words))


class Tried:
    """A page in a browser, and what was seen."""

    def __init__(self, driver, path):
        self.driver = driver
        self.logs()
        driver.get("file://" + path)

    def ready(self):
        """Waits until the page has unpacked its data and shows them."""
        for _ in range(600):
            if self.js("return document.documentElement.dataset.ready"):
                return self
            time.sleep(0.05)
        raise AssertionError(self.driver.get_log("browser"))

    def logs(self):
        """What the console said since the last call, and what was asked for and not stopped by the page's policy."""
        told = [each["message"] for each in self.driver.get_log("browser")]
        seen = [json.loads(each["message"])["message"] for each in self.driver.get_log("performance")]
        stopped = {each["params"]["requestId"] for each in seen if each["method"] == "Network.loadingFailed" and each["params"].get("blockedReason") == "csp"}
        asked = [each["params"] for each in seen if each["method"] == "Network.requestWillBeSent"]
        return told, [each["request"]["url"] for each in asked if each["requestId"] not in stopped]

    def js(self, script, *words):
        return self.driver.execute_script(script, *words)

    def all(self, selector):
        return self.driver.find_elements("css selector", selector)

    def one(self, selector):
        return self.driver.find_element("css selector", selector)

    def texts(self, selector):
        return self.js("return [...document.querySelectorAll(arguments[0])].map(each => each.textContent)", selector)

    def show(self, tab):
        self.js("document.getElementById('tab-' + arguments[0]).click()", tab)

    def until(self, what, script, *words):
        for _ in range(200):
            if self.js(script, *words):
                return
            time.sleep(0.05)
        raise AssertionError("not within ten seconds: " + what)

    def type(self, selector, text):
        """Types into a field, and waits until the page has taken it."""
        self.js("delete document.body.dataset.taken")
        self.one(selector).send_keys(text)
        time.sleep(0.25)

    def open_all(self):
        """Opens all that can be opened, in every view, page after page."""
        for tab in self.texts("[role=tab]"):
            self.js("[...document.querySelectorAll('[role=tab]')].find(tab => tab.textContent === arguments[0]).click()", tab)
            more = True
            while more:
                more = self.js("document.querySelectorAll('[role=tabpanel]:not([hidden]) .opener[aria-expanded=false]').forEach(each => each.click());"
                               "document.querySelectorAll('[role=tabpanel]:not([hidden]) details').forEach(each => { each.open = true; });"
                               "const next = [...document.querySelectorAll('[role=tabpanel]:not([hidden]) > .pages [aria-label=\"Next page\"]')].find(each => !each.disabled);"
                               "if (next) next.click(); return Boolean(next);")
                time.sleep(0.1)

    def is_quiet(self):
        """Demands that nothing of the data ran, nothing was asked of a network, and the console is empty."""
        assert self.js("return window.pwned") is None
        assert self.js("return document.scripts.length") == 2
        assert not self.all("img, iframe, object, embed, link, base, form, a[href]:not(.skip), svg a, foreignObject")
        assert not self.js("return [...document.querySelectorAll('*')].filter(e => [...e.attributes].some(a => a.name.startsWith('on'))).length")
        told, asked = self.logs()
        assert all(url.startswith("file://") for url in asked) and len(asked) <= 1, asked
        assert not told, told

    def listed(self):
        """How many events pass the filters, as the page says it."""
        said = self.texts("#panel-events .where")[0]
        return 0 if said == "none" else int(said.split(" of ")[1].replace(",", ""))


@pytest.fixture(scope="module")
def place(cadf, tmp_path_factory):
    """A folder of its own with the commands that make pages."""
    return Place(cadf, str(tmp_path_factory.mktemp("pages")))


@pytest.fixture(scope="module")
def driver(place):
    """Chromium without a window; what is saved goes into the folder of the pages."""
    webdriver = pytest.importorskip("selenium.webdriver", reason="selenium isn't there (Debian: python3-selenium)")
    from selenium.webdriver.chrome.service import Service
    options = webdriver.ChromeOptions()
    options.binary_location = shutil.which("chromium")
    for word in ("--headless=new", "--no-sandbox", "--disable-gpu", "--window-size=1440,1000", "--user-data-dir=" + place.path("profile")):
        options.add_argument(word)
    options.set_capability("goog:loggingPrefs", {"browser": "ALL", "performance": "ALL"})
    started = webdriver.Chrome(service=Service(shutil.which("chromedriver")), options=options)
    started.execute_cdp_cmd("Browser.setDownloadBehavior", {"behavior": "allow", "downloadPath": place.folder})
    yield started
    started.quit()
