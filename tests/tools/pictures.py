"""Makes the pictures of docs/REPORT.md, of the events of examples/real, as the page makes them. On demand.

    /usr/bin/python3 -m tests.tools.pictures [CADF]

It needs Chromium and Debian's python3-selenium. CADF is the command, if it isn't the one that is on PATH.
"""
import glob
import os
import subprocess
import sys
import tempfile

from tests import TOP

SIZE = 1200, 700
DOCS = os.path.join(TOP, "docs")


def made(folder, *words):
    """What a tool writes; it may end with 1 or 5, as one that has set something aside."""
    done = subprocess.run([os.path.join(TOP, "tools", words[0]), *words[1:]], cwd=folder, stdout=subprocess.PIPE, stderr=subprocess.DEVNULL)
    assert done.returncode in (0, 1, 5), words
    return done.stdout


def put(folder, name, text):
    with open(os.path.join(folder, name), "wb") as file:
        file.write(text)


def pages(folder):
    """Makes the two pages."""
    real = sorted(glob.glob(os.path.join(TOP, "examples", "real", "*.jsonl")))
    north = made(folder, "cadf-from-openstack", "--log", "audit", "--set-aside", "aside.jsonl", *real)
    put(folder, "north.json", north)
    put(folder, "south.json", north.replace(b'"outcome":"failure"', b'"outcome":"success"'))
    put(folder, "north.html", made(folder, "cadf-report", "--set-aside", "aside.jsonl", "north.json"))
    put(folder, "both.html", made(folder, "cadf-report", "north.json", "south.json"))


def browser(folder):
    from selenium import webdriver
    from selenium.webdriver.chrome.service import Service
    options = webdriver.ChromeOptions()
    for word in ("--headless=new", "--no-sandbox", "--disable-gpu", "--hide-scrollbars", "--user-data-dir=" + os.path.join(folder, "profile")):
        options.add_argument(word)
    return webdriver.Chrome(service=Service("/usr/bin/chromedriver"), options=options)


def main():
    if len(sys.argv) > 1:
        os.environ["CADF"] = os.path.abspath(sys.argv[1])
    with tempfile.TemporaryDirectory() as folder:
        pages(folder)
        driver = browser(folder)
        driver.execute_cdp_cmd("Emulation.setDeviceMetricsOverride", {"width": SIZE[0], "height": SIZE[1], "deviceScaleFactor": 1, "mobile": False})
        driver.get("file://%s/north.html" % folder)
        driver.save_screenshot(os.path.join(DOCS, "report.png"))
        driver.get("file://%s/both.html" % folder)
        driver.execute_script("document.getElementById('tab-conflicts').click(); document.getElementById('when').hidden = true")
        driver.save_screenshot(os.path.join(DOCS, "report-conflicts.png"))
        driver.quit()


if __name__ == "__main__":
    main()
