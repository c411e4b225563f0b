"""Searches the headings of the site in Chromium, from files. It ends with 0 if each search finds what it should.

    site_in_browser.py BROWSER DRIVER SITE
"""

import pathlib
import sys

from selenium import webdriver
from selenium.webdriver.chrome.options import Options
from selenium.webdriver.chrome.service import Service
from selenium.webdriver.common.by import By
from selenium.webdriver.common.keys import Keys

BROWSER, DRIVER, SITE = sys.argv[1:]
SITE = pathlib.Path(SITE).resolve()
options = Options()
options.binary_location = BROWSER
for word in ("--headless=new", "--no-sandbox", "--disable-gpu", "--disable-dev-shm-usage"):
    options.add_argument(word)
options.set_capability("goog:loggingPrefs", {"browser": "ALL"})
driver = webdriver.Chrome(service=Service(DRIVER), options=options)


def found():
    return [(it.text, it.get_attribute("href")) for it in driver.find_elements(By.CSS_SELECTOR, "#found a")]


def search(page, words):
    driver.get((SITE / page).as_uri())
    box = driver.find_element(By.ID, "search")
    box.send_keys(words)
    return box


def is_seen(name):
    """Whether the element is in the window."""
    top = driver.execute_script("return document.getElementById(arguments[0]).getBoundingClientRect().top", name)
    return 0 <= top < driver.execute_script("return innerHeight")


try:
    # From pages at each depth: a heading by two of its words, and a call.
    for page in ("README.html", "docs/PORT.html", "crates/mscp_wire/README.html", "man/mscp_take.3.html"):
        search(page, "case WORST")
        place = (SITE / "docs/TUNING.html").as_uri() + "#the-worst-case"
        assert ("The worst case (How to choose the limits)", place) in found(), (page, found())
        assert all("worst" in it.lower() and "case" in it.lower() for it, _ in found()), (page, found())
        box = search(page, "mscp_send")
        assert (SITE / "man/mscp_send.3.html").as_uri() in [place for _, place in found()], (page, found())
        box.send_keys(Keys.ENTER)
        assert driver.current_url == (SITE / "man/mscp_send.3.html").as_uri(), driver.current_url
    box = search("docs/C.html", "no heading says this")
    assert driver.find_element(By.ID, "found").text == "No heading has these words."
    # A heading far down its page is gone to.
    search("README.html", "how it is made page")
    driver.find_element(By.CSS_SELECTOR, "#found a").click()
    assert driver.current_url == (SITE / "docs/PAGE.html").as_uri() + "#how-it-is-made", driver.current_url
    assert is_seen("how-it-is-made")
    # No file was missing, and none came from elsewhere.
    names = driver.execute_script("return performance.getEntriesByType('resource').map((it) => it.name)")
    assert all(it.startswith("file:") for it in names), names
    style = driver.execute_script("return getComputedStyle(document.querySelector('table')).borderCollapse")
    assert style == "collapse", style
    assert not driver.get_log("browser")
    for width in (390, 1600):
        driver.execute_cdp_cmd("Emulation.setDeviceMetricsOverride", {
            "width": width, "height": 900, "deviceScaleFactor": 1, "mobile": False})
        for page in ("docs/FORMATS.html", "docs/mscp.3.html", "docs/PROVED.html"):
            driver.get((SITE / page).as_uri())
            wide = driver.execute_script("return document.documentElement.scrollWidth")
            assert wide <= width, (page, wide)
finally:
    driver.quit()
