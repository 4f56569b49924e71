"""A suite of twenty small tests with Selenium over the shop, a wiki (dokuwiki) and a version control system (fossil), as a project has one.

No test depends on the order of a race that the pages have: with or without a recorder such a test can fail.

usage: small_suite.py BROWSER SHOP WIKI FOSSIL [--only WORD]
BROWSER is the program; the others are addresses without a path. Each class of tests has one browser. Prints what unittest prints; the status is 1 if a test fails.
"""
import sys
import time
import unittest

from selenium import webdriver
from selenium.webdriver.chrome.service import Service
from selenium.webdriver.common.by import By
from selenium.webdriver.common.keys import Keys
from selenium.webdriver.support.ui import WebDriverWait

BROWSER, *ADDRESSES = sys.argv[1:5]
SHOP, WIKI, FOSSIL = ADDRESSES
LONGEST = 20
# A page that somebody edits is locked for others.
OWN = f"run{time.time_ns()}"


def open_browser():
    options = webdriver.ChromeOptions()
    options.binary_location = BROWSER
    for word in ["--headless", "--no-sandbox", "--disable-gpu", "--window-size=1200,900"]:
        options.add_argument(word)
    return webdriver.Chrome(service=Service("/usr/bin/chromedriver"), options=options)


class Pages(unittest.TestCase):
    """Tests with one browser; each opens its own page."""

    @classmethod
    def setUpClass(cls):
        cls.driver = open_browser()

    @classmethod
    def tearDownClass(cls):
        cls.driver.quit()

    def find(self, selector):
        return self.wait(lambda one: one.find_element(By.CSS_SELECTOR, selector))

    def count(self, selector):
        return len(self.driver.find_elements(By.CSS_SELECTOR, selector))

    def wait(self, what):
        return WebDriverWait(self.driver, LONGEST, ignored_exceptions=[Exception]).until(what)

    def wait_text(self, selector, is_right):
        self.wait(lambda one: is_right(one.find_element(By.CSS_SELECTOR, selector).text))


class Shop(Pages):
    def setUp(self):
        self.driver.get(f"{SHOP}/shop/index.html")

    def test_title(self):
        self.assertEqual(self.driver.title, "A small shop")

    def test_search(self):
        self.find("#search").send_keys("tea")
        self.wait(lambda one: "books" in one.find_element(By.ID, "search").get_property("value"))

    def test_hint(self):
        self.wait(lambda one: one.find_element(By.ID, "search").get_property("value") == "books")

    def test_add(self):
        self.find("#add").click()
        self.wait_text("#count", lambda text: text not in ("", "0"))

    def test_add_later(self):
        self.wait_text("#count", lambda text: text not in ("", "0"))
        before = int(self.find("#count").text)
        self.find("#add").click()
        self.find("#add").click()
        self.wait_text("#count", lambda text: int(text) == before + 2)

    def test_log_in(self):
        self.driver.get(f"{SHOP}/account")
        self.find("#name").send_keys("me")
        self.find("#go").click()
        self.wait(lambda one: one.title == "Account")


class Wiki(Pages):
    def page(self, words):
        self.driver.get(f"{WIKI}/doku.php?{words}")

    def test_start(self):
        self.page("id=start")
        self.assertEqual(self.find("h1.sectionedit1").text, "Start")

    def test_suggestions(self):
        self.page("id=start")
        self.find("#qsearch__in").send_keys("sta")
        self.wait(lambda one: one.find_elements(By.CSS_SELECTOR, "#qsearch__out li"))

    def test_search(self):
        self.page("id=start")
        self.find("#qsearch__in").send_keys("start" + Keys.ENTER)
        self.wait_text("h1.sectionedit1", lambda text: text == "Search")

    def test_tools(self):
        self.page(f"id={OWN}:tools&do=edit")
        self.wait(lambda one: one.find_elements(By.CSS_SELECTOR, "#tool__bar button"))
        self.assertGreater(self.count("#tool__bar button"), 5)

    def test_bold(self):
        self.page(f"id={OWN}:bold&do=edit")
        self.find("#tool__bar button").click()
        self.wait(lambda one: "**" in one.find_element(By.ID, "wiki__text").get_property("value"))

    def test_preview(self):
        self.page(f"id={OWN}:preview&do=edit")
        self.find("#wiki__text").send_keys("==== A part ====")
        self.find("#edbtn__preview").click()
        self.wait_text(".preview h3", lambda text: text == "A part")

    def test_index(self):
        self.page("id=start&do=index")
        self.wait(lambda one: one.find_elements(By.CSS_SELECTOR, "#index__tree li"))


class Fossil(Pages):
    def page(self, words):
        self.driver.get(f"{FOSSIL}/{words}")

    def test_timeline(self):
        self.page("timeline")
        self.wait(lambda one: len(one.find_elements(By.CSS_SELECTOR, ".timelineTable .timelineTime")) >= 3)

    def test_graph(self):
        self.page("timeline")
        self.wait(lambda one: one.find_elements(By.CSS_SELECTOR, ".tl-node, .tl-canvas *"))

    def test_filter(self):
        self.page("timeline?y=ci&n=2")
        self.wait(lambda one: one.find_elements(By.CSS_SELECTOR, "select[name=y]"))

    def test_files(self):
        self.page("dir?ci=tip")
        self.wait_text("body", lambda text: "one.txt" in text and "three.txt" in text)

    def test_file(self):
        self.page("file?name=two.txt&ci=tip")
        self.wait_text("body", lambda text: "lines" in text)

    def test_tickets(self):
        self.page("reportlist")
        self.wait_text("body", lambda text: "Ticket" in text)

    def test_menu(self):
        self.page("timeline")
        self.find("#hbbtn").click()
        self.wait(lambda one: one.find_element(By.ID, "hbdrop").text)


if __name__ == "__main__":
    unittest.main(argv=[sys.argv[0], *(["-k", sys.argv[6]] if sys.argv[5:6] == ["--only"] else [])], verbosity=1)
