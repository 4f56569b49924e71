"""A small test suite with Selenium, as a project has one: the shop twice in a tab, a log-in, an account, a window that it opens.

usage: selenium_suite.py BROWSER ORIGIN [WORD..]
Each word is one of the browser's. Prints a line for each test, then how long the suite took.
"""
import sys
import time

from selenium import webdriver
from selenium.webdriver.chrome.service import Service
from selenium.webdriver.common.by import By
from selenium.webdriver.support.ui import WebDriverWait


def wait(driver, what):
    return WebDriverWait(driver, 20).until(what)


def shop(driver, origin):
    for word in ["tea", "salt"]:
        driver.get(f"{origin}/shop/index.html?{word}")
        driver.find_element(By.ID, "search").send_keys(word)
        driver.find_element(By.ID, "add").click()
        wait(driver, lambda one: one.find_element(By.ID, "count").text not in ("", "0"))


def account(driver, origin):
    driver.get(f"{origin}/account")
    assert driver.title == "Log in", driver.title
    driver.find_element(By.ID, "name").send_keys("me")
    driver.find_element(By.ID, "go").click()
    wait(driver, lambda one: one.title == "Account")
    driver.find_element(By.ID, "more").click()
    wait(driver, lambda one: int(one.find_element(By.ID, "orders").text or 0) >= 3)
    assert driver.execute_script("window.ofTheDriver = 1; return typeof orders") == "number"
    driver.find_element(By.ID, "tab").click()
    assert driver.current_url.endswith("#tab")


def window(driver, origin):
    first = driver.current_window_handle
    driver.find_element(By.ID, "help").click()
    wait(driver, lambda one: len(one.window_handles) == 2)
    driver.switch_to.window([one for one in driver.window_handles if one != first][0])
    wait(driver, lambda one: one.title == "Help, read" and one.find_element(By.ID, "answer").text == "orders")
    driver.close()
    driver.switch_to.window(first)
    assert driver.title == "Account"


def main():
    browser, origin, *words = sys.argv[1:]
    options = webdriver.ChromeOptions()
    options.binary_location = browser
    for word in ["--headless", "--no-sandbox", "--disable-gpu", *words]:
        options.add_argument(word)
    begin = time.time()
    driver = webdriver.Chrome(service=Service("/usr/bin/chromedriver"), options=options)
    try:
        for test in [shop, account, window]:
            test(driver, origin)
            print("ok", test.__name__)
    finally:
        driver.quit()
    print(f"{time.time() - begin:.2f} s")


if __name__ == "__main__":
    main()
