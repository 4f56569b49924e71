"""A test with Selenium, as a project has one: it loads a page, types and clicks, and looks at what comes.

usage: selenium_clicks.py PORT ADDRESS
The browser's remote debugging listens at PORT; where ER_RECORD names a command, it is started in between, with PORT, and waited for.
"""
import os
import shlex
import subprocess
import sys

from selenium import webdriver
from selenium.webdriver.chrome.service import Service
from selenium.webdriver.common.by import By
from selenium.webdriver.support.ui import WebDriverWait


def main():
    port, address = sys.argv[1:]
    options = webdriver.ChromeOptions()
    options.binary_location = os.environ.get("CHROMIUM", "/usr/bin/chromium")
    for word in ["--headless", "--no-sandbox", "--disable-gpu", f"--remote-debugging-port={port}"]:
        options.add_argument(word)
    driver = webdriver.Chrome(service=Service("/usr/bin/chromedriver"), options=options)
    recorder = None
    try:
        if os.environ.get("ER_RECORD"):
            recorder = subprocess.Popen(shlex.split(os.environ["ER_RECORD"]), stderr=subprocess.PIPE, text=True)
            for line in recorder.stderr:
                sys.stderr.write(line)
                if "attached" in line:
                    break
        driver.get(address)
        driver.find_element(By.ID, "search").send_keys("tea")
        driver.find_element(By.ID, "add").click()
        WebDriverWait(driver, 10).until(lambda one: one.find_element(By.ID, "count").text != "")
        print("count:", driver.find_element(By.ID, "count").text)
    finally:
        driver.quit()
    if recorder:
        sys.stderr.write(recorder.communicate()[1])
        return recorder.returncode
    return 0


if __name__ == "__main__":
    sys.exit(main())
