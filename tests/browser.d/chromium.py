"""A browser that a test drives: chromium without a window, by Selenium."""
import json
import shutil
import time

try:
    from selenium import webdriver
    from selenium.common.exceptions import WebDriverException as Failed
    from selenium.webdriver import ActionChains
    from selenium.webdriver.chrome.service import Service
    from selenium.webdriver.common.by import By
    from selenium.webdriver.common.keys import Keys
except ModuleNotFoundError:
    webdriver = None

NAME = shutil.which("chromium") or shutil.which("chromium-browser") or shutil.which("google-chrome")
DRIVER = shutil.which("chromedriver")
WORDS = ["--headless", "--no-sandbox", "--disable-dev-shm-usage", "--hide-scrollbars"]


def missing():
    """What this machine lacks to drive a browser, or nothing."""
    return not webdriver and "selenium" or not NAME and "chromium" or not DRIVER and "chromedriver"


class Chromium:
    """One browser, with one page."""

    def __init__(self, folder):
        options = webdriver.ChromeOptions()
        options.binary_location = NAME
        for word in (*WORDS, f"--user-data-dir={folder}"):
            options.add_argument(word)
        options.set_capability("goog:loggingPrefs", {"browser": "ALL", "performance": "ALL"})
        self.driver = webdriver.Chrome(service=Service(DRIVER), options=options)
        # The browser's own first page fetches its parts.
        self.driver.get("about:blank")
        self.found = []

    def ask(self, method, **words):
        """One call of the protocol for developers, for what Selenium has no call of."""
        return self.driver.execute_cdp_cmd(method, words)

    def open(self, path):
        """Opens a file, as by a click on it."""
        self.said()
        self.found.clear()
        self.driver.get(path.resolve().as_uri())
        self.wait("document.readyState === 'complete' && location.protocol === 'file:' && typeof "
                  "Work === 'function'")

    def value(self, expression):
        """What an expression is in the page, or what it promises."""
        told = self.ask("Runtime.evaluate", expression=expression, awaitPromise=True,
                        returnByValue=True)
        if "exceptionDetails" in told:
            raise Failed(told["exceptionDetails"].get("exception", {}).get("description",
                                                                           "an exception"))
        return told["result"].get("value")

    def wait(self, expression, seconds=60):
        """Waits until an expression holds."""
        until = time.monotonic() + seconds
        while not self.value(expression):
            if time.monotonic() > until:
                raise Failed(f"not in {seconds} seconds: {expression}")
            time.sleep(0.02)

    def choose(self, selector, *paths):
        """Chooses files, as in the browser's own window, in place of those before."""
        chooser = self.driver.find_element(By.CSS_SELECTOR, selector)
        self.driver.execute_script("arguments[0].value = ''", chooser)
        chooser.send_keys("\n".join(map(str, paths)))

    def drop(self, x, y, *paths):
        """Drops files at a place of the page."""
        data = {"items": [], "files": [str(path) for path in paths], "dragOperationsMask": 1}
        for kind in ("dragEnter", "dragOver", "drop"):
            self.ask("Input.dispatchDragEvent", type=kind, x=x, y=y, data=data)

    def press(self, key):
        """Presses a key: a letter, or one by its name in Selenium, as ARROW_RIGHT."""
        ActionChains(self.driver).send_keys(getattr(Keys, key, key)).perform()

    def screen(self, width, height, colour="light"):
        """Another size of the window, and light or dark colours."""
        self.ask("Emulation.setDeviceMetricsOverride", width=width, height=height,
                 deviceScaleFactor=1, mobile=False)
        self.ask("Emulation.setEmulatedMedia", features=[{"name": "prefers-color-scheme",
                                                          "value": colour}])

    def said(self):
        """What went wrong by the console since the file was opened, and what was fetched beside
        it."""
        self.found += [entry["message"] for entry in self.driver.get_log("browser")]
        for entry in self.driver.get_log("performance"):
            event = json.loads(entry["message"])["message"]
            if event["method"] == "Network.requestWillBeSent":
                url = event["params"]["request"]["url"]
                self.found += [] if url.startswith(("file:", "blob:", "data:")) else [url]
        return self.found

    def close(self):
        """Ends the browser, and what it started."""
        self.driver.quit()
