"""The page in a browser without a window."""
import json
import shutil
from pathlib import Path

from marionette import Firefox

HERE = Path(__file__).resolve().parent
PAGE = HERE.parent / "build/illcanon.html"
SIZE = 1440, 900
FLAGS = "--headless=new --no-sandbox --disable-dev-shm-usage --force-device-scale-factor=1".split()
IS_READY = "const done = arguments[0]; illcanonPage.ready.then(() => done(document.documentElement.dataset.ready))"

OFFLINE = {"offline": True, "latency": 0, "downloadThroughput": 0, "uploadThroughput": 0}
# For Firefox a proxy at a port that nothing listens at.
NO_PROXY = [("network.proxy.type", 1), *((f"network.proxy.{kind}", "127.0.0.1") for kind in ("http", "ssl")), *((f"network.proxy.{kind}_port", 9) for kind in ("http", "ssl"))]

# The characters of test vectors that are sent to a browser at once.
CHUNK = 4_000_000


def chromium(width, height, is_offline=True):
    from selenium import webdriver
    from selenium.webdriver.chrome.service import Service

    class Chromium(webdriver.Chrome):
        def press(self, keys):
            """Presses keys one after another, as a person does."""
            webdriver.ActionChains(self).send_keys(*keys).perform()

    options = webdriver.ChromeOptions()
    for flag in (*FLAGS, f"--window-size={width},{height}"):
        options.add_argument(flag)
    options.set_capability("goog:loggingPrefs", {"browser": "ALL"})
    browser = Chromium(options=options, service=Service(shutil.which("chromedriver")))
    browser.set_script_timeout(600)
    if is_offline:
        browser.execute_cdp_cmd("Network.enable", {})
        browser.execute_cdp_cmd("Network.emulateNetworkConditions", OFFLINE)
    return browser


def bare(name, size=SIZE, is_offline=True):
    """A browser that shows nothing yet, without a network, unless it needs one."""
    return chromium(*size, is_offline) if name == "chromium" else Firefox(*size, settings=NO_PROXY if is_offline else ())


def without_webassembly(name):
    """A browser in which pages have no WebAssembly."""
    if name == "firefox":
        return Firefox(*SIZE, settings=[("javascript.options.wasm", False)])
    browser = chromium(*SIZE)
    browser.execute_cdp_cmd("Page.addScriptToEvaluateOnNewDocument", {"source": "delete globalThis.WebAssembly"})
    return browser


def start(name, size=SIZE, fragment=""):
    """A browser that shows the page, once it is ready."""
    browser = bare(name, size)
    browser.get(PAGE.as_uri() + fragment)
    ready = browser.execute_async_script(IS_READY)
    assert ready == "yes", ready
    return browser


def chunks(chosen):
    """Test vectors in lists that are short enough to be sent at once."""
    chunk, size = [], 0
    for test in chosen:
        chunk.append(test)
        size += len(json.dumps(test))
        if size > CHUNK or len(chunk) == 500:
            yield chunk
            chunk, size = [], 0
    yield chunk


def answers_in(name, chosen):
    """What the page's calls answer of the test vectors."""
    code = (HERE / "answers.js").read_text(encoding="utf-8").replace("export function", "function")
    code += "; const done = arguments[1]; try { done(arguments[0].map((test) => answers(illcanonPage.page.calls, test))); } catch (error) { done(String(error)); }"
    browser, found = start(name), []
    try:
        for chunk in chunks(chosen):
            answered = browser.execute_async_script(code, chunk)
            assert isinstance(answered, list), answered
            found += answered
    finally:
        browser.quit()
    return found
