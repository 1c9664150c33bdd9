#!/usr/bin/env python3
"""Loads illcanon.js and its module in a browser from a server on this machine: served.py chromium|firefox"""
import functools
import http.server
import sys
import threading
import time

from browser import HERE, SIZE, bare

NORMAL = "741f301d800102a10aa1031b0147a2031b0151a20ca00a80083230323430323239"


class Handler(http.server.SimpleHTTPRequestHandler):
    extensions_map = {".html": "text/html", ".js": "text/javascript", ".wasm": "application/wasm"}

    def log_message(self, *words):
        pass


def title_of(browser):
    for _ in range(600):
        title = browser.execute_script("return document.title")
        if "server" not in title:
            return title
        time.sleep(0.05)
    return "no answer"


def main():
    server = http.server.ThreadingHTTPServer(("127.0.0.1", 0), functools.partial(Handler, directory=str(HERE.parent)))
    threading.Thread(target=server.serve_forever, daemon=True).start()
    browser = bare(sys.argv[1], SIZE, is_offline=False)
    try:
        browser.get(f"http://127.0.0.1:{server.server_port}/tests/served.html")
        title = title_of(browser)
    finally:
        browser.quit()
        server.shutdown()
    print(f"the normal form in {sys.argv[1]}: {title}")
    return title != NORMAL


if __name__ == "__main__":
    sys.exit(main())
