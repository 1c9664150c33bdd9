"""Firefox without a window, by the protocol that it has built in, since Debian has no geckodriver."""
import base64
import json
import socket
import subprocess
import tempfile
import time


class Firefox:
    def __init__(self, width, height, settings=()):
        self.profile = tempfile.TemporaryDirectory()
        with socket.socket() as free:
            free.bind(("127.0.0.1", 0))
            port = free.getsockname()[1]
        with open(f"{self.profile.name}/user.js", "w", encoding="utf-8") as file:
            for name, value in (("marionette.port", port), *settings):
                file.write(f'user_pref("{name}", {json.dumps(value)});\n')
        self.process = subprocess.Popen(["firefox-esr", "--headless", "--marionette", "--no-remote", "--profile", self.profile.name],
                                        stdout=subprocess.DEVNULL, stderr=subprocess.DEVNULL)
        self.socket = self.connected(port)
        self.stream, self.number = self.socket.makefile("rb"), 0
        self.message()
        self.call("WebDriver:NewSession", {"capabilities": {"alwaysMatch": {"timeouts": {"script": 600000}}}})
        self.call("WebDriver:SetWindowRect", {"width": width, "height": height})

    @staticmethod
    def connected(port):
        for _ in range(600):
            try:
                return socket.create_connection(("127.0.0.1", port))
            except OSError:
                time.sleep(0.1)
        raise RuntimeError("Firefox doesn't answer")

    def message(self):
        size = b""
        while not size.endswith(b":"):
            size += self.stream.read(1)
        return json.loads(self.stream.read(int(size[:-1])))

    def call(self, name, words):
        self.number += 1
        sent = json.dumps([0, self.number, name, words]).encode()
        self.socket.sendall(str(len(sent)).encode() + b":" + sent)
        _, _, error, result = self.message()
        if error:
            raise RuntimeError(error["message"])
        return result

    def get(self, url):
        self.call("WebDriver:Navigate", {"url": url})

    def script(self, name, code, words):
        return self.call(name, {"script": code, "args": list(words), "sandbox": None, "newSandbox": False})["value"]

    def execute_script(self, code, *words):
        return self.script("WebDriver:ExecuteScript", code, words)

    def execute_async_script(self, code, *words):
        return self.script("WebDriver:ExecuteAsyncScript", code, words)

    def press(self, keys):
        """Presses keys one after another, as a person does."""
        actions = [{"type": kind, "value": key} for key in keys for kind in ("keyDown", "keyUp")]
        self.call("WebDriver:PerformActions", {"actions": [{"type": "key", "id": "keys", "actions": actions}]})
        self.call("WebDriver:ReleaseActions", {})

    def save_screenshot(self, path):
        with open(path, "wb") as file:
            file.write(base64.b64decode(self.call("WebDriver:TakeScreenshot", {"full": False})["value"]))

    def quit(self):
        self.socket.close()
        self.process.terminate()
        self.process.wait()
        self.profile.cleanup()
