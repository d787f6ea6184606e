"""Windows of headless Firefox on the page, by WebDriver BiDi. Debian: firefox-esr python3-websockets."""
import asyncio
import json
import os
import subprocess
import tempfile
import threading
import time

import websockets
from windows import NOBODY, SELECT, TEXT, free_port, until

PROGRAM = "firefox-esr"
# Every window has the keyboard, nothing asks the author for anything, and what the browser wants from elsewhere goes to a
# port of this machine at which nobody listens.
PREFERENCES = {
    "focusmanager.testmode": True, "dom.disable_beforeunload": True, "browser.shell.checkDefaultBrowser": False,
    "datareporting.policy.dataSubmissionEnabled": False, "app.update.enabled": False, "extensions.update.enabled": False,
    "browser.startup.page": 0, "toolkit.telemetry.enabled": False, "network.dns.disabled": True, "network.proxy.type": 1,
    "network.proxy.http": "127.0.0.1", "network.proxy.http_port": 9, "network.proxy.ssl": "127.0.0.1", "network.proxy.ssl_port": 9,
}
LONGEST = 60  # seconds for one answer of the browser
CONTROL, ALT, BACKSPACE, DELETE, ENTER = "\ue009", "\ue00a", "\ue003", "\ue017", "\ue007"


class Refused(Exception):
    """The browser could not do what it was told."""


class Firefox:
    """One browser. Its answers are read by a thread of their own."""

    def __init__(self):
        self.folder, self.port, self.number, self.waiting, self.events = tempfile.TemporaryDirectory(), free_port(), 0, {}, []
        with open(os.path.join(self.folder.name, "user.js"), "w", encoding="utf-8") as file:
            file.writelines(f"user_pref({json.dumps(name)}, {json.dumps(value)});\n" for name, value in PREFERENCES.items())
        words = [PROGRAM, "--headless", "--no-remote", "--profile", self.folder.name, "--remote-debugging-port", str(self.port)]
        self.process = subprocess.Popen(words, stdin=subprocess.DEVNULL, stdout=subprocess.DEVNULL, stderr=subprocess.DEVNULL)
        self.loop = asyncio.new_event_loop()
        threading.Thread(target=self.loop.run_forever, daemon=True).start()
        self.socket = None
        try:
            self.connect()
        except BaseException:
            self.end()
            raise

    def connect(self, seconds=60):
        end = time.time() + seconds
        while not self.socket:
            try:
                self.socket = self.run(self.opened())
            except OSError:
                if time.time() > end:
                    raise
                time.sleep(0.2)
        asyncio.run_coroutine_threadsafe(self.read(), self.loop)
        self.ask("session.new", capabilities={})
        self.ask("session.subscribe", events=["log.entryAdded"])

    async def opened(self):
        return await websockets.connect(f"ws://127.0.0.1:{self.port}/session", max_size=None, ping_interval=None)

    def run(self, coroutine):
        return asyncio.run_coroutine_threadsafe(coroutine, self.loop).result(LONGEST)

    async def read(self):
        try:
            async for message in self.socket:
                told = json.loads(message)
                if told.get("id") in self.waiting:
                    self.waiting.pop(told["id"]).set_result(told)
                elif told.get("type") == "event":
                    self.events.append(told)
        except websockets.ConnectionClosed:
            pass

    def ask(self, method, **params):
        async def sent():
            self.number += 1
            answer = self.waiting[self.number] = self.loop.create_future()
            await self.socket.send(json.dumps({"id": self.number, "method": method, "params": params}))
            return await asyncio.wait_for(answer, LONGEST)
        told = self.run(sent())
        if told["type"] == "error":
            raise Refused(f"{method}: {told['error']}: {told.get('message', '')[:300]}")
        return told["result"]

    def faults(self):
        """What pages logged as a fault, other than a connection that broke."""
        texts = [event["params"].get("text") or "" for event in self.events if event["params"].get("level") == "error"]
        return [text for text in texts if "establish a connection" not in text and "interrupted" not in text]

    def end(self):
        try:
            self.run(self.socket.close())
        except Exception:  # it was never open, or the browser has gone
            pass
        self.process.kill()
        self.process.wait()
        self.loop.call_soon_threadsafe(self.loop.stop)
        self.folder.cleanup()


class Window:
    """One window, of one author."""

    def __init__(self, browser, url):
        self.browser, self.url = browser, url
        self.context = browser.ask("browsingContext.create", type="window")["context"]

    def run(self, script, *given):
        """Runs the body of a function. What it answers has to be plain: it comes as JSON."""
        body = f"async (...given) => JSON.stringify(await (async function () {{ {script} }}).apply(null, JSON.parse(given[0])) ?? null)"
        told = self.browser.ask(
            "script.callFunction", functionDeclaration=body, target={"context": self.context}, awaitPromise=True,
            arguments=[{"type": "string", "value": json.dumps(given)}],
        )
        if told["type"] == "exception":
            raise Refused(told["exceptionDetails"]["text"])
        return json.loads(told["result"]["value"])

    def keys(self, text, held=()):
        actions = [{"type": "keyDown", "value": key} for key in held]
        for key in text:
            actions += [{"type": "keyDown", "value": key}, {"type": "keyUp", "value": key}]
        actions += [{"type": "keyUp", "value": key} for key in held]
        self.browser.ask("input.performActions", context=self.context, actions=[{"type": "key", "id": "keys", "actions": actions}])

    def click(self, name):
        self.run("document.getElementById(arguments[0]).click()", name)

    def focus(self, name):
        self.run("document.getElementById(arguments[0]).focus()", name)

    def text_of(self, name):
        return self.run("return document.getElementById(arguments[0]).textContent", name)

    def shows(self, name):
        return self.run("return document.getElementById(arguments[0]).checkVisibility()", name)

    def load(self, address="", wait="complete"):
        self.browser.ask("browsingContext.navigate", context=self.context, url=self.url + address, wait=wait)

    def log_in(self, name, token):
        script = self.browser.ask("script.addPreloadScript", functionDeclaration=f"() => {{ {NOBODY} }}", contexts=[self.context])["script"]
        self.load()
        self.browser.ask("script.removePreloadScript", script=script)
        until(lambda: self.shows("log-in"))
        self.focus("name")
        self.keys(name)
        self.focus("token")
        self.keys(token + ENTER)
        return until(lambda: self.shows("choose"))

    def open(self, pad, how="join"):
        self.focus("pad")
        self.keys(pad)
        self.click(how)
        return until(lambda: self.shows("text"))

    @property
    def text(self):
        return self.run(TEXT)

    def is_saved(self, seconds=15):
        return until(lambda: self.text_of("state") == "All changes are saved", seconds)

    def select(self, start, end=None):
        self.run(SELECT, start, start if end is None else end)
