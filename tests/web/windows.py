"""Windows of headless Chromium on the page, and plain connections to its server. Debian: chromium chromium-driver python3-selenium."""
import json
import os
import socket
import subprocess
import sys
import time

from selenium import webdriver
from selenium.common.exceptions import ElementClickInterceptedException, ElementNotInteractableException
from selenium.common.exceptions import StaleElementReferenceException, WebDriverException
from selenium.webdriver.chrome.service import Service
from selenium.webdriver.common.action_chains import ActionChains
from selenium.webdriver.common.by import By
from selenium.webdriver.common.keys import Keys
from urllib3.exceptions import HTTPError

HERE = os.path.dirname(os.path.realpath(__file__))
# What the driver says of an element that is drawn anew or still covered: a moment later it can be clicked.
NOT_YET = (ElementClickInterceptedException, ElementNotInteractableException, StaleElementReferenceException, IndexError)
# What is raised where the browser or its driver has broken.
BROKEN = (WebDriverException, HTTPError)
ON_DISK = "--disk"
DORA = "k7Qw&d=T3.x%41-zB9"  # a token with what means something in an address
ACCOUNTS = f"author ann t1\nauthor bob t2\nauthor cyd t3\nauthor dora {DORA}\nauthor zed t5\n"
FLAGS = ("--headless=new", "--no-sandbox", "--disable-gpu", "--disable-dev-shm-usage", "--force-color-profile=srgb")
TEXT = "return [...document.querySelectorAll('#text .line')].map(line => line.textContent).join('\\n')"
PAST = "return [...document.querySelectorAll('#past .line')].map(line => line.textContent).join('\\n')"
# A tab forgets who is logged in, but not where a page loads itself again.
NOBODY = "try { if (performance.navigation.type !== 1) sessionStorage.clear(); } catch { /* it is blocked, or there is none here */ }"
SELECT = """
const [from, to] = arguments, root = document.getElementById('text'), places = [];
root.focus();
for (const unit of [from, to]) {
  let left = unit;
  const had = places.length;
  for (const line of root.querySelectorAll('.line')) {
    if (left > line.textContent.length) { left -= line.textContent.length + 1; continue; }
    let place = [line, 0];
    for (const run of line.childNodes) {
      if (run.firstChild && left <= run.textContent.length) { place = [run.firstChild, left]; break; }
      left -= run.textContent.length;
    }
    places.push(place);
    break;
  }
  // Another author can have made the text shorter meanwhile.
  if (places.length === had) places.push([root, root.childNodes.length]);
}
getSelection().setBaseAndExtent(...places[0], ...places[1]);
"""


def until(what, seconds=15):
    """What `what` answers once that is true, or its last answer."""
    end = time.time() + seconds
    while True:
        answer = None
        try:
            answer = what()
        except Exception:  # an element that is not there yet, or was just replaced
            pass
        if answer or time.time() > end:
            return answer
        time.sleep(0.05)


def start_browser(options, attempts=3):
    """A browser. One that does not come up, as happens on a busy machine, is started again."""
    for left in reversed(range(attempts)):
        try:
            return webdriver.Chrome(service=Service("/usr/bin/chromedriver"), options=options)
        except BROKEN:
            if not left:
                raise
            time.sleep(2)


def units(text):
    return len(text.encode("utf-16-le")) // 2


class Window:
    """One window, of one author."""

    def __init__(self, url, *flags, width=1280, height=860):
        options = webdriver.ChromeOptions()
        for flag in (*FLAGS, *flags, f"--window-size={width},{height}"):
            options.add_argument(flag)
        options.set_capability("goog:loggingPrefs", {"browser": "ALL"})
        self.driver = start_browser(options)
        self.driver.set_script_timeout(120)
        self.url = url

    def get(self, name):
        return self.driver.find_element(By.ID, name)

    def all(self, selector):
        return self.driver.find_elements(By.CSS_SELECTOR, selector)

    def run(self, script, *given):
        return self.driver.execute_script(script, *given)

    def press(self, find, seconds=15):
        """Clicks the element that `find` answers, once it can be clicked."""
        end = time.time() + seconds
        while True:
            try:
                return find().click()
            except NOT_YET:
                if time.time() > end:
                    raise
                time.sleep(0.05)

    def click(self, name):
        self.press(lambda: self.get(name))

    def click_first(self, selector):
        self.press(lambda: self.all(selector)[0])

    def keys(self, *keys, held=()):
        """Presses keys while others are held, wherever the focus is."""
        chain = ActionChains(self.driver)
        for key in held:
            chain.key_down(key)
        chain.send_keys(*keys)
        for key in held:
            chain.key_up(key)
        chain.perform()

    def begin(self, address=""):
        """Opens the page in a tab that nobody is logged in in."""
        self.driver.get("about:blank")
        script = self.driver.execute_cdp_cmd("Page.addScriptToEvaluateOnNewDocument", {"source": NOBODY})["identifier"]
        self.driver.get(self.url + address)
        self.driver.execute_cdp_cmd("Page.removeScriptToEvaluateOnNewDocument", {"identifier": script})

    def log_in(self, name, token, address=""):
        self.begin(address)
        until(lambda: self.get("log-in").is_displayed())
        self.get("name").send_keys(name)
        self.get("token").send_keys(token + Keys.ENTER)
        return until(lambda: not self.get("choose").get_property("hidden"))

    def open(self, pad, how="join"):
        self.get("pad").clear()
        self.get("pad").send_keys(pad)
        self.click(how)
        return until(lambda: self.get("text").is_displayed())

    @property
    def text(self):
        return self.run(TEXT)

    @property
    def state(self):
        return self.get("state").text

    def is_saved(self, seconds=15):
        return until(lambda: self.state == "All changes are saved", seconds)

    def select(self, start, end=None):
        self.run(SELECT, start, start if end is None else end)

    def type(self, text, at=None):
        if at is not None:
            self.select(at)
        self.keys(text)

    def insert(self, text):
        """Inserts a text as a keyboard for it would. (The driver cannot type characters beyond 16 bits.)"""
        self.run("document.execCommand('insertText', false, arguments[0])", text)

    def shot(self, folder, name):
        time.sleep(0.4)
        self.driver.save_screenshot(os.path.join(folder, f"{name}.png"))

    def dark(self, is_dark=True):
        scheme = "dark" if is_dark else "light"
        self.driver.execute_cdp_cmd("Emulation.setEmulatedMedia", {"features": [{"name": "prefers-color-scheme", "value": scheme}]})

    def faults(self):
        """What the browser logged as a fault, other than a connection that broke: the socket's, or that of the questions
        whether the server is proved, on how many machines it keeps words, which numbers it had, and who a proxy has logged in."""
        told = [line["message"] for line in self.driver.get_log("browser") if line["level"] == "SEVERE"]
        is_passing = lambda text: "net::ERR_" in text and any(path in text for path in ("/unproved.txt", "/kept", "/me", "/earlier-numbers"))
        return [text for text in told if "WebSocket" not in text and not is_passing(text)]

    def quit(self):
        self.driver.quit()


class Line:
    """An author's connection over TCP."""

    def __init__(self, port, name, token):
        self.file = socket.create_connection(("127.0.0.1", port)).makefile("rw", encoding="utf-8", newline="\n")
        self.ask(do="hello", name=name, token=token)

    def ask(self, **request):
        self.file.write(json.dumps(request) + "\n")
        self.file.flush()
        return json.loads(self.file.readline())


class Server:
    """The program in a folder of its own. It can be killed and started again, at the same addresses.

    With `--disk` among the words of the command line, windows get the page as it is on disk, and not that of the program.
    `more` are further words of the program's own command line.
    """

    def __init__(self, program, folder, more=()):
        self.program, self.folder, self.port, self.web, self.more = program, folder, free_port(), free_port(), more
        self.page = ChangedPage(self, folder) if ON_DISK in sys.argv else None
        self.url = self.page.url if self.page else f"http://127.0.0.1:{self.web}/"
        with open(os.path.join(folder, "accounts"), "w", encoding="utf-8") as file:
            file.write(ACCOUNTS)
        self.start()

    def start(self):
        words = ["--listen", f"127.0.0.1:{self.port}", "--web", f"127.0.0.1:{self.web}", "--replica", "1"]
        words += ["--accounts", "accounts", "--store", "store", *self.more]
        self.process = subprocess.Popen([self.program, *words], cwd=self.folder, stdout=subprocess.PIPE)
        for _ in range(2):
            self.process.stdout.readline()

    def kill(self):
        self.process.kill()
        self.process.wait()

    def end(self):
        self.kill()
        if self.page:
            self.page.end()


class ChangedPage:
    """dev.mjs before a server: it serves web/, and in place of some files those of a folder."""

    def __init__(self, server, folder):
        port = free_port()
        self.url = f"http://127.0.0.1:{port}/"
        self.words = ["node", os.path.join(HERE, "dev.mjs"), str(port), str(server.port), folder]
        self.start()

    def start(self):
        self.process = subprocess.Popen(self.words, stdout=subprocess.PIPE)
        self.process.stdout.readline()

    def end(self):
        self.process.kill()
        self.process.wait()


def free_port():
    with socket.create_server(("127.0.0.1", 0)) as one:
        return one.getsockname()[1]


def play_all(play, words):
    """Plays a program's checks, as the words of a command line say: the program, and a folder for pictures. A browser that breaks says
    nothing about the page: it is told, and all is played once more. A failed check stays one. Returns the exit status."""
    program, *folders = [word for word in words if word != ON_DISK]
    folder = folders[0] if folders else None
    if folder:
        os.makedirs(folder, exist_ok=True)
    tally = {True: 0, False: 0}
    try:
        play(os.path.realpath(program), folder, tally)
    except BROKEN as error:
        print("the browser broke, and all is played again:", type(error).__name__, str(error).split("\n", 1)[0], flush=True)
        tally[True] = 0
        play(os.path.realpath(program), folder, tally)
    print(f"{tally[True]} passed, {tally[False]} failed")
    return int(tally[False] > 0)
