"""The page in headless Chromium: opening it and its files, what it shows, and the count of comparisons."""
import tempfile
from pathlib import Path

from selenium import webdriver
from selenium.webdriver.chrome.service import Service
from selenium.webdriver.common.action_chains import ActionChains
from selenium.webdriver.common.by import By
from selenium.webdriver.support.ui import WebDriverWait

REPOSITORY = Path(__file__).resolve().parent.parent.parent
WAIT = 300  # seconds; a machine that is busy with proofs can be very slow
ARGUMENTS = ["--headless=new", "--no-sandbox", "--disable-dev-shm-usage", "--disable-gpu", "--hide-scrollbars",
             "--no-first-run", "--disable-background-networking", "--window-size=1500,1440"]


def plain(text):
    """Without thin spaces and with the hyphen as minus."""
    return text.replace("\u202f", "").replace("\u2212", "-").strip()


class Page:
    """One browser with the page, and the comparisons made in it."""

    def __init__(self, look):
        self.look = look
        self.passed, self.failed = 0, 0
        self.downloads = tempfile.TemporaryDirectory()
        options = webdriver.ChromeOptions()
        for argument in ARGUMENTS:
            options.add_argument(argument)
        options.add_experimental_option("prefs", {"download.default_directory": self.downloads.name})
        options.set_capability("goog:loggingPrefs", {"browser": "ALL"})
        self.driver = webdriver.Chrome(options=options, service=Service("chromedriver"))
        self.driver.set_script_timeout(WAIT)
        self.open()

    def open(self):
        self.driver.get(self.look.as_uri())
        self.wait_for("return document.body.dataset.ready === 'yes'")

    def close(self):
        self.driver.quit()
        self.downloads.cleanup()

    def equal(self, what, shown, wanted):
        if shown == wanted:
            self.passed += 1
        else:
            self.failed += 1
            print(f"page: {what}: shown {shown!r}, wanted {wanted!r}")

    def holds(self, what, true):
        self.equal(what, bool(true), True)

    def run(self, script, *words):
        return self.driver.execute_script(script, *words)

    def wait_for(self, script, *words):
        WebDriverWait(self.driver, WAIT, poll_frequency=0.02).until(lambda _: self.run(script, *words))

    def find(self, chosen):
        return self.driver.find_element(By.CSS_SELECTOR, chosen)

    def click(self, chosen):
        self.find(chosen).click()

    def press(self, chosen, *keys):
        """Keys to an element that has the focus then."""
        self.find(chosen).send_keys(*keys)

    def keys(self, *keys):
        """Keys to whatever has the focus."""
        self.driver.switch_to.active_element.send_keys(*keys)

    def text(self, chosen):
        """The text of an element in sight; nothing where it is hidden."""
        return plain(self.run("""const one = document.querySelector(arguments[0]);
            return one?.checkVisibility() ? one.innerText : "";""", chosen))

    def value(self, chosen):
        return self.run("return document.querySelector(arguments[0]).value", chosen)

    def seen(self, chosen):
        return self.run("return document.querySelector(arguments[0])?.checkVisibility() ?? false", chosen)

    def cells(self, chosen):
        """The texts of the cells of each row that is chosen."""
        rows = self.run("""return [...document.querySelectorAll(arguments[0])].map((row) =>
            [...row.cells].map((cell) => cell.innerText))""", chosen)
        return [[plain(cell) for cell in row] for row in rows]

    def attributes(self, chosen, name):
        return self.run("return [...document.querySelectorAll(arguments[0])].map((one) => one.getAttribute(arguments[1]))",
                        chosen, name)

    def type(self, chosen, text):
        """Puts a text into a box as typing does."""
        self.run("""const box = document.querySelector(arguments[0]);
            box.value = arguments[1];
            box.dispatchEvent(new Event("input", { bubbles: true }));
            box.dispatchEvent(new Event("change", { bubbles: true }));""", chosen, text)

    def load(self, path, tab="recording"):
        before = self.run("return document.body.dataset.opened ?? '0'")
        self.find(f"#{tab}-file").send_keys(str(Path(path).resolve()))
        self.wait_for("return (document.body.dataset.opened ?? '0') !== arguments[0]", before)

    def load_bytes(self, content, tab="recording", name="bytes"):
        with tempfile.TemporaryDirectory() as folder:
            path = Path(folder) / name
            path.write_bytes(content)
            self.load(path, tab)

    def downloaded(self, name):
        """The bytes of a file that the page has saved, once it is whole."""
        path = Path(self.downloads.name) / name
        WebDriverWait(self.driver, WAIT, poll_frequency=0.05).until(lambda _: path.exists())
        content = path.read_bytes()
        path.unlink()
        return content

    def point_at(self, chosen, x, y):
        """Moves the pointer to a place of an element, counted from its middle."""
        ActionChains(self.driver, duration=0).move_to_element_with_offset(self.find(chosen), x, y).perform()

    def click_at(self, chosen, x, y):
        ActionChains(self.driver, duration=0).move_to_element_with_offset(self.find(chosen), x, y).click().perform()

    def choose_frame(self, at):
        """Scrolls the table until the entry at a place is among its rows, and clicks it."""
        found = self.run("""
            const area = document.getElementById("frames");
            for (let top = 0; top <= area.scrollHeight; top += 300) {
                const row = document.querySelector(`#frame-rows tr[data-at="${arguments[0]}"]`);
                if (row) { row.click(); return true; }
                area.scrollTop = top;
                area.dispatchEvent(new Event("scroll"));
            }
            return false;""", at)
        if not found:
            raise SystemExit(f"page: no entry at {at} in the table of frames")

    def scheme(self, name):
        """Sets the colour scheme, light or dark."""
        self.driver.execute_cdp_cmd("Emulation.setEmulatedMedia", {"features": [{"name": "prefers-color-scheme", "value": name}]})

    def picture(self, path):
        self.driver.save_screenshot(str(path))
