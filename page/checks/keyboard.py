"""The keyboard alone: Tab reaches every control in sight and shows where it is, and all work can be done by keys."""
from browser import REPOSITORY
from expected import second
from selenium.webdriver.common.action_chains import ActionChains
from selenium.webdriver.common.keys import Keys

# Every control in sight that a pointer can use, as names; of a group of radio buttons the one that is checked.
CONTROLS = """
    const reachable = (one) => one.checkVisibility() && one.tabIndex >= 0 && !one.disabled && !one.closest("fieldset:disabled")
        && (one.type !== "radio" || one.checked);
    return [...document.querySelectorAll("a[href], button, input, select, textarea, summary, [tabindex]")].filter(reachable)
        .map((one, index) => { one.dataset.control = String(index); return String(index); });"""

# The control with the focus, and whether it, its label or the area around it is marked.
FOCUSED = """
    const one = document.activeElement;
    const marked = (element) => { const style = getComputedStyle(element); return style.outlineStyle !== "none" && parseFloat(style.outlineWidth) >= 2; };
    const around = one.type === "radio" ? one.nextElementSibling : one.type === "file" ? one.closest(".open") : one;
    return [one.dataset.control ?? null, marked(around), one.id || one.tagName + " " + one.textContent.slice(0, 30)];"""


ALL = "all of a box"


def press(page, *keys):
    """Presses keys one after the other; ALL is Control and A."""
    actions = ActionChains(page.driver, duration=0)
    for key in keys:
        if key == ALL:
            actions.key_down(Keys.CONTROL).send_keys("a").key_up(Keys.CONTROL)
        else:
            actions.send_keys(key)
    actions.perform()


def check(page):
    page.open()
    reached_by_tab(page, "the empty page")
    page.load(REPOSITORY / "services/recording.rtcm")
    page.choose_frame(3142)
    reached_by_tab(page, "a recording with a map")
    page.choose_frame(116)
    reached_by_tab(page, "a recording with a datum step")
    for tab in ("report", "heights", "samples"):
        page.click(f"#{tab}-tab")
        reached_by_tab(page, tab)
    page.click("#recording-tab")
    check_work(page)
    check_report(page)
    check_heights(page)


def reached_by_tab(page, state):
    wanted = set(page.run(CONTROLS))
    page.run("document.activeElement.blur()")
    reached, unmarked = set(), []
    for _ in range(len(wanted) + 3):
        press(page, Keys.TAB)
        control, marked, name = page.run(FOCUSED)
        if control is not None:
            reached.add(control)
            if not marked:
                unmarked.append(name)
    names = page.run("return arguments[0].map((control) => { const one = document.querySelector(`[data-control=\"${control}\"]`); return one.id || one.textContent; })",
                     sorted(wanted - reached))
    page.equal(f"{state}: controls that Tab does not reach", names, [])
    page.equal(f"{state}: controls that show no focus", unmarked, [])
    page.run("document.querySelectorAll('[data-control]').forEach((one) => { delete one.dataset.control; })")


def tab_to(page, chosen):
    """Presses Tab until an element has the focus."""
    for _ in range(150):
        if page.run("return document.activeElement.matches(arguments[0])", chosen):
            return
        press(page, Keys.TAB)
    raise SystemExit(f"page: Tab does not come to {chosen}")


def check_work(page):
    """A message is chosen by the strip, by the services and by the table, a field, a component and a place by keys."""
    page.run("document.activeElement.blur()")
    tab_to(page, "#strip")
    press(page, Keys.HOME, Keys.ARROW_RIGHT, Keys.ARROW_RIGHT)
    page.holds("the strip by keys", page.text("#message-facts").startswith("frame at 39,"))
    press(page, Keys.HOME)
    page.equal("bytes outside by keys", page.text("#message-facts"), "14 bytes from place 0")
    tab_to(page, "#service-rows button[data-at='3301']")
    press(page, Keys.ENTER)
    page.holds("a service's message by keys", page.text("#message-facts").startswith("frame at 3301,"))
    tab_to(page, "#own-only")
    press(page, Keys.SPACE, Keys.TAB, Keys.SPACE)
    page.equal("the filter by keys", page.run("return ['own-only', 'with-outside'].map((id) => document.getElementById(id).checked)"), [True, False])
    tab_to(page, "#frames")
    press(page, Keys.ARROW_UP)
    page.holds("the table by keys", page.text("#message-facts").startswith("frame at 3142,"))
    tab_to(page, "#field-area")
    press(page, Keys.HOME, Keys.ARROW_DOWN, Keys.ARROW_DOWN)
    page.equal("a field by keys", page.attributes("#field-rows tr[aria-current]", "data-field"), ["DF190"])
    tab_to(page, "#components input")
    press(page, Keys.ARROW_RIGHT, Keys.ARROW_RIGHT)
    page.equal("a component by keys", page.value("#components input:checked"), "2")
    tab_to(page, "#map-overlay")
    before = page.value("#east-input")
    press(page, Keys.ARROW_RIGHT)
    page.holds("the pin by keys", float(page.value("#east-input")) > float(before))
    tab_to(page, "#north-input")
    press(page, ALL, "197500", Keys.TAB, ALL, "592500", Keys.ENTER)
    page.equal("a typed place by keys", page.cells("#pinned-answer tbody tr")[0][:2], ["north-south", "3070"])


def check_report(page):
    """From the map to the report, and points typed there."""
    tab_to(page, "#report-open")
    press(page, Keys.ENTER)
    page.equal("the box of points has the focus", page.run("return document.activeElement.id"), "report-points")
    press(page, "197500 592500", Keys.ENTER, "1 2")
    message = (REPOSITORY / "services/d-oblique-mercator/1024.rtcm").read_bytes()
    wanted = second(["report"], f"{message.hex()}\n2\n197500000 592500000\n1000 2000\n".encode())
    page.equal("the report by keys", page.value("#report-text"), wanted)


def check_heights(page):
    """The tab, sixteen heights and the saved frame."""
    page.run("document.activeElement.blur()")
    tab_to(page, "#report-tab")
    press(page, Keys.ARROW_RIGHT)
    page.holds("a tab by keys", page.seen("#heights-panel"))
    tab_to(page, "#heights-sin")
    press(page, ALL, "7")
    tab_to(page, "#height-1")
    for height in (REPOSITORY / "examples/heights.csv").read_text().replace("\n", ",").rstrip(",").split(","):
        press(page, height, Keys.TAB)
    tab_to(page, "#heights-save")
    press(page, Keys.ENTER)
    page.equal("the frame saved by keys", page.downloaded("height-grid-sin-7.rtcm").hex(), second(["heights", "examples/heights.calls"]).splitlines()[0])
    page.open()
