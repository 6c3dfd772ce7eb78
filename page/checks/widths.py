"""Windows from narrow to wide: nothing stands past the side of the page, and each part has its columns."""
from browser import REPOSITORY

WIDTHS = [360, 760, 1200, 1600]


def check(page):
    page.open()
    for width in WIDTHS:
        page.driver.execute_cdp_cmd("Emulation.setDeviceMetricsOverride", {"width": width, "height": 900, "deviceScaleFactor": 1, "mobile": False})
        for state in STATES:
            state(page)
            over, past = page.run(PAST, width)
            page.equal(f"{state.__name__} in {width} pixels: past the side", [over, past], [0, []])
    page.driver.execute_cdp_cmd("Emulation.clearDeviceMetricsOverride", {})
    page.open()


# How many pixels the page can be scrolled sideways, and the elements that stand past its side and in no area that scrolls.
PAST = """
    const scrolled = (one) => one && (["auto", "scroll", "hidden"].includes(getComputedStyle(one).overflowX) || scrolled(one.parentElement));
    const past = [...document.querySelectorAll("main *, header *")].filter((one) => one.checkVisibility()
        && one.getBoundingClientRect().right > arguments[0] + 1 && !scrolled(one));
    return [document.documentElement.scrollWidth - document.documentElement.clientWidth, past.map((one) => one.id || one.tagName)];"""


def grid(page):
    page.click("#recording-tab")
    page.load(REPOSITORY / "services/recording.rtcm")
    page.choose_frame(4218)
    page.run("document.getElementById('counts-area').open = true")


def datum(page):
    page.choose_frame(116)


def refused(page):
    page.choose_frame(4688)


def bare(page):
    page.load(REPOSITORY / "services/b-molodenski-badekas-lambert/1024.rtcm")


def report(page):
    page.click("#report-tab")
    page.load(REPOSITORY / "examples/points.txt", "report")


def heights(page):
    page.click("#heights-tab")
    page.load(REPOSITORY / "examples/heights.csv", "heights")


def samples(page):
    page.click("#samples-tab")
    page.load(REPOSITORY / "examples/samples-wrong.bin", "samples")


STATES = [grid, datum, refused, bare, report, heights, samples]
