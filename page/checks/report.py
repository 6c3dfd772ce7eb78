"""The report over points: its lines against the second program's, for the texts that program makes and for pasted points."""
import subprocess
import tempfile
from pathlib import Path

from browser import REPOSITORY
from expected import SECOND, second

POINTS = [("49.0", "11.0"), ("49.0009722", "11.00125"), ("48.9123456", "11.1234567"), ("49.2", "11.0"), ("-90", "-180"),
          ("49.150972237", "11.0"), ("49.150972235", "11.0")]  # the last two: just beyond the northern side by the nearest step, and on it


def check(page):
    page.click("#report-tab")
    check_texts(page)
    check_example(page)
    check_pasted(page)
    check_plane(page)
    check_empty(page)
    page.click("#recording-tab")


def check_texts(page):
    """Every text of the second program, sound and bad, as a file: the page prints the second program's lines."""
    with tempfile.TemporaryDirectory() as folder:
        subprocess.run([str(SECOND), "reports", folder], check=True)
        for path in sorted(Path(folder).iterdir()):
            page.load(path, "report")
            page.type("#report-units", "report")
            page.equal(path.name, page.value("#report-text"), "" if path.stat().st_size == 0 else second(["report"], path.read_bytes()))


def check_example(page):
    """docs/REPORT.md's case, opened as a file: form and component are those of the text, and the table has its numbers."""
    page.type("#report-units", "units")
    page.load(REPOSITORY / "examples/points.txt", "report")
    page.equal("the form of a text", page.value("#report-units"), "report")
    page.equal("the lines of examples/points.txt", page.value("#report-text"), (REPOSITORY / "examples/points.expected").read_text())
    rows = {cells[0]: cells[1:] for cells in page.cells("#report-rows tr")}
    page.equal("the table", [[name, row[0]] for name, row in rows.items()],
               [["answered", "5"], ["refused 14 OUTSIDE", "1"], ["smallest count", "469210"], ["greatest count", "469360"], ["sum of the counts", "2346376"]])
    page.equal("smallest with its unit and place", rows["smallest count"][1], "46.9210 m, at point 2: 49.1500000° 10.8500000°")
    page.equal("greatest with its unit and place", rows["greatest count"][1], "46.9360 m, at point 4: 48.8500000° 11.1500000°")
    page.equal("the component of the text", page.value("#report-components input:checked"), "2")
    page.type("#report-points", page.value("#report-points").replace("\n2\n", "\n2x\n"))
    page.equal("words for a bad line", page.text("#report-error"), "Line 2: the component is wanted, 0 north-south, 1 east-west or 2 height.")
    page.holds("no report then", not page.seen("#report-body"))


def report_of(message, component, points):
    lines = [message.hex(), str(component), *(f"{north} {east}" for north, east in points), ""]
    return second(["report"], "\n".join(lines).encode())


def steps(text, in_one):
    """The whole steps of a decimal text, exactly; the texts used here are no halves."""
    sign = -1 if text.startswith("-") else 1
    whole, _, rest = text.lstrip("-").partition(".")
    return sign * ((int(whole + rest) * in_one * 2 + 10 ** len(rest)) // (2 * 10 ** len(rest)))


def check_pasted(page):
    """Points in degrees and in steps over the grid that is chosen in the recording, by every separator."""
    page.click("#recording-tab")
    page.load(REPOSITORY / "services/recording.rtcm")
    page.choose_frame(523)
    page.run("document.querySelectorAll('#components input')[1].click()")
    page.run("document.getElementById('report-open').click()")
    page.holds("the report's tab", page.seen("#report-panel"))
    page.holds("the grid of the report", "1023 of SIN 11, frame at 523" in page.text("#report-grid"))
    page.equal("the component of the map", page.value("#report-components input:checked"), "1")
    message = (REPOSITORY / "services/a-helmert-gauss-krueger/1023.rtcm").read_bytes()
    in_steps = [(steps(north, 36000000), steps(east, 36000000)) for north, east in POINTS]
    page.type("#report-units", "units")
    for between in [" ", "\t", ",", "; "]:
        page.type("#report-points", "\n".join(between.join(point) for point in POINTS) + "\n\n")
        page.equal(f"points in degrees with {between!r}", page.value("#report-text"), report_of(message, 1, in_steps))
    page.type("#report-units", "steps")
    page.type("#report-points", "\r\n".join(f"{north} {east}" for north, east in in_steps))
    for component in range(3):
        page.run("document.querySelectorAll('#report-components input')[arguments[0]].click()", component)
        page.equal(f"points in steps, component {component}", page.value("#report-text"), report_of(message, component, in_steps))
    page.type("#report-points", "1 2\n3\n")
    page.equal("words for one number", page.text("#report-error"), "Line 2: two numbers are wanted, north and east, whole steps.")
    page.type("#report-points", "1 9223372036854775808")
    page.equal("words for a long number", page.text("#report-error"), "Line 1: a number is past 64 bits.")
    page.type("#report-units", "units")
    page.type("#report-points", "49 11\nnorth east")
    page.equal("words for words", page.text("#report-error"), "Line 2: two numbers are wanted, north and east, degrees with up to 9 decimals.")
    page.type("#report-points", "49 11\n" * 10001)
    page.equal("too many points", page.text("#report-rows b"), "LENGTH")


def check_plane(page):
    page.click("#recording-tab")
    page.load(REPOSITORY / "examples/1024.rtcm")
    page.run("document.getElementById('report-open').click()")
    points = [("1000000", "1000000"), ("1004321.987", "993210.0007"), ("1000000.0", "1018000.001")]
    page.type("#report-points", "\n".join(" ".join(point) for point in points))
    page.run("document.querySelectorAll('#report-components input')[0].click()")
    in_steps = [(steps(north, 1000), steps(east, 1000)) for north, east in points]
    page.equal("points in metres", page.value("#report-text"), report_of((REPOSITORY / "examples/1024.rtcm").read_bytes(), 0, in_steps))
    page.equal("the unit of a 1024", page.run("return document.querySelector('#report-units [value=units]').textContent"), "metres")


def check_empty(page):
    page.open()
    page.click("#report-tab")
    page.holds("words without a grid", page.text("#report-grid").startswith("No grid message is chosen yet"))
    page.holds("words without a report", page.text("#report-none").startswith("No report yet"))
    page.type("#report-points", "49 11")
    page.holds("no report without a grid", not page.seen("#report-body"))
