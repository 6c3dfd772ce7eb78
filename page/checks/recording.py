"""A recording: its frames, counts, filter and keys, against services/recording.expected."""
from collections import Counter

from browser import REPOSITORY
from expected import frame_lines
from selenium.webdriver.common.keys import Keys

COLUMNS = [str(number) for number in range(1021, 1028)] + ["all"]


def check(page):
    expected = (REPOSITORY / "services/recording.expected").read_text()
    lines = frame_lines()
    frames, outside = expected.splitlines()[-1].split()[0::2][:2]
    page.load(REPOSITORY / "services/recording.rtcm")
    page.equal("frames", page.text("#frame-count"), frames)
    page.equal("bytes outside", page.text("#outside-count"), outside)
    kinds = [line[3] if line[3:] else "other" for line in lines]
    page.equal("bytes", page.text("#byte-count"), str((REPOSITORY / "services/recording.rtcm").stat().st_size))
    page.equal("accepted and refused", [page.text("#sound-count"), page.text("#refused-count")], [str(kinds.count("sin")), str(kinds.count("refused"))])
    check_strip(page, lines, kinds)
    page.equal("rows of the table", page.attributes("#frame-table", "aria-rowcount"), [frames])
    page.click("#text-area summary")
    page.wait_for("return document.getElementById('as-text').value !== ''")
    page.equal("all frames as text", page.value("#as-text"), expected)
    page.click("#text-save")
    page.equal("all frames as a file", page.downloaded("recording.rtcm.txt").decode(), expected)
    check_rows(page, lines)
    check_counts(page, lines)
    check_filter_and_keys(page, lines)


def check_strip(page, lines, kinds):
    """The colour of the strip in the middle of every frame that is at least three pixels wide, but for the one that is marked."""
    width, colours = page.run("""
        const canvas = document.getElementById("strip");
        const line = canvas.getContext("2d").getImageData(0, 20, canvas.width, 1).data;
        return [canvas.width, Array.from({ length: canvas.width }, (_, x) => [...line.slice(4 * x, 4 * x + 3)].join())];""")
    scale = width / (REPOSITORY / "services/recording.rtcm").stat().st_size
    wanted = {"sin": "43,120,184", "refused": "212,87,10", "other": "129,139,149"}
    marked = current(page)[0]
    wide = [(line, kind) for line, kind in zip(lines, kinds) if (int(line[1]) + 6) * scale >= 3 and line[0] != marked]
    wrong = [line for line, kind in wide if colours[int((int(line[0]) + (int(line[1]) + 6) / 2) * scale)] != wanted[kind]]
    page.equal("frames of another colour in the strip", wrong, [])
    page.holds("frames looked at in the strip", len(wide) > 90)


def check_rows(page, lines):
    """Every row of the table, read while it is scrolled."""
    shown = page.run("""
        const area = document.getElementById("frames");
        const rows = new Map();
        for (let top = 0; top <= area.scrollHeight; top += 200) {
            area.scrollTop = top;
            area.dispatchEvent(new Event("scroll"));
            for (const row of document.querySelectorAll("#frame-rows tr.entry")) {
                rows.set(Number(row.dataset.at), [...row.cells].map((cell) => cell.textContent.replaceAll("\\u202f", "")));
            }
        }
        return [...rows.values()];""")
    words = {"sin": "SIN {}", "refused": "refused {}"}
    wanted = [line[:3] + [words[line[3]].format(line[4]) if line[3:] else "other"] for line in lines]
    names = [[*row[:2], row[2].replace("–", "-"), " ".join(row[3].split()[:2]).replace("no number", "other")] for row in shown]
    page.equal("rows of all frames", names, wanted)


def check_counts(page, lines):
    page.click("#counts-area summary")
    for table, word in [("by-sin", "sin"), ("by-refusal", "refused")]:
        wanted = Counter()
        for line in lines:
            if line[3:4] == [word]:
                wanted.update((group, number) for group in (line[4], "all") for number in (line[2], "all"))
        groups = page.attributes(f"#{table} tbody tr", "data-group")
        rows = page.cells(f"#{table} tbody tr")
        shown = {(group, column): int(cell) for group, row in zip(groups, rows)
                 for column, cell in zip(COLUMNS, row[1:]) if cell != "·"}
        page.equal(table, shown, dict(wanted))
    others = Counter(line[2] for line in lines if len(line) == 3)
    shown = dict(zip(page.attributes("#by-number tbody tr", "data-number"), (int(row[1]) for row in page.cells("#by-number tbody tr"))))
    page.equal("other numbers", shown, dict(others))
    page.click("#counts-area summary")


def current(page):
    return page.attributes("#frame-rows tr[aria-current]", "data-at")


def check_filter_and_keys(page, lines):
    own = [line for line in lines if len(line) > 3]
    page.click("#own-only")
    page.equal("rows with the filter", page.attributes("#frame-table", "aria-rowcount"), [str(len(own))])
    page.press("#frames", Keys.HOME, Keys.ARROW_DOWN, Keys.ARROW_DOWN, Keys.ARROW_DOWN, Keys.ARROW_UP)
    page.equal("the frame that the keys choose", current(page), [own[2][0]])
    page.press("#frames", Keys.END)
    page.equal("the frame of the key End", current(page), [own[-1][0]])
    page.click("#own-only")
