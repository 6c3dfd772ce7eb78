"""Files of sample answers: the second program's verdict and first bad point."""
import re
import subprocess
import tempfile
from pathlib import Path

from browser import REPOSITORY
from expected import SECOND, second

MOST_BYTES = 3000  # longer files only repeat points


def check(page):
    page.click("#samples-tab")
    page.load(REPOSITORY / "examples/samples.bin", "samples")
    page.equal("sample answers", page.text("#samples-answer"), "accepted: all 5 points are answered with the counts that the file claims")
    page.load(REPOSITORY / "examples/samples-wrong.bin", "samples")
    page.equal("wrong sample answers", re.findall(r"refused 25 CLAIM|point \d+", page.text("#samples-answer")), ["refused 25 CLAIM", "point 3"])
    page.equal("the first bad point", page.attributes("#samples-rows .bad", "data-place"), ["3"])
    page.equal("claimed and own count", page.cells("#samples-rows .bad")[0][4:6], ["469359", "469360"])
    page.load(REPOSITORY / "examples/1023.rtcm", "samples")
    page.holds("another file", page.text("#samples-answer").startswith("refused 24 LAYOUT"))
    check_trials(page)
    page.click("#recording-tab")
    page.load(REPOSITORY / "examples/samples.bin")
    page.click("#samples-open")
    page.holds("sample answers opened as a recording", page.text("#samples-answer").startswith("accepted"))
    page.click("#recording-tab")


def check_trials(page):
    """The second program's own files, sound and bad."""
    with tempfile.TemporaryDirectory() as folder:
        subprocess.run([str(SECOND), "samples_trials", folder], check=True)
        paths = [path for path in sorted(Path(folder).glob("*.samples")) if path.stat().st_size <= MOST_BYTES]
        for path in paths:
            page.load(path, "samples")
            shown = page.text("#samples-answer")
            count = re.match(r"accepted: all (\d+)", shown)
            place = re.search(r"point is point (\d+)", shown)
            line = f"accepted {count[1]}" if count else " ".join(filter(None, [shown.split(":")[0].rpartition(" ")[0], place and place[1]]))
            page.equal(path.name, line, second(["samples"], path.read_bytes()).strip())
