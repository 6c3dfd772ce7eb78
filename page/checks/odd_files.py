"""Odd files: empty, unrelated, long, with very many frames, too large, dropped."""
import os
import tempfile
import time
from pathlib import Path

from browser import REPOSITORY
from expected import framed, recording
from selenium.webdriver.common.keys import Keys

REPEATED = 500
MANY = 600000
PNG = b"\x89PNG\r\n\x1a\n" + bytes(range(200))


def check(page):
    page.open()
    for name, content, refusal in [("empty", b"", "SHORT"), ("one", b"\xd3", "SHORT"), ("noise", bytes(range(256)) * 3, "NUMBER"),
                                   ("picture.png", PNG, "NUMBER"), ("README.md", (REPOSITORY / "README.md").read_bytes(), "NUMBER")]:
        page.load_bytes(content, name=name)
        page.equal(f"{name}, {len(content)} bytes", page.text("#no-frame-refusal"), refusal)
        page.equal(f"{name}: frames", [page.text("#frame-count"), page.text("#byte-count")], ["0", str(len(content))])
    page.holds("words for an unrelated file", "probably no recording of RTCM messages" in page.text("#no-frame"))
    page.load_bytes(b"", name="empty")
    page.holds("words for an empty file", page.text("#no-frame").startswith("The file is empty."))
    page.equal("nothing below an empty file", [page.seen("#work"), page.seen("#services"), page.seen("#strip")], [False] * 3)
    check_long(page)
    check_many(page)
    check_too_large(page)
    check_dropped(page)


def check_long(page):
    with tempfile.TemporaryDirectory() as folder:
        path = Path(folder) / "long"
        path.write_bytes(recording() * REPEATED)
        start = time.monotonic()
        page.load(path)
        print(f"page: {path.stat().st_size:,} bytes, {page.text('#frame-count')} frames shown in {time.monotonic() - start:.1f} s")
    page.equal("frames of a long recording", page.text("#frame-count"), str(114 * REPEATED))
    page.equal("accepted in it", page.text("#sound-count"), str(36 * REPEATED))
    page.run("document.getElementById('text-area').open = true")
    page.wait_for("return document.getElementById('text-long').textContent !== ''")
    page.run("document.getElementById('text-save').click()")
    lines = page.downloaded("long.txt").decode().splitlines()
    page.equal("its last frame and its count", lines[-2:], [f"{8986 + len(recording()) * (REPEATED - 1)} 71 1004",
                                                           f"{114 * REPEATED} frames, {1193 * REPEATED} bytes outside frames"])


def check_many(page):
    """More rows than a browser can make high: the keys still reach the last one, and scrolling the middle."""
    page.load_bytes(framed(b"") * MANY)
    page.equal("very many frames", page.text("#frame-count"), str(MANY))
    page.press("#frames", Keys.END)
    page.equal("the last of them", page.attributes("#frame-rows tr[aria-current]", "data-at"), [str(6 * (MANY - 1))])
    page.holds("it is in sight", in_sight(page))
    page.press("#frames", Keys.ARROW_UP)
    page.equal("the one before", page.attributes("#frame-rows tr[aria-current]", "data-at"), [str(6 * (MANY - 2))])
    places = page.run("""const area = document.getElementById("frames");
        area.scrollTop = area.scrollHeight / 2;
        area.dispatchEvent(new Event("scroll"));
        return [...document.querySelectorAll("#frame-rows tr.entry")].map((row) => Number(row.dataset.at));""")
    page.holds("the middle of them", any(abs(place - 3 * MANY) < 0.01 * MANY for place in places))
    page.press("#frames", Keys.HOME)
    page.holds("the first of them", page.attributes("#frame-rows tr[aria-current]", "data-at") == ["0"] and in_sight(page))


def in_sight(page):
    return page.run("""const area = document.getElementById("frames").getBoundingClientRect();
        const row = document.querySelector("#frame-rows tr[aria-current]").getBoundingClientRect();
        return row.top >= area.top && row.bottom <= area.bottom + 1;""")


def check_too_large(page):
    with tempfile.TemporaryDirectory() as folder:
        path = Path(folder) / "large"
        path.touch()
        os.truncate(path, 513 * 1024 * 1024)
        page.find("#recording-file").send_keys(str(path))
        page.wait_for("return document.getElementById('problem').textContent !== ''")
        page.holds("words for a file that is too large", "this page takes files of up to 512 MiB" in page.text("#problem"))


def check_dropped(page):
    before = page.run("return document.body.dataset.opened")
    page.run("""
        const dropped = new DataTransfer();
        dropped.items.add(new File([new Uint8Array([0xd3])], "dropped"));
        window.dispatchEvent(new DragEvent("drop", { dataTransfer: dropped, bubbles: true, cancelable: true }));""")
    page.wait_for("return document.body.dataset.opened !== arguments[0]", before)
    page.equal("a dropped file", [page.text("#recording-name"), page.text("#no-frame-refusal"), page.text("#problem")], ["dropped", "SHORT", ""])
