"""Bytes outside frames and why: a wrong CRC, not finished, or noise, by a search and a CRC of this check's own."""
import re

from browser import REPOSITORY, plain
from expected import HEAD, TAIL, candidates, crc24q, decoded, framed, outside_parts, recording

ROWS = """
    const area = document.getElementById("frames");
    const rows = new Map();
    for (let top = 0; top <= area.scrollHeight; top += 200) {
        area.scrollTop = top;
        area.dispatchEvent(new Event("scroll"));
        for (const row of document.querySelectorAll("#frame-rows tr.noise, #frame-rows tr.crc, #frame-rows tr.unfinished")) {
            rows.set(Number(row.dataset.at), [row.cells[3].innerText, Number(row.dataset.at), row.cells[1].innerText]);
        }
    }
    return [...rows.values()];"""


def check(page):
    content = recording()
    page.load(REPOSITORY / "services/recording.rtcm")
    page.click("#with-outside")
    runs = [(found["at"], found["length"]) for found in decoded(content) if found["kind"] == "outside"]
    wanted = [part for at, length in runs for part in outside_parts(content, at, at + length)]
    page.equal("parts outside frames", shown_parts(page), wanted)
    kinds = [kind for kind, _, _ in wanted]
    page.equal("candidates with a wrong CRC", page.text("#crc-count"), str(kinds.count("wrong CRC")))
    page.equal("candidates that are not finished", page.text("#unfinished-count"), str(kinds.count("not finished")))
    page.holds("runs", f"in {len(runs)} runs" in page.text("#summary"))
    for kind, at, size in wanted:
        page.choose_frame(at)
        same_words(page, content, kind, at, size)
    check_made(page)


def shown_parts(page):
    return [[plain(kind), at, int(plain(size))] for kind, at, size in page.run(ROWS)]


def same_words(page, content, kind, at, size):
    title, words = (plain(text) for text in page.run("""return ["message-title", "outside-why"].map((id) => document.getElementById(id).innerText)"""))
    titles = {"noise": "Noise", "wrong CRC": "Wrong CRC", "not finished": "Not finished"}
    page.equal(f"title at {at}", title, titles[kind])
    if kind == "noise":
        page.holds(f"words at {at}: {words}", words.startswith("No byte here is a D3 with six zero bits"))
        return
    called = HEAD + int.from_bytes(content[at + 1:at + HEAD], "big") + TAIL
    if kind == "wrong CRC":
        own, right = content[at + called - TAIL:at + called].hex(), f"{crc24q(content[at:at + called - TAIL]):06x}"
        page.equal(f"CRCs at {at}", re.findall(r"it has (\w{6}), and its bytes give (\w{6})", words), [(own, right)])
        page.holds(f"a CRC that is wrong at {at}", own != right)
        page.equal(f"bytes taken by what follows at {at}", "Only" in words, size < called)
    elif len(content) - at >= HEAD:
        numbers = re.findall(r"frame of (\d+) bytes? does, and the recording ends after (\d+)", words)
        page.equal(f"bytes of a frame that is not finished at {at}", numbers, [(str(called), str(len(content) - at))])
    more = len(candidates(content, at, at + size)) - 1
    page.equal(f"more candidates at {at}", re.findall(r"(\d+) more candidate", words), [str(more)] if more else [])


def check_made(page):
    """A frame with one wrong bit, one with a lost byte, one that is cut, noise, a D3 at the end: alone and between frames."""
    frame = framed((REPOSITORY / "services/a-helmert-gauss-krueger/1023.rtcm").read_bytes())
    broken = frame[:20] + bytes([frame[20] ^ 4]) + frame[21:]
    lost = frame[:30] + frame[31:]
    noise = bytes([0xD3, 0xFF, 1, 2, 0xD4, 9])
    not_zero = bytes([0xD3, 0x04, 0, 0, 0, 0, 0xD3, 0x80, 0, 0, 0, 0])
    within = frame[:40] + b"\xd3\x00\x05" + frame[43:]
    cases = [
        ("one wrong bit", broken, [["wrong CRC", 0, len(frame)]]),
        ("one wrong bit between frames", frame + broken + frame, [["wrong CRC", len(frame), len(frame)]]),
        ("a lost byte between frames", frame + lost + frame, [["wrong CRC", len(frame), len(lost)]]),
        ("noise between frames", frame + noise + frame, [["noise", len(frame), len(noise)]]),
        ("D3 without six zero bits between frames", frame + not_zero + frame, [["noise", len(frame), len(not_zero)]]),
        ("a candidate within a broken frame", frame + within + frame, [["wrong CRC", len(frame), len(frame)]]),
        ("noise and a wrong bit", noise + broken + frame, [["noise", 0, 6], ["wrong CRC", 6, len(frame)]]),
        ("a cut frame", frame[:50], [["not finished", 0, 50]]),
        ("a cut frame behind a frame", frame + frame[:50], [["not finished", len(frame), 50]]),
        ("D3 at the end", frame + b"\x00\xd3", [["noise", len(frame), 1], ["not finished", len(frame) + 1, 1]]),
        ("a head without its length", frame + b"\xd3\x00", [["not finished", len(frame), 2]]),
        ("no message in it", b"\xd3\x00\x00\x00\x00\x00", [["wrong CRC", 0, 6]]),
    ]
    for name, content, wanted in cases:
        page.load_bytes(content)
        if not page.run("return document.getElementById('with-outside').checked"):
            page.click("#with-outside")
        page.equal(name, shown_parts(page), wanted)
    page.load_bytes(broken)
    page.equal("frames of one with a wrong bit", page.text("#frame-count"), "0")
    page.holds("a wrong CRC alone", page.text("#outside-why").startswith("It begins as a frame of 79 bytes does, but its CRC is wrong"))
    page.holds("its number", "would have the number 1023" in page.text("#outside-why"))
    page.equal("its fields as they stand", len(page.attributes("#field-rows tr[data-field]", "data-field")), 64)
    page.holds("are marked as not checked", page.run("return document.getElementById('field-table').classList.contains('unchecked')"))
