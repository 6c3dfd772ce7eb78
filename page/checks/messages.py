"""Messages: every field of every accepted message of the recording and of services/, what is wrong in refused ones, and the
datum step."""
from decimal import Decimal

from browser import REPOSITORY, plain
from expected import decoded, recording
from selenium.webdriver.common.keys import Keys

SIGNS = {"arc second": "\u2033", "degree": "\u00b0"}
ROWS = """return [...document.querySelectorAll("#field-rows tr")].map((row) => ({
    field: row.dataset.field ?? "fill", node: row.dataset.node ?? null, name: row.cells[1].textContent,
    bits: row.cells[2].textContent, raw: row.cells[3].textContent, value: row.querySelector(".amount")?.textContent ?? "",
    note: row.querySelector(".note:not(.outside-range)")?.textContent ?? "",
    outside: row.querySelector(".outside-range") !== null }));"""


def check(page):
    objects = decoded(recording())
    page.load(REPOSITORY / "services/recording.rtcm")
    for found in objects:
        if found["kind"] == "message":
            page.choose_frame(found["at"])
            same_fields(page, f"recording at {found['at']}", found)
        elif found["kind"] == "refused" and found["number"]:
            page.choose_frame(found["at"])
            same_refusal(page, f"recording at {found['at']}", found)
    for path in sorted(REPOSITORY.glob("services/*/10??.rtcm")):
        page.load(path)
        same_fields(page, f"{path.parent.name}/{path.name}", decoded(path.read_bytes())[0])
        same_bits(page, f"{path.parent.name}/{path.name}", path.read_bytes())
    for path in sorted(REPOSITORY.glob("services/*/10??-*.rtcm")):
        found = decoded(path.read_bytes())[0]
        if found["kind"] == "refused" and found["number"]:
            page.load(path)
            same_refusal(page, f"{path.parent.name}/{path.name}", found)
    check_marks(page)
    check_datum(page)


def decimals(number):
    return f"{number:f}" if isinstance(number, Decimal) else str(number)


def shown_value(field):
    """The value as the page prints it, from an object of the second program's decode."""
    if field["raw"] is None:
        return "not available"
    if isinstance(field["raw"], list):
        return "\u201c" + "".join(chr(byte) if 32 <= byte < 127 else "\u00b7" for byte in field["raw"]) + "\u201d"
    if field["df"] == "DF148":
        return f"{field['raw']:010b}"
    return f"{decimals(field['value'])}{SIGNS.get(field['unit'], field['unit'] or '')}"


def shown_note(field):
    """What the page prints behind the value."""
    meaning = field["meaning"] or ""
    if field["df"] == "DF148":
        return f"{meaning or 'none'}, the first bit being Bit(1)"
    if field["sum"] is not None:
        base = Decimal(str(field["sum"])) - Decimal(str(field["value"]))
        return f"with {base.to_integral()}: {decimals(field['sum'])}{SIGNS.get(field['unit'], field['unit'] or '')}"
    return "" if meaning == "not available" else meaning


def same_fields(page, where, found):
    rows = [row for row in page.run(ROWS) if row["field"] != "fill"]
    shown = [[row["field"], row["node"], plain(row["raw"]).replace("\u2013", ""), plain(row["value"]), plain(row["note"])] for row in rows]
    wanted = [[field["df"], str(field["node"]) if field["node"] else None, raw_text(field), shown_value(field), shown_note(field)]
              for field in found["fields"]]
    page.equal(f"{where}: fields", [pair for pair in zip(shown, wanted) if pair[0] != pair[1]], [])
    page.equal(f"{where}: count of fields", len(shown), len(wanted))


def raw_text(field):
    if isinstance(field["raw"], list):
        return " ".join(f"{byte:02x}" for byte in field["raw"])
    return "" if field["raw"] is None else str(field["raw"])


def same_bits(page, where, message):
    """Each field's bits follow those of the one before, and hold its raw value; the fill bits are zero."""
    digits = "".join(f"{byte:08b}" for byte in message)
    wrong, next_bit = [], 0
    for row in page.run(ROWS):
        if row["bits"] == "\u2013":  # a name of no characters
            continue
        first, _, last = row["bits"].partition("\u2013")
        own = digits[int(first):int(last or first) + 1]
        if int(first) != next_bit or not holds(row, own):
            wrong.append(row)
        next_bit = int(first) + len(own)
    page.equal(f"{where}: fields that do not show their bits", wrong, [])
    page.equal(f"{where}: bits shown", next_bit, len(digits))


def holds(row, own):
    raw = plain(row["raw"])
    if row["field"] == "fill":
        return raw == own and "1" not in own
    if row["field"] in ("DF144", "DF146"):
        return bytes.fromhex(raw) == int(own, 2).to_bytes(len(own) // 8, "big")
    if raw == "\u2013":
        return own == "1" + "0" * (len(own) - 1)
    return int(raw) in (int(own, 2), int(own, 2) - (1 << len(own)))


def same_refusal(page, where, found):
    page.equal(f"{where}: refusal", page.text("#refusal-name"), found["refusal_name"])
    words = page.text("#message-refusal")
    if found["called"]:
        page.holds(f"{where}: bytes called for: {words}", f"call for {found['called']}." in words)
    rows = page.run(ROWS)
    outside = [[row["field"], row["node"], plain(row["raw"])] for row in rows if row["outside"] and row["field"] != "fill"]
    wanted = [[field["df"], str(field["node"]) if field["node"] else None, str(field["raw"])] for field in found["out_of_range"]]
    if found["refusal_name"] == "RANGE":
        page.equal(f"{where}: fields outside their range", outside, wanted)
    if found["refusal_name"] == "FILL":
        fill = next(row for row in rows if row["field"] == "fill")
        first = int(fill["bits"].partition("\u2013")[0])
        page.equal(f"{where}: fill bits that are set",
                   [first + place for place, digit in enumerate(fill["raw"]) if digit == "1"], found["fill_bits"])


def check_marks(page):
    """The bits of a chosen field, by pointer and by keys."""
    page.load(REPOSITORY / "services/recording.rtcm")
    page.choose_frame(365)
    page.run("document.querySelector('#field-rows tr[data-field=DF193]').click()")
    page.equal("marked bits", "".join(page.run("return [...document.querySelectorAll('#bits .on')].map((bit) => bit.innerText)")), f"{79209:022b}")
    page.equal("marked bytes", page.run("""return [...document.querySelectorAll('#bytes .byte')]
        .filter((byte) => byte.style.background.includes('gradient')).map((byte) => byte.dataset.byte)"""), ["5", "6", "7", "8"])
    page.press("#field-area", Keys.HOME, Keys.ARROW_DOWN)
    page.equal("the field that the keys choose", page.attributes("#field-rows tr[aria-current]", "data-field"), ["DF147"])
    page.equal("its bits", page.text("#bytes-words"), "DF147: bits 12–19 of 584")
    page.run("document.querySelector('#bytes .byte[data-byte=\"1\"]').click()")
    page.equal("the field of a byte's first bit", page.attributes("#field-rows tr[aria-current]", "data-field"), ["DF002"])


def check_datum(page):
    page.choose_frame(116)
    for axis, value in [("X", "4115000.0000"), ("Y", "800000"), ("Z", "4790000.5")]:
        page.type(f"#datum-{axis}", value)
    page.equal("the datum step within 0.1 mm of the formula", datum_step_is_near(page), True)
    page.type("#datum-X", "4115000.0000x")
    page.holds("words for a bad X", page.text("#datum-error").startswith("X: metres"))
    page.holds("no answer then", not page.seen("#datum-answer"))
    page.choose_frame(2867)
    page.equal("a datum step that is refused", page.text("#datum-answer b"), "METHOD")
    page.choose_frame(991)
    page.equal("no datum step of a 1022", page.seen("#datum-panel"), False)


def datum_step_is_near(page):
    """Whether each coordinate shown lies within 0.1 mm of formula 3.5-1 on doubles, for the 1021 of service a."""
    x, y, z = 4115000.0, 800000.0, 4790000.5
    turn = 0.00002 * 4.84813681109536e-6
    rx, ry, rz = (turn * raw for raw in (10100, 2250, -122750))
    m = 1 - 6.7e-6
    wanted = [m * (x + rz * y - ry * z) - 598.1, m * (-rz * x + y + rx * z) - 73.7, m * (ry * x - rx * y + z) - 418.2]
    rows = page.cells("#datum-answer tr")
    shown = [int(row[2]) / 10000 for row in rows]
    moved = [Decimal(row[2]) / 10000 - Decimal(str(old)) for row, old in zip(rows, (x, y, z))]
    same = [Decimal(row[1].removesuffix(" m")) == Decimal(row[2]) / 10000 for row in rows]
    return (all(abs(one - other) <= 0.0001001 for one, other in zip(shown, wanted)) and all(same) and len(shown) == 3
            and [Decimal(row[3].removesuffix(" m")) for row in rows] == moved)
