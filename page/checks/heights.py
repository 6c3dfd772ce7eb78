"""A height grid: typed heights become the frame that the second program writes, are saved, and shown as a recording."""
from browser import REPOSITORY
from expected import crc24q, second

NUMBERS = ["heights-sin", "heights-north", "heights-east", "heights-north-spacing", "heights-east-spacing"]


def check(page):
    page.open()
    page.click("#heights-tab")
    page.holds("words without heights", page.text("#heights-none").startswith("No message yet"))
    check_calls(page)
    check_fields(page)
    check_typing(page)
    check_look(page)
    page.click("#recording-tab")


def type_grid(page, heights, words):
    page.run("""arguments[0].forEach((text, index) => { document.getElementById(`height-${index + 1}`).value = text; });""", heights)
    for name, word in zip(NUMBERS, words):
        page.type(f"#{name}", word)


def check_calls(page):
    """The calls of examples/heights.calls: the frame in hexadecimal and as a file, or the refusal."""
    calls = (REPOSITORY / "examples/heights.calls").read_text().splitlines()
    expected = second(["heights", "examples/heights.calls"]).splitlines()
    page.equal("the second program's frames", expected, (REPOSITORY / "examples/heights.expected").read_text().splitlines())
    for call, wanted in zip(calls, expected):
        path, sin, north, east, spacing = call.split()
        heights = (REPOSITORY / path).read_text().replace("\n", ",").rstrip(",").split(",")
        type_grid(page, heights, [sin, north, east, spacing, spacing])
        if wanted.startswith("refused"):
            page.equal(call, page.text("#heights-verdict").split(":")[0].split()[0::2], wanted.split())
            page.holds(f"{call}: nothing to save", not page.seen("#heights-save"))
        else:
            page.equal(call, page.text("#heights-frame"), wanted)
            page.click("#heights-save")
            page.equal(f"{call}, saved", page.downloaded(f"height-grid-sin-{sin}.rtcm").hex(), wanted)
            nodes = 8 if float(north) == -90 else 16  # two lines of nodes lie beyond the pole
            page.holds(f"{call}: heights at the nodes", f"{nodes} of {nodes}" in page.text("#heights-facts"))


def check_fields(page):
    """What stands in the bits where both spacings, quality and day are given."""
    page.load(REPOSITORY / "examples/heights.csv", "heights")
    type_grid(page, (REPOSITORY / "examples/heights.csv").read_text().replace("\n", ",").rstrip(",").split(","), ["200", "-0.00007", "-179.999", "90", "120.5"])
    page.type("#heights-quality", "5")
    page.type("#heights-day", "61361")
    frame = bytes.fromhex(page.text("#heights-frame"))
    bits = "".join(f"{byte:08b}" for byte in frame[3:-3])
    shown = [int(bits[at:at + width], 2) for at, width in [(0, 12), (12, 8), (20, 1), (21, 1), (22, 21), (43, 22), (65, 12), (77, 12),
                                                           (552, 2), (554, 2), (556, 3), (559, 3), (562, 16)]]
    # -0.00007 degrees are -0.504 half arc seconds, -179.999 are -1,295,992.8: the nearest whole ones.
    wanted = [1023, 200, 0, 1, (1 << 21) - 1, (1 << 22) - 1295993, 180, 241, 0, 0, 0, 5, 61361]
    page.equal("the bits of typed numbers", shown, wanted)
    page.equal("the CRC of the frame", frame[-3:].hex(), f"{crc24q(frame[:-3]):06x}")
    page.holds("the day in words", "2026-11-17" in page.text("#heights-facts"))


def check_typing(page):
    """What is said while heights are missing or wrong; sixteen heights pasted into one box."""
    type_grid(page, [""] * 16, ["7", "49", "11", "360", "360"])
    page.equal("no heights", [page.text("#heights-error"), page.seen("#heights-answer")], ["", False])
    page.type("#height-1", "46.921")
    page.equal("one height", page.text("#heights-error"), "15 of sixteen heights are missing.")
    page.type("#height-1", "46,921")
    page.holds("a bad height", page.text("#heights-error").startswith("Node 1: a height in metres with up to three decimals"))
    page.type("#heights-north", "N49")
    page.holds("a bad latitude", page.text("#heights-error").startswith("The latitude is in degrees"))
    page.type("#heights-north", "49")
    page.type("#heights-quality", "0")
    page.type("#heights-day", "0")
    page.run("""const paste = new DataTransfer();
        paste.setData("text", arguments[0]);
        const box = document.getElementById("height-1");
        box.dispatchEvent(new ClipboardEvent("paste", { clipboardData: paste, bubbles: true, cancelable: true }));""",
             (REPOSITORY / "examples/heights.csv").read_text())
    page.equal("heights that are pasted", page.text("#heights-frame"), second(["heights", "examples/heights.calls"]).splitlines()[0])
    page.type("#height-16", "9223372036854775.808")
    page.equal("a height past 64 bits", page.text("#heights-error"), "A number is past 64 bits.")
    page.type("#height-16", "9223372036854775.807")
    page.holds("the greatest height", page.text("#heights-verdict").startswith("refused 23 NOMEAN"))
    page.load_bytes(b"1 2 3", "heights")
    page.holds("a file of three heights", page.text("#heights-error").startswith("The file has 3 numbers"))


def check_look(page):
    page.load(REPOSITORY / "examples/heights.csv", "heights")
    page.type("#heights-sin", "7")
    page.click("#heights-look")
    page.equal("the frame as a recording", [page.text("#frame-count"), page.text("#message-title")], ["1", "Message 1023"])
    page.equal("its component", page.value("#components input:checked"), "2")
    page.run("""document.getElementById("north-input").value = "49.15"; document.getElementById("east-input").value = "10.85";
        document.querySelector("#position-form button").click();""")
    page.equal("the height at node 1", page.cells("#pinned-answer tbody tr")[2], ["height", "469210", "46.9210 m"])
