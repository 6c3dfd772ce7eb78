"""The map of a grid: shifts at typed places against examples/shift.expected, colours, pointer and pin."""
from browser import REPOSITORY, plain
from expected import decoded
from selenium.webdriver.common.keys import Keys

PLACES = [(0.37, 0.73), (0.55, 0.35), (0.60, 0.62), (0.72, 0.24), (0.78, 0.70), (0.86, 0.46)]
COLOURED = ["examples/1023.rtcm", "services/e-across-the-antimeridian/1023.rtcm", "services/d-oblique-mercator/1024.rtcm"]


def check(page):
    check_calls(page)
    check_colours(page)
    check_pointer(page)
    check_without_place(page)
    check_nodes(page)
    check_labels(page)


def pin(page, north, east):
    page.run("""document.getElementById("north-input").value = arguments[0];
        document.getElementById("east-input").value = arguments[1];
        document.querySelector("#position-form button").click();""", north, east)


def answers(page, area="pinned-answer"):
    """The three answers as lines like those of examples/shift.expected."""
    return [f"{cells[0]} refused {cells[1].split()[0]}" if len(cells) == 2 else " ".join(cells)
            for cells in page.cells(f"#{area} tbody tr")]


def check_calls(page):
    page.load(REPOSITORY / "examples/1023.rtcm")
    page.equal("a bare message", page.text("#bare-words"), "no frame: taken as one bare message, accepted as 1023")
    page.equal("fields of a 1023", len(page.attributes("#field-rows tr", "id")), 65)
    page.holds("colours on the map", colours_on_map(page) > 100)
    calls = (REPOSITORY / "examples/shift.calls").read_text().splitlines()
    expected = (REPOSITORY / "examples/shift.expected").read_text().splitlines()
    opened = None
    for index, call in enumerate(calls):
        path, north, east = call.split()
        if path != opened:
            page.load(REPOSITORY / path)
            opened = path
        wanted = expected[3 * index:3 * index + 3]
        if page.seen("#map-panel"):
            pin(page, north, east)
            page.equal(call, answers(page), wanted)
        elif page.seen("#message-refusal"):
            page.equal(call, page.text("#refusal-name"), wanted[0].split()[-1])
        else:  # an accepted message that is no grid message: no map is offered
            page.equal(call, wanted[0].split()[-1], "KIND")


def colours_on_map(page):
    return page.run("""
        const canvas = document.getElementById("map");
        const pixels = canvas.getContext("2d").getImageData(0, 0, canvas.width, canvas.height).data;
        const found = new Set();
        for (let at = 0; at < pixels.length; at += 4) {
            if (pixels[at + 3] === 255) found.add(pixels[at] << 16 | pixels[at + 1] << 8 | pixels[at + 2]);
        }
        return found.size;""")


def count_by_colour(page, x, y):
    """The count that the legend gives to the colour of a pixel of the map, how far that colour is from the legend's, and the
    counts that the legend spans."""
    return page.run("""
        const [map, legend] = ["map", "legend"].map((id) => document.getElementById(id));
        const { first, last, left, width } = legend.dataset;
        const pixel = map.getContext("2d").getImageData(arguments[0], arguments[1], 1, 1).data;
        const line = legend.getContext("2d").getImageData(Number(left), 17, Number(width), 1).data;
        let [best, least] = [0, Infinity];
        for (let at = 0; at < Number(width); at += 1) {
            const apart = Math.max(...[0, 1, 2].map((part) => Math.abs(pixel[part] - line[4 * at + part])));
            if (apart < least) [best, least] = [at, apart];
        }
        const size = Number(last) - Number(first);
        return [Number(first) + ((best + 0.5) / Number(width)) * size, least, size];""", x, y)


def check_colours(page):
    """At places away from lines, nodes and pin the map's colour stands for the count that the pointer shows there."""
    for path in COLOURED:
        page.load(REPOSITORY / path)
        width, height = page.run("const canvas = document.getElementById('map'); return [canvas.clientWidth, canvas.clientHeight]")
        for component in range(3):
            page.run("document.querySelectorAll('#components input')[arguments[0]].click()", component)
            for across, down in PLACES:
                x, y = round(width * across), round(height * down)
                page.point_at("#map-overlay", x - width // 2, y - height // 2)
                shown = answers(page, "pointer-answer")[component].split()
                by_colour, apart, size = count_by_colour(page, x, y)
                near = shown[1] != "refused" and apart <= 3 and abs(by_colour - int(shown[1])) <= 0.02 * size + 1
                page.holds(f"{path} {component} colour at {across} {down}: {shown} {by_colour:.1f} {apart}", near)


def check_pointer(page):
    page.load(REPOSITORY / "services/d-oblique-mercator/1024.rtcm")
    page.point_at("#map-overlay", -120, -120)
    refused = [f"{name} refused ABSENT" for name in ("north-south", "east-west", "height")]
    page.equal("the pointer at absent nodes", answers(page, "pointer-answer"), refused)
    page.click_at("#map-overlay", 60, 0)
    page.equal("a click pins the pointer's place", answers(page), answers(page, "pointer-answer"))
    page.equal("words on hatched places", page.text("#map-refused"), "Hatched: no answer (OUTSIDE, ABSENT).")
    before = page.value("#north-input")
    page.press("#map-overlay", Keys.ARROW_UP)
    page.holds("a key moves the pin", float(page.value("#north-input")) > float(before))
    pin(page, "north", "11")
    page.holds("words for a bad position", page.text("#position-error").startswith("Northing and easting"))
    page.load(REPOSITORY / "services/c-heights-only/1023.rtcm")
    page.equal("the component that is answered is chosen", page.value("#components input:checked"), "2")
    page.run("document.querySelectorAll('#components input')[0].click()")
    page.equal("a component that is off", page.text("#map-refused"), "Hatched: no answer (OFF).")


def check_without_place(page):
    """A grid without an origin, and one whose nodes do not stand apart: words in place of a map."""
    message = (REPOSITORY / "examples/1023.rtcm").read_bytes()
    bits = "".join(f"{byte:08b}" for byte in message)
    for name, word, changed in [("origin", "ORIGIN", bits[:22] + "1" + "0" * 20 + bits[43:]), ("spacing", "SPACING", bits[:65] + "0" * 12 + bits[77:])]:
        page.load_bytes(int(changed, 2).to_bytes(len(message), "big"))
        page.holds(f"a grid without {name}", f"({word})" in page.text("#map-problem") and not page.seen("#map-body"))


def check_nodes(page):
    """At the nodes the pin shows mean and residual of the message, read from its bits here."""
    message = (REPOSITORY / "examples/1023.rtcm").read_bytes()
    bits = "".join(f"{byte:08b}" for byte in message)

    def signed(start, width):
        number = int(bits[start:start + width], 2)
        return number - (1 << width) if number >> (width - 1) else number

    north, east, north_spacing, east_spacing = signed(22, 21), signed(43, 22), int(bits[65:77], 2), int(bits[77:89], 2)
    means = [signed(89, 8) * 100, signed(97, 8) * 100, signed(105, 15) * 100]
    page.load(REPOSITORY / "examples/1023.rtcm")
    for node in (1, 4, 7, 13, 16):
        row, column = divmod(node - 1, 4)
        place = [(2 * origin + side * spacing) / 4 / 3600 for origin, side, spacing in
                 ((north, 3 - 2 * row, north_spacing), (east, 2 * column - 3, east_spacing))]
        pin(page, f"{place[0]:.9f}", f"{place[1]:.9f}")
        counts = [means[part] + signed(120 + 27 * (node - 1) + 9 * part, 9) * (3, 3, 10)[part] for part in range(3)]
        page.equal(f"the counts at node {node}", [int(plain(cells[1])) for cells in page.cells("#pinned-answer tbody tr")], counts)


def check_labels(page):
    """What is written at the nodes of each component, by the second program's fields of the message."""
    for path in ("services/d-oblique-mercator/1024.rtcm", "examples/1023.rtcm"):
        page.load(REPOSITORY / path)
        fields = decoded((REPOSITORY / path).read_bytes())[0]["fields"]
        plane = path.endswith("1024.rtcm")
        for component in range(3):
            page.run("""window.drawnTexts = [];
                const own = CanvasRenderingContext2D.prototype.fillText;
                CanvasRenderingContext2D.prototype.fillText = function (text, ...place) { window.drawnTexts.push(text); own.call(this, text, ...place); };
                document.querySelectorAll("#components input").forEach((input) => { input.checked = false; });
                document.querySelectorAll("#components input")[arguments[0]].click();
                CanvasRenderingContext2D.prototype.fillText = own;""", component)
            shown = [plain(text) for text in page.run("return window.drawnTexts")]
            wanted = [text for node in range(1, 17) for text in label(fields, node, component, plane)]
            page.equal(f"{path}: texts at the nodes, component {component}", shown[:len(wanted)], wanted)


def label(fields, node, component, plane):
    """The texts at a node: its number and the shift there, or that there is none."""
    first = 206 if plane else 196
    mean = next(field["value"] for field in fields if field["df"] == f"DF{first + component}")
    residual = next(field["value"] for field in fields if field["df"] == f"DF{first + 3 + component}" and field["node"] == node)
    if residual is None:
        return [f"{node} none"]
    return [str(node), f"{mean + residual:.{4 if plane or component == 2 else 5}f}"]
