"""Contrast: every pair of text and ground colours that the page shows, in light and dark, is at least 4.5 to 1; edges of
controls, the focus mark and the marks of the strip are at least 3 to 1."""
from browser import REPOSITORY
from expected import framed

TEXT, MARK = 4.5, 3.0

# The ground below an element's text: its own background over those of all around it.
GROUND = """
    const parse = (colour) => { const parts = colour.match(/[\\d.]+/g).map(Number); return [...parts.slice(0, 3), parts[3] ?? 1]; };
    const over = (top, below) => [0, 1, 2].map((part) => top[part] * top[3] + below[part] * (1 - top[3]));
    const grounds = new Map([[null, [255, 255, 255]]]);
    const ground = (element) => {
        if (!grounds.has(element)) grounds.set(element, over(parse(getComputedStyle(element).backgroundColor), ground(element.parentElement)));
        return grounds.get(element);
    };
"""

# Gives [text colour, ground colour, where] for each text in sight.
TEXT_PAIRS = GROUND + """
    const pairs = new Map();
    const add = (colour, element, below) => {
        const pair = [over(parse(colour), below).map(Math.round), below.map(Math.round)];
        pairs.set(JSON.stringify(pair), [...pair, element.id || element.className || element.tagName]);
    };
    for (const element of document.querySelectorAll("body *")) {
        if (!element.checkVisibility({ opacityProperty: true, visibilityProperty: true })) continue;
        const style = getComputedStyle(element);
        const own = [...element.childNodes].some((node) => node.nodeType === 3 && node.nodeValue.trim() !== "");
        const box = element.matches("input:not([type]), textarea, select");
        if (own || box) add(style.color, element, ground(element));
        if (element.matches("textarea")) add(getComputedStyle(element, "::placeholder").color, element, ground(element));
        for (const colour of style.backgroundImage.match(/rgba?\\([^)]*\\)/g) ?? []) {
            if (own && parse(colour)[3] > 0) add(style.color, element, over(parse(colour), ground(element)));
        }
    }
    return [...pairs.values()];"""

# Gives [edge colour, ground colour, where] for each control in sight.
EDGES = GROUND + """
    const found = [];
    for (const element of document.querySelectorAll("input:not([type]), textarea, select, button:not([role]), .button, .choice span, .open")) {
        if (!element.checkVisibility()) continue;
        const below = ground(element.parentElement);
        found.push([over(parse(getComputedStyle(element).borderTopColor), below), below, element.id || element.className || element.tagName]);
    }
    return found;"""

# The colours of text that is drawn: places of the strip on the page's ground, sides and legend of the map on a panel.
DRAWN = [("--quiet", "--ground"), ("--quiet", "--panel"), ("--text", "--panel")]
MARKS = [("--accent", "--ground"), ("--accent", "--panel"), ("--hatch", "--panel"), ("--hatch-crc", "--panel"),
         ("--hatch-unfinished", "--panel"), ("--text", "--panel")]


def luminance(colour):
    parts = [part / 255 for part in colour]
    linear = [part / 12.92 if part <= 0.04045 else ((part + 0.055) / 1.055) ** 2.4 for part in parts]
    return 0.2126 * linear[0] + 0.7152 * linear[1] + 0.0722 * linear[2]


def contrast(one, other):
    high, low = sorted((luminance(one), luminance(other)), reverse=True)
    return (high + 0.05) / (low + 0.05)


def hexadecimal(colour):
    return [int(colour[place:place + 2], 16) for place in (1, 3, 5)]


class Pairs:
    """The pairs met in one colour scheme."""

    def __init__(self, page, scheme):
        self.page, self.scheme, self.met = page, scheme, {}

    def collect(self, state):
        for text, ground, where in self.page.run(TEXT_PAIRS):
            self.add(text, ground, TEXT, f"{state}: {where}")
        for edge, ground, where in self.page.run(EDGES):
            self.add(edge, ground, MARK, f"{state}: edge of {where}")

    def add(self, one, other, least, where):
        self.met.setdefault((tuple(map(round, one)), tuple(map(round, other)), least), where)

    def compare(self):
        for (one, other, least), where in self.met.items():
            found = contrast(one, other)
            self.page.holds(f"{self.scheme}, {where}: contrast of {one} on {other} is {found:.2f}, at least {least}", found >= least)
        worst = min(contrast(one, other) for one, other, least in self.met if least == TEXT)
        print(f"page: {self.scheme}: {len(self.met)} pairs of colours, the least contrast of a text is {worst:.2f}")


def check(page):
    for scheme in ("light", "dark"):
        page.scheme(scheme)
        page.open()
        pairs = Pairs(page, scheme)
        for state in STATES:
            state(page)
            pairs.collect(state.__name__)
        drawn(page, pairs)
        pairs.compare()
    page.scheme("light")
    page.open()


def take_pictures(page, folder):
    folder.mkdir(parents=True, exist_ok=True)
    for scheme in ("light", "dark"):
        page.scheme(scheme)
        page.open()
        for state in STATES:
            state(page)
            page.picture(folder / f"{scheme}-{state.__name__}.png")


def start(page):
    del page


def recording(page):
    page.load(REPOSITORY / "services/recording.rtcm")
    page.click("#counts-area summary")
    page.click("#text-area summary")


def grid(page):
    page.choose_frame(3142)
    page.run("document.querySelector('#field-rows tr[data-field=DF203]').click()")
    page.point_at("#map-overlay", 90, 60)


def pointed_at(page):
    page.choose_frame(365)
    page.run("document.querySelector('#position-form').scrollIntoView()")
    page.point_at("#position-form button", 0, 0)


def row_pointed_at(page):
    page.point_at("#frame-rows tr[aria-current] + tr", 0, 0)


def typed_wrong(page):
    page.type("#north-input", "x")
    page.click("#position-form button")


def refused(page):
    page.choose_frame(4688)


def outside(page):
    page.click("#with-outside")
    page.choose_frame(182)


def no_frame(page):
    page.load_bytes(bytes(range(200)))


def no_grid_announced(page):
    page.load_bytes(framed((REPOSITORY / "services/a-helmert-gauss-krueger/1021.rtcm").read_bytes()))
    page.type("#datum-X", "x")


def bare_grid_without_origin(page):
    message = bytearray((REPOSITORY / "examples/1023.rtcm").read_bytes())
    bits = "".join(f"{byte:08b}" for byte in message)
    bits = bits[:22] + "1" + "0" * 20 + bits[43:]
    page.load_bytes(int(bits, 2).to_bytes(len(message), "big"))


def report(page):
    page.click("#report-tab")
    page.load(REPOSITORY / "examples/points.txt", "report")


def report_wrong(page):
    page.type("#report-points", "x")
    page.type("#report-units", "report")


def heights(page):
    page.click("#heights-tab")
    page.load(REPOSITORY / "examples/heights.csv", "heights")


def heights_refused(page):
    page.load(REPOSITORY / "examples/heights-steep.csv", "heights")


def heights_wrong(page):
    page.type("#height-1", "x")


def samples(page):
    page.click("#samples-tab")
    page.load(REPOSITORY / "examples/samples.bin", "samples")


def samples_wrong(page):
    page.load(REPOSITORY / "examples/samples-wrong.bin", "samples")


def problem(page):
    page.run("document.getElementById('problem').textContent = 'A problem.'; document.getElementById('reading').textContent = 'Reading';")


STATES = [start, recording, grid, pointed_at, row_pointed_at, typed_wrong, refused, outside, no_frame, no_grid_announced,
          bare_grid_without_origin, report, report_wrong, heights, heights_refused, heights_wrong, samples, samples_wrong, problem]


def drawn(page, pairs):
    """The colours of drawn texts and marks, and the labels of nodes on every colour of the map's scale."""
    names = {name for pair in DRAWN + MARKS for name in pair}
    colours = {name: hexadecimal(page.run("return getComputedStyle(document.documentElement).getPropertyValue(arguments[0]).trim()", name))
               for name in names}
    for one, other in DRAWN:
        pairs.add(colours[one], colours[other], TEXT, f"drawn {one} on {other}")
    for one, other in MARKS:
        pairs.add(colours[one], colours[other], MARK, f"mark {one} on {other}")
    for kind in ("sound", "refused", "other"):
        colour = page.run("""const mark = document.createElement("li"); mark.className = arguments[0]; mark.innerHTML = "<i class=mark></i>";
            document.body.append(mark); const colour = getComputedStyle(mark.firstChild).backgroundColor; mark.remove();
            return colour.match(/\\d+/g).map(Number);""", kind)
        pairs.add(colour, colours["--panel"], MARK, f"mark of {kind}")
    page.load(REPOSITORY / "examples/1023.rtcm")
    page.click("#recording-tab")
    page.load(REPOSITORY / "examples/1023.rtcm")
    scale = page.run("""const legend = document.getElementById("legend");
        const { left, width } = legend.dataset;
        const line = legend.getContext("2d").getImageData(Number(left), 17, Number(width), 1).data;
        return Array.from({ length: Number(width) }, (_, at) => [...line.slice(4 * at, 4 * at + 3)]);""")
    labelled = min(([255 * 0.82 + part * 0.18 for part in colour] for colour in scale), key=luminance)
    pairs.add([20, 20, 20], labelled, TEXT, "labels of nodes on the darkest colour of the scale")
