"""The services of a recording: accepted messages by services/recording.expected, refused ones by the bits of their SIN."""
from collections import Counter

from browser import REPOSITORY
from expected import GROUPS, HEAD, decoded, frame_lines, framed, recording, sin_by_bits

ROWS = """return [...document.querySelectorAll("#service-rows tr")].map((row) => ({
    sin: row.dataset.sin,
    cells: [...row.querySelectorAll("td")].map((cell) => ({ ...cell.dataset, words: cell.innerText,
        at: cell.querySelector("button")?.dataset.at, number: cell.querySelector("button")?.dataset.number })) }));"""


def check(page):
    page.load(REPOSITORY / "services/recording.rtcm")
    rows = page.run(ROWS)
    shown = {row["sin"]: [cell_facts(cell) for cell in row["cells"] if "group" in cell] for row in rows}
    page.equal("services", shown, wanted_services(recording()))
    page.holds("how many services", page.text("#services-count").startswith("5 system identification numbers"))
    check_words(page, rows)
    check_choice(page)
    check_others(page)


def cell_facts(cell):
    if cell["group"] == "Refused":
        return [int(cell["refused"]), cell.get("at")]
    return [int(cell.get("accepted", 0)), int(cell.get("changes", 0)), cell.get("number"), cell.get("at")]


def wanted_services(content):
    """For each SIN of an accepted message its groups (how many, changes, number and place of the last) and its refused ones."""
    wanted, refused, last_bytes = {}, {}, {}
    for at, length, number, *rest in frame_lines():
        message = content[int(at) + HEAD:int(at) + HEAD + int(length)]
        if rest[:1] == ["refused"]:
            refused.setdefault(str(sin_by_bits(message)), []).append(at)
        elif rest:
            group = next(place for place, numbers in enumerate(GROUPS.values()) if int(number) in numbers)
            row = wanted.setdefault(rest[1], [[0, 0, None, None] for _ in GROUPS])
            count, changes, _, _ = row[group]
            changed = last_bytes.get((rest[1], group), message) != message
            last_bytes[rest[1], group] = message
            row[group] = [count + 1, changes + changed, number, at]
    result = {sin: row + [[len(refused.get(sin, [])), refused[sin][-1] if sin in refused else None]] for sin, row in wanted.items()}
    others = sorted((int(at) for sin, places in refused.items() if sin not in wanted for at in places))
    if others:
        result["none"] = [[len(others), str(others[-1])]]
    return result


def check_words(page, rows):
    """What is said of each last message: names, method, middle of the grid and projection, by the second program."""
    objects = {str(found["at"]): found for found in decoded(recording()) if found["kind"] == "message"}
    for row in rows:
        for cell in row["cells"]:
            if cell.get("group", "Refused") == "Refused" or not cell.get("at"):
                continue
            fields = {field["df"]: field for field in objects[cell["at"]]["fields"]}
            for word in wanted_words(int(cell["number"]), fields):
                page.holds(f"SIN {row['sin']} {cell['group']}: {word!r} in {cell['words']!r}", word in cell["words"])
        refused = row["cells"][-1]
        names = Counter(found["refusal_name"] for found in decoded(recording()) if found["kind"] == "refused"
                        and found["number"] and in_row(found, row["sin"], rows))
        for name, count in names.items():
            page.holds(f"SIN {row['sin']}: {name} × {count} in {refused['words']!r}", f"{name} × {count}" in refused["words"])


def in_row(found, sin, rows):
    message = recording()[found["at"] + HEAD:found["at"] + HEAD + found["length"]]
    own = str(sin_by_bits(message))
    return own == sin or (sin == "none" and own not in [row["sin"] for row in rows])


def wanted_words(number, fields):
    if number <= 1022:
        return [fields["DF144"]["value"], fields["DF146"]["value"], fields["DF150"]["meaning"]]
    if number >= 1025:
        return [fields["DF170"]["meaning"]]
    both = {(0, 0): "no shift", (1, 0): "horizontal", (0, 1): "height", (1, 1): "horizontal and height"}
    return [both[fields["DF190"]["raw"], fields["DF191"]["raw"]]]


def check_choice(page):
    """A message chosen in the table of services is shown, and its row is marked."""
    page.run("document.querySelector('#service-rows tr[data-sin=\"44\"] td[data-group=Grid] button').click()")
    page.holds("the message that is chosen", page.text("#message-facts").startswith("frame at 3301,"))
    page.equal("its row", page.attributes("#service-rows tr[aria-current]", "data-sin"), ["44"])
    page.equal("its button", page.attributes("#service-rows button[aria-pressed=true]", "data-at"), ["3301"])
    page.click("#own-only")
    page.run("document.querySelector('#service-rows tr[data-sin=\"11\"] td[data-group=Refused] button').click()")
    page.equal("the row of a refused message", page.attributes("#service-rows tr[aria-current]", "data-sin"), ["11"])
    page.holds("a refused message that is chosen", page.seen("#message-refusal"))


def check_others(page):
    """A service without its grid, one whose SIN stands only in a refused message, and one that cannot be read."""
    folder = REPOSITORY / "services/a-helmert-gauss-krueger"
    transformation, grid = (folder / name for name in ("1021.rtcm", "1023.rtcm"))
    page.load_bytes(framed(transformation.read_bytes()))
    rows = page.run(ROWS)
    page.equal("the services of one message", [row["sin"] for row in rows], ["11"])
    page.equal("what DF148 names and did not come",
               [cell["words"].replace("\n", " ") for cell in rows[0]["cells"][1:3]],
               ["DF148 names 1023: none accepted", "DF148 names 1025: none accepted"])
    cut, short = grid.read_bytes()[:40], grid.read_bytes()[:2]
    other = bytearray(grid.read_bytes()[:-1])
    other[1:3] = bytes([other[1] & 0xF0, 7 << 4])
    page.load_bytes(b"".join(framed(message) for message in (transformation.read_bytes(), cut, short, bytes(other))))
    rows = page.run(ROWS)
    page.equal("refused messages of a service and of none", {row["sin"]: cell_facts(row["cells"][-1])[0] for row in rows}, {"11": 1, "none": 2})
    page.holds("SINs by bits", "by their bits: SIN 7 × 1, not readable × 1" in rows[1]["cells"][0]["words"])
