"""The tables of the page: refusals, sizes and layouts of include/tarnoklej.h, fields and messages of tool/*.csv."""
import csv
import re


class Disagreement(Exception):
    """Header and tables say different things."""


def comment_text(text):
    return re.sub(r"\s+", " ", re.sub(r"\n\s*\*?", " ", text)).strip()


def block(header, title):
    found = re.search(re.escape(f"/* {title}") + r"[^/]*\*/\nenum \{(.*?)\n\};", header, re.S)
    if not found:
        raise Disagreement(f"include/tarnoklej.h has no block {title!r}")
    return found[1]


def refusals(header):
    found = re.findall(r"TARNOKLEJ_(\w+) = (\d+),?[ ]*(?:/\*(.*?)\*/)?", block(header, "The refusal numbers."), re.S)
    return {int(number): {"name": name, "meaning": comment_text(meaning)} for name, number, meaning in found}


def sizes(header):
    return {name: int(value) for name, value in re.findall(r"TARNOKLEJ_(\w+) = (\d+)", block(header, "Sizes."))}


def pairs(text):
    """`0=one;1..3=other` as a dictionary."""
    return dict(pair.split("=", 1) for pair in text.split(";") if pair)


def field_table(text):
    table = {row.pop("field"): row for row in csv.DictReader(text.splitlines())}
    for row in table.values():
        row["codes"] = pairs(row["codes"])
        row["flags"] = pairs(row.pop("bits"))
        row["width"] = int(re.search(r"\d+", row["type"])[0])
        row["signed"] = row["type"].startswith("int")
    return table


def message_table(text):
    """Names by number; a range of numbers stays one entry."""
    return {row["number"]: row["name"] for row in csv.DictReader(text.splitlines())}


def wire_order(text):
    """For each message with fields its DF numbers in wire order, those of a node once."""
    rows = csv.DictReader(text.splitlines())
    return {row["number"]: re.findall(r"DF\d{3}", row["fields"]) for row in rows if row["fields"]}


def agree(field, kind, rest, own):
    """Whether the header's line of a field has the type, resolution and unit, and the words of the name of its row."""
    resolution = (own["resolution"] + " " + own["unit"]).strip()
    found = re.fullmatch(re.escape(resolution) + r"s?\s{2,}(\S.*)", rest)
    if own["type"] != kind or not found:
        raise Disagreement(f"{field} is {kind} {rest} in include/tarnoklej.h and {own['type']} {resolution} in tool/fields.csv")
    if not own["name"].endswith(found[1].strip()):
        raise Disagreement(f"{field} is {found[1]!r} in include/tarnoklej.h and {own['name']!r} in tool/fields.csv")


def layouts(header, fields):
    """For each message its fields in wire order; those of a name and of the nodes are marked as repeated."""
    result = {}
    listing = header[header.index("Positions in a row by DF number"):]
    for number, lines in re.findall(r" \* (\d{4}), [^\n]* fields:\n((?: \*   [^\n]*\n)+)", listing):
        result[number] = []
        for line in lines.splitlines():
            place, field, kind, rest = re.match(r" \*   (\S+)\s+(DF\d+)\s+(\S+)\s+(.*)", line).groups()
            if field not in fields:
                raise Disagreement(f"{field} of {number} is not in tool/fields.csv")
            agree(field, kind, rest, fields[field])
            repeated = "name" if ".." in place else "nodes" if "3i" in place else ""
            result[number].append({"field": field, "repeated": repeated})
    return result


def tables(header, fields_text, messages_text):
    fields = field_table(fields_text)
    own_layouts = layouts(header, fields)
    by_header = {number: [entry["field"] for entry in layout] for number, layout in own_layouts.items()}
    by_table = wire_order(messages_text)
    if by_header != by_table:
        numbers = [number for number in by_header | by_table if by_header.get(number) != by_table.get(number)]
        raise Disagreement(f"include/tarnoklej.h and tool/messages.csv have other fields for {', '.join(sorted(numbers))}")
    return {"refusals": refusals(header), "sizes": sizes(header), "layouts": own_layouts, "fields": fields,
            "messages": message_table(messages_text)}
