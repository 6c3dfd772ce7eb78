"""json_exact.py FIELDS LIST: reads the JSON of streams by another program than ours.

Each line of LIST names a stream and the file of its JSON, with a tab between.

Every line must be an object of the keys that docs/DECODE.md lists for its kind, the objects must cover the stream without
a gap, and every value must be its raw number times the resolution in the table of fields, with the resolution's decimals.
"""
import csv
import json
import sys
from decimal import Decimal
from pathlib import Path

FIRST = ["kind", "at", "framed", "length", "number", "name"]
KEYS = {
    "message": FIRST + ["sin", "fields"],
    "refused": FIRST + ["refusal", "refusal_name", "words", "called", "unread", "fill_bits", "out_of_range"],
    "other": FIRST,
    "outside": ["kind", "at", "length"],
    "end": ["kind", "bytes", "frames", "outside", "messages", "refused", "other"],
}
FIELD_KEYS = ["df", "node", "name", "raw", "value", "unit", "sum", "meaning"]
RANGE_KEYS = ["df", "node", "name", "raw", "smallest", "greatest"]


def must(so, words):
    if not so:
        sys.exit(f"json_exact: {words}")


def check_field(field, about):
    must(list(field) == FIELD_KEYS, f"the keys of {field}")
    line = about[field["df"]]
    must(field["name"] == line["name"], f"the name of {field}")
    if line["type"] == "char8":
        must(bytes(field["raw"]).decode("iso-8859-1") == field["value"], f"the text of {field}")
        return
    must(field["unit"] == (line["unit"] or None), f"the unit of {field}")
    if field["raw"] is None:
        must(field["value"] is None and field["sum"] is None and line["type"].startswith("int"), f"no value in {field}")
        must(field["meaning"] == "not available", f"the words of {field}")
        return
    must(isinstance(field["raw"], int), f"the raw number of {field}")
    resolution = Decimal(line["resolution"])
    value = Decimal(field["value"])
    must(value == field["raw"] * resolution, f"the value of {field}")
    must(value.as_tuple().exponent == resolution.as_tuple().exponent, f"the decimals of {field}")
    if field["sum"] is not None:
        must(Decimal(field["sum"]) == value + Decimal(line["base"]), f"the sum of {field}")


def check_stream(objects, size, about):
    place, counts = 0, dict.fromkeys(KEYS, 0)
    for one in objects:
        must(list(one) == KEYS[one["kind"]], f"the keys of {one}")
        counts[one["kind"]] += 1
        if one["kind"] == "end":
            continue
        must(one["at"] == place, f"a gap before {one}")
        place += one["length"] + (6 if one.get("framed") else 0)
        for field in one.get("fields", []):
            check_field(field, about)
        for outside in one.get("out_of_range", []):
            must(list(outside) == RANGE_KEYS, f"the keys of {outside}")
            must(not outside["smallest"] <= outside["raw"] <= outside["greatest"], f"the range of {outside}")
    end = objects[-1]
    must(counts["end"] == 1 and end["kind"] == "end", "the end is not the last line")
    must(place == size == end["bytes"], f"{place} of {size} bytes are shown")
    must([end[key] for key in ("messages", "refused", "other")] == [counts[key] for key in ("message", "refused", "other")],
         "the counts of the end")


def main():
    with open(sys.argv[1], encoding="utf-8", newline="") as table:
        about = {line["field"]: line for line in csv.DictReader(table)}
    values = 0
    for line in Path(sys.argv[2]).read_text(encoding="utf-8").splitlines():
        stream, answer = line.split("\t")
        text = Path(answer).read_text(encoding="utf-8")
        objects = [json.loads(one, parse_float=Decimal) for one in text.split("\n") if one]
        check_stream(objects, len(Path(stream).read_bytes()), about)
        values += sum(len(one.get("fields", [])) for one in objects)
    print(f"tool: python3 reads the JSON, {values} fields with exact values")


main()
