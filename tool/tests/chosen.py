"""chosen.py JSON RECORDING FOLDER: writes the last accepted grid and the last accepted 1021 of each SIN of a recording.

JSON is what the second program prints of it. The files are FOLDER/SIN-grid.rtcm and FOLDER/SIN-1021.rtcm.
"""
import json
import sys
from pathlib import Path


def main():
    objects, recording, folder = sys.argv[1:]
    stream = Path(recording).read_bytes()
    for line in Path(objects).read_text(encoding="utf-8").splitlines():
        one = json.loads(line)
        if one["kind"] == "message" and one["number"] in (1021, 1023, 1024):
            kind = "1021" if one["number"] == 1021 else "grid"
            start = one["at"] + 3
            (Path(folder) / f"{one['sin']}-{kind}.rtcm").write_bytes(stream[start:start + one["length"]])


main()
