"""build.py: tries that page/build writes nothing and says why where header and tables disagree, or a file is missing."""
import shutil
import subprocess
import sys
import tempfile
from pathlib import Path

REPOSITORY = Path(__file__).resolve().parent.parent.parent
HEADER, FIELDS, MESSAGES = "include/tarnoklej.h", "tool/fields.csv", "tool/messages.csv"

# File, what stands in it, what is put in its place, exit status, words on standard error.
TRIALS = [
    (FIELDS, "int21,0.5,", "int22,0.5,", 1, "DF192 is int21"),
    (FIELDS, "int15,0.01,m,-16383,16383,,,\nDF199", "int15,0.1,m,-16383,16383,,,\nDF199", 1, "DF198 is int15"),
    (FIELDS, "0.001,arc second,-127,127", "0.001,m,-127,127", 1, "DF196 is int8"),
    (FIELDS, "Plate Number", "Plate Counter", 1, "DF149 is 'Plate Number'"),
    (FIELDS, "DF217,", "DF218,", 1, "DF217 of 1023 is not in tool/fields.csv"),
    (HEADER, "DF184  int35", "DF184  int34", 1, "DF184 is int34"),
    (HEADER, "The refusal numbers.", "Refusals.", 1, "no block 'The refusal numbers.'"),
    (MESSAGES, "DF190 DF191 DF202", "DF191 DF190 DF202", 1, "have other fields for 1024"),
    (MESSAGES, "DF187 DF188 DF189", "DF187 DF188", 1, "have other fields for 1027"),
]


def build(repository, *words):
    return subprocess.run([sys.executable, str(repository / "page/build"), *words], capture_output=True, text=True, check=False)


def main():
    failed = 0
    with tempfile.TemporaryDirectory() as folder:
        copy = Path(folder)
        shutil.copytree(REPOSITORY / "page", copy / "page", ignore=shutil.ignore_patterns("checks"))
        for name in (HEADER, FIELDS, MESSAGES):
            (copy / name).parent.mkdir(exist_ok=True)
            shutil.copy(REPOSITORY / name, copy / name)
        module, output = copy / "module.wasm", copy / "look.html"
        module.write_bytes(b"\0asm")
        cases = [((None, "", ""), 0, "")] + [(trial[:3], *trial[3:]) for trial in TRIALS]
        for (name, old, new), status, words in cases:
            text = (REPOSITORY / name).read_text() if name else ""
            if name:
                (copy / name).write_text(text.replace(old, new, 1))
            answer = build(copy, str(module), str(output))
            right = answer.returncode == status and words in answer.stderr and output.exists() == (status == 0)
            if not right or (name and text.count(old) < 1):
                failed += 1
                print(f"page: build with {new!r} for {old!r}: {answer.returncode} {answer.stderr!r}")
            output.unlink(missing_ok=True)
            if name:
                (copy / name).write_text(text)
        answer = build(copy)
        if answer.returncode != 2 or "./targets/build wasm64 makes it" not in answer.stderr:
            failed += 1
            print(f"page: build without a module: {answer.returncode} {answer.stderr!r}")
        count = len(cases) + 1
    print(f"page: build: {count - failed} of {count} trials as expected, {len(TRIALS)} of them a header and tables that disagree")
    return 1 if failed else 0


sys.exit(main())
