"""The page's JavaScript files as one script. Each file keeps a scope of its own, and gives what it exports."""
import re

IMPORT = re.compile(r'^import (\{.*?\}) from "\./(\w+\.js)";\n', re.M | re.S)
EXPORT = re.compile(r"^export (?=(?:async )?(?:function|const) (\w+))", re.M)


def variable(name):
    return "file_" + name.removesuffix(".js")


def order(folder, name, done):
    """The files that a file needs, each before those that need it, and the file itself."""
    if name in done:
        return
    for _, needed in IMPORT.findall((folder / name).read_text()):
        order(folder, needed, done)
    done.append(name)


def scoped(folder, name):
    text = (folder / name).read_text()
    given = EXPORT.findall(text)
    text = IMPORT.sub(lambda found: f"const {found[1]} = {variable(found[2])};\n", text)
    text = EXPORT.sub("", text)
    return f"const {variable(name)} = (() => {{\n{text}\nreturn {{ {', '.join(given)} }};\n}})();\n"


def script(folder, first):
    names = []
    order(folder, first, names)
    return "\n".join(f"// {name}\n" + scoped(folder, name) for name in names)
