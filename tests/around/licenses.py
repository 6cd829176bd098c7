"""Whether packaging/debian/copyright has a paragraph for each crate of the toolchain that the program is built from,
with the notices of its license as they are, and the text of that license. It prints what is missing.

    tests/around/licenses.py FOLDER      the crates of the toolchain
"""
import pathlib
import re
import sys

kit = pathlib.Path(sys.argv[1])
root = pathlib.Path(__file__).resolve().parents[2]
# For each license whose text the package contains: how the text begins, after the notices of a crate.
LICENSE_BEGINNINGS = {"Expat": "Permission is hereby granted", "BSD-3-Clause": "Redistribution and use"}
paragraphs = re.split(r"\n\n+", (root / "packaging/debian/copyright").read_text())
fields_of_paragraphs = [dict(re.findall(r"^([A-Z]\w+):((?:.*\n?)(?:[ \t].*\n?)*)", text + "\n", re.MULTILINE))
                        for text in paragraphs]


def used_crates(crate):
    """The crates of the toolchain that a crate names, except for those that are its own modules."""
    sources = [path for path in (kit / crate / "src").rglob("*.rt") if "tests" not in path.parts]
    own_modules = {path.stem for path in sources} | {path.parent.name for path in sources}
    names = {name for path in sources for name in re.findall(r"^\s*(?:pub )?use (\w+)(?:::|;)", path.read_text(), re.M)}
    return {name for name in names - own_modules if (kit / name / "src").is_dir()}


def all_crates():
    """All crates of the toolchain in the program."""
    lines = [line.split(":") for line in (root / "crates.txt").read_text().split("\n") if ":" in line]
    unvisited = {name for _, names in lines for name in names.split() if (kit / name / "src").is_dir()}
    crates_found = set()
    while unvisited:
        crate = unvisited.pop()
        crates_found.add(crate)
        unvisited |= used_crates(crate) - crates_found
    return sorted(crates_found)


def joined_words(text):
    """A text without its lines, and without what marks the empty ones of a paragraph."""
    return " ".join(re.sub(r"^ \.$", "", text, flags=re.M).split())


texts = {fields["License"].split("\n")[0].strip(): joined_words(fields["License"].partition("\n")[2])
         for fields in fields_of_paragraphs if "License" in fields and "Files" not in fields}
faults = []
for crate in all_crates():
    for license in sorted((kit / crate).glob("LICENSE*")):
        text = license.read_text()
        kind = next((name for name, beginning in LICENSE_BEGINNINGS.items() if beginning in text), "Apache-2.0")
        notices = []
        if kind in LICENSE_BEGINNINGS:
            notices = [line.strip() for line in text.split("\n") if line.startswith("Copyright")]
            if joined_words(text[text.index(LICENSE_BEGINNINGS[kind]):]) != texts.get(kind):
                faults.append(f"{crate}: {license.name} has another text")
        elif "Apache License" not in text:
            faults.append(f"{crate}: {license.name} is no license that this script knows")
        own_fields = [fields for fields in fields_of_paragraphs
                      if fields.get("Files", "").strip() == f"rattle/{crate}/*"]
        if not own_fields or kind not in own_fields[0]["License"]:
            faults.append(f"{crate}: no paragraph with the license {kind}")
        else:
            faults += [f"{crate}: {line}" for line in notices if line not in own_fields[0]["Copyright"]]
    if not any(path for path in (kit / crate).glob("LICENSE*")) and (kit / crate / "NOTICE").exists():
        faults.append(f"{crate}: a notice without a license")
print(*faults, sep="\n", end="\n" if faults else "")
sys.exit(bool(faults))
