"""Crates that are written to measure or to try something, in a copy of the repository, at its top. No part of the gate."""
import pathlib


def write_crate(name, libraries, files, handles=""):
    """Writes a crate of these files, and its line in crates.txt where it has none yet: the libraries, and handles before the colon."""
    crate = pathlib.Path("crates") / name
    for path, text in files.items():
        (crate / path).parent.mkdir(parents=True, exist_ok=True)
        (crate / path).write_text(text)
    crates = pathlib.Path("crates.txt")
    lines = crates.read_text()
    if not any(line.split(":")[0].split(" ")[0] == name for line in lines.splitlines()):
        crates.write_text(lines + f"{name}{handles and ' ' + handles}: {libraries}\n")
