#!/usr/bin/env python3
"""Writes the files for editors in editors/.

    generate.py          writes the files
    generate.py --check  writes nothing, and fails where a file is not what it would write
"""
import os
import sys

sys.dont_write_bytecode = True
import spellings  # noqa: E402
import textmate  # noqa: E402
import vim  # noqa: E402

FOLDER = os.path.join(spellings.TOP, "editors")


def files():
    """Each file, by its path below editors/."""
    return {**vim.files(), **textmate.files()}


def write():
    """Writes each file."""
    for name, text in files().items():
        path = f"{FOLDER}/{name}"
        os.makedirs(os.path.dirname(path), exist_ok=True)
        with open(path, "w", encoding="utf-8") as file:
            file.write(text)


def differing():
    """The files that are missing or not as they would be written."""
    def held(name):
        path = f"{FOLDER}/{name}"
        return spellings.read(f"editors/{name}") if os.path.exists(path) else None

    return [f"editors/{name}: not as tools/editors/generate.py writes it" for name, text in files().items() if held(name) != text]


if __name__ == "__main__":
    if "--check" not in sys.argv:
        write()
    elif differing():
        sys.exit("\n".join(differing()))
