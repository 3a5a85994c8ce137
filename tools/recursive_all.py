#!/usr/bin/env python3
"""Writes std's AllByRecursion by its own name where a file had it as All, which `rt ci` refuses."""

import os
import re


def main():
    for folder, dirs, names in os.walk("crates"):
        dirs[:] = [d for d in dirs if d != "out"]
        for n in names:
            path = os.path.join(folder, n)
            if not n.endswith((".antt", ".rt")):
                continue
            with open(path, encoding="utf-8") as f:
                text = f.read()
            if "AllByRecursion as All" not in text:
                continue
            text = text.replace("AllByRecursion as All", "AllByRecursion")
            lines = text.split("\n")
            for i, line in enumerate(lines):
                if not line.lstrip().startswith("--") and "Rattle.std" not in line:
                    lines[i] = re.sub(r"(?<![\w'.-])All(?![\w'-])", "AllByRecursion", line)
            with open(path, "w", encoding="utf-8") as f:
                f.write("\n".join(lines))


if __name__ == "__main__":
    main()
