#!/usr/bin/env python3
"""Writes a large plant and two valid logs of it that are as deep as asked: the splits stand in the first parts, or in the second ones.

    python3 bench/deep.py FOLDER DEPTH    # FOLDER/deep.toml, FOLDER/first.0, FOLDER/first.1 (the same), FOLDER/second.0, FOLDER/second.1
"""
import os, sys

from large_inputs import deep_log, deep_plant

folder, depth = sys.argv[1], int(sys.argv[2])
texts = {"deep.toml": deep_plant()}
for stem in ("first", "second"):
    for number in "01":
        texts[f"{stem}.{number}"] = deep_log(depth, stem == "first")
for name, text in texts.items():
    with open(os.path.join(folder, name), "w") as out:
        out.write(text)
