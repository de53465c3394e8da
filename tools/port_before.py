#!/usr/bin/env python3
"""Run once before the kit's port.py, at the top: an alias that looks like today's spelling made port.py take the whole
repository for one that was turned already, and leave out its steps for older spellings."""
import re

PATH = "crates/layout/specs/Evaluate.antt"
with open(PATH, encoding="utf-8") as f:
    text = f.read()
text = text.replace("Evaluate as little_endian", "Evaluate as numbers").replace("little_endian.computes", "numbers.computes")
with open(PATH, "w", encoding="utf-8") as f:
    f.write(text)
