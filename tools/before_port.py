#!/usr/bin/env python3
"""Gives three aliases of modules in ties names of one word, before the kit's port.py runs.

usage: before_port.py ROOT

port.py takes a bare name with an underscore for a sign that files have the new spelling already, and then leaves out the steps for older ones.
These aliases were the only such names. Order: this script, port.py, respell_names.py."""

import os
import re
import sys

path = os.path.join(sys.argv[1], "crates/ties/proofs/Contracts.antt")
with open(path, encoding="utf-8") as f:
    text = f.read()
for old, new in (("chunk_of", "chunkOf"), ("insert_all", "insertAll"), ("is_empty", "isEmpty")):
    text = re.sub(r"(?<![\w.·«-])%s(?![\w»])" % old, new, text)
with open(path, "w", encoding="utf-8") as f:
    f.write(text)
