#!/usr/bin/env python3
"""examples_of_pages.py PAGE..: writes the examples of the pages as JSON, as docs/examples.py finds them."""
import json
import os
import shlex
import sys

sys.path.insert(0, os.path.join(os.path.dirname(os.path.abspath(__file__)), "..", "..", "docs"))
from examples import examples

found = [example for page in sys.argv[1:] for example in examples(page)]
for example in found:
    example["words"] = shlex.split(example["line"])[1:]
json.dump(found, sys.stdout)
