#!/usr/bin/env python3
"""The second programs, under tests/second, against document 01's shown examples and against each other; and wrong ones against the
lines that the proved programs are tried with, which must notice them."""
import sys
from pathlib import Path

sys.path.insert(0, str(Path(__file__).resolve().parent / "second"))
import airtest
import selftest
import wrong

selftest.run()
airtest.run()
wrong.run()
