#!/usr/bin/env python3
"""Prints sectors of text, each another one, so that a sector out of place shows: content.py WORD SECTORS."""
import sys

for sector in range(int(sys.argv[2])):
    sys.stdout.write(16 * (f"{sys.argv[1]} sector {sector}".ljust(31) + "\n"))
