#!/usr/bin/env python3
"""Prints a raw disk's length, then place, length and SHA-256 of each chunk of 65,536 bytes that is not all zero."""
import hashlib
import os
import sys

CHUNK = 65536

with open(sys.argv[1], "rb") as raw:
    print(os.path.getsize(sys.argv[1]))
    at = 0
    while chunk := raw.read(CHUNK):
        if chunk.count(0) < len(chunk):
            print(at, len(chunk), hashlib.sha256(chunk).hexdigest())
        at += len(chunk)
