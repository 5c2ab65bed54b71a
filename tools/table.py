#!/usr/bin/env python3
"""Writes crates/sine/src/entries.rt, the sine table by document 01's rule, in exact fractions (tools/model.py).

Usage: table.py [SEGMENTS] > crates/sine/src/entries.rt
It has SEGMENTS + 1 entries. Without an argument the segments are as many as document 02's wish 5 says.
"""
import sys
import textwrap

import model


def main():
    segments = int(sys.argv[1]) if len(sys.argv) > 1 else model.SEGMENTS
    print("// The quarter-wave sine table, written by tools/table.py. Its rule is proved in proofs/table/Answers.antt.")
    print(f"pub const TABLE: [u32; {segments + 1}] = [")
    entries = " ".join(f"{model.entry(k, segments)}," for k in range(segments + 1))
    print(textwrap.fill(entries, 100, initial_indent="    ", subsequent_indent="    "))
    print("];")


main()
