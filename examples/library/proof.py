#!/usr/bin/env python3
"""Checks a proof, by the library: that facts are among those that were sealed. It reads no site.

    proof.py SEAL FACTS PROOF
"""
import pathlib
import sys

import cadf


def main(*names):
    seal, facts, proof = (pathlib.Path(name).read_bytes() for name in names)
    print(cadf.verify(seal, facts, proof).decode(), end="")


if __name__ == "__main__":
    try:
        main(*sys.argv[1:4])
    except cadf.CadfError as why:
        sys.exit("proof: %s" % why)
