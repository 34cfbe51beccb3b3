#!/usr/bin/env python3
"""Joins the files of two sites, each into the other, and prints on which keys they contradict each other.

    join.py NORTH SOUTH
"""
import pathlib
import sys

import cadf


def main(north, south):
    cadf.Site(north).take(pathlib.Path(south))
    cadf.Site(south).take(pathlib.Path(north))
    assert cadf.Site(north).seal() == cadf.Site(south).seal()
    for conflict in cadf.Site(north).conflicts():
        print(conflict["state"], conflict["letter"], conflict["key"], len(conflict["values"]))


if __name__ == "__main__":
    try:
        main(*sys.argv[1:3])
    except cadf.CadfError as why:
        sys.exit("join: %s" % why)
