#!/usr/bin/env python3
"""Prints the events of a site between two times, a line each, with those that contradict marked.

    events.py SITE SINCE UNTIL       as: events.py north/ 2024-03-01 2024-03-08
"""
import sys

import cadf


def main(site, since, until):
    for event in cadf.Site(site).events(since, until):
        mark = " (one of %d bodies that contradict)" % event.contradicted if event.contradicted else ""
        print(event["eventTime"], event["action"], event["outcome"], event["id"] + mark)


if __name__ == "__main__":
    try:
        main(*sys.argv[1:4])
    except cadf.CadfError as why:
        sys.exit("events: %s" % why)
