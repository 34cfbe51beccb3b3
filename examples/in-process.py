#!/usr/bin/env python3
"""Events of pycadf in two sites' replicas, in the process: no file and no other program.

    examples/in-process.py

It needs the package cadf (bindings/python) and Debian's python3-pycadf. Where pycadf isn't there it says so, and ends with
status 0.
"""
import json
import sys
import warnings

import cadf

LOG = "openstack:audit"


def event(outcome):
    """An event as a service makes it, by pycadf."""
    from pycadf import event, resource

    user = resource.Resource(id="openstack:u1", typeURI="service/security/account/user")
    return event.Event(id="openstack:e1", eventType="activity", eventTime="2024-03-01T12:00:00.000000+0000", action="read",
                       outcome=outcome, initiator=user, target=user, observer=user)


def document(*events):
    """A log document of events: the dictionary that Event.as_dict() makes is an event's JSON."""
    return json.dumps({"id": LOG, "events": [one.as_dict() for one in events]})


def main():
    warnings.simplefilter("ignore")  # pycadf warns of identifiers that are no UUID, and makes them
    try:
        documents = [document(event("success")), document(event("failure"))]
    except ImportError:
        return print("in-process: pycadf is not here")
    north, south = (cadf.join([text], log=LOG) for text in documents)
    delta = cadf.missing_by(south, cadf.inventory(north))  # what north asks south for
    north = cadf.join([north, delta])
    print("in-process: %s" % (cadf.check(north),))
    for conflict in json.loads(cadf.show(north, conflicts=True))["conflicts"]:
        print("in-process: %s: %s" % (conflict["key"], " or ".join(value["outcome"] for value in conflict["values"])))
    try:
        cadf.join([north, '{"id":"%s","events":[{}]}' % LOG])
    except cadf.CadfError as error:
        print("in-process: input %d, %s: %s" % (error.input, error.place, error))
    return None


if __name__ == "__main__":
    sys.exit(main())
