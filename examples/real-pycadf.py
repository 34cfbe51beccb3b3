#!/usr/bin/env python3
"""Events as the real pycadf classes write them, through `cadf show` and back.

    examples/real-pycadf.py [CADF]

Makes events with pycadf (Debian's python3-pycadf), puts them into one log document, and shows it. What pycadf wrote
has to stand in the log: each event's members unchanged, but for the spelling of its times. Where pycadf isn't there the
script says so, and ends with status 0.
"""
import json
import os
import shutil
import subprocess
import sys
import tempfile
import warnings

TOP = os.path.dirname(os.path.dirname(os.path.abspath(__file__)))
SYSTEM = "/usr/bin/python3"  # where Debian's packages are


def pycadf_events():
    """Events of each type, with what pycadf can put into them."""
    warnings.simplefilter("ignore")  # pycadf warns of identifiers that are no UUID, and makes them
    from pycadf import attachment, credential, endpoint, event, eventfactory, geolocation, host, measurement, metric
    from pycadf import cadftaxonomy, cadftype, reason, reporterstep, resource, tag, timestamp

    user = resource.Resource(id="openstack:u1", typeURI=cadftaxonomy.ACCOUNT_USER, name="demo",
                             credential=credential.Credential(token="secret-token", type="identity token"),
                             host=host.Host(address="192.168.0.1", agent="client"))
    service = resource.Resource(id="openstack:s1", typeURI="service/compute", name="nova",
                                geolocation=geolocation.Geolocation(city="Zürich"))
    service.add_address(endpoint.Endpoint("http://10.0.0.1:8774/v2/", name="public"))
    factory = eventfactory.EventFactory()
    made = [
        factory.new_event(eventType=cadftype.EVENTTYPE_ACTIVITY, action=cadftaxonomy.ACTION_READ,
                          outcome=cadftaxonomy.OUTCOME_SUCCESS, initiator=user, target=service, observer=service),
        factory.new_event(eventType=cadftype.EVENTTYPE_CONTROL, action="create", outcome="failure", initiator=user,
                          target=service, observer=service, reason=reason.Reason(reasonType="HTTP", reasonCode="403")),
        factory.new_event(eventType=cadftype.EVENTTYPE_MONITOR, action="monitor", outcome="success", initiator=service,
                          target=service, observer=service)]
    made[2].add_measurement(measurement.Measurement(result="97", metric=metric.Metric(unit="%", name="cpu")))
    made[0].add_tag(tag.generate_name_value_tag("correlation_id", "9"))
    made[0].add_reporterstep(reporterstep.Reporterstep(role=cadftype.REPORTER_ROLE_MODIFIER, reporter=service,
                                                       reporterTime=timestamp.get_utc_now()))
    made[1].add_attachment(attachment.Attachment(typeURI="text/plain", content="a\tb", name="note"))
    assert all(one.is_valid() for one in made) and isinstance(made[0], event.Event)
    return [one.as_dict() for one in made]


def without_times(value):
    """The value without its times, whose spelling changes."""
    if isinstance(value, dict):
        return {name: without_times(part) for name, part in value.items() if not name.endswith("Time")}
    return [without_times(part) for part in value] if isinstance(value, list) else value


def check(binary, events):
    """Shows a log of the events, and compares."""
    if shutil.which(binary) is None:
        sys.exit("real-pycadf: %s: no such program: name the command: examples/real-pycadf.py CADF" % binary)
    with tempfile.NamedTemporaryFile("w", suffix=".json") as document:
        json.dump({"id": "openstack:audit", "events": events}, document)
        document.flush()
        log = json.loads(subprocess.run([binary, "show", document.name], check=True, capture_output=True).stdout)
    shown = {one["id"]: one for one in log["events"]}
    for one in events:
        if without_times(shown.get(one["id"])) != without_times(one):
            sys.exit("real-pycadf: %s\nwas shown as %s" % (json.dumps(one), json.dumps(shown.get(one["id"]))))
    print("real-pycadf: %d events stand in the log as pycadf wrote them" % len(events))


if __name__ == "__main__":
    try:
        import pycadf  # noqa: F401
    except ImportError:
        if sys.executable != SYSTEM and os.path.exists(SYSTEM) and "PYCADF_TRIED" not in os.environ:
            os.execve(SYSTEM, [SYSTEM] + sys.argv, dict(os.environ, PYCADF_TRIED="1"))
        print("skipped: pycadf isn't there (Debian: python3-pycadf)")
        sys.exit(0)
    check(sys.argv[1] if len(sys.argv) > 1 else os.path.join(TOP, "crates", "cadf", "out", "cadf"), pycadf_events())
