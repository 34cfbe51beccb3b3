#!/usr/bin/env python3
"""Events of OpenStack's own filters, by each way on which they reach a file, into equal logs.

    examples/real-producers.py [CADF]

Drives keystonemiddleware's audit filter and ceilometermiddleware's Swift filter with requests of many kinds. What they hand to
their notifier is written as events, as messages with the envelope of oslo.messaging, as lines of keystonemiddleware's own
logger, and as lines of `driver = log`. cadf-from-openstack has to keep every event of each way, and the logs have to be
equal and without a conflict. Lines of `driver = log` are counted alone, since that driver masks tokens.
Where a package isn't there the script says so, and ends with status 0 (Debian: python3-keystonemiddleware,
python3-ceilometermiddleware, python3-webob).
"""
import json
import logging
import os
import random
import shutil
import subprocess
import sys
import tempfile
import warnings

TOP = os.path.dirname(os.path.dirname(os.path.abspath(__file__)))
TOOL = shutil.which("cadf-from-openstack", path=os.path.join(TOP, "tools") + os.pathsep + os.environ["PATH"])
SYSTEM = "/usr/bin/python3"  # where Debian's packages are
PREFIX = "2026-11-25 12:00:00.123 7 INFO %s [-] %s"
CALLS = 60

PATHS = ["/v2.1/servers", "/v2.1/servers/detail", "/v2.1/servers/x/action", "/v2/images", "/", "/v2.1/os-keypairs/%E2%82%AC",
         "/v2.1/servers?name=Z%C3%BCrich", "/a/" + "long/" * 400, "/v1/AUTH_x/c/o%00bject", "/v2.1/flavors/1?q=\"quoted\"&x='y'"]
METHODS = ["GET", "POST", "PUT", "PATCH", "DELETE", "HEAD"]
BODIES = [b"", b"{}", b'{"reboot": {"type": "HARD"}}', b"not json", b'{"\xc3\xbcnicode action": 1}']
USERS = [{}, {"X_USER_ID": "aa" * 16, "X_USER_NAME": "demo", "X_PROJECT_ID": "bb" * 16, "X_AUTH_TOKEN": "g" * 180},
         {"X_USER_ID": "openstack:u1", "X_USER_NAME": "Jörg \"x\" 'y'".encode().decode("latin1"), "X_AUTH_TOKEN": "t"}]
CATALOG = json.dumps([{"type": "compute", "name": "nova", "endpoints": [
    {"publicURL": "http://x/v2.1", "adminURL": "http://x:8774/v2.1", "internalURL": "http://x", "region": "r", "id": "1"}]}])


class Ways:
    """The texts of a filter's notifications, a list of lines for each way."""

    def __init__(self):
        from keystonemiddleware.audit import _notifier
        from oslo_config import cfg
        from oslo_messaging import Notifier, get_notification_transport
        configuration = cfg.ConfigOpts()
        configuration([], project="x", default_config_files=[])
        self.lines = {"event": [], "envelope": [], "logger": [], "driver = log": []}
        self.logger = _notifier._LogNotifier(self.logging_to("logger", "keystonemiddleware.audit"))
        self.logging_to("driver = log", "oslo.messaging.notification")
        self.driver = Notifier(get_notification_transport(configuration, url="fake:/"), "host", driver="log", topics=["audit"])

    def logging_to(self, way, name):
        """The logger of that name, whose records become lines of that way."""
        handler = logging.Handler()
        handler.emit = lambda record: self.lines[way].append(PREFIX % (record.name, record.getMessage()))
        logger = logging.getLogger(name)
        logger.addHandler(handler)
        logger.setLevel(logging.INFO)
        logger.propagate = False
        return logger

    def notify(self, context, event_type, payload):
        """Takes a notification, as keystonemiddleware's filter hands it to its notifier."""
        from oslo_messaging._drivers.common import serialize_msg
        from oslo_serialization import jsonutils
        self.lines["event"].append(jsonutils.dumps(payload))
        message = {"message_id": "m", "event_type": event_type, "priority": "INFO", "payload": payload}
        self.lines["envelope"].append(jsonutils.dumps(serialize_msg(message)))
        self.logger.notify(context, event_type, payload)
        self.driver.info(context, event_type, payload)

    info = notify  # as ceilometermiddleware calls it


def requests(chance):
    """Yields requests of many kinds."""
    import webob
    for _ in range(CALLS):
        request = webob.Request.blank(chance.choice(PATHS), method=chance.choice(METHODS), body=chance.choice(BODIES))
        for name, value in chance.choice(USERS).items():
            request.environ["HTTP_" + name] = value
        request.environ["HTTP_X_SERVICE_CATALOG"] = CATALOG
        request.environ["REMOTE_ADDR"] = chance.choice(["192.0.2.7", "2001:db8::7"])
        request.environ["HTTP_USER_AGENT"] = chance.choice(["python-novaclient", "Mozilla \"x\" \\back", "a" * 3000])
        yield request


def keystonemiddleware_lines(chance):
    """The lines of the audit filter: two notifications for each call."""
    import webob.dec
    from keystonemiddleware import audit

    @webob.dec.wsgify
    def service(_):
        return webob.Response(status=chance.choice([200, 204, 301, 403, 404, 500]))

    ways = Ways()
    ware = audit.AuditMiddleware(service, use_oslo_messaging=False)
    ware._notifier = ways
    for request in requests(chance):
        request.get_response(ware)
    return ways.lines, 2 * CALLS


def ceilometermiddleware_lines(chance):
    """The lines of the Swift filter."""
    from ceilometermiddleware import swift
    ways = Ways()
    swift.oslo_messaging.Notifier = lambda *_, **__: ways
    swift.oslo_messaging.get_notification_transport = lambda *_, **__: None

    def service(environment, start):
        environment["wsgi.input"].read()
        start("200 OK", [])
        return [b"x" * chance.choice([0, 5, 70000])]

    ware = swift.Swift(service, {"nonblocking_notify": "False"})
    for request in requests(chance):
        request.environ["PATH_INFO"] = "/v1/AUTH_%032x/c/\u00fc x" % chance.getrandbits(128)
        request.environ["PATH_INFO"] = request.environ["PATH_INFO"].encode().decode("latin1")
        request.get_response(ware)
    return ways.lines, CALLS


def checked(binary, producer, lines, wanted):
    """Makes a log of each way's lines, and compares."""
    logs = {}
    for way, texts in lines.items():
        made = subprocess.run([sys.executable, TOOL, "--log", "audit"], input="\n".join(texts).encode(), capture_output=True)
        said = made.stderr.decode()
        if made.returncode or "kept %d, set aside 0, passed over 0" % wanted not in said:
            sys.exit("real-producers: %s, %s: %s" % (producer, way, said[-2000:]))
        with tempfile.NamedTemporaryFile() as document:
            document.write(made.stdout)
            document.flush()
            logs[way] = subprocess.run([binary, "join", document.name], check=True, capture_output=True).stdout
            counted = subprocess.run([binary, "check", document.name], check=True, capture_output=True).stdout
        if not counted.endswith(b" conflicts 0\n"):
            sys.exit("real-producers: %s, %s: %s" % (producer, way, counted.decode()))
    if len({log for way, log in logs.items() if way != "driver = log"}) != 1:
        sys.exit("real-producers: %s: the logs differ" % producer)
    print("real-producers: %s: %d events by each of %d ways" % (producer, wanted, len(lines)))


def command():
    """The command that is tried. It has to be there, and so has the tool."""
    binary = os.path.abspath(sys.argv[1] if len(sys.argv) > 1 else os.path.join(TOP, "crates", "cadf", "out", "cadf"))
    if shutil.which(binary) is None:
        sys.exit("real-producers: %s: no such program: name the command: examples/real-producers.py CADF" % binary)
    if TOOL is None:
        sys.exit("real-producers: cadf-from-openstack: no such program: put it on PATH")
    return binary


def main():
    warnings.simplefilter("ignore")
    logging.getLogger().setLevel(logging.CRITICAL)
    binary = command()
    for made in (keystonemiddleware_lines, ceilometermiddleware_lines):
        producer = made.__name__.partition("_")[0]
        try:
            lines, wanted = made(random.Random(4))
        except ImportError as missing:
            print("skipped: %s: %s isn't there" % (producer, missing.name))
            continue
        checked(binary, producer, lines, wanted)


if __name__ == "__main__":
    try:
        import keystonemiddleware  # noqa: F401
    except ImportError:
        if sys.executable != SYSTEM and os.path.exists(SYSTEM) and "PRODUCERS_TRIED" not in os.environ:
            os.execve(SYSTEM, [SYSTEM] + sys.argv, dict(os.environ, PRODUCERS_TRIED="1"))
    main()
