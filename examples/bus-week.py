#!/usr/bin/env python3
"""A week of two sites on a message bus: from keystonemiddleware and a real RabbitMQ to equal logs. On demand: some three minutes.

    examples/bus-week.py [CADF]

Each day services send notifications: requests through keystonemiddleware's audit filter, and events as Keystone sends them,
by oslo.messaging. North reads the services' queue, and south has a queue of its own, which it makes a day late. At each site
a listener (tools/cadf-listen) and a spool step (tools/cadf-spool) run, and both are killed at random. On one day the broker
is killed. Each night a site sends the other what it lacks, as a file into its spool. At the end both sites' files have to be
equal, and equal to a join of what the services wrote down before they sent it.

Where a package isn't there the script says so, and ends with status 0 (Debian: rabbitmq-server, python3-kombu,
python3-keystonemiddleware).
"""
import importlib.machinery
import importlib.util
import json
import logging
import os
import random
import signal
import subprocess
import sys
import tempfile
import threading
import time
import warnings

sys.dont_write_bytecode = True  # nothing is written beside the sources; so this stands before what is imported
HERE = os.path.dirname(os.path.abspath(__file__))
TOP = os.path.dirname(HERE)
TOOLS = os.path.join(TOP, "tools")
SYSTEM = "/usr/bin/python3"  # where Debian's packages are
DAYS, BROKEN_DAY = 7, 3
BEFORE_KILL = 20  # notifications of that day that are sent before the broker is killed
CONFIGURATION = """[oslo_messaging_notifications]
driver = messagingv2
topics = audit
transport_url = %s?amqp_durable_queues=true
"""


# ---- The services

class Told:
    """A notifier that writes each payload down before it sends it."""

    def __init__(self, notifier, file):
        self.notifier, self.file = notifier, file

    def notify(self, context, event_type, payload):
        from oslo_serialization import jsonutils
        self.file.write(jsonutils.dumps(payload) + "\n")
        self.file.flush()
        self.notifier.notify(context, event_type, payload)


def keystone_event(chance):
    """An event as Keystone puts one together."""
    from pycadf import cadftype, event, resource
    who = resource.Resource(id="u%d" % chance.randrange(5), typeURI="service/security/account/user", name="Jörg")
    return event.Event(eventType=cadftype.EVENTTYPE_ACTIVITY, outcome=chance.choice(["success", "failure"]), action="authenticate", initiator=who,
                       target=resource.Resource(id="t", typeURI="service/security/account/user"),
                       observer=resource.Resource(id="keystone", typeURI="service/security")).as_dict()


def requests(chance):
    """Requests of many kinds, as examples/real-producers.py has them."""
    loader = importlib.machinery.SourceFileLoader("producers", os.path.join(HERE, "real-producers.py"))
    module = importlib.util.module_from_spec(importlib.util.spec_from_loader("producers", loader))
    loader.exec_module(module)
    return module.requests(chance)


def serve(configuration, told, seed):
    """A day of the services."""
    import oslo_messaging
    import webob.dec
    from keystonemiddleware import audit
    from oslo_config import cfg
    warnings.simplefilter("ignore")
    logging.disable(logging.CRITICAL)  # that the broker is away, on the day on which it is killed
    chance = random.Random(seed)
    oslo_messaging.set_transport_defaults(control_exchange="nova")
    cfg.CONF([], project="nova", default_config_files=[configuration])
    ware = audit.AuditMiddleware(webob.dec.wsgify(lambda _: webob.Response(status=chance.choice([200, 403, 500]))))
    cfg.CONF.set_override("control_exchange", "keystone")
    keystone = oslo_messaging.Notifier(oslo_messaging.get_notification_transport(cfg.CONF), "identity.host")
    with open(told, "a", encoding="utf-8") as file:
        ware._notifier = Told(ware._notifier, file)
        for request in requests(chance):
            request.get_response(ware)
            payload = keystone_event(chance)
            file.write(json.dumps(payload) + "\n")
            file.flush()
            keystone.info({}, "identity.authenticate", payload)
            time.sleep(chance.uniform(0, 0.1))


# ---- The sites

class Site:
    """A site: its folder, its listener and its spool step, which are killed now and then while the services send."""

    def __init__(self, folder, name, week, words):
        self.name, self.week, self.words = name, week, words
        self.folder = os.path.join(folder, name)
        self.spool, self.file = os.path.join(self.folder, "spool"), os.path.join(self.folder, "site.cadf")
        os.makedirs(self.spool, 0o700)
        self.kills, self.said = {"listener": 0, "spool step": 0}, open(os.path.join(self.folder, "said"), "ab")

    def start(self, tool, *words):
        return subprocess.Popen([sys.executable, os.path.join(TOOLS, tool), *words], env=dict(os.environ, CADF=self.week.binary),
                                stdin=subprocess.DEVNULL, stderr=self.said, start_new_session=True)

    def listener(self, *words):
        return self.start("cadf-listen", "--spool", self.spool, "--url-file", self.week.url, "--size", "50000", "--seconds", "1", *self.words, *words)

    def spool_step(self):
        return self.start("cadf-spool", "--log", "audit", self.file, self.spool)

    def disturb(self, what, start, longest, chance, pause):
        """Starts a program again and again, and kills it with all that it runs, until the services' day is over."""
        while not self.week.is_over.is_set():
            child, end = start(), time.monotonic() + chance.uniform(0.2, longest)
            while child.poll() is None and time.monotonic() < end:
                time.sleep(0.01)
            if child.poll() is None:
                os.killpg(child.pid, signal.SIGKILL)
                self.kills[what] += 1
            child.wait()
            time.sleep(pause)

    def day(self, seed):
        """The threads of the listener and the spool step of a day."""
        return [threading.Thread(target=self.disturb, args=words) for words in (
            ("listener", self.listener, 4, random.Random(seed), 0), ("spool step", self.spool_step, 0.8, random.Random(seed + 1), 0.3))]

    def evening(self):
        """Takes what is left in the queue, and then all that has arrived."""
        if self.listener("--until-empty", "2").wait() != 0:
            self.week.fail("%s: the listener failed in the evening" % self.name)
        self.take()

    def take(self):
        if self.spool_step().wait() != 0 or os.listdir(os.path.join(self.spool, "set-aside")):
            self.week.fail("%s: something was refused: see %s" % (self.name, self.folder))

    def send(self, other):
        """Sends another site what it lacks, as a file into its spool."""
        inventory = os.path.join(self.folder, "inventory")
        self.week.cadf(inventory, "inventory", other.file)
        part = os.path.join(other.spool, "from-%s.cadf.part" % self.name)
        self.week.cadf(part, "missing-by", self.file, inventory)
        os.rename(part, part[:-len(".part")])

    def held(self):
        with open(self.file, "rb") as file:
            return file.read()


class Week:
    def __init__(self, folder, binary, broker):
        self.folder, self.binary, self.broker, self.is_over = folder, binary, broker, threading.Event()
        self.url, self.configuration, self.told = (os.path.join(folder, name) for name in ("url", "service.conf", "told.jsonl"))
        for name, text in ((self.url, broker.url), (self.configuration, CONFIGURATION % broker.url)):
            with open(name, "w", encoding="utf-8") as file:
                file.write(text)
        self.north = Site(folder, "north", self, ["--queue", "audit.info"])
        self.south = Site(folder, "south", self, ["--queue", "audit-south", "--bind", "nova:audit.info", "--bind", "keystone:audit.info"])

    def fail(self, text):
        sys.exit("bus-week: %s" % text)

    def cadf(self, output, *words):
        with open(output, "wb") as file:
            subprocess.run([self.binary, *words], check=True, stdout=file)

    def services(self, day):
        return subprocess.Popen([sys.executable, os.path.abspath(__file__), "--serve", self.configuration, self.told, str(day)], stdin=subprocess.DEVNULL)

    def count(self):
        """How many notifications the services have written down."""
        with open(self.told, "ab+") as file:
            file.seek(0)
            return sum(1 for _ in file)

    def run_day(self, day):
        """A day: the services send while both sites' programs are killed; then an evening and an exchange."""
        self.is_over.clear()
        before = self.count()
        services = self.services(day)
        sites = [self.north] if day == 0 else [self.north, self.south]  # south's queue is made a day late
        threads = [thread for number, site in enumerate(sites) for thread in site.day(100 * day + 10 * number)]
        for thread in threads:
            thread.start()
        if day == BROKEN_DAY:
            while self.count() < before + BEFORE_KILL and services.poll() is None:
                time.sleep(0.01)  # a service that finds no broker when it starts drops all that it sends
            self.broker.kill()
            self.broker.start()
        if services.wait() != 0:
            self.fail("the services failed")
        self.is_over.set()
        for thread in threads:
            thread.join()
        for site in (self.north, self.south):
            site.evening()

    def exchange(self):
        self.north.send(self.south)
        self.south.send(self.north)
        for site in (self.north, self.south):
            site.take()

    def wanted(self):
        """The file of all that the services wrote down."""
        made = os.path.join(self.folder, "told.json")
        with open(made, "wb") as file:
            subprocess.run([sys.executable, os.path.join(TOOLS, "cadf-from-openstack"), "--log", "audit", self.told], check=True, stdout=file, stderr=subprocess.DEVNULL)
        return subprocess.run([self.binary, "join", made], check=True, stdout=subprocess.PIPE).stdout

    def run(self):
        for day in range(DAYS):
            self.run_day(day)
            if day == 0:
                continue
            if day == 1 and self.north.held() == self.south.held():
                self.fail("south has what was sent before its queue was there")
            self.exchange()
        wanted = self.wanted()
        for site in (self.north, self.south):
            if site.held() != wanted:
                self.fail("%s holds something else than what was sent" % site.name)
        subprocess.run([sys.executable, os.path.join(TOOLS, "cadf-agree"), self.north.file, self.south.file], check=True, env=dict(os.environ, CADF=self.binary))
        kills = {what: self.north.kills[what] + self.south.kills[what] for what in self.north.kills}
        print("bus-week: %d notifications; listeners killed %d times, spool steps %d times, the broker once: equal logs" % (
            self.count(), kills["listener"], kills["spool step"]))


def main():
    sys.path.insert(0, TOP)
    from tests.tools import broker
    missing = broker.missing()
    if missing is None and importlib.util.find_spec("keystonemiddleware") is None:
        missing = "python3-keystonemiddleware"
    if missing is not None:
        print("bus-week: skipped, since %s isn't there" % missing)
        return
    binary = os.path.abspath(sys.argv[1] if len(sys.argv) > 1 else os.path.join(TOP, "crates", "cadf", "out", "cadf"))
    signal.signal(signal.SIGTERM, lambda *_: sys.exit(1))  # so that the broker ends too
    with tempfile.TemporaryDirectory(prefix="bus-week-") as folder:
        os.mkdir(os.path.join(folder, "broker"))
        made = broker.Broker(os.path.join(folder, "broker"))
        try:
            made.start()
            Week(folder, binary, made).run()
        finally:
            made.end()


if __name__ == "__main__":
    if os.path.exists(SYSTEM) and os.path.realpath(sys.executable) != os.path.realpath(SYSTEM):
        os.execv(SYSTEM, [SYSTEM] + sys.argv)
    if sys.argv[1:2] == ["--serve"]:
        serve(*sys.argv[2:4], int(sys.argv[4]))
    else:
        main()
