"""Listeners on a broker, and what is in their spools."""
import glob
import json
import os
import subprocess
import sys
import time

from tests import TOP, patience
from tests.tools import broker
from tests.tools.programs import tool

LISTEN = tool("cadf-listen")


def recorded():
    """The recorded events as messages of oslo.messaging, each another."""
    messages = []
    for path in sorted(glob.glob(os.path.join(TOP, "examples", "real", "*.jsonl"))):
        with open(path, encoding="utf-8") as lines:
            for number, line in enumerate(lines):
                message = '{"event_type": "x", "message_id": "%s-%d", "payload": %s}' % (os.path.basename(path), number, line.strip())
                messages.append(json.dumps({"oslo.version": "2.0", "oslo.message": message}).encode())
    return messages


def lines_of(spool):
    """The lines of the finished files, in the order of their names."""
    lines = []
    for path in sorted(glob.glob(os.path.join(spool, "*.jsonl"))):
        with open(path, "rb") as file:
            lines += file.read().split(b"\n")
        if lines.pop() != b"":
            raise AssertionError("%s doesn't end with a whole line" % path)
    return lines


def lost(messages, spool):
    """How many of the messages have no line, and how many lines are no message."""
    held, wanted = set(lines_of(spool)), set(messages)
    return len(wanted - held), len(held - wanted)


class Listeners:
    """Listeners of a broker, whose spools are in one folder."""

    def __init__(self, folder, rabbit):
        self.folder, self.broker = folder, rabbit

    def path(self, *names):
        return os.path.join(self.folder, *names)

    def put(self, name, data):
        with open(self.path(name), "wb") as file:
            file.write(data)
        return self.path(name)

    def start(self, name, *words, program=LISTEN, url=None, **options):
        """Starts a listener whose spool has that name. What it says is added to the file NAME.said."""
        with open(self.path(name + ".said"), "ab") as said:
            words = ["--spool", self.path(name), "--url-file", self.put(name + ".url", (url or self.broker.url).encode()), *words]
            return subprocess.Popen([sys.executable, program, *words], stdin=subprocess.DEVNULL, stderr=said, **options)

    def said(self, name):
        with open(self.path(name + ".said"), encoding="utf-8") as file:
            return file.read()

    def publish(self, queue, messages, exchange="", key=None):
        """Publishes messages to a durable queue, which is made if it isn't there, and waits until the broker has them.

        A message is a body, or a body with its properties.
        """
        with self.broker.connection() as connection:
            channel = connection.channel()
            if not exchange:
                channel.queue_declare(queue, durable=True, auto_delete=False)
            channel.tx_select()
            for each in messages:
                body, properties = each if isinstance(each, tuple) else (each, {})
                message = broker.amqp.Message(body, **{"delivery_mode": 2, **properties})
                channel.basic_publish(message, exchange=exchange, routing_key=key or queue)
            channel.tx_commit()

    def waiting(self, *queues):
        """How many messages the queues have that no listener has been given."""
        with self.broker.connection() as connection:
            return count_of(connection.channel(), queues)

    def wait_until_given(self, what, *queues):
        """Waits until listeners have been given all messages of the queues."""
        with self.broker.connection() as connection:
            channel = connection.channel()
            self.wait_for(what, lambda: count_of(channel, queues) == 0)

    def wait_for(self, what, happens, seconds=60):
        """Waits until something has happened."""
        end = time.monotonic() + patience.seconds(seconds)
        while not happens():
            assert time.monotonic() < end, what
            time.sleep(0.02)

    def ended(self, child, number=None):
        """The status of a listener, which is sent a signal if one is named."""
        if number is not None:
            child.send_signal(number)
        try:
            return child.wait(60)
        except subprocess.TimeoutExpired:
            child.kill()
            child.wait()
            return "none in 60 seconds"


def count_of(channel, queues):
    """How many messages the queues have that no listener has been given."""
    return sum(channel.queue_declare(queue, passive=True).message_count for queue in queues)
