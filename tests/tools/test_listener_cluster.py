"""cadf-listen on a RabbitMQ of three nodes, by a quorum queue: nodes are killed, and nothing is lost."""
import signal

import pytest

from tests.tools import broker
from tests.tools.listeners import Listeners, lost, recorded

pytestmark = [pytest.mark.broker, pytest.mark.xdist_group("broker"), pytest.mark.timeout(600),
              pytest.mark.skipif(broker.missing() is not None, reason="%s isn't there" % broker.missing())]

QUEUE = "audit.info"


@pytest.fixture
def cluster(tmp_path):
    """Three nodes."""
    started = broker.Cluster(str(tmp_path))
    try:
        started.start()
        yield started
    finally:
        started.end()


def is_published(node, messages):
    """Publishes messages to the queue by that node, each until a majority has it. The first ones are taken off the list as it goes.

    While the nodes choose a leader of the queue a message is refused, and so are all later ones of that channel.
    """
    with node.connection() as connection:
        channel = connection.channel()
        channel.queue_declare(QUEUE, durable=True, auto_delete=False, arguments={"x-queue-type": "quorum"})
        channel.confirm_select()
        while messages:
            try:
                channel.basic_publish_confirm(broker.amqp.Message(messages[0], delivery_mode=2), routing_key=QUEUE, timeout=60)
            except broker.amqp.exceptions.MessageNacked:
                return False
            messages.pop(0)
    return True


def test_killed_nodes_lose_nothing(cluster, tmp_path):
    """The node of the connection is killed, and the listener goes on by another one; then by one that came back, while another is away."""
    first, second, third = cluster.nodes
    messages, listeners = recorded()[:90], Listeners(str(tmp_path), second)
    publish = lambda node, some: listeners.wait_for("a majority", lambda: is_published(node, some))
    publish(first, messages[:30])
    listener = listeners.start("spool", "--queue", QUEUE, "--prefetch", "7", url=cluster.url)
    listeners.wait_until_given("the first messages", QUEUE)
    first.kill()
    publish(second, messages[30:60])
    listeners.wait_until_given("what came after a node was killed", QUEUE)
    second.kill()  # there is no majority
    first.launch()
    first.wait_until_it_answers()
    listeners.broker = third
    publish(third, messages[60:])
    listeners.wait_until_given("what came after a node was back", QUEUE)
    assert listeners.ended(listener, signal.SIGTERM) == 0
    assert lost(messages, str(tmp_path / "spool")) == (0, 0), listeners.said("spool")
