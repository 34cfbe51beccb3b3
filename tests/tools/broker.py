"""A RabbitMQ of one's own: on free ports of 127.0.0.1 alone, in a folder of its own. It touches no service of the system."""
import os
import secrets
import shutil
import signal
import socket
import subprocess
import time

from tests import patience

try:
    import amqp
except ImportError:
    amqp = None

PROGRAMS = "/usr/lib/rabbitmq/bin"
SECONDS = 120  # on an idle machine
SETTINGS = """loopback_users.guest = true
listeners.tcp.1 = 127.0.0.1:%d
disk_free_limit.absolute = 1MB
log.file.level = warning
"""
TLS_SETTINGS = """listeners.ssl.1 = 127.0.0.1:%d
ssl_options.cacertfile = %s
ssl_options.certfile = %s
ssl_options.keyfile = %s
"""


def missing():
    """What isn't there of all that a broker needs, or None."""
    if amqp is None:
        return "kombu"
    if not os.path.exists(os.path.join(PROGRAMS, "rabbitmq-server")) or not shutil.which("epmd"):
        return "rabbitmq-server"
    return None


def free_ports(count):
    """Ports of 127.0.0.1 that nobody has."""
    sockets = [socket.socket() for _ in range(count)]
    for each in sockets:
        each.bind(("127.0.0.1", 0))
    ports = [each.getsockname()[1] for each in sockets]
    for each in sockets:
        each.close()
    return ports


def make_certificates(folder):
    """An authority and a certificate of `localhost` that it signed, by openssl. Returns the names of the three files."""
    names = [os.path.join(folder, name) for name in ("authority.pem", "certificate.pem", "key.pem")]
    new = ["openssl", "req", "-x509", "-newkey", "ec", "-pkeyopt", "ec_paramgen_curve:prime256v1", "-nodes", "-days", "2"]
    subprocess.run([*new, "-subj", "/CN=authority", "-keyout", os.path.join(folder, "authority.key"), "-out", names[0]],
                   check=True, capture_output=True)
    subprocess.run([*new, "-subj", "/CN=localhost", "-addext", "subjectAltName=DNS:localhost", "-addext", "basicConstraints=CA:FALSE",
                    "-CA", names[0], "-CAkey", os.path.join(folder, "authority.key"), "-keyout", names[2], "-out", names[1]],
                   check=True, capture_output=True)
    return names


class Broker:
    """A broker, and what its clients need to know. The folder is to be removed by whoever made it."""

    def __init__(self, folder, has_tls=False):
        self.folder = folder
        self.port, self.tls_port, own, self.epmd_port = free_ports(4)
        self.host, self.name = "guest:guest@127.0.0.1:%d" % self.port, "cadf-%d@localhost" % self.port
        self.url = "rabbit://%s/" % self.host
        self.epmd = self.server = None
        settings = SETTINGS % self.port
        if has_tls:
            self.authority, certificate, key = make_certificates(folder)
            settings += TLS_SETTINGS % (self.tls_port, self.authority, certificate, key)
        for name, text in (("rabbitmq.conf", settings), ("plugins", "[]."), ("environment", "")):
            self.add(name, text)
        self.environment = dict(
            {name: value for name, value in os.environ.items() if name in ("PATH", "TMPDIR")}, HOME=folder, LC_ALL="C.UTF-8", detached="yes",
            ERL_EPMD_ADDRESS="127.0.0.1", ERL_EPMD_PORT=str(self.epmd_port), RABBITMQ_NODENAME=self.name,
            RABBITMQ_DIST_PORT=str(own), RABBITMQ_MNESIA_BASE=os.path.join(folder, "data"), RABBITMQ_LOG_BASE=os.path.join(folder, "log"),
            RABBITMQ_CONFIG_FILE=os.path.join(folder, "rabbitmq.conf"), RABBITMQ_CONF_ENV_FILE=os.path.join(folder, "environment"),
            RABBITMQ_ENABLED_PLUGINS_FILE=os.path.join(folder, "plugins"), RABBITMQ_PID_FILE=os.path.join(folder, "pid"),
            RABBITMQ_SERVER_ADDITIONAL_ERL_ARGS="-kernel inet_dist_use_interface {127,0,0,1} +S 1:1 +sbwt none",
            RABBITMQ_CTL_ERL_ARGS="-kernel inet_dist_use_interface {127,0,0,1}")

    def add(self, name, text):
        """Appends the text to the broker's file of that name."""
        with open(os.path.join(self.folder, name), "a", encoding="utf-8") as file:
            file.write(text)

    def process(self, *words):
        """Starts a program of the broker, which becomes that process itself."""
        with open(os.path.join(self.folder, "said"), "ab") as said:
            return subprocess.Popen(words, env=self.environment, cwd=self.folder, stdin=subprocess.DEVNULL, stdout=said, stderr=said,
                                    start_new_session=True)

    def start(self):
        """Starts the broker, with the data that it has, and waits until it answers."""
        self.launch()
        self.wait_until_it_answers()

    def launch(self):
        """Starts the broker, with the data that it has."""
        if self.epmd is None:
            self.epmd = self.process("epmd", "-address", "127.0.0.1", "-port", str(self.epmd_port))
        self.server = self.process(os.path.join(PROGRAMS, "rabbitmq-server"))

    def wait_until_it_answers(self):
        end = time.monotonic() + patience.seconds(SECONDS)
        while not self.answers():
            if self.server.poll() is not None or time.monotonic() > end:
                with open(os.path.join(self.folder, "said"), encoding="utf-8", errors="replace") as said:
                    raise RuntimeError("the broker doesn't start: %s" % said.read()[-2000:])
            time.sleep(0.1)

    def answers(self):
        try:
            self.connection().close()
            return True
        except (OSError, amqp.AMQPError):
            return False

    def connection(self):
        """A connection to the broker, opened."""
        made = amqp.Connection("127.0.0.1:%d" % self.port, "guest", "guest", login_method="PLAIN", connect_timeout=10, read_timeout=60)
        made.connect()
        return made

    def control(self, *words):
        """What rabbitmqctl says to the words. It takes a second or two."""
        done = subprocess.run([os.path.join(PROGRAMS, "rabbitmqctl"), "--quiet", *words], env=self.environment, cwd=self.folder,
                              stdin=subprocess.DEVNULL, capture_output=True, text=True, check=True)
        return done.stdout

    def kill(self):
        """Ends the broker at once."""
        self.server.kill()
        self.server.wait()

    def stop(self):
        """Ends the broker in order. The next start goes on with its data."""
        self.server.send_signal(signal.SIGTERM)
        self.server.wait(patience.seconds(SECONDS))

    def end(self):
        """Ends all that was started."""
        for child in (self.server, self.epmd):
            if child is not None and child.poll() is None:
                child.kill()
                child.wait()


class Cluster:
    """Brokers that are one cluster, each in a folder of its own."""

    def __init__(self, folder, count=3):
        self.nodes = []
        for number in range(count):
            os.mkdir(os.path.join(folder, str(number)))
            self.nodes.append(Broker(os.path.join(folder, str(number))))
        self.url = "rabbit://%s/" % ",".join(node.host for node in self.nodes)
        members = ["cluster_formation.classic_config.nodes.%d = %s\n" % (number, node.name) for number, node in enumerate(self.nodes, 1)]
        cookie = secrets.token_hex(16)
        for node in self.nodes:
            node.add("rabbitmq.conf", "cluster_formation.peer_discovery_backend = classic_config\n" + "".join(members))
            node.add(".erlang.cookie", cookie)
            os.chmod(os.path.join(node.folder, ".erlang.cookie"), 0o400)
            node.environment["ERL_EPMD_PORT"] = str(self.nodes[0].epmd_port)

    def start(self):
        """Starts all nodes, and waits until they are one cluster."""
        for node in self.nodes:
            node.launch()
            for other in self.nodes:
                other.epmd = node.epmd
        for node in self.nodes:
            node.wait_until_it_answers()
        self.nodes[0].control("await_online_nodes", str(len(self.nodes)))

    def end(self):
        """Ends all that was started."""
        for node in self.nodes:
            node.end()
