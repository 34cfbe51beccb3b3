#!/usr/bin/env python3
"""Events of a real Keystone, from its bootstrap and its API to a log. On demand: it takes 15 seconds.

    examples/real-keystone.py [CADF]

Drives Keystone (Debian: python3-keystone, python3-webtest) in this process, with a database of its own in a temporary folder:
its bootstrap, logins that succeed and fail, users, projects, roles and what falls with a domain. Each payload that Keystone hands
to its notifier is written as one line. cadf-from-openstack has to keep all of them, and the log may have no conflict.
Where Keystone isn't there the script says so, and ends with status 0.
"""
import contextlib
import json
import logging
import os
import shutil
import sqlite3
import subprocess
import sys
import tempfile
import warnings

TOP = os.path.dirname(os.path.dirname(os.path.abspath(__file__)))
TOOL = shutil.which("cadf-from-openstack", path=os.path.join(TOP, "tools") + os.pathsep + os.environ["PATH"])
SYSTEM = "/usr/bin/python3"  # where Debian's packages are
CONFIGURATION = """[DEFAULT]
notification_format = cadf
notification_opt_out =
use_stderr = false
log_file = {0}/keystone.log
[database]
connection = sqlite:///{0}/keystone.db
[fernet_tokens]
key_repository = {0}/tokens
[fernet_receipts]
key_repository = {0}/receipts
[credential]
key_repository = {0}/credentials
[cache]
enabled = false
[identity]
password_hash_rounds = 4
[oslo_messaging_notifications]
driver = noop
"""
LINES = []


class Keeper:
    """Keystone's notifier, which keeps the payloads as lines."""

    def info(self, _, event_type, payload):
        from oslo_serialization import jsonutils
        LINES.append(jsonutils.dumps({"event_type": event_type, "payload": payload}))


def configured(folder):
    """Keystone with its keys and its database in the folder. Returns its configuration's file."""
    name = os.path.join(folder, "keystone.conf")
    with open(name, "w", encoding="utf-8") as file:
        file.write(CONFIGURATION.format(folder))
    subprocess.run([sys.executable, "-c", "import sys; from keystone.cmd import manage; manage.main()",
                    "--config-file", name, "db_sync"], check=True, capture_output=True)
    with contextlib.closing(sqlite3.connect(os.path.join(folder, "keystone.db"))) as database:
        database.execute("PRAGMA journal_mode=WAL")  # Keystone reads on one connection while it writes on another
    os.environ["OS_KEYSTONE_CONFIG_FILES"] = name
    import keystone.conf
    import keystone.server
    from keystone import notifications
    from keystone.common import fernet_utils
    notifications._notifier = Keeper()
    keystone.server.configure(config_files=[name])
    for group in ("fernet_tokens", "fernet_receipts", "credential"):
        keys = fernet_utils.FernetUtils(getattr(keystone.conf.CONF, group).key_repository, 3, group)
        keys.create_key_directory()
        keys.initialize_key_repository()
    keystone.conf.CONF.set_override("notification_opt_out", [])
    return name


def bootstrapped():
    from keystone.cmd import bootstrap
    made = bootstrap.Bootstrapper()
    made.admin_username, made.admin_password, made.project_name, made.admin_role_name = "admin", "admin-pass", "admin", "admin"
    made.service_name, made.region_id = "keystone", "RegionOne"
    made.public_url = made.internal_url = made.admin_url = "http://x:5000/v3"
    made.immutable_roles = True
    made.bootstrap()


def application(name):
    """Keystone's API, to be called in this process."""
    import keystone.server
    from keystone import notifications
    from keystone.common import provider_api
    from keystone.server.flask import core
    from webtest import TestApp
    provider_api.ProviderAPIs._clear_registry_instances()
    notifications._CATALOG_HELPER_OBJ = None
    keystone.server.configure = lambda **_: None  # it is configured
    made = TestApp(core.initialize_application(name="public", config_files=[name]))
    notifications._notifier = Keeper()
    return made


class Client:
    """Calls of the API with a token."""

    def __init__(self, api):
        self.api, self.token = api, None

    def call(self, method, path, body=None):
        headers = {"User-Agent": "python-keystoneclient", **({"X-Auth-Token": self.token} if self.token else {})}
        return self.api._gen_request(method, "/v3/" + path, params="" if body is None else json.dumps(body), headers=headers,
                                     extra_environ={"REMOTE_ADDR": "192.0.2.9"}, expect_errors=True, content_type="application/json")

    def made(self, kind, **members):
        return self.call("POST", kind + "s", {kind: members}).json[kind]["id"]

    def login(self, user, password, **scope):
        identity = {"methods": ["password"], "password": {"user": {"name": user, "domain": {"name": "Default"}, "password": password}}}
        return self.call("POST", "auth/tokens", {"auth": dict({"identity": identity}, **scope)}).headers.get("X-Subject-Token")


def used(client):
    """Uses the API, so that Keystone has something to tell."""
    client.token = client.login("admin", "admin-pass", scope={"project": {"name": "admin", "domain": {"name": "Default"}}})
    domain = client.made("domain", name="dom ü", description="x\ny")
    project = client.made("project", name="prj", domain_id=domain)
    user = client.made("user", name="Jörg €", domain_id=domain, password="long-pass")
    group, role = client.made("group", name="grp", domain_id=domain), client.made("role", name="Prüfer")
    client.call("PUT", "groups/%s/users/%s" % (group, user))
    client.call("PUT", "projects/%s/users/%s/roles/%s" % (project, user, role))
    client.call("PUT", "OS-INHERIT/projects/%s/users/%s/roles/%s/inherited_to_projects" % (project, user, role))
    client.call("DELETE", "projects/%s/users/%s/roles/%s" % (project, user, role))
    for name in ("admin", "nobody"):
        client.login(name, "wrong")
    service = client.made("service", name="svc", type="compute")
    client.made("endpoint", service_id=service, interface="public", url="http://e")
    client.call("PATCH", "domains/" + domain, {"domain": {"enabled": False}})
    client.call("DELETE", "domains/" + domain)
    client.call("DELETE", "services/" + service)


def check(binary):
    """Makes a log of the lines, and compares."""
    made = subprocess.run([sys.executable, TOOL, "--log", "audit"], input="\n".join(LINES).encode(), capture_output=True)
    said = made.stderr.decode()
    if made.returncode or "kept %d, set aside 0, passed over 0 notifications" % len(LINES) not in said:
        sys.exit("real-keystone: %s" % said[-3000:])
    with tempfile.NamedTemporaryFile() as document:
        document.write(made.stdout)
        document.flush()
        counted = subprocess.run([binary, "check", document.name], check=True, capture_output=True).stdout
    if not counted.endswith(b" conflicts 0\n"):
        sys.exit("real-keystone: %s" % counted.decode())
    print("real-keystone: %d events; %s" % (len(LINES), said.strip().rpartition("; ")[2]))


def command():
    """The command that is tried. It has to be there, and so has the tool."""
    binary = os.path.abspath(sys.argv[1] if len(sys.argv) > 1 else os.path.join(TOP, "crates", "cadf", "out", "cadf"))
    if shutil.which(binary) is None:
        sys.exit("real-keystone: %s: no such program: name the command: examples/real-keystone.py CADF" % binary)
    if TOOL is None:
        sys.exit("real-keystone: cadf-from-openstack: no such program: put it on PATH")
    return binary


def main():
    warnings.simplefilter("ignore")
    binary = command()
    sys.argv = ["keystone-wsgi-public"]
    with tempfile.TemporaryDirectory() as folder:
        name = configured(folder)
        logging.disable(logging.CRITICAL)
        bootstrapped()
        api = application(name)
        sys.excepthook = sys.__excepthook__  # Keystone's own writes to its log
        used(Client(api))
    check(binary)


if __name__ == "__main__":
    try:
        import keystone  # noqa: F401
        import webtest  # noqa: F401
    except ImportError as missing:
        if sys.executable != SYSTEM and os.path.exists(SYSTEM) and "KEYSTONE_TRIED" not in os.environ:
            os.execve(SYSTEM, [SYSTEM] + sys.argv, dict(os.environ, KEYSTONE_TRIED="1"))
        print("real-keystone: skipped, since %s isn't there (Debian: python3-keystone, python3-webtest)" % missing.name)
        sys.exit(0)
    main()
