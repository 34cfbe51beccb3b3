#!/usr/bin/env python3
"""Measures what a site's index costs, and what is asked by it.

    bench/index.py [--days 60] [--events 2272] [--runs 3] [--beside] [BINARY]

A site of so many days, with so many events of OpenStack's shape a day, of which one in 200 has a second body, on its day or the
next. First `cadf show` of each window, and the index as the first question makes it, with its bytes. Then questions by the index
and by --no-index, the list of conflicts, and seals: the first, one by kept roots, and one after a day was taken. At last a take of
a further day where there is no index. The tools are run as the package has them, with what they share compiled. With --beside
the same questions are put to jq over the log's lines, compressed by gzip, to ripgrep over them as they are, and to SQLite.
"""
import contextlib
import datetime
import json
import os
import random
import shlex
import sqlite3
import sys
import tempfile

from measure import Trial, asked, best_of, packaged, run_apart

FIRST = datetime.datetime(2024, 1, 1)
USERS, ACTIONS = 400, ("read", "read/list", "create", "update", "delete", "authenticate")


def identifier(name):
    return "%032x" % random.Random(name).getrandbits(128)


def event(chance, day, number):
    user, own = chance.randrange(USERS), "%d.%d" % (day, number)
    at = (FIRST + datetime.timedelta(days=day, microseconds=chance.randrange(86400 * 10 ** 6))).isoformat() + "Z"
    return {"id": identifier("e" + own), "eventType": "activity", "eventTime": at, "action": chance.choice(ACTIONS), "outcome": chance.choice(("success", "success", "failure")),
            "initiator": {"id": identifier("u%d" % user), "name": "user-%d" % user, "typeURI": "service/security/account/user", "project_id": identifier("p%d" % (user % 60)),
                          "host": {"address": "10.0.%d.%d" % (chance.randrange(9), chance.randrange(250)), "agent": "python-novaclient"}},
            "target": {"id": identifier("t" + own), "typeURI": "service/compute/servers", "name": "server-%d" % chance.randrange(10 ** 4),
                       "addresses": [{"url": "http://%s.example:8774/v2.1" % name, "name": name} for name in ("admin", "private", "public")]},
            "observer": {"id": identifier("o%d" % (number % 3)), "name": "nova", "typeURI": "service/compute"}, "requestPath": "/v2.1/servers/" + identifier("t" + own),
            "reason": {"reasonCode": "200", "reasonType": "HTTP"}, "tags": ["correlation_id?value=" + identifier("c" + own)],
            "reporterchain": [{"role": "modifier", "reporterTime": at, "reporterId": identifier("o%d" % (number % 3))}]}


class Site(Trial):
    """A site that is a folder, and calls of the tools on it."""

    def __init__(self, options, folder):
        super().__init__(options, folder)
        self.site, self.environment, self.tools = self.path("site/"), dict(os.environ, CADF=self.binary), packaged(self.path("package"))

    def take(self, days, events):
        """Takes so many events of each of some days. Returns what that took."""
        chance, names = random.Random(str(days)), []
        for day in days:
            own = [event(chance, day, number) for number in range(events)]
            others = [dict(each, outcome="unknown", **({"eventTime": (FIRST + datetime.timedelta(days=day + 1)).isoformat() + "Z"} if chance.random() < 0.3 else {}))
                      for each in own[::200]]
            for each in own, others:
                names.append(self.path())
                with open(names[-1], "w", encoding="utf-8") as file:
                    json.dump({"id": "audit", "events": each}, file)
        found = self.call("cadf-take", "--windows=all", "--by=day", self.site, *names)
        for name in names:
            os.unlink(name)
        return found

    def call(self, name, *words):
        return run_apart([os.path.join(self.tools, name), *words], statuses=(0, 5), environment=self.environment)

    def tell(self, said, found, beside=""):
        print("| %s | %.2f s | %.2f s | %.0f MB | %s |" % (said, found.processors, found.wall, found.memory, beside), flush=True)

    def tell_best(self, said, name, *words, with_other=True):
        found = best_of([self.call(name, *words, self.site) for _ in range(self.runs)])
        other = self.call(name, "--no-index", *words, self.site) if with_other else None
        self.tell(said, found, "%.2f s" % other.processors if other else "")

    def tell_beside(self, said, **calls):
        """Tells what a question takes of others, by a call of the shell each."""
        for name, call in calls.items():
            self.tell("%s, by %s" % (said, name), best_of([run_apart(["sh", "-c", call]) for _ in range(self.runs)]))


def make_others(site):
    """Makes the log's lines, as they are and compressed, and a table of them with indexes. Returns the paths, for a shell."""
    lines, table = site.path(), site.path()
    run_apart([os.path.join(site.tools, "cadf-events"), "--contradicted=mark", site.site], lines, statuses=(0, 5), environment=site.environment)
    run_apart(["gzip", "-k", lines])
    with contextlib.closing(sqlite3.connect(table)) as opened, open(lines, "rb") as file:
        opened.execute("CREATE TABLE events (id TEXT, at TEXT, action TEXT, initiator TEXT, body TEXT)")
        events = ((line, json.loads(line)) for line in file)
        events = ((line, each.get("event", each)) for line, each in events)
        opened.executemany("INSERT INTO events VALUES (?, ?, ?, ?, ?)",
                           ((each["id"], each["eventTime"], each["action"], each["initiator"]["id"], line.decode()) for line, each in events))
        for name, columns in ("by_id", "id"), ("by_time", "at"), ("by_action", "action"), ("by_initiator", "initiator, at"):
            opened.execute("CREATE INDEX %s ON events (%s)" % (name, columns))
        opened.commit()
    return shlex.quote(lines), shlex.quote(table)


def ask_others(site, day, next_day, user, month, next_month):
    """Puts the questions to jq, SQLite and ripgrep."""
    lines, table = make_others(site)
    event, one = "(.event // .)", identifier("e1.1")
    jq = lambda words: "zcat %s.gz | jq %s" % (lines, shlex.quote("%s | %s" % (event, words)))
    sql = lambda words: "sqlite3 %s %s" % (table, shlex.quote("SELECT %s" % words))
    rg = lambda words: "rg -F %s %s" % (shlex.quote(words), lines)
    between = '(.eventTime >= "%s" and .eventTime < "%s")'
    site.tell_beside("a day", jq=jq("select%s" % between % (day, next_day)), sqlite=sql("body FROM events WHERE at >= '%s' AND at < '%s'" % (day, next_day)),
                     ripgrep=rg('"eventTime":"%s' % day))
    site.tell_beside("a user's month", jq=jq('select(.initiator.id == "%s" and %s)' % (user, between % (month, next_month))),
                     sqlite=sql("body FROM events WHERE initiator = '%s' AND at >= '%s' AND at < '%s'" % (user, month, next_month)), ripgrep=rg(user))
    site.tell_beside("an identifier", jq=jq('select(.id == "%s")' % one), sqlite=sql("body FROM events WHERE id = '%s'" % one), ripgrep=rg(one))
    site.tell_beside("`--count-by action`", jq=jq(".action") + " | sort | uniq -c", sqlite=sql("action, count(*) FROM events GROUP BY action"))


def main():
    options = asked(__doc__, days=60, events=2272, runs=3, beside=False)
    with tempfile.TemporaryDirectory() as folder:
        site = Site(options, folder)
        site.take(range(options.days), options.events)
        site.call("cadf-take", "--settle", site.site)
        site.call("cadf-take", "--settle", site.site)
        names = [os.path.join(site.site, name) for name in sorted(os.listdir(site.site)) if name.endswith(".cadf")]
        size = sum(map(os.path.getsize, names))
        print("%d MB in %d windows\n\n| Call | Processors | Clock | Memory | Without an index |\n|---|---|---|---|---|" % (size / 10 ** 6, len(names)))
        shown = [run_apart([options.binary, "show", name]) for name in names]
        site.tell("`cadf show` of each window", best_of(shown)._replace(**{name: sum(getattr(each, name) for each in shown) for name in ("processors", "wall")}))
        day = (FIRST + datetime.timedelta(days=options.days // 2)).date()
        of_day, user, of_site = ["--since=%s" % day, "--until=%s" % (day + datetime.timedelta(days=1))], identifier("u7"), {"with_other": False}
        site.tell("the first question, which makes the index", site.call("cadf-events", *of_day, site.site))
        print("| its bytes | %.3f of the site | | | |" % (os.path.getsize(os.path.join(site.site, ".index")) / size))
        site.tell_best("a day", "cadf-events", *of_day)
        month, next_month = ("2024-03", "2024-04") if options.days > 90 else ("2024-01", "2024-02")
        site.tell_best("a user's month", "cadf-events", "--initiator", user, "--since", month, "--until", next_month)
        site.tell_best("an identifier", "cadf-events", "--id", identifier("e1.1"))
        site.tell_best("`--count-by action`", "cadf-events", "--count-by", "action")
        if options.beside:
            ask_others(site, day, day + datetime.timedelta(days=1), user, month, next_month)
        site.tell_best("the list of conflicts", "cadf-conflicts", **of_site)
        site.tell("the first seal", site.call("cadf-seal", site.site))
        site.tell_best("a seal by kept roots", "cadf-seal", **of_site)
        taken = site.take([options.days], options.events)
        site.tell("a seal after a day was taken", site.call("cadf-seal", site.site))
        os.unlink(os.path.join(site.site, ".index"))
        site.tell("a take of a day", taken, "%.2f s" % site.take([options.days + 1], options.events).processors)


if __name__ == "__main__":
    sys.exit(main())
