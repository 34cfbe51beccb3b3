"""Logs to try the page of cadf-report on: hostile texts, much of one thing, and plain events."""
import functools
import random

ALERT = "</script><script>window.pwned=1</script>"
NAMES = [ALERT, "<img src=x onerror=window.pwned=1>", "<!--<script>", "--><svg onload=window.pwned=1>", "</title></style>",
         "user\u202egpj.exe\u202c", "\u2066hidden\u2069", "line\u2028para\u2029", "c1\u0085\u009b31m", "\ufeffbom\u200b\u00ad",
         "__proto__", "constructor", "toString", "\\u003cscript>", "\\\\u003c\\u003c", "javascript:window.pwned=1",
         "' onmouseover=window.pwned=1 x='", "$(touch pwned)`touch pwned`", "it's \"quoted\" %s \\n", "-dash", "=equal",
         "\u05e9\u05dc\u05d5\u05dd", "e" + "\u0301" * 500, "\U0001f469\u200d\U0001f680", "x" * 1024, " \u3000 ", "@@script@@", "*",
         "\U000e0041\U000e0042tags", "zero\u200bwidth", "a\u00a0b"]
EVENT = {"eventType": "activity", "eventTime": "2024-03-01T12:00:00Z", "action": "read", "outcome": "success",
         "initiatorId": "u1", "targetId": "t1", "observerId": "s1"}
INT_LIMITS = [18446744073709551615, -9223372036854775808]


def attempts(address):
    """Attempts to run a script, to load something or to send something away, by what each makes of the page: a text and a selector."""
    return {
        "script": ("<script>window.pwned=1</script>", "script"), "script by address": ("<script src=%s/script></script>" % address, "script[src]"),
        "module": ("<script type=module>import '%s/module'</script>" % address, "script[type=module]"),
        "handler": ("<img id=odd src=%s/image onerror=window.pwned=1>" % address, "#odd"), "drawing": ("<svg onload=window.pwned=1><image href=%s/drawing /></svg>" % address, "svg[onload]"),
        "focus": ("<input autofocus onfocus=window.pwned=1>", "input[onfocus]"), "details": ("<details open ontoggle=window.pwned=1>x</details>", "details[ontoggle]"),
        "frame": ("<iframe src=%s/frame></iframe>" % address, "iframe[src^=http]"), "frame's script": ("<iframe src=javascript:parent.pwned=1></iframe>", "iframe[src^=javascript]"),
        "frame's text": ("<iframe srcdoc='<script>parent.pwned=1</script>'></iframe>", "iframe[srcdoc]"),
        "style": ("<style>body{background:url(%s/style)}header{display:none}</style>" % address, "style"), "import": ("<style>@import '%s/import';</style>" % address, "style"),
        "style of an element": ("<b id=styled style='background:url(%s/styled);position:fixed;inset:0'>x</b>" % address, "#styled"),
        "sheet": ("<link rel=stylesheet href=%s/sheet>" % address, "link[rel=stylesheet]"),
        "object": ("<object data=%s/object></object>" % address, "object"), "embed": ("<embed src=%s/embed>" % address, "embed"),
        "film": ("<video src=%s/film></video>" % address, "video"), "sound": ("<audio src=%s/sound autoplay></audio>" % address, "audio"),
        "base": ("<base href=%s/base/><img src=relative>" % address, "base"), "form": ("<form action=%s/form><button id=sender>x</button></form>" % address, "#sender"),
        "link": ("<a id=linked href=javascript:window.pwned=1>x</a>", "#linked"),
        "refresh": ("<meta http-equiv=refresh content='0;url=%s/refresh'>" % address, "meta[http-equiv=refresh]")}


def hostile_event(identifier, name, **members):
    """An event in which a name stands wherever one may stand."""
    party = {"id": name, "name": name, "typeURI": name, name: {"__proto__": name}}
    made = {"id": identifier, "eventType": "activity", "eventTime": "2024-03-01T12:00:00.123456789+01:00", "action": name,
            "outcome": "failure/" + name, "initiator": party, "target": party, "observerId": name, name: name,
            "tags": [name], "attachments": [{"content": name, "name": name, "typeURI": name}],
            "reporterchain": [{"role": "relay", "reporter": party}, {"role": "observer", "reporterId": name}],
            "big": [*INT_LIMITS, True, False, 0, 1, None, {}, [], [[1], {"a": [True]}]]}
    made.update(members)
    return made


def hostile():
    """A log document of hostile events, some with several bodies."""
    events = [hostile_event(name, name) for name in NAMES]
    events += [hostile_event(name, name, outcome="success", **{name + "x": name}) for name in NAMES[:20]]
    events += [hostile_event("many values", "n", severity=str(at)) for at in range(40)]
    events += [hostile_event("first", "old", eventTime="0001-01-01T00:00:00+14:00"),
               hostile_event("last", "late", eventTime="9998-12-31T23:59:59-14:00")]
    steps = [{"role": "relay", "reporterId": "s%d" % at} for at in range(256)]
    ends = [steps[:at] + [{"role": "observer", "reporterId": NAMES[at % len(NAMES)]}] for at in range(200)]
    events += [hostile_event("long chain", "chain", reporterchains=[steps] + ends)]
    deep = functools.reduce(lambda inner, _: [inner], range(90), ALERT)
    events += [hostile_event("deep", "deep", deep=deep, eventTime="2024-03-02T00:00:00Z")]
    entities = [{"id": name, "at": at} for name in NAMES[:6] for at in range(2)] + [{"id": "one" + ALERT, "x": ALERT}]
    metrics = [{"metricId": each["id"], "unit": each.get("at", ALERT)} for each in entities]
    log = {"id": ALERT + NAMES[5], "events": events, "resources": entities, "geolocations": entities, "metrics": metrics}
    return {**log, ALERT: ALERT, "__proto__": {"a": ALERT}, "number": INT_LIMITS[0], "zero": False}


def plain(count):
    """A log document of plain events for the filters."""
    chance = random.Random(5)
    return {"id": "plain", "events": [
        dict(EVENT, id="e%d" % at, eventTime="2024-03-%02dT%02d:00:00Z" % (chance.randrange(1, 29), chance.randrange(24)),
             action=chance.choice(["read", "create", "delete"]), outcome=chance.choice(["success", "failure", "pending", "unknown"]),
             initiatorId="u%d" % chance.randrange(9), targetId="t%d" % chance.randrange(9), observerId="s", tags=["k%d" % (at % 7)],
             **({"onlyhere": 1} if at == 3 else {})) for at in range(count)]}


def heavy():
    """A log document with much of everything in few places."""
    base = dict(EVENT, initiatorId="u", targetId="t", observerId="o")
    chains = [[{"role": "relay", "reporterId": "r%d" % ((at * 7 + step * step) % 9973)} for step in range(20)] for at in range(500)]
    events = [{**base, "id": "tags", "tags": ["t%d" % at for at in range(5000)], "attachments": [{"content": at} for at in range(5000)]},
              {**base, "id": "chains", "reporterchains": chains}, {**base, "id": "text", "note": "<b>" * 100000},
              {**base, "id": "wide", **{"m%d" % at: at for at in range(9000)}}]
    events += [{**base, "id": "many", "name": "n%d" % at} for at in range(500)]
    events += [{**base, "id": "long", "note": "x" * 100000 + end + "x" * 100000} for end in "ab"]
    events += [{**base, "id": "s%d" % at, "initiatorId": "u%d" % at, "targetId": "t%d" % at, "action": "act%d" % at, "only%d" % at: at}
               for at in range(2000)]
    return {"id": "heavy", "events": events}


def told_otherwise(count):
    """Log documents of two sites that tell the outcome of events otherwise, by relays of their own, and agree on the others."""
    def site(relay, outcome):
        chain = [{"role": "observer", "reporterId": "s1"}, {"role": "relay", "reporterId": relay}]
        conflicted = [dict(EVENT, id="c%02d" % at, outcome=outcome, reporterchain=chain) for at in range(count)]
        return {"id": "g", "events": conflicted + [dict(EVENT, id="both")], "resources": [{"id": "r", "v": relay}]}
    return site("north", "success"), site("south", "failure")
