#!/bin/sh
# Two sites keep one log. They are told different things, send each other what the other lacks, and end
# with the same bytes: by each other's whole files first, then by the digests of what a site holds.
#
#     examples/two-sites.sh [CADF]
set -eu
cadf=$(realpath "${1:-$(dirname "$0")/../crates/cadf/out/cadf}")
work=$(mktemp -d)
trap 'rm -r "$work"' EXIT
cd "$work"

# A login and a read. The relay on the way to the south adds its step to the login's chain, and drops its
# tag; later south hears that the read failed.
cat >north.json <<'END'
{"id": "federation", "events": [
  {"id": "e1", "eventType": "activity", "eventTime": "2024-03-01T12:00:00+0000", "action": "authenticate",
   "outcome": "success", "initiatorId": "u1", "targetId": "t1", "observerId": "s1",
   "reporterchain": [{"reporterId": "s1", "role": "observer"}], "tags": ["login"]},
  {"id": "e2", "eventType": "activity", "eventTime": "2024-03-01T12:05:00+0000", "action": "read",
   "outcome": "success", "initiatorId": "u1", "targetId": "t2", "observerId": "s1"}]}
END
cat >south.json <<'END'
{"id": "federation", "events": [
  {"id": "e1", "eventType": "activity", "eventTime": "2024-03-01T12:00:00.000Z", "action": "authenticate",
   "outcome": "success", "initiatorId": "u1", "targetId": "t1", "observerId": "s1",
   "reporterchain": [{"reporterId": "s1", "role": "observer"}, {"reporterId": "s2", "role": "relay"}]},
  {"id": "e2", "eventType": "activity", "eventTime": "2024-03-01T12:05:00Z", "action": "read",
   "outcome": "success", "initiatorId": "u1", "targetId": "t2", "observerId": "s1"}]}
END
cat >late.json <<'END'
{"id": "federation", "events": [
  {"id": "e2", "eventType": "activity", "eventTime": "2024-03-01T12:05:00+0000", "action": "read",
   "outcome": "failure", "initiatorId": "u1", "targetId": "t2", "observerId": "s2"}]}
END

"$cadf" join north.json >north.cadf
"$cadf" join south.json >south.cadf

# Each sends what the other lacks.
"$cadf" missing north.cadf south.cadf >southward.cadf
"$cadf" missing south.cadf north.cadf >northward.cadf

# South has moved on before the part arrives: the part serves all the same.
"$cadf" join south.cadf late.json >south-later.cadf
"$cadf" join southward.cadf south-later.cadf >south-now.cadf

# North takes its part, and then what it lacks of south by now, the part twice.
"$cadf" join north.cadf northward.cadf >north-later.cadf
"$cadf" missing south-now.cadf north-later.cadf >rest.cadf
"$cadf" join north-later.cadf rest.cadf rest.cadf >north-now.cadf

cmp north-now.cadf south-now.cadf
"$cadf" join late.json south.json north.json | cmp - north-now.cadf
"$cadf" check north-now.cadf
"$cadf" show --conflicts north-now.cadf

# South need not have north's file at hand: north sends its inventory, and the same part comes back.
"$cadf" inventory north-later.cadf >north-later.inventory
"$cadf" missing-by south-now.cadf north-later.inventory | cmp - rest.cadf
wc -c north-later.cadf north-later.inventory rest.cadf | sed '$d'

# An inventory grows stale and serves all the same; nothing is sent to who lacks nothing.
"$cadf" inventory north.cadf >north.inventory
"$cadf" missing-by south-now.cadf north.inventory >more.cadf
"$cadf" join north-later.cadf more.cadf more.cadf | cmp - south-now.cadf
"$cadf" inventory north-now.cadf >north-now.inventory
"$cadf" missing-by south-now.cadf north-now.inventory >nothing.cadf
"$cadf" check nothing.cadf
