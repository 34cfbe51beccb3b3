#!/bin/sh
# A week of three sites: from what OpenStack's services wrote (examples/real) to three equal logs, by the tools alone.
#
#     examples/week.sh [--by UNIT] [CADF]
#
# With --by each site is a folder of windows, by month, day or hour; without it, a file.
#
# Each day each site gets a part of the raw events, some of them two sites. It makes a document of them, takes it, and asks
# another site for what it lacks, while that site asks it. West is cut off for three days; a part is damaged on its way; two
# sites tell one event otherwise, and a person rules. At the end all sites hold the same bytes, which are those of one join of all.
set -eu
unit='' site=site.cadf
if [ "${1:-}" = --by ]; then unit=$2 site=site && shift 2; fi
top=$(cd "$(dirname "$0")/.." && pwd)
CADF=$(realpath "${1:-$top/crates/cadf/out/cadf}")
PATH=$top/tools:$PATH
export CADF PATH
work=$(mktemp -d)
trap 'rm -r "$work"' EXIT
cd "$work"
sites="north south west"

exec 3>&2

fail() {
    echo "week: $*" >&3
    exit 1
}

# Ends as the command ends, but for the status that is expected.
expect() {
    wanted=$1 status=0
    shift
    "$@" || status=$?
    [ "$status" = "$wanted" ] || fail "$* ended with $status"
}

# Takes files into a site.
take() {
    name=$1/$site
    shift
    cadf-take ${unit:+--by "$unit"} "$name" "$@"
}

# The file of all that a site holds: its own, or one that is made of what its folder names. If a take comes meanwhile, again.
facts() {
    if [ -z "$unit" ]; then echo "$1/$site" && return; fi
    for try in 1 2 3 4 5; do
        sed -n "s|^F \(.*\) \(.*\)|$1/$site/\1.\2.cadf|p" "$1/$site/site" | xargs "$CADF" join >"$2" 2>"$2.said" && echo "$2" && return
    done
    fail "$(cat "$2.said")"
}

# What the services of a site wrote on a day: every 21st line belongs to one site and one day, and every 63rd to two sites.
spool() {
    for number in 0 1 2; do
        mine=$(echo $sites | cut -d ' ' -f $((number + 1)))
        mkdir -p "$mine/spool"
        awk -v mine=$((number * 7 + $1)) -v other=$(((number + 1) % 3 * 7 + $1)) \
            'NR % 21 == mine || NR % 63 == other' "$top"/examples/real/*.jsonl >"$mine/spool/day-$1.jsonl"
    done
}

# A site makes a document of the day's events, and takes it.
evening() {
    status=0
    cadf-from-openstack --log audit --set-aside "$1/set-aside.jsonl" "$1/spool/day-$2.jsonl" >"$1/day-$2.json" \
        2>>"$1/counts" || status=$?
    [ $status -le 1 ] || fail "$1, day $2: $status"
    take "$1" "$1/day-$2.json"
}

# A site asks another for what it lacks, and takes the answer.
ask() {
    "$CADF" inventory "$(facts "$1" "$1/own.cadf")" >"$1/inventory"
    "$CADF" missing-by "$(facts "$2" "$1/other.cadf")" "$1/inventory" >"$1/answer.cadf"
    take "$1" "$1/answer.cadf"
}

for day in 0 1 2 3 4 5 6; do
    spool $day
    for each in $sites; do
        if [ "$each" = west ] && [ $day -ge 2 ] && [ $day -le 4 ]; then continue; fi
        evening $each $day
    done
    ask north south & # both at once
    ask south north
    wait $!
    if [ $day = 5 ]; then # west is back: three days of its own at once, and its neighbours' answers
        for late in 2 3 4; do evening west $late; done
        ask west south
    fi
done

# A part is damaged on its way to north. The file is named, and north takes none of what came with it.
"$CADF" inventory "$(facts north north/own.cadf)" >north/inventory
"$CADF" missing-by "$(facts west west/own.cadf)" north/inventory >part.cadf
sed '5s/2026-/2025-/' part.cadf >damaged.cadf
cp -r "north/$site" before
cadf-agree "north/$site" before
expect 1 take north damaged.cadf 2>said
cadf-agree "north/$site" before
expect 1 cadf-which --log audit "north/$site" part.cadf damaged.cadf south/day-0.json 2>named
cat named
take north part.cadf

# South's relay told one of west's events with another outcome. All sites hear of it, and then one person rules.
sed -n '2{s/"outcome":"[a-z]*"/"outcome":"unknown"/; s/^/{"id":"audit","events":[/; s/,$/]}/; p;}' west/day-6.json >told.json
take south told.json
for pair in "north south" "west north" "south west" "north west"; do ask $pair; done
expect 5 cadf-conflicts "north/$site" >open 2>counted
cat counted
cadf-conflicts --values "north/$site" west/day-6.json 2>/dev/null >values || :
grep -B 3 '^#   in west' values | grep '^E' >choices
cadf-conflicts --rule choices "north/$site" >rulings.cadf
for each in $sites; do take $each rulings.cadf; done
cadf-conflicts "south/$site" >settled

# Of what was set aside, a person mends what can be mended, and west takes it. Nothing that was read is missing.
cat */set-aside.jsonl >aside.jsonl
sed 's/"reporterTime":"now"/"reporterTime":"2026-11-25T07:01:55Z"/' aside.jsonl >mended.jsonl
expect 1 cadf-from-openstack --log audit --set-aside again.jsonl mended.jsonl >mended.json 2>counted
cat counted
read=$(cat */spool/*.jsonl | wc -l)
kept=$(sed 's/.*kept \([0-9]*\), set aside \([0-9]*\),.*/\1 \2/' */counts | awk '{ kept += $1; aside += $2 } END { print kept + aside }')
[ "$read" = "$kept" ] || fail "$read lines read, $kept kept or set aside"
take west mended.json
expect 5 cadf-agree "north/$site" "south/$site" "west/$site" 2>differ
cat differ
for pair in "north west" "south north" "west south"; do ask $pair; done

cadf-agree "north/$site" "south/$site" "west/$site"
"$CADF" inventory "$(facts west west/own.cadf)" >west/inventory
cadf-agree west/inventory "south/$site"
"$CADF" join */day-*.json told.json mended.json rulings.cadf >all.cadf
cmp all.cadf "$(facts north north/own.cadf)"
"$CADF" check all.cadf

# Settled folders of the same facts have the same files. The second settling removes what the first one joined.
if [ -n "$unit" ]; then
    for each in $sites; do cadf-take --settle "$each/$site" && cadf-take --settle "$each/$site"; done
    diff -r -x .index "north/$site" "south/$site" && diff -r -x .index "north/$site" "west/$site"
fi
