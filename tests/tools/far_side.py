"""What the tests have cadf-sync reach a host by: `--rsh "python3 far_side.py MODE WORD"`.

    count FILE   runs the far cadf-sync, and writes the bytes both ways and the turns of the line to FILE
    cut N        the same, but the connection ends after N bytes of both ways together
    flip N       the same, but of both ways together the byte at place N has another lowest bit
    says FILE    no cadf-sync: writes FILE's bytes, reads all that comes, and waits
    endless FILE writes FILE's bytes, and then its last line again and again
    streams FILE the same, but slowly: no message of some MB comes to its end
    drips FILE   writes FILE's bytes one by one, with pauses
    mute FILE    writes FILE's bytes, and reads nothing

The far cadf-sync is the one in the folder that the variable TOOLS names.
"""
import os
import select
import shlex
import subprocess
import sys
import time

PAUSE = 0.4  # seconds between two bytes that drip


def write(data):
    while data:
        data = data[os.write(1, data):]


def flipped(data, place):
    """The bytes, of which the one at that place, if they have it, has another lowest bit."""
    return data[:place] + bytes([data[place] ^ 1]) + data[place + 1:] if 0 <= place < len(data) else data


def relayed(words, most, flip=-1):
    """Runs the far program, and passes on what both ends write, at most so many bytes. Returns bytes to it, from it, turns."""
    words[0] = os.path.join(os.environ["TOOLS"], words[0])
    child = subprocess.Popen([sys.executable, *words], stdin=subprocess.PIPE, stdout=subprocess.PIPE)
    ways = {0: child.stdin.fileno(), child.stdout.fileno(): 1}
    counts, last, turns = {each: 0 for each in ways}, None, 0
    while ways:
        ready, _, _ = select.select(list(ways), [], [])
        for each in ready:
            data = os.read(each, 2 ** 16)[:most - sum(counts.values())]
            if not data:
                os.close(ways.pop(each))
                continue
            data = flipped(data, flip - sum(counts.values()))
            turns += each == 0 and last != 0
            counts[each], last = counts[each] + len(data), each
            try:
                os.write(ways[each], data)
            except BrokenPipeError:
                del ways[each]
            if sum(counts.values()) == most:
                os._exit(0)  # both ends see that the connection has gone
    return child.wait(), counts[0], sum(counts.values()) - counts[0], turns


def main(mode, word, *rest):
    if mode in ("count", "cut", "flip"):
        status, *counts = relayed(shlex.split(rest[-1]), int(word) if mode == "cut" else 2 ** 62, int(word) if mode == "flip" else -1)
        if mode == "count":
            with open(word, "w", encoding="ascii") as file:
                file.write(" ".join(map(str, counts)))
        return status
    with open(word, "rb") as file:
        data = file.read()
    if mode == "drips":
        for place in range(len(data)):
            write(data[place:place + 1])
            time.sleep(PAUSE)
    write(data)
    while mode in ("endless", "streams"):
        write(data.splitlines(True)[-1] * 100)
        time.sleep(0.001 if mode == "streams" else 0)
    while mode != "mute" and os.read(0, 2 ** 16):
        pass
    time.sleep(30 if mode == "mute" else 0)
    return 0


if __name__ == "__main__":
    try:
        sys.exit(main(*[each for each in sys.argv[1:] if each != "--"]))
    except BrokenPipeError:
        os._exit(1)
