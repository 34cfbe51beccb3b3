"""Has the tool that a test starts write down the most that it held at once: memory, descriptors, children, bytes of files in its folder
for temporary ones. On PYTHONPATH, with WATCHED the tool's name, and WATCHED_INTO the file that is written.
"""
import glob
import os
import sys

PEAKS, LOOKED_AT = dict.fromkeys(("memory", "descriptors", "children", "temporary"), 0), ("open", "subprocess.Popen", "os.rename", "os.remove", "os.rmdir")
TOOL = os.environ.get("WATCHED")


def look(event="open", _=None, busy=[]):  # pylint: disable=dangerous-default-value
    """Looks at what the process holds, before each call that may change it."""
    if event not in LOOKED_AT or busy or not is_tool():
        return
    busy.append(event)
    with open("/proc/self/status", encoding="ascii") as file:
        now = {"memory": next(int(line.split()[1]) for line in file if line.startswith("VmHWM"))}
    now["descriptors"] = len(os.listdir("/proc/self/fd"))
    now["children"] = sum(len(read(name).split()) for name in glob.glob("/proc/self/task/*/children"))
    now["temporary"] = sum(size(os.path.join(place, name)) for place, _, names in os.walk(os.environ["TMPDIR"]) for name in names) // 1024
    if any(now[name] > PEAKS[name] for name in PEAKS):
        PEAKS.update((name, max(PEAKS[name], value)) for name, value in now.items())
        with open(os.environ["WATCHED_INTO"], "w", encoding="ascii") as file:
            file.write(" ".join("%d" % value for value in PEAKS.values()))
    busy.pop()


def is_tool():
    return os.path.basename(sys.argv[0] if getattr(sys, "argv", None) else "") == TOOL


def read(name):
    try:
        with open(name, encoding="ascii") as file:
            return file.read()
    except OSError:
        return ""  # the thread has ended


def size(name):
    try:
        return os.stat(name).st_size
    except OSError:
        return 0


if TOOL:
    sys.addaudithook(look)
