"""Types command lines into bash and zsh, in a pseudo-terminal, and has them completed.

    python3 -m tests.package.completions [--system | PREFIX]

PREFIX is a folder under which install/install has put the completions; without it they are taken from share/. With
--system the shells find them by themselves, as they find those of packages. A shell that is not there is named.
"""
import os
import pty
import shutil
import signal
import sys
import tempfile
import threading
import time

from tests import TOP
from tests.command.commands import COMMANDS
from tests.tables.completions import WORDS, options

SECONDS = 60  # for a machine that does other work too
COMPLETE, INSERT_ALL = "\t", "\x18*"

FILES = ["a.cadf", "b.json", "c d.cadf", "n\nz.cadf", "-x.cadf", "$(touch ran).cadf", "`touch ran`\".cadf"]
# What is typed, and the words that the command gets: after a tab, which completes what can be only one thing.
COMPLETED = [
    ("inv", ["inventory"]), ("missing-", ["missing-by"]), ("he", ["help"]), ("--he", ["--help"]), ("--v", ["--version"]),
    ("show a", ["show", "a.cadf"]), ("show c", ["show", "c d.cadf"]), ("show --c", ["show", "--conflicts"]),
    ("show --conflicts b", ["show", "--conflicts", "b.json"]), ("check b", ["check", "b.json"]),
    ("inventory a", ["inventory", "a.cadf"]), ("seal a", ["seal", "a.cadf"]), ("join a.cadf b", ["join", "a.cadf", "b.json"]),
    ("join --l", ["join", "--log"]), ("join --log g a", ["join", "--log", "g", "a.cadf"]),
    ("join --log a", ["join", "--log", "a"]), ("missing a.cadf b", ["missing", "a.cadf", "b.json"]),
    ("missing-by a", ["missing-by", "a.cadf"]), ("missing-by a.cadf b", ["missing-by", "a.cadf", "b.json"]),
    ("sk", ["sketch"]), ("sketch a", ["sketch", "a.cadf"]), ("sketch --c", ["sketch", "--cells"]), ("sketch --s", ["sketch", "--salt"]),
    ("sketch --cells a", ["sketch", "--cells", "a"]), ("sketch --cells 3 --salt 1 b", ["sketch", "--cells", "3", "--salt", "1", "b.json"]),
    ("sp", ["split"]), ("split --b", ["split", "--by"]), ("split --by m", ["split", "--by", "month"]),
    ("split --by day a", ["split", "--by", "day", "a.cadf"]), ("split --by hour --log a", ["split", "--by", "hour", "--log", "a"]),
    ("missing-by-s", ["missing-by-sketch"]), ("missing-by-sketch a.cadf b", ["missing-by-sketch", "a.cadf", "b.json"]),
    ("pr", ["prove"]), ("prove a.cadf b", ["prove", "a.cadf", "b.json"]), ("prove a.cadf b.json a", ["prove", "a.cadf", "b.json", "a.cadf"]),
    ("ve", ["verify"]), ("verify --a", ["verify", "--absent"]), ("prove --k", ["prove", "--keys"]), ("verify a.cadf b.json a", ["verify", "a.cadf", "b.json", "a.cadf"]),
    ("growth a", ["growth", "a.cadf"]), ("gro", ["growth"]), ("gre", ["grew"]), ("grew --e", ["grew", "--erased"]),
    ("grew --erased a", ["grew", "--erased", "a.cadf"]), ("grew a.cadf b", ["grew", "a.cadf", "b.json"]), ("sealed a", ["sealed", "a.cadf"]),
    ("om", ["omit"]), ("omit a.cadf b", ["omit", "a.cadf", "b.json"]), ("rule E a", ["rule", "E", "a"]), ("rule E e1 a", ["rule", "E", "e1", "a"]),
    ("rule E e1 1 a", ["rule", "E", "e1", "1", "a.cadf"]), ("rehearse a", ["rehearse", "a"]),
    ("rehearse g a", ["rehearse", "g", "a"]), ("rehearse g 2 a", ["rehearse", "g", "2", "a.cadf"]),
    ("help inv", ["help", "inventory"]), ("help help", ["help", "help"]), ("help a", ["help", "a"]),
    ("help show a", ["help", "show", "a"]), ("show -- a", ["show", "--", "a.cadf"]), ("--help a", ["--help", "a"]),
    ("show n", ["show", "n\nz.cadf"]), ("show -- -", ["show", "--", "-x.cadf"]), ("show -- a.cadf -", ["show", "--", "a.cadf", "-x.cadf"]),
    ("show '$", ["show", "$(touch ran).cadf"]), ("show \\`", ["show", "`touch ran`\".cadf"]),
    ("rule -- E e1 1 a", ["rule", "--", "E", "e1", "1", "a.cadf"]), ("join --log=g a", ["join", "--log=g", "a.cadf"]),
] + [("%s --h" % command, [command, "--help"]) for command in COMMANDS if command != "help"]
# The same, with all completions of what is typed in its place.
INSERTED = [
    ("", [*COMMANDS]), ("help ", ["help", *COMMANDS]), ("m", ["missing", "missing-by", "missing-by-sketch"]), ("rule ", ["rule", *"EGMPR"]),
    ("split --by ", ["split", "--by", "day", "hour", "month"]),
] + [(name + " --", [name, "--help", *("--" + word.name for word in options(name))]) for name in WORDS]
CASES = [(typed, COMPLETE, words) for typed, words in COMPLETED] + [(typed, INSERT_ALL, words) for typed, words in INSERTED]

# How each shell is started in a folder, with what it reads first. The command becomes a function that writes its words. Users
# of bash change IFS.
BASH = """
bind '"\\C-x*": insert-completions'
cadf() { printf '%%s\\0' "$@" >../answer.new; mv ../answer.new ../answer; }
. '%s'
PS1= IFS=$'\\n'
: >../ready
"""
ZSH = """
fpath=('%s' $fpath)
autoload -Uz compinit
compinit -u -D
zle -C all-matches complete-word _generic
zstyle ':completion:all-matches:*' insert true
zstyle ':completion:all-matches::::' completer _all_matches _complete
bindkey '^X*' all-matches
cadf() { printf '%%s\\0' "$@" >../answer.new; mv ../answer.new ../answer }
PS1=
: >../ready
"""
SHELLS = {
    "bash": (BASH, "share/bash-completion/completions/cadf", ["--noprofile", "--rcfile", "../.zshrc", "-i"]),
    "zsh": (ZSH, "share/zsh/site-functions", ["-d", "-i"]),
}

# What a shell reads to find the completions of packages by itself: bash a file, zsh no further folder.
SYSTEM = {"bash": "/usr/share/bash-completion/bash_completion", "zsh": os.devnull}


class Shell:
    """A shell in a pseudo-terminal, in a folder with the files."""

    def __init__(self, name, place, folder):
        setup, _, words = SHELLS[name]
        self.folder, self.shown = folder, b""
        os.mkdir(os.path.join(folder, "work"))
        for file in FILES:
            open(os.path.join(folder, "work", file), "w").close()
        with open(os.path.join(folder, ".zshrc"), "w", encoding="utf-8") as file:
            file.write(setup % place)
        self.process, self.terminal = pty.fork()
        if self.process == 0:
            self.become(name, words)
        threading.Thread(target=self.drain, daemon=True).start()
        self.wait_for("ready")

    def become(self, name, words):
        """Starts the shell in this process."""
        os.chdir(os.path.join(self.folder, "work"))
        environment = {"PATH": os.environ["PATH"], "HOME": self.folder, "ZDOTDIR": self.folder, "TERM": "vt100",
                       "INPUTRC": os.devnull, "LC_ALL": "C.UTF-8"}
        try:
            os.execvpe(name, [name, *words], environment)
        finally:
            os._exit(127)

    def drain(self):
        """Reads what the shell shows, until it ends."""
        try:
            while data := os.read(self.terminal, 4096):
                self.shown += data
        except OSError:
            pass

    def wait_for(self, name):
        """Waits for a file that the shell makes."""
        end = time.monotonic() + SECONDS
        while not os.path.exists(os.path.join(self.folder, name)):
            if time.monotonic() > end:
                raise TimeoutError(name)
            time.sleep(0.002)

    def words(self, typed, key):
        """The words that the command gets of what is typed, a key, and a return."""
        os.write(self.terminal, ("cadf %s%s\r" % (typed, key)).encode())
        self.wait_for("answer")
        answer = os.path.join(self.folder, "answer")
        with open(answer, encoding="utf-8", newline="") as file:
            words = file.read().split("\0")[:-1]
        os.remove(answer)
        return words

    def end(self):
        os.kill(self.process, signal.SIGKILL)
        os.waitpid(self.process, 0)


def wrong_of(name, place):
    """Types each case into the shell; what was wrong, as lines."""
    wrong = []
    with tempfile.TemporaryDirectory(prefix="cadf-completions-") as folder:
        shell = Shell(name, place, folder)
        try:
            for typed, key, wanted in CASES:
                words = shell.words(typed, key)
                if words != wanted and (key == COMPLETE or sorted(words) != sorted(wanted)):
                    wrong.append("%s: cadf %s%r: %r, and not %r" % (name, typed, key, words, wanted))
            if sorted(os.listdir(os.path.join(folder, "work"))) != sorted(FILES):
                wrong.append("%s: completing ran what a name says" % name)
        except TimeoutError as fault:
            wrong.append("%s: no file %s in %d seconds: %r" % (name, fault, SECONDS, shell.shown[-2000:]))
        finally:
            shell.end()
    return wrong


def main():
    places = SYSTEM if sys.argv[1:] == ["--system"] else {
        name: os.path.join(os.path.abspath((sys.argv[1:] or [TOP])[0]), place) for name, (_, place, _) in SHELLS.items()}
    wrong, absent = [], [name for name in SHELLS if shutil.which(name) is None]
    tried = [name for name in SHELLS if name not in absent]
    for name in tried:
        wrong += wrong_of(name, places[name])
    for line in wrong:
        print("completions: " + line)
    print("completions: %d lines in %s%s: %s" % (
        len(CASES), " and ".join(tried) or "no shell", ", no %s here" % " or ".join(absent) if absent else "",
        "%d wrong" % len(wrong) if wrong else "all as they should be"))
    return 1 if wrong else 0


if __name__ == "__main__":
    sys.exit(main())
