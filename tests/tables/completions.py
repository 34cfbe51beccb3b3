"""The commands and their words, as crates/cadf_words/src/table.rt has them, and the completions of bash and zsh, made of them."""
import os
import re
from typing import NamedTuple

from tests import TOP, text_of

COMMAND = re.compile(r'\(\s*"([a-z-]+)",\s*"([^"]*)",\s*&\[(.*?)\],?\s*\)', re.DOTALL)
WORD = r'\(\s*"([A-Za-z-]+)",\s*Kind::(\w+)(?:\("(\w+)"\))?,\s*"([^"]*)",?\s*\)'
OPTIONS = ("Option", "Unit", "More", "Flag")


class Word(NamedTuple):
    name: str
    kind: str
    value: str  # how the help names what an option takes
    help: str

    def choices(self):
        """What it may be, if that can be listed."""
        return UNITS if self.kind == "Unit" else " ".join(re.findall(r"\b[A-Z]\b", self.help)) if self.name == "LETTER" else ""


# The text of the table, and the words in it that several commands take, by the names of their constants.
TABLE, REST = text_of("crates", "cadf_words", "src", "table.rt").split("/// The units of time.\n")
SHARED = {name: Word(*word) for name, *word in re.findall(r"const ([A-Z_]+): Word = " + WORD, TABLE)}
FOUND = COMMAND.findall(TABLE)
COMMANDS = {name: about for name, about, _ in FOUND}
WORDS = {name: [SHARED[shared] if shared else Word(*word) for *word, shared in re.findall(WORD + r"|\b([A-Z_]+)\b", words)]
         for name, _, words in FOUND}
# An option's value is a file if an operand of that name is one.
FILES = {word.name for words in WORDS.values() for word in words if word.kind == "File"}
UNITS = " ".join(re.findall(r'"(\w+)"', REST.split("];\n")[0]))

BASH = """\
# Completion of cadf's words for bash. `python3 -m tests.tables.make` makes it of the words of cadf itself.
_cadf() {
    local commands='%s help'
    local word=${COMP_WORDS[COMP_CWORD]} words='' IFS=' '
    [[ $word = -* && " ${COMP_WORDS[*]:1:COMP_CWORD - 1} " = *' -- '* ]] && compopt -o default && return
    case $COMP_CWORD:${COMP_WORDS[1]}:${COMP_WORDS[COMP_CWORD - 1]}:$word in
        1:*:-*) words='--help --version' ;;
        1:* | 2:help:*) words=$commands ;;
        *:help:* | *:-*:*:*) ;;
%s
        *)
            compopt -o default
            return
            ;;
    esac
    mapfile -t COMPREPLY < <(compgen -W "$words" -- "$word")
}
complete -F _cadf cadf
"""
ZSH = """\
#compdef cadf
# Completion of cadf's words for zsh, which looks for this file in the folders of its fpath.
# `python3 -m tests.tables.make` makes it of the words of cadf itself.
local curcontext=$curcontext state
local -a commands help
commands=(
%s
    'help:Tells what cadf or one of its commands takes'
)
help=('(- *)'{-h,--help}'[Tells what the command takes]')
_arguments -C -S $help '(- *)'{-V,--version}'[Tells the version]' '1:command:->command' '*::word:->word' && return
case $state in
    command)
        _describe command commands
        return
        ;;
    word) ;;
    *) return 1 ;;
esac
# Here the first of $words is the command.
case $words[1] in
%s
    help) (( CURRENT == 2 )) && _describe command commands ;;
esac
"""


def options(name):
    return [word for word in WORDS[name] if word.kind in OPTIONS]


def operands(name):
    return [word for word in WORDS[name] if word.kind not in OPTIONS]


def bash_rows(name):
    """The cases of a command: what follows its options, its options, and its operands that are no files."""
    for word in options(name):
        if word.kind in ("Option", "Unit") and word.value not in FILES:
            yield "*:%s:--%s:*" % (name, word.name), word.choices()
    yield "*:%s:*:-*" % name, " ".join(sorted(["--help", *("--" + word.name for word in options(name))]))
    for place, word in enumerate(operands(name), 2):
        if word.kind == "Text":
            yield "%d:%s:*" % (place, name), word.choices()


def bash():
    rows = [row for name in COMMANDS for row in bash_rows(name)]
    return BASH % (" ".join(COMMANDS), "\n".join("        %s) words='%s' ;;" % row for row in rows))


def quoted(text):
    return "'%s'" % text.replace("'", "'\\''")


def zsh_words(name):
    """What `_arguments` is told of the words of a command."""
    for word in options(name):
        yield {"Flag": "--{0.name}[{0.help}]", "More": "*--{0.name}=[{0.help}]:FILE:_files", "Unit": "--{0.name}=[{0.help}]:UNIT:({1})",
               "Option": "--{0.name}=[{0.help}]:{0.value}:" + ("_files" if word.value in FILES else "({1})")}[word.kind].format(word, word.choices())
    for place, word in enumerate(operands(name), 1):
        yield "%s:%s:%s" % ("*" if word.kind == "Files" else place, word.name, "(%s)" % word.choices() if word.kind == "Text" else "_files")


def zsh():
    rows = ["    %s) _arguments -S $help %s ;;" % (name, " ".join(map(quoted, zsh_words(name)))) for name in COMMANDS]
    return ZSH % ("\n".join("    " + quoted("%s:%s" % each) for each in COMMANDS.items()), "\n".join(rows))


def made():
    """The files of the completions, by their paths."""
    share = os.path.join(TOP, "share")
    return {os.path.join(share, "bash-completion", "completions", "cadf"): bash(),
            os.path.join(share, "zsh", "site-functions", "_cadf"): zsh()}
