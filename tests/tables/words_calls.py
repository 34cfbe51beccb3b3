"""The command line: which words are taken, and what is told of them.

How help and refusals are worded is clap's, and no page fixes it. What help says of each word is made of the table of words, as clap
lays it out; crates/drivers/stdout keeps it, so that a change is seen. Refusals stand here as version 0.1.0 printed them.
"""
from tests.tables.completions import COMMANDS, UNITS, operands, options

CALLS = {"parse": ["parse"]}

PAGE = "The command line"
# What help shows behind the name of an option.
TAKES = {"Option": " <{0.value}>", "Unit": " <UNIT>", "More": " <FILE>", "Flag": ""}
POSSIBLE = "[possible values: %s]" % ", ".join(UNITS.split())


def part(title, pairs):
    """A part of a help: words, and behind the longest of them what is said of each."""
    width = max(len(word) for word, _ in pairs)
    return "\n%s:\n%s" % (title, "".join("  %-*s  %s\n" % (width, *pair) for pair in pairs))


def help_of(name):
    """The help of a command."""
    shown = [(" " * 4 + "--" + word.name + TAKES[word.kind].format(word), word.help + (" " + POSSIBLE) * (word.kind == "Unit"))
             for word in options(name)]
    taken = [("<%s>%s" % (word.name, "..." * (word.kind == "Files")), word.help) for word in operands(name)]
    usage = ["[OPTIONS]"] * bool(shown) + ["--%s <UNIT>" % word.name for word in options(name) if word.kind == "Unit"]
    return "%s\n\nUsage: cadf %s\n" % (COMMANDS[name], " ".join([name, *usage, *(word for word, _ in taken)])) \
        + part("Arguments", taken) + part("Options", [*shown, ("-h, --help", "Print help")])


# What is told of the program and of each command, by the command's name.
HELP = {"": "Keeps replicas of a CADF log and makes them converge\n\nUsage: cadf <COMMAND>\n"
        + part("Commands", [*COMMANDS.items(), ("help", "Print this message or the help of the given subcommand(s)")])
        + part("Options", [("-h, --help", "Print help"), ("-V, --version", "Print version")])}
HELP.update((name, help_of(name)) for name in COMMANDS)
HELP_OF_HELP = """\
Print this message or the help of the given subcommand(s)

Usage: cadf help [COMMAND]...

Arguments:
  [COMMAND]...  Print help for the subcommand(s)
"""

# Words that are taken, and the request that they make.
TAKEN = [
    (["join", "a"], ["Join", "none", "a"]),
    (["join", "a", "--log", "g", "b"], ["Join", "some", "g", "a", "b"]),
    (["join", "--log=", "", "b", "b"], ["Join", "some", "", "", "b", "b"]),
    (["join", "--log=--log", "--", "--log", "-h"], ["Join", "some", "--log", "--log", "-h"]),
    (["join", "-"], ["Join", "none", "-"]),
    (["split", "--by", "day", "a"], ["Split", "day", "none", "a"]),
    (["split", "a", "--log=g", "b", "--by=month"], ["Split", "month", "some", "g", "a", "b"]),
    (["split", "--by=hour", "--", "--by", "day"], ["Split", "hour", "none", "--by", "day"]),
    (["missing", "a", "b"], ["Missing", "a", "to", "b"]),
    (["missing", "--", "-a", "--help"], ["Missing", "-a", "to", "--help"]),
    (["missing", "--to=c", "a", "--from", "d", "b", "--to", "e", "--from=-f", "--from=a"],
     ["Missing", "a", "d", "-f", "a", "to", "b", "c", "e"]),
    (["missing-by", "a", "b"], ["MissingBy", "a", "to", "b"]),
    (["missing-by", "a", "b", "--from", "-", "--from=--to"], ["MissingBy", "a", "-", "--to", "to", "b"]),
    (["inventory", "a b\tc\u00fc\U0001f512"], ["Inventory", "a b\tc\u00fc\U0001f512"]),
    (["inventory", "b", "a", "b"], ["Inventory", "b", "a", "b"]),
    (["sketch", "a"], ["Sketch", "none", "none", "a"]),
    (["sketch", "a", "--salt", "5", "b", "--cells=9", "c"], ["Sketch", "some", "9", "some", "5", "a", "b", "c"]),
    (["sketch", "a", "--salt", "5", "--cells=9"], ["Sketch", "some", "9", "some", "5", "a"]),
    (["sketch", "--cells=", "--salt=-1", "--", "-a"], ["Sketch", "some", "", "some", "-1", "-a"]),
    (["missing-by-sketch", "a", "b"], ["MissingBySketch", "a", "to", "b"]),
    (["missing-by-sketch", "a", "--from", "c", "b"], ["MissingBySketch", "a", "c", "to", "b"]),
    (["seal", "a"], ["Seal", "a"]),
    (["seal", "b", "--", "a", "-b"], ["Seal", "b", "a", "-b"]),
    (["prove", "a", "b"], ["Prove", "false", "a", "b"]),
    (["prove", "a", "c", "b", "a"], ["Prove", "false", "a", "c", "b", "a"]),
    (["prove", "", "--", "-"], ["Prove", "false", "", "-"]),
    (["prove", "--keys", "a", "b"], ["Prove", "true", "a", "b"]),
    (["prove", "a", "b", "--keys", "c"], ["Prove", "true", "a", "b", "c"]),
    (["prove", "a", "--", "--keys"], ["Prove", "false", "a", "--keys"]),
    (["verify", "a", "b", "c"], ["Verify", "false", "false", "a", "b", "c"]),
    (["verify", "c", "--absent", "b", "a"], ["Verify", "false", "true", "c", "b", "a"]),
    (["verify", "", "", "--", "--absent"], ["Verify", "false", "false", "", "", "--absent"]),
    (["verify", "--keys", "a", "b", "c"], ["Verify", "true", "false", "a", "b", "c"]),
    (["verify", "a", "b", "--absent", "c", "--keys"], ["Verify", "true", "true", "a", "b", "c"]),
    (["sealed", "a"], ["Sealed", "a"]),
    (["sealed", "b", "--", "a", "-b"], ["Sealed", "b", "a", "-b"]),
    (["growth", "a", "b"], ["Growth", "a", "b"]),
    (["growth", "a", "c", "b", "a"], ["Growth", "a", "c", "b", "a"]),
    (["growth", "", "--", "-"], ["Growth", "", "-"]),
    (["grew", "a", "b", "c"], ["Grew", "none", "a", "b", "c"]),
    (["grew", "c", "--erased", "d", "b", "a"], ["Grew", "some", "d", "c", "b", "a"]),
    (["grew", "--erased=", "", "", "--", "--erased"], ["Grew", "some", "", "", "", "--erased"]),
    (["omit", "a", "b"], ["Omit", "a", "b"]),
    (["omit", "a", "c", "b", "a"], ["Omit", "a", "c", "b", "a"]),
    (["omit", "", "--", "-"], ["Omit", "", "-"]),
    (["rule", "E", "e1", "2", "a"], ["Rule", "E", "e1", "2", "a"]),
    (["rule", "E", "e1", "2", "a", "3", "E"], ["Rule", "E", "e1", "2", "a", "3", "E"]),
    (["rule", "", "", "", ""], ["Rule", "", "", "", ""]),
    (["rehearse", "g", "3", "a"], ["Rehearse", "g", "3", "a"]),
    (["rehearse", "", "065", ""], ["Rehearse", "", "065", ""]),
    (["show", "a"], ["Show", "false", "a"]),
    (["show", "a", "--conflicts"], ["Show", "true", "a"]),
    (["show", "a", "--conflicts", "b", "--", "--conflicts"], ["Show", "true", "a", "b", "--conflicts"]),
    (["check", "check"], ["Check", "check"]),
    (["check", "a", "b"], ["Check", "a", "b"]),
]

# Words that are refused: the fault, with a tip where there is one, and the usage behind it.
REFUSED = [
    ([], "'cadf' requires a subcommand but one was not provided\n"
         "  [subcommands: %s, help]" % ", ".join(COMMANDS), "<COMMAND>"),
    ([""], "unrecognized subcommand ''", "<COMMAND>"),
    (["nothing"], "unrecognized subcommand 'nothing'\n\n  tip: a similar subcommand exists: 'join'", "<COMMAND>"),
    (["shwo", "a"], "unrecognized subcommand 'shwo'\n\n  tip: a similar subcommand exists: 'show'", "<COMMAND>"),
    (["--log", "g"], "unexpected argument '--log' found", "<COMMAND>"),
    (["help", "nothing"], "unrecognized subcommand 'nothing'", "<COMMAND>"),
    (["help", "--help"], "unrecognized subcommand '--help'", "<COMMAND>"),
    (["help", "join", "x"], "unrecognized subcommand 'x'", "join [OPTIONS] <FILE>..."),
    (["join"], "the following required arguments were not provided:\n  <FILE>...", "join <FILE>..."),
    (["join", "--log", "g"], "the following required arguments were not provided:\n  <FILE>...", "join --log <ID> <FILE>..."),
    (["join", "--log", "g", "--log", "h", "a"], "the argument '--log <ID>' cannot be used multiple times",
     "join [OPTIONS] <FILE>..."),
    (["join", "--logs=g", "a"], "unexpected argument '--logs' found\n\n  tip: a similar argument exists: '--log'",
     "join --log <ID> <FILE>..."),
    (["join", "-V"], "unexpected argument '-V' found\n\n  tip: to pass '-V' as a value, use '-- -V'", "join [OPTIONS] <FILE>..."),
    (["split", "a"], "the following required arguments were not provided:\n  --by <UNIT>", "split --by <UNIT> <FILE>..."),
    (["split", "--by", "day"], "the following required arguments were not provided:\n  <FILE>...", "split --by <UNIT> <FILE>..."),
    (["split", "--by", "day", "--by", "day", "a"], "the argument '--by <UNIT>' cannot be used multiple times",
     "split [OPTIONS] --by <UNIT> <FILE>..."),
    (["missing", "a"], "the following required arguments were not provided:\n  <TO>", "missing <FROM> <TO>"),
    (["missing", "a", "--from", "b"], "the following required arguments were not provided:\n  <TO>",
     "missing --from <FILE> <FROM> <TO>"),
    (["missing-by", "a", "b", "c"], "unexpected argument 'c' found", "missing-by [OPTIONS] <FROM> <INVENTORY>"),
    (["missing-by", "a", "b", "--to", "c"], "unexpected argument '--to' found\n\n  tip: to pass '--to' as a value, use '-- --to'",
     "missing-by <FROM> <INVENTORY>"),
    (["inventory"], "the following required arguments were not provided:\n  <FILE>...", "inventory <FILE>..."),
    (["sketch", "--cells", "9"], "the following required arguments were not provided:\n  <FILE>...", "sketch --cells <N> <FILE>..."),
    (["sketch", "--salt", "1", "--salt", "3", "a"], "the argument '--salt <A>' cannot be used multiple times",
     "sketch [OPTIONS] <FILE>..."),
    (["sketch", "--cell", "9", "a"], "unexpected argument '--cell' found\n\n  tip: a similar argument exists: '--cells'",
     "sketch --cells <N> <FILE>..."),
    (["missing-by-sketch", "a"], "the following required arguments were not provided:\n  <SKETCH>",
     "missing-by-sketch <FROM> <SKETCH>"),
    (["seal"], "the following required arguments were not provided:\n  <FILE>...", "seal <FILE>..."),
    (["prove", "a"], "the following required arguments were not provided:\n  <FILE>...", "prove <FACTS> <FILE>..."),
    (["prove", "--keys", "--keys", "a", "b"], "the argument '--keys' cannot be used multiple times", "prove [OPTIONS] <FACTS> <FILE>..."),
    (["prove", "--keys=a", "b", "c"], "unexpected value 'a' for '--keys' found; no more were expected", "prove --keys <FACTS> <FILE>..."),
    (["prove", "--absent", "a", "b"], "unexpected argument '--absent' found\n\n  tip: to pass '--absent' as a value, use '-- --absent'",
     "prove [OPTIONS] <FACTS> <FILE>..."),
    (["verify", "a", "b"], "the following required arguments were not provided:\n  <PROOF>", "verify <SEAL> <FACTS> <PROOF>"),
    (["verify", "--absent", "a"], "the following required arguments were not provided:\n  <FACTS>\n  <PROOF>",
     "verify --absent <SEAL> <FACTS> <PROOF>"),
    (["verify", "a", "b", "c", "d"], "unexpected argument 'd' found", "verify [OPTIONS] <SEAL> <FACTS> <PROOF>"),
    (["verify", "--absent", "--absent", "a", "b", "c"], "the argument '--absent' cannot be used multiple times",
     "verify [OPTIONS] <SEAL> <FACTS> <PROOF>"),
    (["sealed"], "the following required arguments were not provided:\n  <FILE>...", "sealed <FILE>..."),
    (["growth", "a"], "the following required arguments were not provided:\n  <FILE>...", "growth <SEALED> <FILE>..."),
    (["growth", "--erased", "a", "b"], "unexpected argument '--erased' found\n\n  tip: to pass '--erased' as a value, use '-- --erased'",
     "growth <SEALED> <FILE>..."),
    (["grew", "a", "b"], "the following required arguments were not provided:\n  <PROOF>", "grew <OLD> <NEW> <PROOF>"),
    (["grew", "--erased", "d", "a"], "the following required arguments were not provided:\n  <NEW>\n  <PROOF>",
     "grew --erased <LIST> <OLD> <NEW> <PROOF>"),
    (["grew", "a", "b", "c", "d"], "unexpected argument 'd' found", "grew [OPTIONS] <OLD> <NEW> <PROOF>"),
    (["grew", "--erased", "d", "--erased", "e", "a", "b", "c"], "the argument '--erased <LIST>' cannot be used multiple times",
     "grew [OPTIONS] <OLD> <NEW> <PROOF>"),
    (["omit", "a"], "the following required arguments were not provided:\n  <FILE>...", "omit <LIST> <FILE>..."),
    (["rule", "E"], "the following required arguments were not provided:\n  <KEY>\n  <PLACE>\n  <FILE>...",
     "rule <LETTER> <KEY> <PLACE> <FILE>..."),
    (["rehearse", "g", "2"], "the following required arguments were not provided:\n  <SCRIPT>",
     "rehearse <LOG> <SITES> <SCRIPT>"),
    (["show", "--conflict", "a"], "unexpected argument '--conflict' found\n\n  tip: a similar argument exists: '--conflicts'",
     "show --conflicts <FILE>..."),
    (["show", "--conflicts=1", "a"], "unexpected value '1' for '--conflicts' found; no more were expected",
     "show --conflicts <FILE>..."),
    (["show", "--conflicts", "--conflicts", "a"], "the argument '--conflicts' cannot be used multiple times",
     "show [OPTIONS] <FILE>..."),
    (["show", "-x", "a"], "unexpected argument '-x' found\n\n  tip: to pass '-x' as a value, use '-- -x'", "show [OPTIONS] <FILE>..."),
    (["check"], "the following required arguments were not provided:\n  <FILE>...", "check <FILE>..."),
]


def refusal(fault, usage):
    return "error: %s\n\nUsage: cadf %s\n\nFor more information, try '--help'.\n" % (fault, usage)


def row(words, fields):
    return "parse", ["cadf", *words], fields, PAGE

ROWS = [row([*name.split(), flag], ["help", text]) for name, text in HELP.items() for flag in ("--help", "-h")]
ROWS += [row(["help", *name.split()], ["help", text]) for name, text in HELP.items()]
ROWS += [row(["help", "help"], ["help", HELP_OF_HELP])]
ROWS += [row([flag], ["help", "cadf 0.1.0\n"]) for flag in ("--version", "-V")]
ROWS += [row(words, ["ok", *fields]) for words, fields in TAKEN]
ROWS += [row(words, ["refused", refusal(fault, usage)]) for words, fault, usage in REFUSED]
ROWS += [row(["split", "--by", unit, "a"], ["refused", "error: invalid value '%s' for '--by <UNIT>'\n"
              "  %s%s\n\nFor more information, try '--help'.\n" % (unit, POSSIBLE, tip)])
         for unit, tip in (("week", ""), ("Day", "\n\n  tip: a similar value exists: 'day'"), ("2024", ""))]
ROWS += [row(["split", "--by=", "a"], ["refused", "error: a value is required for '--by <UNIT>' but none was supplied\n"
                                       "  %s\n\nFor more information, try '--help'.\n" % POSSIBLE])]
ROWS += [row(["join", "--log"], ["refused", "error: a value is required for '--log <ID>' but none was supplied\n\n"
                                 "For more information, try '--help'.\n"])]
