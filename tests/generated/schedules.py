"""Generated rehearsal scripts: schedules of messages that are stale, lost or repeated, and scripts with a fault."""
from tests.generated.odd_documents import any_odd_document
from tests.generated.odd_files import documents_told
from tests.generated.spelling import spelled_oddly

ODD_LINES = [
    b"", b" ", b"hello", b"ask", b"ask ", b"ask  0", b"ask 0 ", b" ask 0", b"ask 0\r", b"ask\t0", b"Ask 0", b"ask 00",
    b"ask 01", b"ask -0", b"ask +0", b"ask 0x0", b"ask 0.", b"ask \xd9\xa0", b"ask 0 0", b"ask 1000000000", b"send",
    b"send 0 1", b"send 0\x00", b"answer 0", b"answer 0 1 1", b"answer 0 01", b"deliver 1", b"deliver 1 0 0", b"deliver  1 0",
    b"deliver 0 1000000000", b"learn", b"learn 0", b"learn 0 ", b"learn 0 [", b"learn 0 {}", b"learn 0 1.5", b"learn 00 {}",
    b"learn 0 CADF-REPLICA 1", b'learn 0 {"events":[]}', b'learn 0 {"id":"g","events":[]}x', b'learn  0 {"id":"g","events":[]}',
    b'learn 00 {"id":"g","events":[]}', b'learn 0{"id":"g","events":[]}', b'learn {"id":"g","events":[]}', b"\xff",
    b'learn 0 {"id":"\xff","events":[]}', b"CADF-REPLICA 1", b"# ask 0", b"ask 0;send 0"]
GOOD_LINES = [
    b'learn 0  {"id":"g","events":[]}', b'learn 0 {"id":"g","events":[]} ', b'learn 0 {"id":"g","events":[]}\r',
    b'learn 0 \t{ "events":[] ,"id":"g"}', b"ask 0", b"send 0"]
BEYOND_LINES = [b"ask 64", b"send 999999999", b"answer 999999999 1", b"deliver 1 64", b"deliver 0 0", b"deliver 999999999 0",
                b"answer 0 0", b"answer 0 999999999", b"answer 65 65", b"deliver 9 99"]


class Schedule:
    """A schedule without a fault, grown by a turn at a time."""

    def __init__(self, chance, count):
        self.chance, self.lines, self.made = chance, [], 0
        self.busy = [chance.randrange(count) for _ in range(chance.choice([1, 2, 3, 3, 5]))]
        self.asked, self.told = [], []  # messages with their site, None where any site may have it
        self.documents = documents_told(chance, 2, 6)

    def add(self, *words):
        self.lines.append(b" ".join(word if isinstance(word, bytes) else str(word).encode() for word in words))

    def learn(self, site, log="g"):
        document = dict(self.chance.choice(self.documents), id=log)
        if document["events"] and log == "g" and self.chance.random() < 0.3:
            document = document["events"][0]
        text = spelled_oddly(self.chance, document, self.chance.choice([0, 0.1]))
        self.add("learn", site, text.replace(b"\n", b" "))

    def ask(self, site):
        self.add("ask", site)
        self.made += 1
        self.asked.append((self.made, site))

    def send(self, site):
        self.add("send", site)
        self.made += 1
        self.told.append((self.made, None))

    def answer(self, site):
        message, asker = self.chance.choice(self.asked)
        self.add("answer", site, message)
        self.made += 1
        self.told.append((self.made, asker))

    def deliver(self, site):
        message, addressee = self.chance.choice(self.told)
        for _ in range(self.chance.choice([1, 1, 1, 2])):
            self.add("deliver", message, site if addressee is None else addressee)

    def deliver_inventory(self, site):
        """The delivery of an inventory to any site, which changes nothing."""
        self.add("deliver", self.chance.choice(self.asked)[0], site)

    def turn(self):
        turns = [self.learn, self.learn, self.ask, self.ask, self.send]
        if self.asked:
            turns += [self.answer] * 4 + [self.deliver_inventory]
        if self.told:
            turns += [self.deliver] * 5
        self.chance.choice(turns)(self.chance.choice(self.busy))


def odd_turn(schedule, count):
    """A line that is refused where it stands at the end, or is near that."""
    chance, site = schedule.chance, schedule.chance.choice(schedule.busy)
    kind = chance.randrange(10)
    if kind == 0:
        schedule.add(chance.choice(["ask", "send"]), count)
    elif kind == 1:
        schedule.learn(count)
    elif kind == 2:
        words = [chance.choice([site, count]), schedule.made + chance.choice([0, 1, 2])]
        schedule.add(*chance.choice([["answer"] + words, ["deliver"] + words[::-1]]))
    elif kind == 3 and schedule.told:
        schedule.add("answer", site, chance.choice(schedule.told)[0])
    elif kind in (4, 5) and any(addressee is not None for _, addressee in schedule.told):
        answers = [message for message, addressee in schedule.told if addressee is not None]
        schedule.add("deliver", chance.choice(answers), chance.choice(schedule.busy + list(range(count))))
    elif kind == 6:
        schedule.learn(chance.choice([site, site, count]), chance.choice(["h", "G", "g "]))
    elif kind == 7:
        schedule.add("learn", site, any_odd_document(chance).replace(b"\n", b" "))
    else:
        schedule.lines.append(chance.choice(chance.choice([ODD_LINES, GOOD_LINES, BEYOND_LINES])))


def script(chance, count):
    """The script of a schedule between so many sites, perhaps with a fault."""
    schedule = Schedule(chance, count)
    for _ in range(chance.choice([0, 1, 3, 8, 15, 30, 60])):
        schedule.turn()
    for _ in range(chance.choice([0, 0, 0, 1, 1, 2])):
        odd_turn(schedule, count)
        for _ in range(chance.choice([0, 0, 2])):
            schedule.turn()
    lines = schedule.lines
    if lines and chance.random() < 0.1:
        lines.insert(chance.randrange(len(lines)), chance.choice(ODD_LINES + GOOD_LINES))
    if lines and chance.random() < 0.05:
        lines.append(lines.pop(chance.randrange(len(lines))))
    end = chance.choice([b"\n"] * 8 + [b"", b"", b"\n\n", b"\r\n", b" \n"])
    return b"\n".join(lines) + end if lines else chance.choice([b"", b"", b"\n", b" "])


def call(chance):
    """The words of a call, and its script."""
    count = chance.choice([1, 2, 2, 3, 3, 4, 8, 63, 64])
    log, sites, name = "g", str(count), "script"
    kind = chance.random()
    if kind < 0.06:
        log = chance.choice(["", "h", "\x7f", "\n", "g ", "x" * 1024, "x" * 1025, "-", "-g", "\u00e9"])
    elif kind < 0.16:
        sites = chance.choice(["", "0", "00", "01", "65", "064", "100", "1000000000", "+2", "-2", "2 ", " 2", "2.0", "2x", "x",
                               "0x2", "\u0662", "18446744073709551618"])
    elif kind < 0.2:
        log, sites = chance.choice(["", "\x7f"]), chance.choice(["0", "65", "x", "2"])
    elif kind < 0.24:
        name = chance.choice(["nothere", "folder"])
    words = ["rehearse", log, sites, name]
    if chance.random() < 0.02:
        words = chance.choice([words[:3], words + ["script"], ["rehearse", "--", *words[1:]], words[:2], words[:1]])
    return words, script(chance, count)
