"""cadf-witness: seals that are taken and signed, what is refused, what wants a person, and two witnesses of two pasts."""
import hashlib
import os
import re
import resource
import subprocess
import threading

import pytest

from tests import patience
from tests.machine import ended
from tests.reference.growth_files import growth_of
from tests.reference.list_files import ERASED, list_with, read_sealed_list, sealed_list_of
from tests.reference.seal_files import keys_of, leaves_of, seal_of
from tests.reference.site_growth_files import site_growth_of
from tests.reference.site_seal_files import site_seal_of
from tests.reference.split_files import parts_of
from tests.tools.copies import is_caught
from tests.tools.programs import writer_to
from tests.tools.test_site_folders import DAYS, EVENT, TOOLS, atoms_of, contents, with_digest

pytestmark = pytest.mark.needs("ssh-keygen")
SITE = "north@example.org"
EARLIER, MORE = contents(0, 2, name="n"), contents(1, 3, 5)
DAY_LATER = {"id": "g", "events": [dict(EVENT, id="e0", eventTime="2024-03-05T00:00:00Z")]}
LATER = [EARLIER, MORE, DAY_LATER]
FEWER = [contents(2, name="n"), MORE]
ANEW = ": a person has to look at it; --anew WHY takes it all the same"


def keygen(*words, **options):
    return subprocess.run(["ssh-keygen", *map(str, words)], check=True, stdout=subprocess.PIPE, stderr=subprocess.PIPE, **options).stdout


@pytest.fixture(scope="module")
def keys(tmp_path_factory):
    """Files of keys, each of ed25519 without a passphrase."""
    path = tmp_path_factory.mktemp("keys")
    for name in ("site", "stranger", "witness"):
        keygen("-q", "-t", "ed25519", "-N", "", "-C", "", "-f", path / name)
    return path


class Witness:
    """The state of a witness, and seals and proofs beside it."""

    def __init__(self, path, keys, cadf, tools=TOOLS, name="state"):
        self.path, self.keys, self.tools, self.name = path, keys, tools, name
        self.state, self.environment = path / name, dict(os.environ, CADF=cadf)
        self.state.mkdir()
        (self.state / "key").write_bytes((keys / "witness").read_bytes())
        (self.state / "key").chmod(0o600)
        (self.state / "allowed").write_text("%s %s" % (SITE, (keys / "site.pub").read_text()))

    def run(self, *words, **options):
        """The tool's status, its output and its lines on standard error."""
        answer = ended(os.path.join(self.tools, "cadf-witness"), [str(word) for word in words], cwd=self.path, env=self.environment, **options)
        return answer.status, answer.output, answer.error.decode().splitlines()

    def put(self, name, data):
        (self.path / name).write_bytes(data)
        return name

    def signs(self, name, key="site", namespace="cadf-seal"):
        signature = self.path / (name + ".sig")
        signature.unlink(missing_ok=True)
        keygen("-q", "-Y", "sign", "-f", self.keys / key, "-n", namespace, self.path / name)
        return name

    def seal(self, name, *documents, log="g"):
        """A file of the seal of the documents' facts, which the site signs."""
        return self.signs(self.put(name, site_seal_of(log, atoms_of(*documents), "day")))

    def proof(self, name, earlier, later):
        return self.put(name, site_growth_of("g", atoms_of(*earlier), atoms_of(*later), "day"))

    def takes(self, *words):
        """Has a seal taken, whose signature it has to write."""
        status, output, said = self.run(*words)
        assert status == 0 and output.startswith(b"-----BEGIN SSH SIGNATURE-----\n"), (status, said)
        return output, said

    def lines(self):
        """What is listed: of each site its last seal, how many were taken, and its chain."""
        status, output, said = self.run("--list", self.name)
        assert (status, said) == (0, [])
        return output.decode().splitlines()


@pytest.fixture
def witness(tmp_path, keys, cadf):
    return Witness(tmp_path, keys, cadf)


def beginning(witness):
    """The witness, which has taken the first seal of a site."""
    witness.takes("--first", "state", witness.seal("old", EARLIER))
    return witness


@pytest.fixture
def begun(witness):
    return beginning(witness)


def digest(path, name):
    return hashlib.sha256((path / name).read_bytes()).hexdigest()


def chained(*seals):
    """The digest of a chain of seals: of each, that of the chain before and its own one after another, from 64 times 0 on."""
    found = "0" * 64
    for each in seals:
        found = hashlib.sha256((found + each).encode()).hexdigest()
    return found


# ---- What is taken

def test_a_chain(begun):
    """A later seal is taken by a proof, and signed; the same one is signed again, and the chain stays."""
    begun.seal("new", *LATER)
    output, said = begun.takes("state", "new", begun.proof("proof", [EARLIER], LATER))
    assert said == ["cadf-witness: %s: added 7" % SITE]
    old, new = digest(begun.path, "old"), digest(begun.path, "new")
    lines = ['%s %s 2 %s "g"' % (SITE, new, chained(old, new))]
    assert begun.lines() == lines
    assert begun.takes("state/", "new") == (output, []) and begun.lines() == lines
    begun.put("signature", output)
    (begun.path / "witnesses").write_text("w " + (begun.keys / "witness.pub").read_text())
    verify = ["-Y", "verify", "-f", begun.path / "witnesses", "-I", "w", "-s", begun.path / "signature"]
    assert b"Good" in keygen(*verify, "-n", "cadf-witness", stdin=open(begun.path / "new", "rb"))
    for namespace, name in (("cadf-seal", "new"), ("cadf-witness", "old")):
        with pytest.raises(subprocess.CalledProcessError):
            keygen(*verify, "-n", namespace, stdin=open(begun.path / name, "rb"))


def test_a_site_that_is_a_file(witness):
    for name, documents in (("old", [EARLIER]), ("new", LATER)):
        witness.signs(witness.put(name, seal_of("g", atoms_of(*documents))))
    witness.put("proof", growth_of("g", read_sealed_list(sealed_list_of("g", atoms_of(EARLIER)))[1], atoms_of(*LATER)))
    assert witness.takes("--first", "state", "old")[1] == ["cadf-witness: %s: the first seal" % SITE]
    assert witness.takes("state", "new", "proof")[1] == ["cadf-witness: %s: added 7" % SITE]
    status, output, said = witness.run("state", "old", "proof")
    assert (status, output) == (1, b"") and said[0].startswith("cadf-witness: proof: facts: other count: ")


def test_each_log_has_its_chain(begun):
    """So a site that seals two logs shows no growth of the one by the other."""
    begun.seal("h", EARLIER, log="h")
    status, output, said = begun.run("state", "h", begun.proof("proof", [EARLIER], [EARLIER]))
    assert (status, output) == (1, b"") and said == [
        "cadf-witness: h: no seal of %s was taken of this log: --first takes it, once a person has seen that it is the site's" % SITE]
    begun.takes("--first", "state", "h")
    assert [line.split(" ")[2:] for line in begun.lines()] == [["1", chained(digest(begun.path, name)), '"%s"' % log] for name, log in (("old", "g"), ("h", "h"))]


def test_what_was_erased_and_what_is_not_kept(begun):
    begun.seal("new", *FEWER)
    begun.proof("proof", [EARLIER], FEWER)
    atoms = atoms_of(contents(0))
    begun.put("list", list_with(ERASED, "g", leaves_of(atoms), keys_of(atoms)))
    assert begun.takes("--erased", "list", "state", "new", "proof")[1] == ["cadf-witness: %s: added 6, erased 2" % SITE]
    later = contents(2, 5, name="n")
    begun.signs(begun.put("newer", site_seal_of("g", atoms_of(later), "day", "2024-03-01", parts_of(atoms_of(*FEWER), "day")["2024-02-29"])))
    begun.put("proof", with_digest(b'CADF-SITE-GROWTH 1\nL "g"\nB day\n'))
    assert begun.run("state", "newer", "proof")[0] == 5
    assert begun.takes("--kept-from", "2024-03-01", "state", "newer", "proof")[1] == ["cadf-witness: %s: added 0" % SITE]


# ---- What is not

def refused(witness, *words):
    """What is said of a call that is refused, which leaves the state as it was."""
    before = {path: path.read_bytes() for path in witness.state.rglob("*") if path.is_file()}
    status, output, said = witness.run(*words)
    assert output == b"" and {path: path.read_bytes() for path in witness.state.rglob("*") if path.is_file()} == before
    return status, said


def test_a_seal_of_a_stranger(begun):
    """One with a window more would make every later seal of the site lack it. Only what the site's key has signed as a seal counts."""
    begun.seal("new", *LATER)
    begun.proof("proof", [EARLIER], LATER)
    wanted = (1, ["cadf-witness: new: not signed by a key of state/allowed, for the namespace cadf-seal"])
    for key, namespace in (("stranger", "cadf-seal"), ("site", "cadf-witness"), ("site", "file"), ("witness", "cadf-seal")):
        begun.signs("new", key, namespace)
        assert refused(begun, "state", "new", "proof") == wanted
    for signature in ((begun.path / "old.sig").read_bytes(), b"", b"-----BEGIN SSH SIGNATURE-----\n"):
        begun.put("new.sig", signature)
        assert refused(begun, "state", "new", "proof") == wanted
    (begun.path / "new.sig").unlink()
    status, said = refused(begun, "state", "new", "proof")
    assert status == 3 and said[0].startswith("cadf-witness: new.sig: ")
    begun.signs("new")
    begun.takes("state", "new", "proof")


def test_what_is_gone_wants_a_person(begun):
    """It isn't signed until a person takes it, and the chain has why; from then on it is the last one."""
    begun.seal("new", *FEWER)
    begun.proof("proof", [EARLIER], FEWER)
    gone = min(leaf.hex() for leaf in leaves_of(atoms_of(contents(0))))
    status, said = refused(begun, "state", "new", "proof")
    assert status == 5 and said[0].startswith("cadf-witness: 2024-02-29 of new: facts: gone: " + gone) and said[0].endswith(ANEW)
    begun.put("none.proof", with_digest(b'CADF-SITE-GROWTH 1\nL "g"\nB day\n'))
    begun.seal("day", contents(2, name="n"))
    status, said = refused(begun, "state", "day", "none.proof")
    assert status == 5 and "2024-02-29: gone" in said[0] and said[0].endswith(ANEW)
    assert begun.takes("--anew", "restored from Tuesday", "state", "new")[1] == ["cadf-witness: %s: taken anew: restored from Tuesday" % SITE]
    assert [path.read_text().splitlines()[-2].endswith(" restored from Tuesday") for path in begun.state.rglob("chain")] == [True]
    begun.seal("newer", *FEWER, DAY_LATER)
    assert begun.takes("state", "newer", begun.proof("proof", FEWER, [*FEWER, DAY_LATER]))[1] == ["cadf-witness: %s: added 1" % SITE]


def test_a_site_that_was_restored(begun):
    """An earlier seal, signed by the site, is no later one."""
    begun.seal("new", *LATER)
    begun.takes("state", "new", begun.proof("proof", [EARLIER], LATER))
    status, said = refused(begun, "state", "old", begun.proof("back.proof", LATER, [EARLIER]))
    assert status == 5 and "gone" in said[0]
    assert refused(begun, "--first", "state", "old")[0] == 1


def test_proofs_that_show_nothing(begun):
    begun.seal("new", *LATER)
    assert refused(begun, "state", "new") == (1, ["cadf-witness: new: it isn't the last seal of %s: give a proof of growth from that one" % SITE])
    begun.proof("other.proof", [contents(0)], LATER)
    assert refused(begun, "state", "new", "other.proof")[0] == 1
    assert refused(begun, "state", "new", "old")[0] == 1
    for data in (b"", b"CADF-SEAL 1\n", with_digest(b'CADF-SEAL 1\nL "g"\nN 0\n'), (begun.path / "new").read_bytes()[:-1], b"\n"):
        begun.signs(begun.put("bad", data))
        status, said = refused(begun, "--first", "state", "bad")
        assert status == 1 and said[0].startswith("cadf-witness: bad: ")


def test_no_key(begun):
    begun.seal("new", *LATER)
    begun.proof("proof", [EARLIER], LATER)
    status, said = refused(begun, "--key", "nothere", "state", "new", "proof")
    assert status == 3 and said[0].startswith("cadf-witness: nothere: ssh-keygen signs nothing with it: ")
    begun.takes("--key", begun.keys / "stranger", "state", "new", "proof")


def test_a_state_that_is_damaged(begun):
    (chain,), (seal,) = begun.state.rglob("chain"), begun.state.rglob("*.seal")
    text = chain.read_text()
    head, line = text.split("\n")[:3], text.split("\n")[3]
    for changed in ("", text[:-1], text.replace("g", "h"), text.replace(line[:4], "0000"),
                    with_digest("\n".join([*head, "1" * 64 + line[64:], ""]).encode()).decode(), with_digest("\n".join([*head, ""]).encode()).decode()):
        chain.write_text(changed)
        assert begun.run("--list", "state") == (1, b"", ["cadf-witness: %s: it is damaged: fetch it from a backup" % chain.relative_to(begun.path)])
        assert refused(begun, "state", "old")[0] == 1
    chain.write_text(text)
    seal.write_bytes(seal.read_bytes() + b"x")
    assert refused(begun, "state", "old") == (1, ["cadf-witness: %s: it is damaged: fetch it from a backup" % seal.relative_to(begun.path)])


def test_a_call_that_was_killed(begun):
    """What it left of a seal that the chain doesn't name counts for nothing."""
    before, (chain,) = begun.lines(), begun.state.rglob("chain")
    begun.seal("new", *LATER)
    for name in (digest(begun.path, "new") + ".seal", "chain.new"):
        (chain.parent / name).write_bytes(b"half")
    assert begun.lines() == before
    begun.takes("state", "new", begun.proof("proof", [EARLIER], LATER))
    assert begun.lines()[0].split(" ")[1:3] == [digest(begun.path, "new"), "2"]


# ---- Two witnesses

def test_a_site_makes_no_other_wait(begun, keys):
    """Nobody has to wait for what the proof of another site's growth takes, here one that never comes."""
    (begun.state / "allowed").write_text((begun.state / "allowed").read_text() + "south@example.org " + (keys / "stranger.pub").read_text())
    os.mkfifo(str(begun.path / "endless"))
    begun.seal("later", *LATER)
    with subprocess.Popen([os.path.join(begun.tools, "cadf-witness"), "state", "later", "endless"], cwd=begun.path, env=begun.environment,
                          stdout=subprocess.DEVNULL, stderr=subprocess.DEVNULL) as child:
        writer = writer_to(str(begun.path / "endless"), child)
        try:
            begun.signs(begun.put("south", site_seal_of("g", atoms_of(EARLIER), "day")), "stranger")
            words = [os.path.join(begun.tools, "cadf-witness"), "--first", "state", "south"]
            other = subprocess.Popen(words, cwd=begun.path, env=begun.environment, stdout=subprocess.PIPE, stderr=subprocess.PIPE)
            is_over = threading.Timer(patience.seconds(10), other.kill)
            is_over.start()
            said = other.communicate()[1]
            is_over.cancel()
            assert (other.returncode, said) == (0, b"cadf-witness: south@example.org: the first seal\n")
        finally:
            os.close(writer)
            child.kill()


def test_what_a_signature_may_cost(begun):
    """Of one of a gigabyte no more is read than a signature has."""
    with open(str(begun.path / "old.sig"), "ab") as file:
        file.truncate(2 ** 30)
    status, _, lines = begun.run("state", "old", preexec_fn=lambda: resource.setrlimit(resource.RLIMIT_AS, (2 ** 29, 2 ** 29)))
    assert (status, lines) == (0, [])


def test_two_witnesses(begun, keys, cadf):
    """One that is behind knows the other's chain by its own; of two pasts neither knows the other's last seal."""
    other = Witness(begun.path, keys, cadf, name="other")
    other.takes("--first", "other", "old")
    assert begun.lines() == other.lines()

    def compared(one, two):
        two.put("list", "".join(line + "\n" for line in two.lines()).encode())
        return one.run("--compare", "list", one.name)

    assert compared(begun, other) == compared(other, begun) == (0, ('%s same "g"\n' % SITE).encode(), [])
    begun.seal("new", *LATER)
    begun.takes("state", "new", begun.proof("proof", [EARLIER], LATER))
    unknown = ["cadf-witness: seals that are unknown here: 1; if the other witness doesn't know this one's last seal either, the site has shown two pasts"]
    assert compared(begun, other) == (0, ('%s earlier "g"\n' % SITE).encode(), [])
    assert compared(other, begun) == (5, ('%s unknown "g"\n' % SITE).encode(), unknown)
    other.seal("lie", EARLIER, DAY_LATER)
    other.takes("other", "lie", other.proof("lie.proof", [EARLIER], [EARLIER, DAY_LATER]))
    assert compared(begun, other) == compared(other, begun) == (5, ('%s unknown "g"\n' % SITE).encode(), unknown)
    for data in (b"x\n", (begun.path / "old").read_bytes()):
        begun.put("list", data)
        assert begun.run("--compare", "list", "state") == (1, b"", ["cadf-witness: list: no list, as `cadf-witness --list STATE/` writes it"])
    begun.put("list", b"")
    assert begun.run("--compare", "list", "state") == (0, b"", [])


@pytest.mark.parametrize("words, said", [
    ("state", "a SEAL is taken"), ("state a b c", "a SEAL is taken"), ("--first state a b", "a SEAL is taken"), ("--anew why state a b", "a SEAL is taken"),
    ("--list state a", "a STATE is listed or compared"), ("--compare x state a", "a STATE is listed or compared"), ("--erased x state a", "go with a PROOF"),
    ("--kept-from x --first state a", "go with a PROOF"), ("--first --list state", "not allowed with"), ("--anew  state a", "it is empty")])
def test_words(witness, words, said):
    status, output, error = witness.run(*words.split(" "))
    assert (status, output) == (2, b"") and re.search(said, error[-1])


# ---- Copies that do wrong

@pytest.mark.parametrize("check, right, wrong", [
    (test_a_seal_of_a_stranger, 'and answered(["verify", "-I", who], seal):', "and True:"),
    (test_a_seal_of_a_stranger, 'OF_THE_SITE, OF_A_WITNESS = "cadf-seal", "cadf-witness"', 'OF_THE_SITE, OF_A_WITNESS = "cadf-witness", "cadf-witness"'),
    (test_each_log_has_its_chain, '("%s\\n%s" % (who, log)).encode()', "who.encode()"),
    (test_what_is_gone_wants_a_person, "% (fault, LOOK), DIFFERS)", "% (fault, LOOK), REFUSED)"),
    (test_what_is_gone_wants_a_person, 'chain.add(data, "first" if options.first else options.anew or "")', 'chain.add(data, "")'),
    (test_a_site_that_was_restored, "        if chain.taken:\n", "        if False:\n"),
    (test_proofs_that_show_nothing, "    if not proof:\n", '    if not proof:\n        return "x"\n    if False:\n'),
    (test_no_key, "    if status:\n        raise Fault(\"%s: ssh-keygen signs", "    if False:\n        raise Fault(\"%s: ssh-keygen signs"),
    (test_a_state_that_is_damaged, "or [each and each[2] for each in found] != chain[1:]", ""),
    (test_a_state_that_is_damaged, "if hashlib.sha256(data).hexdigest() != self.taken[-1].seal:", "if False:"),
    (test_what_a_signature_may_cost, "signature.first(LONGEST_SIGNATURE)", "signature.whole()"),
    (test_a_chain, "if chain.taken and chain.last() == data:", "if False:"),
])
def test_a_wrong_version_is_caught(tmp_path, keys, cadf, check, right, wrong):
    is_caught(tmp_path, (right, wrong), check, lambda tools: beginning(Witness(tmp_path, keys, cadf, tools)))


def test_a_wrong_lock_is_caught(tmp_path, keys, cadf):
    is_caught(tmp_path, ("fcntl.LOCK_EX, 1, int(self.digits[:15], 16))", "fcntl.LOCK_EX)"), test_a_site_makes_no_other_wait,
              lambda tools: beginning(Witness(tmp_path, keys, cadf, tools)), keys)
