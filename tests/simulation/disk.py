"""What a power cut leaves of a machine's disk: what was synced, and by chance some of what was not.

A name is there from the sync of its folder on, and what a file holds from its own. A rename, a link or a removal that came later is
there as a whole or not at all, in no order but that of one file's; of a file as many bytes as chance has it. Folders stay. SQLite syncs
an index by itself, unseen: it stays or goes. What is in tmp/ goes.
"""
import collections
import os
import shutil
import stat

INDEX = ".index"
TMP = "tmp"


def read(path):
    with open(path, "rb") as file:
        return file.read()


def tree(root):
    """The files of a disk: by folder and name the number of each, and by number what it holds and its mode."""
    folders, files = {}, {}
    for at, inner, names in os.walk(root):
        if at == root:
            inner[:] = sorted(set(inner) - {TMP})
        folders[at] = {name: os.lstat(os.path.join(at, name)).st_ino for name in names}
        for name, number in folders[at].items():
            path = os.path.join(at, name)
            files[number] = read(path), stat.S_IMODE(os.lstat(path).st_mode)
    return folders, files


class PowerCut:
    """The disk as a cut leaves it. Numbers of files that went are used again, so each file is known by its number and how many had it before."""

    def __init__(self, root, before, chance):
        self.root, self.chance, self.likely = root, chance, chance.choice([0, 0.5, 0.5, 1])  # that what wasn't synced is there
        self.uses, self.later = collections.Counter(), []
        self.names = {folder: {name: (number, 0) for name, number in names.items()} for folder, names in before[0].items()}
        self.synced = {(number, 0): data for number, (data, _) in before[1].items()}

    def known(self, number):
        return number, self.uses[number]

    def hear(self, kind, *words):
        """Follows a call."""
        if kind == "content":
            self.synced[self.known(words[0])] = words[1]
        elif kind == "names":
            self.sync_names(*words)
        else:
            self.change(kind, *words)

    def holding(self, folder):
        """The files of a folder, by name, as a cut may leave it now: what they held when they were synced."""
        names = {folder: dict(self.names.get(folder, {}))}
        for each in self.chosen():
            self.apply(each, names)
        return {name: self.synced.get(known, b"") for name, known in names[folder].items()}

    def sync_names(self, folder, names):
        """All that was done in a folder is on the disk, also of renames that have their other end elsewhere."""
        for each in [each for each in self.later if folder in map(os.path.dirname, each[2:])]:
            self.later.remove(each)
            self.apply(each, self.names)
        self.names[folder] = {name: self.known(number) for name, number in names.items() if not os.path.isdir(os.path.join(folder, name))}

    def change(self, kind, own, other=(None, None, 0)):
        path, number, count = own
        if number is None or kind == "os.link" and other[1] is not None:
            return  # it failed
        self.later.append((kind, self.known(number), path, *([other[0]] if other[0] else [])))
        if kind == "os.remove" and count == 1:
            self.uses[number] += 1
        elif kind == "os.rename" and other[2] == 1:
            self.uses[other[1]] += 1

    def apply(self, change, names):
        kind, known, path, *other = change
        folder = names.setdefault(os.path.dirname(path), {})
        if kind != "os.link" and folder.get(os.path.basename(path)) == known:
            del folder[os.path.basename(path)]
        for path in other:
            names.setdefault(os.path.dirname(path), {})[os.path.basename(path)] = known

    def chosen(self):
        """What is there of what wasn't synced, by chance; and what came before of the same file."""
        chosen = [each for each in self.later if self.likes()]
        return [each for at, each in enumerate(self.later) if any(each[1] == later[1] and later in chosen for later in self.later[at:])]

    def likes(self):
        return self.chance.random() < self.likely

    def leave(self):
        """Has the disk hold what the cut leaves."""
        folders, files = tree(self.root)
        files = {self.known(number): each for number, each in files.items()}
        for each in self.chosen():
            self.apply(each, self.names)
        here = {known for names in self.names.values() for known in names.values()}
        for folder, names in folders.items():
            own = self.names.setdefault(folder, {})
            for name, number in names.items():
                known = self.known(number)
                if name.startswith(INDEX) and self.chance.random() < 0.5 or name not in own and known not in here and self.likes():
                    own[name] = known
        for folder in folders:
            self.put(folder, {name: (self.left(known, *files.get(known, (b"", 0o600)), name), files.get(known, (b"", 0o600))[1])
                              for name, known in self.names[folder].items() if not name.startswith(INDEX) or name in folders[folder]})
        shutil.rmtree(os.path.join(self.root, TMP))
        os.mkdir(os.path.join(self.root, TMP))

    def left(self, known, data, _, name):
        """What a file holds after the cut, which held this before it."""
        synced = self.synced.get(known)
        if synced == data or name.startswith(INDEX):
            return data
        if synced is None:
            return self.chance.choice([b"", data[:self.chance.randrange(len(data) + 1)], bytes(len(data)), data if self.likely else b""])
        more = data[len(synced):] if data.startswith(synced) and self.likely else b""
        return synced + more[:self.chance.randrange(len(more) + 1)]

    def put(self, folder, wanted):
        """Has a folder have these files, and no others."""
        for name in os.listdir(folder):
            path = os.path.join(folder, name)
            if not os.path.isdir(path) or os.path.islink(path):
                os.unlink(path)
        for name, (data, mode) in wanted.items():
            path = os.path.join(folder, name)
            with open(path, "wb") as file:
                file.write(data)
            os.chmod(path, mode)
