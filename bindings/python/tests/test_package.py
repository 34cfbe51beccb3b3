"""What needs no library: how it is found, errors, sizes, and the wheel."""
import ctypes
import io
import os
import pickle
import subprocess
import sys
import tarfile
import tempfile
import unittest
import zipfile
from unittest import mock

HERE = os.path.dirname(os.path.abspath(__file__))
PACKAGE = os.path.dirname(HERE)
sys.path.insert(0, PACKAGE)

import backend
import cadf
from cadf import _library


class Library(unittest.TestCase):
    def test_is_the_one_that_the_variable_names(self):
        with mock.patch.dict(os.environ, {_library.VARIABLE: "/somewhere/else"}):
            self.assertEqual(_library.find(), "/somewhere/else")

    def test_is_beside_the_package_or_where_the_loader_looks(self):
        with tempfile.TemporaryDirectory() as prefix, mock.patch.dict(os.environ):
            os.environ.pop(_library.VARIABLE, None)
            package = os.path.join(prefix, "lib", "python3", "site-packages", "cadf")
            os.makedirs(package)
            self.assertEqual(_library.find(package), _library.NAME)
            beside = os.path.join(package, _library.NAME)
            open(beside, "w").close()
            self.assertEqual(_library.find(package), beside)

    def test_is_in_no_folder_above_the_package(self):
        with tempfile.TemporaryDirectory() as prefix, mock.patch.dict(os.environ):
            os.environ.pop(_library.VARIABLE, None)
            package = os.path.join(prefix, "user", "venv", "lib", "python3", "site-packages", "cadf")
            os.makedirs(package)
            planted = plant_above(package, prefix)
            self.assertEqual(_library.find(package), _library.NAME)
            self.assertIn(find_above(package), planted)

    def test_that_is_not_there_is_told_in_one_line(self):
        with self.assertRaises(ImportError) as caught:
            _library.load("/nowhere/libcadf.so.0")
        self.assertIn(_library.VARIABLE, str(caught.exception))
        self.assertNotIn("\n", str(caught.exception))

    def test_whose_path_is_no_text_is_told_so_too(self):
        with self.assertRaises(ImportError) as caught:
            _library.load(os.fsdecode(b"/nowhere/\xff"))
        self.assertIn(_library.VARIABLE, str(caught.exception))

    def test_that_lacks_a_function_is_told_so_too(self):
        with self.assertRaises(ImportError) as caught:
            _library.load("libc.so.6")
        self.assertIn("cadf_show", str(caught.exception))
        self.assertIn(_library.VARIABLE, str(caught.exception))


def plant_above(package, top):
    """Puts an empty library into each folder above the package up to that one, and into its `lib`. Returns their places."""
    places = []
    while package != top:
        package = os.path.dirname(package)
        os.makedirs(os.path.join(package, "lib"), exist_ok=True)
        places += [os.path.join(package, _library.NAME), os.path.join(package, "lib", _library.NAME)]
    for place in places:
        open(place, "w").close()
    return places


def find_above(package):
    """What a wrong `find` returns: the library in the `lib` of the nearest folder above that has one."""
    while package != os.path.dirname(package):
        package = os.path.dirname(package)
        if os.path.exists(os.path.join(package, "lib", _library.NAME)):
            return os.path.join(package, "lib", _library.NAME)
    return _library.NAME


class Errors(unittest.TestCase):
    def test_name_the_input_and_the_place(self):
        for text, number, place in (
                ("input 2: line 5: shape", 2, "line 5"), ("input 1: not JSON", 1, None), ("line 3: script", None, "line 3"),
                ("no log named", None, None), ("input 12: event 3: chain 0 step 2", 12, "event 3"), ("fact 1: present", None, "fact 1"),
                ("input 1: property 3", 1, "property 3"), ("input 2: too few cells: ask for 36", 2, None)):
            error = cadf.Refused(text)
            self.assertEqual((error.input, error.place, error.text, str(error)), (number, place, text, text))

    def test_have_the_statuses_of_the_command_and_what_python_calls_them(self):
        for kind, status, also in ((cadf.Refused, 1, Exception), (cadf.WrongArgument, 2, ValueError), (cadf.Failed, 3, OSError), (cadf.OutOfMemory, 4, MemoryError)):
            error = kind("input 1: a: line 7")
            self.assertEqual((error.status, issubclass(kind, also), issubclass(kind, cadf.CadfError), kind.__module__), (status, True, True, "cadf"))
            self.assertEqual((str(error), error.text, error.input, error.place), ("input 1: a: line 7", "input 1: a: line 7", 1, None))

    def test_go_to_other_processes(self):
        error = pickle.loads(pickle.dumps(cadf.Refused("input 1: not JSON")))
        self.assertEqual((type(error), error.status, error.text, error.input), (cadf.Refused, 1, "input 1: not JSON", 1))


class Fake:
    """A library that answers with a text, and notes the room and the inputs that it was given."""

    def __init__(self, text, status=0):
        self.text, self.status, self.rooms, self.inputs = text, status, [], []

    def __getattr__(self, name):
        def function(*arguments):
            *inputs, buffer, room, length = arguments
            self.rooms.append(room)
            self.inputs.append([ctypes.string_at(each.bytes, each.length) for each in inputs if isinstance(each, _library.Bytes)])
            length._obj.value = len(self.text)
            ctypes.memmove(buffer, self.text, min(room, len(self.text)))
            return self.status
        return function


class Long:
    """A library, called as C is, whose text has that length. It writes the text's first and last three bytes alone."""

    def __init__(self, size):
        kinds = [*_library.FUNCTIONS["show"], ctypes.c_void_p, ctypes.c_size_t, ctypes.POINTER(ctypes.c_size_t)]
        self.size, self.cadf_show = size, ctypes.CFUNCTYPE(ctypes.c_int, *kinds)(self.answer)

    def answer(self, _conflicts, _input, address, room, length):
        length[0] = self.size
        if room >= self.size:
            ctypes.memmove(address, b"abc", 3)
            ctypes.memmove(address + self.size - 3, b"xyz", 3)
        return 0


def call_by_int(name, room, *arguments):
    """A wrong call: it takes the text out of its buffer by a function whose length is a C int."""
    function, length = getattr(cadf._functions(), "cadf_" + name), ctypes.c_size_t()
    function(*arguments, None, 0, ctypes.byref(length))
    buffer = cadf._new_bytes(None, length.value)
    function(*arguments, buffer, length.value, ctypes.byref(length))
    return ctypes.string_at(buffer, length.value)


class Sizes(unittest.TestCase):
    """Texts of sizes beyond a C int's. The memory of all but their ends is never touched."""

    def is_whole(self, size):
        with mock.patch.object(cadf, "_loaded", Long(size)):
            try:
                text = cadf.show("{}")
            except cadf.CadfError as error:
                self.skipTest("%d bytes: %s" % (size, error))
            except SystemError:
                return False
        return (len(text), text[:3], text[-3:]) == (size, b"abc", b"xyz")

    def test_are_right_at_the_ends_of_a_c_int(self):
        for size in (6, 2 ** 31 - 1, 2 ** 31, 2 ** 32, 2 ** 32 + 5, 2 ** 33 + 1):
            self.assertTrue(self.is_whole(size), size)
        with mock.patch.object(cadf, "_call", call_by_int):
            self.assertEqual([self.is_whole(size) for size in (6, 2 ** 31, 2 ** 32 + 5)], [True, False, False])

    def test_that_no_memory_has_are_out_of_memory(self):
        for size in (2 ** 62, 2 ** 63 - 1, 2 ** 63, 2 ** 64 - 1):
            with mock.patch.object(cadf, "_loaded", Long(size)), self.assertRaises(cadf.CadfError) as caught:
                cadf.show("{}")
            self.assertEqual((caught.exception.status, caught.exception.text), (4, "out of memory"))

    def test_of_inputs_that_no_memory_has_are_out_of_memory(self):
        byte = ctypes.c_char()
        value = memoryview((ctypes.c_char * 2 ** 62).from_address(ctypes.addressof(byte)))  # refused before a byte is read
        with self.assertRaises(cadf.OutOfMemory):
            cadf.show(value)

    def test_of_more_inputs_than_memory_has_are_out_of_memory(self):
        def endless():
            yield "{}"
            raise MemoryError  # as where the list of them can't grow

        with mock.patch.object(cadf, "_loaded", Fake(b"")), self.assertRaises(cadf.OutOfMemory):
            cadf.join(endless())
        with mock.patch.object(cadf, "_loaded", Fake(b"")), mock.patch.object(cadf, "_given", mock.Mock(side_effect=MemoryError)):
            with self.assertRaises(cadf.OutOfMemory):
                cadf.join(["{}"])

    def test_of_a_text_without_memory_for_its_copy_are_out_of_memory(self):
        with mock.patch.object(cadf, "_loaded", Fake(b"a")), mock.patch.object(cadf, "_new_bytes", lambda _, size: Uncopied(size)):
            with self.assertRaises(cadf.OutOfMemory):
                cadf.show("{}")


class Uncopied(bytes):
    """Bytes of which no part can be copied."""

    def __getitem__(self, _):
        raise MemoryError


class LongBytes(bytes):
    """Bytes that tell a length that they don't have."""

    def __len__(self):
        return 1000

    def __bytes__(self):
        return self


class SmallNumber(int):
    """A number that says of itself that it is in each range."""

    __ge__ = __gt__ = __le__ = __lt__ = lambda *_: True

    def __rmul__(self, _):
        return 2 ** 63


class LongText(str):
    """A text whose UTF-8 tells a length that it doesn't have."""

    def encode(self, *_):
        return LongBytes(b"{}")


class Inputs(unittest.TestCase):
    def given(self, value):
        with mock.patch.object(cadf, "_loaded", Fake(b"")) as fake:
            cadf.show(value)
        return fake.inputs

    def test_are_as_long_as_they_are(self):
        for value in (LongBytes(b"{}"), LongText("{}"), bytearray(b"{}"), memoryview(b"{ }")[::2], memoryview(LongBytes(b"{}"))):
            self.assertEqual(self.given(value), [[b"{}"]])
        with mock.patch.object(cadf, "_of", lambda value: value.encode() if isinstance(value, str) else bytes(value)):
            for value in (LongBytes(b"{}"), LongText("{}")):  # the wrong version
                self.assertEqual(len(cadf._of(value)), 1000)

    def test_that_were_released_are_none(self):
        view = memoryview(b"{}")
        view.release()
        for call, value in ((cadf.show, view), (cadf.join, ["{}", view])):
            with self.assertRaisesRegex(TypeError, "^an input is bytes or a text, not a view that was released"):
                call(value)

    def test_of_bytes_are_not_copied(self):
        value = bytes(range(256))
        self.assertIs(cadf._of(value), value)

    def test_with_half_of_a_pair_go_to_the_library_which_refuses_them(self):
        self.assertEqual(self.given("\ud800"), [[b"\xed\xa0\x80"]])


class Calls(unittest.TestCase):
    def test_ask_again_for_a_text_that_does_not_fit(self):
        for size, rooms in ((0, 1), (4096 + 2, 1), (4096 + 3, 2), (100000, 2)):
            fake = Fake(b"x" * size)
            with mock.patch.object(cadf, "_loaded", fake):
                self.assertEqual(cadf.show(b"a"), fake.text)
            self.assertEqual(len(fake.rooms), rooms)

    def test_have_one_buffer_at_a_time(self):
        given, freed = [], []

        class Buffer(bytes):
            def __del__(self):
                freed.append(len(self))

        def new_bytes(_, size):
            given.append(size)
            self.assertEqual(freed, given[:-1])
            return Buffer(size)

        with mock.patch.object(cadf, "_loaded", Fake(b"x" * 100000)), mock.patch.object(cadf, "_new_bytes", new_bytes):
            self.assertEqual(cadf.show(b"a"), b"x" * 100000)
        self.assertEqual(given, [4096 + 2, 100000])

    def test_raise_what_is_refused(self):
        for text, status, kinds in (
                (b"input 1: not JSON", 1, (cadf.Refused, cadf.CadfError)), (b"letter", 2, (cadf.WrongArgument, ValueError)),
                (b"out of memory", 4, (cadf.OutOfMemory, MemoryError)), (b"", 4, (cadf.OutOfMemory, cadf.CadfError))):
            for kind in kinds:
                with mock.patch.object(cadf, "_loaded", Fake(text, status)), self.assertRaises(kind) as caught:
                    cadf.inventory("{")
                self.assertEqual((caught.exception.status, caught.exception.text), (status, text.decode() or "out of memory"))

    def test_read_the_line_of_a_check(self):
        with mock.patch.object(cadf, "_loaded", Fake(b'ok "a \\u0001\\" atoms 1" atoms 3 conflicts 1\n')):
            self.assertEqual(cadf.check("{}"), cadf.Check('a \x01" atoms 1', 3, 1))

    def test_hand_on_an_empty_log_as_no_name(self):
        for log, given in ((None, b""), ("", b"\0"), (b"", b"\0"), ("g", b"g")):
            with mock.patch.object(cadf, "_loaded", Fake(b"")) as fake:
                cadf.join(["{}"], log)
                cadf.split("week", ["{}"], log)  # the library refuses the unit first
            self.assertEqual(fake.inputs, [[given], [b"week", given]])

    def test_hand_on_a_number_as_it_is(self):
        self.assertEqual([cadf._whole(SmallNumber(value), "cells") for value in (-1, 3, 2 ** 64 - 1, 2 ** 64 + 3)], [0, 3, 2 ** 64 - 1, 0])
        with mock.patch.object(cadf, "_loaded", Fake(b"")) as fake:
            cadf.sketch("{}", cells=SmallNumber(3))
        self.assertEqual(fake.rooms, [4096 + 81 * 3])

    def test_take_bytes_and_texts_alone(self):
        for wrong in (1, None, ["{}"], {"id": "g"}):
            with self.assertRaises(TypeError):
                cadf.check(wrong)
        for wrong in ("{}", b"{}"):
            with self.assertRaises(TypeError):
                cadf.join(wrong)
        for wrong in ("1", 1.0, True):
            with mock.patch.object(cadf, "_loaded", Fake(b"")), self.assertRaises(TypeError):
                cadf.rule("E", "k", wrong, "{}")
        for wrong in (None, [], 69, {"E": 1}):
            with mock.patch.object(cadf, "_loaded", Fake(b"letter", 2)), self.assertRaisesRegex(TypeError, "^an input is"):
                cadf.rule(wrong, "k", 1, "{}")


class Wheel(unittest.TestCase):
    def test_has_the_package_and_the_same_bytes_each_time(self):
        for library in (None, b"library"):
            with tempfile.TemporaryDirectory() as first, tempfile.TemporaryDirectory() as second:
                name = backend.write_wheel(first, library)
                self.assertEqual(name, backend.write_wheel(second, library))
                paths = [os.path.join(folder, name) for folder in (first, second)]
                with open(paths[0], "rb") as one, open(paths[1], "rb") as other:
                    self.assertEqual(one.read(), other.read())
                with zipfile.ZipFile(paths[0]) as archive:
                    files = {name: archive.read(name) for name in archive.namelist()}
            self.assertTrue({"cadf/__init__.py", "cadf/_library.py", "cadf/_site.py", "cadf/py.typed", "cadf-0.1.0.dist-info/RECORD"} <= set(files))
            self.assertEqual(files.get("cadf/" + _library.NAME), library)
            fields, description = files["cadf-0.1.0.dist-info/METADATA"].decode().split("\n\n", 1)
            self.assertLessEqual({"Name", "Summary", "Author", "Requires-Python"}, {line.split(":")[0] for line in fields.splitlines()})
            self.assertIn("Version: 0.1.0", fields.splitlines())
            self.assertIn("import cadf", description)

    def test_is_for_the_c_library_that_the_carried_one_asks_for(self):
        for text, tag in ((b"x", "2_5"), (b"\0GLIBC_2.2.5\0GLIBC_2.14\0libc.so.6\0", "2_14"), (b"\0GLIBC_2.34\0GLIBC_2.4\0", "2_34"), (b"xGLIBC_2.34\0", "2_5")):
            with tempfile.TemporaryDirectory() as folder:
                self.assertEqual(backend.write_wheel(folder, text), "cadf-0.1.0-py3-none-manylinux_%s_x86_64.whl" % tag)

    def made(self, is_here, built, settings=None):
        """What is made of what pip asks for; what is told, where nothing is made."""
        with tempfile.TemporaryDirectory() as folder, mock.patch.multiple(backend, _built=mock.Mock(side_effect=[built]), _is_here=lambda: is_here):
            try:
                name = backend.build_wheel(folder, settings)
            except SystemExit as why:
                self.assertEqual(os.listdir(folder), [])
                return str(why)
            self.assertEqual(os.listdir(folder), [name])
            return name

    def test_that_lacks_a_library_is_not_made_and_says_what_to_do(self):
        lacking = OSError("there is no archive")
        self.assertIn("manylinux", self.made(False, b"library"))
        self.assertIn("-any", self.made(True, lacking))
        self.assertIn("-any", self.made(False, lacking, {"library": "none"}))
        for why in (lacking, subprocess.CalledProcessError(1, "gcc"), SystemExit("the kit isn't on PATH")):
            told = self.made(False, why)
            for said in (str(why), "build/library", "CADF_LIBRARY", "--config-settings library=none"):
                self.assertIn(said, told)

    def test_asks_for_a_library_as_the_package_does(self):
        with mock.patch.dict(os.environ, {_library.VARIABLE: "/nowhere/libcadf.so.0"}):
            self.assertFalse(backend._is_here())

    def test_of_a_folder_apart_says_where_a_library_is_made(self):
        with mock.patch.object(backend, "TOP", "/nowhere"), self.assertRaisesRegex(OSError, "isn't in the repository"):
            backend._built()


class Source(unittest.TestCase):
    def test_has_what_builds_the_wheel_and_the_same_bytes_each_time(self):
        made = []
        for now in (10 ** 9, 10 ** 9 + 1):
            with tempfile.TemporaryDirectory() as folder, mock.patch("time.time", lambda: now):
                name = backend.build_sdist(folder)
                self.assertEqual(os.listdir(folder), [name])
                with open(os.path.join(folder, name), "rb") as file:
                    made.append(file.read())
        self.assertEqual(made[0], made[1])
        with tarfile.open(fileobj=io.BytesIO(made[0])) as archive:
            files = {file.name: file for file in archive}
            self.assertIn("Name: cadf\n", archive.extractfile("cadf-0.1.0/PKG-INFO").read().decode())
        self.assertLessEqual({"cadf-0.1.0/" + each for each in ("pyproject.toml", "backend.py", "cadf/__init__.py", "cadf/py.typed")}, set(files))
        self.assertEqual({(file.mtime, file.uid, file.uname, file.mode) for file in files.values()}, {(0, 0, "", 0o644)})


if __name__ == "__main__":
    unittest.main()
