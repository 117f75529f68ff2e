"""Tests of the package hlr over the library that HLR_LIBRARY has: every call, every refusal that can be caused, wrong
arguments, threads, many registers, and where the library is looked for."""
import copy
import doctest
import hashlib
import inspect
import io
import os
import pathlib
import random
import re
import shutil
import subprocess
import sys
import tempfile
import threading
import typing
import unittest

import hlr
import hlr.library
import hlr.records
import hlr.refusals
import hlr.register
from hlr import Access, Facility, Forwarding, Part, Region, Register, Side, Subscriber

PYTHON = pathlib.Path(__file__).resolve().parent.parent
CRATES = PYTHON.parent / "crates"
HEADER = CRATES / "hlr_c" / "hlr.h"
END = 16777217
UNTOLD = "what it was built from isn't told\n"
#: Calls that open or close a register, and those with a descriptor, which have no method of their own. The package leaves
#: out the calls hlr_tape_.., with which a program in C writes a journal in a way of its own.
UNTOLD_CALLS = {"hlr_open", "hlr_file_open", "hlr_close", "hlr_file_close", "hlr_journal", "hlr_snapshot",
                "hlr_journal_end"}


def load_tests(_loader, tests, _pattern):
    """The doctests belong to these tests."""
    for module in (hlr, hlr.records, hlr.register):
        tests.addTests(doctest.DocTestSuite(module))
    return tests


def python(*words, **more):
    """Runs Python with the package, and tells what it prints and how it ends."""
    environment = {**os.environ, "PYTHONPATH": str(PYTHON), "PYTHONDONTWRITEBYTECODE": "1", **more}
    environment = {name: value for name, value in environment.items() if value is not None}
    ended = subprocess.run([sys.executable, *words], env=environment, cwd="/", stdout=subprocess.PIPE,
                           stderr=subprocess.PIPE, universal_newlines=True, timeout=60)
    return ended.returncode, ended.stdout, ended.stderr


def filled(**options):
    """A register with the subscriber 7, of number 77, with an access, a facility and a forwarding."""
    register = Register(**options)
    register.add_subscriber(Subscriber(7, 77, vlr_location=268435456))
    register.add_access(Access(7, 1))
    register.add_facility(Facility(7, 2))
    register.insert_forwarding(77, 2, 8, 16, 100)
    return register


def method(name):
    """The method of a call of hlr.h, by its name there without hlr_."""
    if name == "home":
        return Part.home
    if name == "file_snapshot":
        return Register.snapshot
    return getattr(Part, name[len("part_"):]) if name.startswith("part_") else getattr(Register, name)


class Alike(unittest.TestCase):
    """What the package says again is what its sources say."""

    def test_version(self):
        source = (CRATES / "hlr" / "src" / "options.rt").read_text()
        self.assertEqual(hlr.__version__, re.search(r'^const VERSION: &str = "(.*)";$', source, re.M).group(1))

    def test_codes(self):
        told = dict(re.findall(r"^    HLR_([A-Z_]+) = (\d+)[, ]", HEADER.read_text(), re.M))
        self.assertEqual({each.name: str(int(each)) for each in hlr.Code}, told)
        self.assertEqual(set(hlr.refusals.BY_CODE), {int(code) for code in told.values()} - {0})
        for code, refused in hlr.refusals.BY_CODE.items():
            self.assertIs(getattr(hlr, refused.__name__), refused)
            self.assertEqual(hlr.Code(code).name, re.sub(r"(?<!^)([A-Z])", r"_\1", refused.__name__).upper())
        self.assertIsInstance(hlr.refusals.refusal(99, "post"), RuntimeError)

    def test_calls(self):
        types = {"uint64_t": "c_ulong", "size_t": "c_ulong", "uint8_t": "c_ubyte", "int32_t": "c_int",
                 "hlr_access_asked": "AccessAsked", "hlr_destination_asked": "DestinationAsked",
                 "hlr_subscriber": "SubscriberRow", "hlr_access": "AccessRow",
                 "hlr_facility": "FacilityRow", "hlr_forwarding_row": "ForwardingRow", "hlr_numbers": "Numbers", "hlr_region": "RegionRow",
                 "hlr_region_list": "RegionList", "hlr_bounds": "Bounds", "hlr": "Handle",
                 "hlr_part": "PartHandle", "hlr_file": "FileHandle"}
        told = re.findall(r"^uint8_t (hlr_(?!tape_)[a-z_]+)\(([^)]*)\);", HEADER.read_text(), re.M)
        self.assertEqual(len(told), 63)
        library = hlr.library.library()
        for name, parameters in told:
            wanted = []
            for parameter in parameters.split(","):
                base, star = re.fullmatch(r"\s*(?:const )?(\w+) (\*?)\w+(?:\[HLR_CELLS\])?", parameter).groups()
                if parameter.endswith("[HLR_CELLS]"):
                    wanted.append({"int64_t": "LP_c_long_Array_72", "uint64_t": "LP_c_ulong_Array_72"}[base])
                elif base == "char":
                    wanted.append("c_char_p")
                else:
                    wanted.append(("LP_" if star else "") + types[base])
            self.assertEqual([each.__name__ for each in getattr(library, name).argtypes], wanted, name)
            if name not in UNTOLD_CALLS:
                self.assertTrue(callable(method(name[len("hlr_"):])))

    def test_refusals(self):
        told = re.findall(r"^ \* Refusals: ([A-Z_, ]+|none)\n \*/\nuint8_t hlr_((?!tape_)[a-z_]+)\(", HEADER.read_text(), re.M)
        self.assertEqual(len(told), 63)
        for refusals, name in told:
            if "hlr_" + name not in UNTOLD_CALLS:
                text = " ".join(inspect.getdoc(method(name)).split())
                said = re.search(r"Raises ((?:\w+, )*\w+)[.;]", text)
                names = [getattr(hlr, each).code.name for each in said.group(1).split(", ")] if said else ["none"]
                if name == "lend":
                    refusals = refusals.replace("STILL_OPEN, ", "")  # each lend makes a handle
                if name == "file_snapshot":
                    refusals = "NO_JOURNAL, " + refusals  # a register without a journal has no file
                self.assertEqual(", ".join(names), refusals, name)

    def test_hints(self):
        for name, call in [*vars(Register).items(), *vars(Part).items()]:
            if not name.startswith("_"):
                self.assertTrue(inspect.getdoc(call), name)
                self.assertEqual(set(typing.get_type_hints(call)) - {"return"},
                                 set(inspect.signature(call).parameters) - {"self"}, name)
                self.assertIn("return", typing.get_type_hints(call), name)


class Calls(unittest.TestCase):
    """Every call once, and what it does."""

    def test_rows(self):
        row = Subscriber(16777216, 10 ** 15 - 1, bytes([0, 1] * 5), bytes(range(6, 16)), bytes(range(246, 256)),
                         4294967295, 3)
        access = Access(16777216, 4, 255, 1, "ABC", "VWXYZ")
        with Register() as register:
            register.add_subscriber(row)
            register.add_access(access)
            self.assertEqual(register.subscriber_data(16777216), row)
            self.assertEqual(register.access_data(16777216, 4), access)

    def test_events(self):
        with filled() as register:
            self.assertEqual(register.new_destination(7, 2, 8, 12), [100])
            register.insert_forwarding(77, 2, 0, 24, 10 ** 15 - 1)
            self.assertEqual(register.new_destination(7, 2, 16, 12), [10 ** 15 - 1, 100])
            register.delete_forwarding(77, 2, 0)
            self.assertEqual(register.new_destination(7, 2, 16, 12), [100])
            register.update_subscriber(7, 2, 1, 255)
            self.assertEqual(register.subscriber_data(7).bits, bytes([1] + [0] * 9))
            register.update_location(77, 4294967295)
            self.assertEqual(register.subscriber_data(7).vlr_location, 4294967295)
            register.set_number(7, 78)
            self.assertEqual(register.subscriber_data(7).sub_nbr, 78)
            register.set_active(7, 2, False)
            self.assertRaises(hlr.NoDestination, register.new_destination, 7, 2, 8, 12)
            register.set_active(7, 2, True)
            self.assertEqual(register.new_destination(7, 2, 8, 12), [100])

    def test_written(self):
        with filled(parts=2, width=4) as register:
            self.assertEqual((register.find(77), register.facility_data(7, 2), register.forwarding(7, 2, 8)),
                             (7, Facility(7, 2), (16, 100)))
            register.give(0, Side.HIGH, 5)
            self.assertEqual(register.next_subscriber(0), Subscriber(7, 77, vlr_location=268435456))
            self.assertRaises(hlr.NoSubscriber, register.next_subscriber, 8)
            self.assertRaises(hlr.Moving, register.facility_data, 7, 2)
            self.assertRaises(hlr.NoNumber, register.find, 78)
            self.assertRaises(hlr.Moving, register.accesses, 7)

    def test_listed(self):
        with filled(parts=2, width=4) as register:
            register.add_subscriber(Subscriber(16777216, 1))
            register.add_access(Access(7, 4))
            register.insert_forwarding(77, 2, 16, 17, 101)
            self.assertEqual([row.s_id for row in register.subscribers()], [7, 16777216])
            self.assertEqual([row.s_id for row in register.subscribers(8)], [16777216])
            self.assertEqual(register.accesses(7), [Access(7, 1), Access(7, 4)])
            self.assertEqual(register.facilities(7), [Facility(7, 2)])
            self.assertEqual(register.forwardings(7, 2), [(8, 16, 100), (16, 17, 101)])
            self.assertEqual((register.accesses(8), register.facilities(8), register.forwardings(7, 1)), ([], [], []))
            self.assertRaises(hlr.Field, register.accesses, 0)
            self.assertEqual(list(register.accesses()), [Access(7, 1), Access(7, 4)])
            self.assertEqual(list(register.facilities()), [Facility(7, 2)])
            self.assertEqual(list(register.forwardings()), [Forwarding(7, 2, 8, 16, 100), Forwarding(7, 2, 16, 17, 101)])
            self.assertRaises(TypeError, register.forwardings, 7)
            self.assertEqual(register.width(), 4)
            with register.lend(0):
                self.assertEqual(register.width(), 4)
                for rows in (register.subscribers, register.accesses, register.facilities, register.forwardings):
                    self.assertRaises(hlr.Away, list, rows())
                file = io.StringIO()
                self.assertRaises(hlr.Away, hlr.save, register, file)
                self.assertEqual(file.getvalue(), "")

    def test_pages(self):
        """An iterator shows each row once, whatever falls at the border of two pages, two parts or a loose piece."""
        with hlr.Register(parts=3, width=30) as register:
            for count in (0, 1, 255, 256, 257, 700):
                for s_id in range(len(list(register.subscribers())) + 1, count + 1):
                    register.add_subscriber(Subscriber(s_id, s_id))
                    for kind in range(1 + s_id % 4, 5):
                        register.add_access(Access(s_id, kind))
                        register.add_facility(Facility(s_id, kind))
                        register.insert_forwarding(s_id, kind, 8 * (s_id % 3), 24, s_id)
                typed = [(s_id, kind) for s_id in range(1, count + 1) for kind in range(1 + s_id % 4, 5)]
                self.assertEqual([row.s_id for row in register.subscribers()], list(range(1, count + 1)))
                self.assertEqual([(row.s_id, row.ai_type) for row in register.accesses()], typed)
                self.assertEqual([(row.s_id, row.sf_type) for row in register.facilities()], typed)
                self.assertEqual(list(register.forwardings()),
                                 [Forwarding(s_id, kind, 8 * (s_id % 3), 24, s_id) for s_id, kind in typed])
            register.give(0, Side.HIGH, 256)
            self.assertEqual([row.s_id for row in register.subscribers(250)], list(range(250, 701)))
            for room in (0, 1, 2):
                self.assertEqual([row.s_id for row in register.next_subscribers(255, room)], [255, 256][:room])
            for key in ((701,), (16777217,), ((1 << 64) - 1,)):
                self.assertEqual(register.next_subscribers(*key), [])
            self.assertEqual(register.next_accesses(700, 5, 1), [])
            self.assertEqual(register.next_facilities(699, (1 << 64) - 1, 1), [Facility(700, 1)])
            self.assertEqual(register.next_forwardings(699, 4, (1 << 64) - 1, 1), [Forwarding(700, 1, 8, 24, 700)])
            self.assertRaises(hlr.Field, register.next_subscribers, 1, -1)
            self.assertRaises(hlr.Field, register.next_subscribers, 1 << 64)

    def test_many(self):
        def one(call, *asked):
            try:
                return call(*asked)
            except hlr.Refused as refused:
                return type(refused), str(refused)

        def same(many, call, asked):
            told = [(type(it), str(it)) if isinstance(it, hlr.Refused) else it for it in many(asked)]
            self.assertEqual(told, [one(call, *(it if isinstance(it, tuple) else (it,))) for it in asked])

        with filled(parts=2, width=4) as register:
            register.add_subscriber(Subscriber(70, 70))
            register.give(1, Side.HIGH, 71)
            same(register.subscriber_data_many, register.subscriber_data, [7, 0, 70, 71, 8, 7, 16777217])
            same(register.access_data_many, register.access_data, [(7, 1), (7, 2), (7, 5), (0, 1), (71, 1)])
            same(register.new_destination_many, register.new_destination, [(7, 2, 8, 12), (7, 2, 8, 16), (7, 2, 1, 9)])
            self.assertEqual(register.subscriber_data_many([]), [])
            self.assertRaises(hlr.Field, register.subscriber_data_many, [7, 1 << 64])
            self.assertRaises(TypeError, register.subscriber_data_many, [7, "7"])
            self.assertRaises(TypeError, register.access_data_many, [(7, 1, 1)])
            with register.lend(0) as part:
                same(part.subscriber_data_many, part.subscriber_data, [7, 0, 70, 71, 8, 7, 16777217])
                same(part.access_data_many, part.access_data, [(7, 1), (7, 2), (7, 5), (0, 1), (71, 1)])
                same(part.new_destination_many, part.new_destination, [(7, 2, 8, 12), (7, 2, 8, 16), (7, 2, 1, 9)])
                self.assertRaises(hlr.Field, part.subscriber_data_many, [7, -1])

    def test_counts(self):
        with filled(width=4) as register:
            counts = [0] * 72
            for cell, count in [*((hour, 1) for hour in range(8, 16)), (25, 1), (41, 4)]:
                counts[cell] = count
            self.assertEqual(register.views(), ([0] * 72, counts))
            self.assertEqual(register.scan(), counts)
            self.assertEqual(register.post(0, 3), 3)
            self.assertEqual(register.post(0), 7)
            self.assertEqual(register.views(), (counts, [0] * 72))
            register.update_location(77, 1)
            cells = list(register.cells())
            self.assertEqual(cells[25], hlr.Cell(25, hlr.Kind.AREA, "area 1", 1, -1))
            self.assertEqual([cell.number for cell in cells], list(range(hlr.CELLS)))
            self.assertEqual([cells[at].name for at in (0, 23, 24, 39, 40, 71)],
                             ["hour 0", "hour 23", "area 0", "area 15", "zone 0", "zone 31"])

    def test_parts(self):
        with filled(parts=2, width=4) as register:
            self.assertEqual(register.regions(), [Region(1, 65, False, 0), Region(65, END, False, 1)])
            self.assertEqual(register.give(0, Side.HIGH, 5), Region(5, 65, True, 1))
            register.take(1, 1)
            self.assertEqual(register.give(1, Side.LOW, 6), Region(5, 6, True, 1))
            register.take(1, 0)
            self.assertEqual(register.divide(1, 100), Region(100, END, False, 2))
            self.assertEqual(register.dissolve(2), Region(6, END, False, 1))
            register.post(0), register.post(1)
            self.assertEqual(register.propose(), [9])
            self.assertEqual(register.recut((9,)), 1)
            self.assertEqual(register.regions(), [Region(1, 9, False, 0), Region(9, END, False, 1)])

    def test_lent(self):
        with filled(parts=2, width=4) as register:
            register.add_subscriber(Subscriber(70, 70))
            with register.lend(0) as part:
                self.assertEqual(part.range(), (1, 65))
                part.add_access(Access(7, 2))
                part.add_facility(Facility(7, 3))
                part.insert_forwarding(7, 3, 0, 24, 5)
                part.update_subscriber(7, 3, 1, 9)
                part.update_location(7, 1)
                part.set_active(7, 2, False)
                part.delete_forwarding(7, 2, 8)
                self.assertEqual(part.access_data(7, 2), Access(7, 2))
                self.assertEqual(part.new_destination(7, 3, 8, 12), [5])
                self.assertEqual(part.subscriber_data(7).vlr_location, 1)
                self.assertEqual(register.look(), [0] * 72)
                part.post()
                register.update_location(70, 1 << 28)
                self.assertEqual(register.look()[:26], [1] * 24 + [1, 0])
            self.assertRaises(hlr.NotOpen, part.post)
            self.assertRaises(hlr.Away, register.subscriber_data, 7)
            register.back(0)
            register.back(0)
            self.assertEqual(register.subscriber_data(7).vlr_location, 1)
            self.assertEqual([sum(both) for both in zip(*register.views())], register.scan())
            left = register.lend(1)
        self.assertEqual(left.subscriber_data(70).vlr_location, 1 << 28)
        del left

    def test_mixed(self):
        chance = random.Random(7)
        with Register(parts=4, width=32) as register:
            for s_id in range(1, 1001):
                register.add_subscriber(Subscriber(s_id, s_id, vlr_location=chance.randrange(1, 1 << 32)))
                register.add_facility(Facility(s_id, 1 + s_id % 4, is_active=chance.random() < 0.9))
            for _ in range(5000):
                number = chance.randrange(1, 1001)
                try:
                    chance.choice([
                        lambda: register.update_location(number, chance.randrange(1, 1 << 32)),
                        lambda: register.insert_forwarding(number, 1 + number % 4, chance.choice((0, 8, 16)),
                                                           chance.randrange(1, 25), 5),
                        lambda: register.delete_forwarding(number, 1 + number % 4, 8),
                        lambda: register.set_active(number, 1 + number % 4, chance.random() < 0.5),
                        lambda: register.post(number % 4, number % 9),
                    ])()
                except (hlr.Exists, hlr.NoForwarding, hlr.Field):
                    pass
            self.assertEqual([cell.published + cell.unposted for cell in register.cells()], register.scan())


class Saved(unittest.TestCase):
    """All rows as records, and back."""

    RECORDS = """\
sub,1,000000000000000,0000000000,0000000000,00000000000000000000,1,1
sub,7,000000000000077,1010101010,0123456789,000102030405060708ff,4294967295,268435456
acc,7,1,0,255,ABC,VWXYZ
acc,7,4,1,2,AAA,AAAAA
fac,7,1,1,0,0,AAAAA
fac,7,2,0,255,3,ZZZZZ
icf,000000000000077,2,0,1,000000000000100
icf,000000000000077,2,8,24,999999999999999
icf,000000000000077,2,16,9,000000000000000
sub,16777216,999999999999999,1111111111,ffffffffff,ffffffffffffffffffff,1,4294967295
"""

    @staticmethod
    def saved(register):
        file = io.StringIO()
        return hlr.save(register, file), file.getvalue()

    def test_back(self):
        with hlr.load(io.StringIO(self.RECORDS), parts=3, width=9) as register:
            self.assertEqual(register.recut([10, 16777216]), 2)
            self.assertEqual(self.saved(register), (10, self.RECORDS))
            with hlr.load(io.StringIO(self.saved(register)[1]), width=9) as again:
                self.assertEqual(again.scan(), register.scan())
        with hlr.load([]) as register:
            self.assertEqual(self.saved(register), (0, ""))

    def test_spelled(self):
        spelled = ['\n', '"sub",007,000000000000077,1000000000,0123456ABC,"000102030405060708FF",1,"2"\r\n', "\n"]
        with hlr.load(spelled) as register:
            self.assertEqual(self.saved(register),
                             (1, "sub,7,000000000000077,1000000000,0123456abc,000102030405060708ff,1,2\n"))

    def test_refused(self):
        sub = "sub,7,000000000000077,1000000000,0123456789,000102030405060708ff,1,2\n"
        for wrong, refused in (("acc,8,1,0,0,ABC,VWXYZ", hlr.NoSubscriber), ("acc,7,5,0,0,ABC,VWXYZ", hlr.Field),
                               ("acc,7,+1,0,0,ABC,VWXYZ", hlr.Field), ("acc,7,1,0,0,ABCD,VWXYZ", hlr.Field),
                               ("icf,77,1,0,1,000000000000100", hlr.Field), (sub, hlr.Exists),
                               ("icf,000000000000077,1,0,1,000000000000100", hlr.NoFacility),
                               (sub.replace("1000000000,", "1_00000000,"), hlr.Field),
                               (sub.replace("1000000000,", "a000000000,"), hlr.Field),
                               (sub.replace(",0001", ", 001"), hlr.Field), ("sub,7", ValueError),
                               ("gsd,7", ValueError)):
            with self.assertRaises(refused, msg=wrong) as caught:
                hlr.load([sub, wrong])
            self.assertRegex(str(caught.exception), "^line 2: ")

    def test_loose(self):
        with hlr.load(io.StringIO(self.RECORDS), parts=2, width=4) as register:
            register.give(0, Side.HIGH, 5)
            register.give(1, Side.HIGH, 16777216)
            self.assertRaises(hlr.Moving, register.facilities, 7)
            self.assertEqual(self.saved(register), (10, self.RECORDS))


class Journal(unittest.TestCase):
    """Registers whose rows are kept in a file."""

    def setUp(self):
        folder = tempfile.TemporaryDirectory()
        self.addCleanup(folder.cleanup)
        self.path = os.path.join(folder.name, "rows.journal")

    def rows(self, **options):
        """The s_ids and the locations that the file has."""
        with Register(journal=self.path, **options) as register:
            return [(row.s_id, row.vlr_location) for row in register.subscribers()]

    def child(self, text):
        """Runs Python on the file, and tells what it prints and how it ends."""
        return python("-c", "import os, resource, hlr\n" + text, HLR_TEST_JOURNAL=self.path)

    def test_kept(self):
        with filled(journal=self.path, parts=2, width=4) as register:
            self.assertEqual(register.unsynced(), 44 + 19 + 17 + 21)
            before = register.scan()
        with Register(journal=self.path, parts=2, width=4) as register:
            self.assertEqual((register.scan(), register.unsynced(), register.width()), (before, 0, 4))
            self.assertEqual(register.access_data(7, 1), Access(7, 1))
            self.assertEqual(register.new_destination(7, 2, 8, 12), [100])
            register.update_subscriber(7, 2, 1, 9)
            register.update_location(77, 5)
            register.delete_forwarding(77, 2, 8)
            register.set_active(7, 2, False)
            register.set_number(7, 78)
            self.assertRaises(hlr.NoSubscriber, register.add_access, Access(8, 1))
            self.assertEqual(register.unsynced(), 10 + 15 + 12 + 8 + 14)
            register.sync()
            self.assertEqual(register.unsynced(), 0)
        with Register(journal=pathlib.Path(self.path)) as register:
            self.assertEqual((register.find(78), register.facility_data(7, 2)), (7, Facility(7, 2, False, 0, 9)))
            self.assertEqual(list(register.forwardings()), [])
        with Register(journal=os.fsencode(self.path)) as register:
            self.assertEqual(register.subscriber_data(7).vlr_location, 5)

    def test_lost(self):
        told = self.child("""if True:
            register = hlr.Register(journal=os.environ["HLR_TEST_JOURNAL"])
            for s_id in 1, 2, 3:
                register.add_subscriber(hlr.Subscriber(s_id, s_id))
            register.sync()
            register.update_location(3, 9)
            os._exit(7)
            """)
        self.assertEqual(told, (7, "", ""))
        self.assertEqual(self.rows(), [(1, 1), (2, 1), (3, 1)])

    def test_dropped(self):
        register = Register(journal=self.path)
        register.add_subscriber(Subscriber(7, 77))
        del register
        self.assertEqual(self.rows(), [(7, 1)])

    def test_forked(self):
        with Register(journal=self.path) as register:
            register.add_subscriber(Subscriber(7, 77))
            process = os.fork()
            if process == 0:
                row = register.subscriber_data(7)
                register.__del__()
                os._exit(row.sub_nbr)
            self.assertEqual(os.waitpid(process, 0)[1] >> 8, 77)
            self.assertEqual(register.unsynced(), 44)
            register.sync()
            register.update_location(77, 5)
        self.assertEqual(self.rows(), [(7, 5)])

    def test_locked(self):
        with Register(journal=self.path) as register:
            self.assertRaises(hlr.Locked, Register, journal=self.path)
            status, out, err = self.child("hlr.Register(journal=os.environ['HLR_TEST_JOURNAL'])")
            self.assertEqual((status, out), (1, ""))
            self.assertIn("hlr.refusals.Locked: open: another process", err)
            register.snapshot()
            self.assertRaises(hlr.Locked, Register, journal=self.path)
        self.assertEqual(self.rows(), [])

    def test_snapshot(self):
        with Register(journal=self.path) as register:
            for s_id in range(1, 101):
                register.add_subscriber(Subscriber(s_id, s_id))
            for location in range(1, 1001):
                for s_id in range(1, 101):
                    register.update_location(s_id, location)
            register.sync()
            before = os.path.getsize(self.path)
            register.update_location(1, 7)
            register.snapshot()
            self.assertEqual((os.path.getsize(self.path) < before, register.unsynced()), (True, 0))
            register.update_location(2, 8)
        self.assertEqual(self.rows(), [(1, 7), (2, 8)] + [(s_id, 1000) for s_id in range(3, 101)])
        self.assertEqual(os.listdir(os.path.dirname(self.path)), ["rows.journal"])

    def test_refused(self):
        for missing in ({"parts": 17}, {"width": 0}, {"parts": -1}):
            self.assertRaises(hlr.Field, Register, journal=self.path, **missing)
        self.assertFalse(os.path.exists(self.path))
        self.assertRaises(TypeError, Register, journal=7)
        self.assertRaises(ValueError, Register, journal=self.path + "\0")
        self.assertRaises(hlr.BadJournal, Register, journal=os.path.dirname(self.path))
        self.assertRaises(hlr.Failed, Register, journal=self.path + "/rows")
        for wrong in (b"", b"hlr journal 1\n", b"hello\n\0", b"hlr journal 2\n\0", b"hlr journal 1\nZ\n\0"):
            pathlib.Path(self.path).write_bytes(wrong)
            self.assertRaises(hlr.BadJournal, Register, journal=self.path)
            self.assertEqual(pathlib.Path(self.path).read_bytes(), wrong)
        with Register() as register:
            for call in (register.sync, register.unsynced, register.snapshot):
                self.assertRaises(hlr.NoJournal, call)
        os.remove(self.path)
        with Register(journal=self.path) as register:
            self.assertRaises(hlr.Journaled, register.lend, 0)
            self.assertRaises(hlr.Journaled, register.lend, 9)

    def test_failed(self):
        told = self.child("""if True:
            register = hlr.Register(journal=os.environ["HLR_TEST_JOURNAL"])
            for s_id in range(1, 50001):
                register.add_subscriber(hlr.Subscriber(s_id, s_id))
            resource.setrlimit(resource.RLIMIT_FSIZE, (1 << 20, -1))
            for call in (register.sync, lambda: register.update_location(1, 2), register.sync, register.unsynced,
                         register.snapshot):
                try:
                    call()
                except hlr.Failed as refused:
                    print(refused.code.name, register.subscriber_data(50000).sub_nbr)
            resource.setrlimit(resource.RLIMIT_FSIZE, (-1, -1))
            register.snapshot()
            register.update_location(1, 3)
            register.close()
            """)
        self.assertEqual(told, (0, 5 * "FAILED 50000\n", ""))
        self.assertEqual(self.rows(), [(1, 3)] + [(s_id, 1) for s_id in range(2, 50001)])

    def test_closed(self):
        told = self.child("""if True:
            register = hlr.Register(journal=os.environ["HLR_TEST_JOURNAL"])
            register.add_subscriber(hlr.Subscriber(7, 77))
            register.sync()
            for s_id in range(10000, 50001):
                register.add_subscriber(hlr.Subscriber(s_id, s_id))
            resource.setrlimit(resource.RLIMIT_FSIZE, (1 << 20, -1))
            try:
                with register:
                    pass
            except hlr.Failed:
                print("failed")
            try:
                register.sync()
            except hlr.NotOpen:
                print("closed")
            resource.setrlimit(resource.RLIMIT_FSIZE, (-1, -1))
            with hlr.Register(journal=os.environ["HLR_TEST_JOURNAL"]) as register:
                print(register.find(77))
            """)
        self.assertEqual(told, (0, "failed\nclosed\n7\n", ""))


class Refusals(unittest.TestCase):
    """Every refusal that can be caused, and what is no number, letter or row. No call comes to StillOpen, and a word is
    worn after 2^63 changes."""

    def refused(self, refusal, call, *arguments):
        with self.assertRaises(refusal) as caught:
            call(*arguments)
        self.assertIsInstance(caught.exception, hlr.Refused)
        self.assertIs(type(caught.exception), refusal)
        self.assertIs(hlr.refusals.BY_CODE[caught.exception.code], refusal)
        self.assertTrue(str(caught.exception))

    def test_each(self):
        with filled(parts=2, width=4) as r:
            self.refused(hlr.Field, r.subscriber_data, 0)
            self.refused(hlr.NoSubscriber, r.subscriber_data, 8)
            self.refused(hlr.NoNumber, r.update_location, 78, 1)
            self.refused(hlr.NoAccess, r.access_data, 7, 2)
            self.refused(hlr.NoFacility, r.set_active, 7, 1, True)
            self.refused(hlr.NoForwarding, r.delete_forwarding, 77, 2, 0)
            self.refused(hlr.NoDestination, r.new_destination, 7, 2, 0, 1)
            self.refused(hlr.Exists, r.add_subscriber, Subscriber(7, 78))
            self.refused(hlr.NumberTaken, r.add_subscriber, Subscriber(8, 77))
            self.refused(hlr.NoPart, r.post, 2)
            self.refused(hlr.NoPiece, r.take, 1, 0)
            self.refused(hlr.OutOfRange, r.give, 0, Side.LOW, 1)
            self.refused(hlr.NotAdjacent, r.dissolve, 0)
            self.assertEqual(r.give(0, Side.LOW, 8), Region(1, 8, True, 1))
            self.refused(hlr.Moving, r.subscriber_data, 7)
            self.refused(hlr.Moving, r.recut, [9])
            self.refused(hlr.NotAdjacent, r.take, 1, 1)
            for at in range(9, 24):
                r.give(0, Side.LOW, at)
            self.refused(hlr.ManyPieces, r.give, 0, Side.LOW, 24)
        with Register(parts=16) as r:
            self.refused(hlr.ManyParts, r.divide, 0, 2)

    def test_away(self):
        with filled(parts=2, width=4) as r, r.lend(0) as part:
            self.refused(hlr.Away, r.back, 0)
            self.refused(hlr.NoPart, r.back, 2)
            self.refused(hlr.Away, r.lend, 0)
            self.refused(hlr.NoPart, r.lend, 2)
            self.refused(hlr.Field, r.access_data, 7, 5)
            self.refused(hlr.NoNumber, r.update_location, 78, 1)
            for call, asked in ((r.subscriber_data, (7,)), (r.update_location, (77, 1)), (r.facility_data, (7, 2)),
                                (r.add_subscriber, (Subscriber(8, 8),)), (r.set_number, (7, 8)), (r.post, (0,)),
                                (r.give, (0, 1, 5)), (r.divide, (0, 5)), (r.dissolve, (1,)),
                                (r.recut, ([5],)), (r.views, ()), (r.scan, ()), (r.propose, ()),
                                (r.next_subscriber, (1,))):
                self.refused(hlr.Away, call, *asked)
            self.assertEqual([type(row) for row in r.subscriber_data_many([7, 70, 0])],
                             [hlr.Away, hlr.NoSubscriber, hlr.Field])
            self.refused(hlr.NoPiece, r.take, 1, 0)
            self.refused(hlr.NoPart, r.dissolve, 2)
            self.assertEqual(r.find(77), 7)
            self.refused(hlr.Elsewhere, part.subscriber_data, 65)
            self.refused(hlr.Field, part.access_data, 65, 5)
            self.refused(hlr.Elsewhere, part.update_location, 65, 1)
            self.refused(hlr.Field, part.update_location, 65, 0)
            self.refused(hlr.NoSubscriber, part.update_location, 64, 1)

    def test_memory(self):
        status, out, err = python("-c", """if True:
            import resource, hlr
            register = hlr.Register()
            used = int(open("/proc/self/statm").read().split()[0]) * resource.getpagesize()
            resource.setrlimit(resource.RLIMIT_AS, (used + (4 << 20), -1))
            try:
                for s_id in range(1, 1000000):
                    register.add_subscriber(hlr.Subscriber(s_id, s_id))
            except hlr.Memory as refused:
                resource.setrlimit(resource.RLIMIT_AS, (-1, -1))
                print(refused, int(refused.code))
                print(register.scan()[24] == s_id - 1, sum(register.views()[1][40:]) == s_id - 1)
            """)
        self.assertEqual((status, out, err), (0, "add_subscriber: no memory was left; free some, and call again 1\nTrue True\n", ""))

    def test_closed(self):
        register = Register()
        with register as same:
            self.assertIs(same, register)
        calls = {"add_subscriber": (Subscriber(-1, 7),), "add_access": (Access(7, 1, data3=""),),
                 "add_facility": (Facility(7, 1),), "recut": ([],), "subscriber_data_many": ([1 << 70],),
                 "new_destination_many": ([(1 << 70, 1, 0, 1)],), "access_data_many": ([(1 << 70, 1)],)}
        with Register() as other:
            part = other.lend(0)
            part.home()
        for closed in (register, part):
            for name, call in inspect.getmembers(closed, inspect.ismethod):
                if not name.startswith("_"):
                    count = sum(each.default is each.empty for each in inspect.signature(call).parameters.values())
                    self.refused(hlr.NotOpen, call, *calls.get(name, [1 << 70] * count))
            self.refused(hlr.NotOpen, closed.__enter__)
        with Register() as register:
            register.close()
            self.refused(hlr.NotOpen, register.close)

    def test_numbers(self):
        for parts, width in ((0, 4), (17, 4), (1, 0), (1, 524289), (-1, 4), (1, (1 << 64) + 1)):
            self.refused(hlr.Field, Register, parts, width)
        self.assertRaises(TypeError, Register, "1")
        calls = {"subscriber_data": (7,), "new_destination": (7, 2, 8, 12), "access_data": (7, 1), "find": (77,),
                 "facility_data": (7, 2), "forwarding": (7, 2, 8),
                 "update_subscriber": (7, 2, 1, 1), "update_location": (77, 1), "insert_forwarding": (77, 2, 0, 9, 5),
                 "delete_forwarding": (77, 2, 8), "set_active": (7, 2, 1), "set_number": (7, 77), "post": (0, 0),
                 "give": (0, 1, 5), "take": (1, 1), "divide": (1, 100), "dissolve": (2,)}
        with filled(parts=2, width=4) as register:
            for name, good in calls.items():
                call = getattr(register, name)
                for at in range(len(good)):
                    for wrong in (good[at] + (1 << 64), -1, -(1 << 64), good[at] + (1 << 100)):
                        self.refused(hlr.Field, call, *good[:at], wrong, *good[at + 1:])
                    for wrong in ("7", 7.0, None, [7], b"7", Subscriber(7, 7)):
                        with self.assertRaises(TypeError, msg=(name, at, wrong)):
                            call(*good[:at], wrong, *good[at + 1:])
                call(*good)

    def test_rows(self):
        good = {Subscriber: (8, 78), Access: (7, 2), Facility: (7, 3)}
        numbers = ("s_id", "sub_nbr", "ai_type", "sf_type", "data1", "data2", "error_cntrl", "data_a", "msc_location",
                   "vlr_location", "is_active")
        with filled() as register:
            before = register.scan()
            for kind, add in ((Subscriber, register.add_subscriber), (Access, register.add_access),
                              (Facility, register.add_facility)):
                for field, value in vars(kind(*good[kind])).items():
                    if field in numbers:
                        fields, types = (-1, value + (1 << 64), 1 << 64), ("1", 1.0, None)
                    elif isinstance(value, bytes):
                        fields, types = (value[1:], value + b"\0", b""), ("0" * 10, None, 10, [0] * 10)
                    else:
                        fields = (value[1:], value + "A", "", value[1:] + "a", value[1:] + "\u00c4")
                        types = (value.encode(), None, 3)
                    if field in ("bits", "hexes"):
                        fields += (b"\x10" * 10,)
                    for wrong in fields:
                        row = kind(*good[kind])
                        setattr(row, field, wrong)
                        self.refused(hlr.Field, add, row)
                    for wrong in types:
                        row = kind(*good[kind])
                        setattr(row, field, wrong)
                        self.assertRaises(TypeError, add, row)
                for wrong in (7, None, [], [1], *(other(*good[other]) for other in good if other is not kind)):
                    self.assertRaises(TypeError, add, wrong)
            self.assertEqual(register.scan(), before)
            register.add_subscriber(Subscriber(8, 78, bits=bytearray(10)))

    def test_bounds(self):
        with Register(parts=3) as register:
            for wrong in ([], [2], [3, 2], [1, 2], [2, END], [2, 3, 4], list(range(2, 18)), [2, -1], [2, 1 << 64],
                          [2, 3 + (1 << 64)]):
                self.refused(hlr.Field, register.recut, wrong)
            for wrong in (7, None, "23", [2, "3"], [2, 3.0]):
                self.assertRaises(TypeError, register.recut, wrong)
            self.assertEqual(register.recut(range(2, 4)), 2)

    def test_copies(self):
        with Register() as register:
            self.assertRaises(TypeError, copy.copy, register)
            self.assertRaises(TypeError, copy.deepcopy, register)


class Many(unittest.TestCase):
    """Threads that share a register, and many registers."""

    def test_threads(self):
        faults = []

        def work(first):
            try:
                for s_id in range(first, 4001, 8):
                    register.add_subscriber(Subscriber(s_id, s_id))
                    register.update_location(s_id, 1 + (s_id % 16 << 28))
                    register.post(s_id % 4, 2)
                    assert register.subscriber_data(s_id).sub_nbr == s_id
                    register.views()
            except Exception as fault:
                faults.append(fault)

        with Register(parts=4, width=128) as register:
            threads = [threading.Thread(target=work, args=(first,)) for first in range(1, 9)]
            for thread in threads:
                thread.start()
            for thread in threads:
                thread.join()
            self.assertEqual(faults, [])
            self.assertEqual(register.scan()[24:40], [250] * 16)
            self.assertEqual([sum(both) for both in zip(*register.views())], register.scan())

    def test_lent(self):
        faults = []

        def work(part, first):
            try:
                with part:
                    for _ in range(200):
                        for s_id in range(first, first + 4):
                            before = part.subscriber_data(s_id).vlr_location
                            part.update_location(s_id, (before + (1 << 28)) % (1 << 32))
                        part.post()
            except Exception as fault:
                faults.append(fault)

        with Register(parts=4, width=4) as register:
            for at in range(16):
                s_id = 1 + at // 4 * 32 + at % 4
                register.add_subscriber(Subscriber(s_id, s_id))
            threads = [threading.Thread(target=work, args=(register.lend(number), 1 + number * 32))
                       for number in range(4)]
            for thread in threads:
                thread.start()
            while any(thread.is_alive() for thread in threads):
                register.look()
            for thread in threads:
                thread.join()
            for number in range(4):
                register.back(number)
            self.assertEqual(faults, [])
            self.assertEqual([sum(both) for both in zip(*register.views())], register.scan())
            self.assertEqual(sum(register.scan()[24:40]), 16)

    def test_closed_beside(self):
        for _ in range(20):
            register, seen = filled(), []

            def work():
                try:
                    while True:
                        register.subscriber_data(7)
                except hlr.Refused as refused:
                    seen.append(type(refused))

            threads = [threading.Thread(target=work) for _ in range(4)]
            for thread in threads:
                thread.start()
            register.close()
            for thread in threads:
                thread.join()
            self.assertEqual(seen, [hlr.NotOpen] * 4)

    def test_hundred(self):
        registers = [Register(parts=1 + at % 16) for at in range(100)]
        for at, register in enumerate(registers):
            register.add_subscriber(Subscriber(at + 1, at + 100))
        for at, register in enumerate(registers):
            self.assertEqual(register.subscriber_data(at + 1).sub_nbr, at + 100)
            self.assertEqual(sum(register.scan()[40:]), 1)
        for register in registers[::2]:
            register.close()
        del registers, register

    def test_given_back(self):
        status, out, _ = python("-c", """if True:
            import resource, hlr
            def fill():
                register = hlr.Register()
                for s_id in range(1, 501):
                    register.add_subscriber(hlr.Subscriber(s_id, s_id))
            for _ in range(5):
                fill()
            used = resource.getrusage(resource.RUSAGE_SELF).ru_maxrss
            for _ in range(50):
                fill()
            print(resource.getrusage(resource.RUSAGE_SELF).ru_maxrss - used < 1000)
            """)
        self.assertEqual((status, out), (0, "True\n"))


class Found(unittest.TestCase):
    """Where the library is looked for."""

    def setUp(self):
        folder = tempfile.TemporaryDirectory()
        self.addCleanup(folder.cleanup)
        self.folder = pathlib.Path(folder.name)

    def test_by_name(self):
        library = os.environ["HLR_LIBRARY"]
        self.assertEqual(python("-m", "hlr"), (0, f"hlr {hlr.__version__}\nlibrary {library}\n{UNTOLD}", ""))

    def test_beside(self):
        shutil.copytree(str(PYTHON / "hlr"), str(self.folder / "hlr"))
        for place in (self.folder, self.folder / "hlr"):
            shutil.copy(os.environ["HLR_LIBRARY"], str(place / "libhlr.so.1"))
            self.assertEqual(python("-m", "hlr", HLR_LIBRARY=None, PYTHONPATH=str(self.folder)),
                             (0, f"hlr {hlr.__version__}\nlibrary {place / 'libhlr.so.1'}\n{UNTOLD}", ""))

    def test_by_loader(self):
        shutil.copy(os.environ["HLR_LIBRARY"], str(self.folder / "libhlr.so.1"))
        self.assertEqual(python("-m", "hlr", HLR_LIBRARY=None, LD_LIBRARY_PATH=str(self.folder)),
                         (0, f"hlr {hlr.__version__}\nlibrary libhlr.so.1\n{UNTOLD}", ""))

    def test_built(self):
        shutil.copytree(str(PYTHON / "hlr"), str(self.folder / "hlr"))
        library = self.folder / "hlr" / "libhlr.so.1"
        shutil.copy(os.environ["HLR_LIBRARY"], str(library))
        checksum = hashlib.sha256(library.read_bytes()).hexdigest()
        for one, is_told in ((checksum, True), ("0" * 64, False)):
            told = f"libhlr.so.1 {one}\ncommit 7\n"
            (self.folder / "hlr" / "built.txt").write_text(told)
            self.assertEqual(python("-m", "hlr", HLR_LIBRARY=None, PYTHONPATH=str(self.folder)),
                             (0, f"hlr {hlr.__version__}\nlibrary {library}\n{told if is_told else UNTOLD}", ""))

    def test_not_found(self):
        for wrong in ("/nowhere/libhlr.so.1", "", str(HEADER), "libc.so.6"):
            status, out, err = python("-m", "hlr", HLR_LIBRARY=wrong)
            self.assertEqual((status, out), (1, f"hlr {hlr.__version__}\n"))
            self.assertRegex(err, r"\Ahlr finds no library that it can use at .*: set HLR_LIBRARY to .*libhlr.so.1\n\Z")
            status, out, err = python("-c", "import hlr; hlr.Register()", HLR_LIBRARY=wrong)
            self.assertEqual((status, out), (1, ""))
            self.assertEqual(len(re.findall("^ImportError: hlr finds no library", err, re.M)), 1)


if __name__ == "__main__":
    unittest.main()
