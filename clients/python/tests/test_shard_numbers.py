"""Numbers of an archive over many stores, and what is loaded into which. These need no Dask."""

import contextlib
import gzip
import io
import random
import sys
import unittest
from itertools import islice
from unittest import mock

from rubewola import results
from rubewola_shards import __main__

from support import Stores, mail, mbox

if sys.version_info >= (3, 11):
    from rubewola_shards.archive import NO_END, Archive, _archive
    from rubewola_shards.faults import ArchiveError
    from rubewola_shards.inputs import Lines, Mails, batches, tasks_of

SCHEDULER = "tcp://127.0.0.1:8786"
TLS = {"ca": "ca.pem", "cert": "node.pem", "key": "node.key"}


def table(*groups, **settings):
    """The tables of an archive's file: groups of a first number and the names of shards."""
    return {"scheduler": SCHEDULER, **settings, "group": [
        {"first": first, "shards": [{"name": name, "disk": f"disk-{name}", "path": f"/s/{name}"}
                                    for name in names]} for first, names in groups]}


def dealt(groups, block, upto):
    """Which document goes where, dealt out by hand: each block to the next shard of its group."""
    held, places = {}, []
    firsts = [first for first, _ in groups] + [upto + 1]
    for (first, names), end in zip(groups, firsts[1:]):
        numbers = iter(range(first, end))
        while True:
            for name in names:
                for number in islice(numbers, block):
                    held[name] = held.get(name, 0) + 1
                    places.append((number, name, held[name]))
            if places and places[-1][0] == end - 1 or first == end:
                break
    return places


def drawn_archive(chance):
    """Some groups of some shards, as tables and as what they are dealt."""
    names, first, groups = iter("abcdefghij"), 1, []
    for _ in range(chance.randrange(1, 4)):
        groups.append((first, [*islice(names, chance.randrange(1, 4))]))
        first += chance.randrange(1, 60)
    return groups, chance.randrange(1, 9)


@unittest.skipIf(sys.version_info < (3, 11), "the archive's file wants Python 3.11 for tomllib")
class Numbers(Stores):
    """A document's number is its place in the whole input."""

    def test_worked_places(self):
        archive = _archive(table((1, "ab"), (20_001, "c"), block=4_096), self.folder)
        for number, name, local in [(1, "a", 1), (4_096, "a", 4_096), (4_097, "b", 1),
                                    (8_192, "b", 4_096), (8_193, "a", 4_097), (12_289, "b", 4_097),
                                    (20_000, "a", 11_808), (20_001, "c", 1), (30_000, "c", 10_000)]:
            shard, place = archive.place(number)
            self.assertEqual((shard.name, place), (name, local))
            self.assertEqual(shard.number(local), number)
        # 20,000 are two turns of 8,192 and 3,616 more, all of which go to the first shard.
        self.assertEqual([shard.most for shard in archive.shards[:2]], [11_808, 8_192])
        self.assertEqual(archive.shards[1].identity, "2 of 2 from 1 by 4096")
        self.assertEqual([archive.row(n) for n in (1, 4_096, 19_999, 20_001)], [4_096, 1, 2, 4_096])

    def test_places_as_dealt_out(self):
        chance = random.Random(3)
        for _ in range(100):
            groups, block = drawn_archive(chance)
            archive = _archive(table(*groups, block=block), self.folder)
            places = dealt(groups, block, groups[-1][0] + 100)
            for number, name, local in places:
                shard, place = archive.place(number)
                self.assertEqual((shard.name, place, shard.number(local)), (name, local, number))
                row = places[number - 1:number - 1 + archive.row(number)]
                self.assertEqual([(name, local + at) for at in range(len(row))],
                                 [(other, place) for _, other, place in row])
            for shard in archive.shards:
                if shard.end != NO_END:
                    self.assertEqual(shard.most, sum(name == shard.name for _, name, _ in places))

    def test_complete_is_the_first_gap(self):
        chance = random.Random(4)
        for _ in range(200):
            groups, block = drawn_archive(chance)
            archive = _archive(table(*groups, block=block), self.folder)
            places = dealt(groups, block, groups[-1][0] + 300)
            held = {shard: chance.choice([0, 5, shard.most if shard.end != NO_END else 20])
                    for shard in archive.shards}
            held = {shard: min(count, shard.most) for shard, count in held.items()}
            by_name = {shard.name: count for shard, count in held.items()}
            gap = next(number for number, name, local in places if local > by_name[name])
            self.assertEqual(archive.complete({s: n + 1 for s, n in held.items()}), gap - 1)

    def test_a_file_is_read(self):
        file = self.write("shards.toml", f'''scheduler = "tls://10.0.0.1:8786"
tls = {{ ca = "ca.pem", cert = "node.pem", key = "/keys/node.key" }}
[[group]]
first = 1
shards = [ {{ name = "a", disk = "disk-a", path = "/srv/a" }} ]
''')
        archive = Archive.read(file)
        self.assertEqual((archive.shards[0].block, archive.shards[0].path), (4_096, "/srv/a"))
        self.assertEqual(archive.tls["cert"], str(self.folder / "node.pem"))
        self.assertEqual(archive.tls["key"], "/keys/node.key")
        for name, told in [("toml", "scheduler ="), ("text", "scheduler = 1\ngroup = []\n")]:
            with self.assertRaisesRegex(ArchiveError, f"{name}: "):
                Archive.read(self.write(name, told))

    def test_what_cannot_be_is_refused(self):
        one = (1, "a")
        for told, reason in [
                (table(one, scheduler="tcp://10.0.0.1:8786"), "without .tls. all stay"),
                (table(one, scheduler="tcp://0.0.0.0:8786"), "without .tls. all stay"),
                (table(one, scheduler="tls://10.0.0.1:8786"), "wants the certificates"),
                (table(one, tls=TLS), "they want tls://"),
                (table(one, scheduler="tls://10.0.0.1:1", tls={"ca": "x"}), "cert is missing"),
                (table(one, scheduler="127.0.0.1:8786"), "a scheduler is"),
                (table(one, scheduler="tcp://127.0.0.1"), "a scheduler is"),
                (table(), "begins at 1"), (table((2, "a")), "begins at 1"),
                (table(one, (1, "b")), "begins at 1"), (table(one, block=0), "begins at 1"),
                (table(one, block="4096"), "block is missing, or no int"),
                (table(one, blocks=1), "blocks is not known"),
                (table((1, "aa")), "one name, or one place"), (table((1, "")), "has no shard"),
                (table((1, ["a b"])), "letters, digits"),
                ({**table(one), "group": [3]}, "a group is no table")]:
            with self.subTest(told), self.assertRaisesRegex((ArchiveError, ValueError), reason):
                _archive(told, self.folder)
        relative = table(one)
        relative["group"][0]["shards"][0]["path"] = "a"
        self.assertRaisesRegex(ValueError, "begins with /", _archive, relative, self.folder)


class Absent(unittest.TestCase):
    """Where Dask is absent, that is said in a line."""

    def test_the_package_is_named(self):
        told = io.StringIO()
        with mock.patch.object(sys, "argv", ["rubewola-shards", "shards.toml", "counts"]), \
                mock.patch("importlib.util.find_spec", return_value=None), \
                contextlib.redirect_stderr(told):
            self.assertEqual(__main__.main(), 2)
        self.assertRegex(told.getvalue(), "^rubewola-shards: wants .* python3-distributed\n$")


@unittest.skipIf(sys.version_info < (3, 11), "the archive's file wants Python 3.11 for tomllib")
class Inputs(Stores):
    """What is loaded, in batches that go to one shard each."""

    def lines(self, *paths):
        source = Lines(*map(str, paths))
        return [item.data for item in source.items()], source.notes

    def test_lines_of_files_in_their_order(self):
        first = self.write("log.1", "a1\r\na2")
        last = self.write("log", "b1\n\nb3")
        told, notes = self.lines(first, last)
        self.assertEqual(told, [b"a1\r\n", b"a2\n", b"b1\n", b"\n"])
        self.assertRegex(notes[0], "log: its last line has no end yet")
        packed = self.write("log.gz", gzip.compress(b"b1\n\nb3"))
        self.assertEqual(self.lines(first, packed), ([*told, b"b3\n"], []))

    def test_batches_are_the_items_in_a_row(self):
        archive = _archive(table((1, "ab"), (12_001, "c"), block=5_000), self.folder)
        log = self.write("log", "".join(f"line {n}\n" for n in range(1, 20_001)))
        for start in (1, 5_000, 12_001, 20_000, 20_001):
            at = start
            for number, items in batches(archive, Lines(str(log)), start):
                self.assertEqual(number, at)
                # A commit takes 4,096 documents, and the places in one store end with the block.
                self.assertLessEqual(len(items), min(4_096, archive.row(number)))
                places = [archive.place(number + k) for k in (0, len(items) - 1)]
                self.assertEqual(places[0][0], places[1][0])
                self.assertEqual(places[1][1] - places[0][1], len(items) - 1)
                for data, *_ in items:
                    self.assertEqual(data, b"line %d\n" % at)
                    at += 1
            self.assertEqual(at, 20_001)

    def test_each_item_becomes_one_document(self):
        log = Lines(str(self.write("log", "2026-01-02 x\n\nlists.debian.org\n")))
        box = Mails(str(self.write("box", mbox(*[mail("same", Message_ID="<1@x>")] * 2))))
        for source, texts in [(log, ["2026-01-02 x", "", "lists.debian.org"]), (box, ["same\n"] * 2)]:
            tasks = tasks_of(source, [*source.items()], True)
            entries = [entry for function, *given in tasks for entry in function(*given)]
            stored = [entry.data.decode().replace("\v", "\n") for entry in entries]
            told = [results.parsed(one, 0) for one in stored]
            self.assertEqual([doc["text"] for doc in told], texts)
            places = [(doc.get("file"), doc.get("line")) for doc in told]
            self.assertEqual(places, [("log", 1), ("log", 2), ("log", 3)] if source is log
                             else [(None, None)] * 2)


if __name__ == "__main__":
    unittest.main()
