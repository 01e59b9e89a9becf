"""crates.txt: which layer may name which, whether files use what it names, its folders, and its
picture."""
import pathlib
import re
import sys
import tempfile
import unittest
import xml.etree.ElementTree as xml

TOP = pathlib.Path(__file__).resolve().parents[2]
sys.path.insert(0, str(TOP / "tools"))

import draw_crates  # noqa: E402

COMMENTS = {".rt": re.compile(r"//[^\n]*"), ".antt": re.compile(r"--[^\n]*|\{-.*?-\}", re.S)}
# Lower layers that one names nothing of: a disk knows neither lists nor documents, and the program
# no lists.
PASSED_BY = {"disk": {"numbers", "meaning"}, "program": {"numbers"}}


def words_of(folder):
    """The words of a crate's sources, definitions and proofs, without their comments."""
    files = [file for part in ("src", "specs", "proofs")
             for file in folder.joinpath(part).rglob("*") if file.suffix in COMMENTS]
    return {word for file in files
            for word in re.findall(r"\w+", COMMENTS[file.suffix].sub("", file.read_text("utf-8")))}


def faults(top):
    """What crates.txt of a tree says that isn't so, or that breaks its layers: a line each."""
    found, libraries = draw_crates.layers(top)
    layer = {name: each for each, names in found.items() for name in names}
    layers = list(found)
    folders = {file.parents[1].name for file in top.glob("crates/*/src/*.rt")}
    for name in sorted(folders ^ set(layer)):
        yield f"{name} is listed and has no folder" if name in layer else f"{name} is not listed"
    for name, named in libraries.items():
        here = layer[name]
        may = set(layers[:layers.index(here) + 1]) - PASSED_BY.get(here, set())
        for low in named:
            if low in layer and layer[low] not in may:
                yield f"{name}, of {here}, names {low}, of {layer[low]}"
        unused = set(named) - words_of(top / "crates" / name) if name in folders else ()
        yield from (f"{name} names {low}, and no file of it does" for low in sorted(unused))


class Names(unittest.TestCase):
    def test_crates_of_the_repository(self):
        self.assertEqual(list(faults(TOP)), [])

    def test_each_fault_of_a_wrong_tree_is_told(self):
        crates = ("# Each names lower ones.\n\n# numbers\nlists: sets index\nsets:\n"
                  "\n# meaning\nindex: lists lru\ngone:\n\n# disk\ndisk: sets\n")
        files = {"lists/src/lib.rt": "use sets::{Set};\nuse index::Index;\n", "sets/src/lib.rt": "",
                 "index/src/lib.rt": "use lists::List; // lru\n", "index/proofs/A.antt": "-- lru\n",
                 "disk/specs/Lib.antt": "use Rattle.sets.specs.Sets.{has}\n",
                 "disk/src/lib.rt": "", "other/src/main.rt": "", "left/out/old.rt": ""}
        with tempfile.TemporaryDirectory() as folder:
            top = pathlib.Path(folder)
            top.joinpath("crates.txt").write_text(crates, "utf-8")
            for name, text in files.items():
                file = top / "crates" / name
                file.parent.mkdir(parents=True, exist_ok=True)
                file.write_text(text, "utf-8")
            self.assertEqual(list(faults(top)), [
                "gone is listed and has no folder",
                "other is not listed",
                "lists, of numbers, names index, of meaning",
                "index names lru, and no file of it does",
                "disk, of disk, names sets, of numbers",
            ])


class Picture(unittest.TestCase):
    DRAWN = draw_crates.Picture(TOP)

    def test_it_is_that_of_the_crates(self):
        there = TOP.joinpath(draw_crates.PICTURE).read_bytes()
        self.assertTrue(self.DRAWN.svg().encode() == there,
                        f"{draw_crates.PICTURE} is of other crates or lines: make picture")

    def test_its_legend_has_the_layers(self):
        self.assertEqual([*draw_crates.COLOURS, draw_crates.LEFT_OUT],
                         list(draw_crates.layers(TOP)[0]))

    def test_each_crate_has_a_box_of_its_own_room(self):
        svg = xml.fromstring(self.DRAWN.svg())
        boxes, space = [], {"svg": "http://www.w3.org/2000/svg"}
        for group in svg.findall("svg:g", space):
            if group.find("svg:title", space) is not None:
                head, body = ({key: int(value) for key, value in rect.items() if key != "class"}
                              for rect in group.findall("svg:rect", space))
                boxes.append((head["x"], head["y"], head["x"] + head["width"],
                              body["y"] + body["height"]))
        self.assertEqual(len(boxes), len(self.DRAWN.layer))
        for place, (left, top, right, bottom) in enumerate(boxes):
            self.assertTrue(0 < left and 0 < top and right < int(svg.get("width"))
                            and bottom < int(svg.get("height")))
            self.assertFalse([other for other in boxes[:place] if other[0] < right
                              and left < other[2] and other[1] < bottom and top < other[3]])

    def test_lines_lead_to_each_crate_that_is_named(self):
        for name, lows in self.DRAWN.stands_on.items():
            row = self.DRAWN.layout.row
            self.assertTrue(all(row[name] < row[low] for low in lows))
            reached, left = set(), list(lows)
            while left:
                reached.add(left[-1])
                left += self.DRAWN.stands_on[left.pop()]
            named = set(draw_crates.layers(TOP)[1][name]) & set(self.DRAWN.layer)
            self.assertEqual(named - reached, set())

    def test_a_line_beside_others_is_left_out(self):
        self.assertEqual(draw_crates.reduced({"a": ["b", "c", "d"], "b": ["c"], "c": [], "d": []}),
                         {"a": ["b", "d"], "b": ["c"], "c": [], "d": []})

    def test_rows(self):
        stands_on = {"a": ["b", "d"], "b": ["c"], "c": [], "d": [], "e": ["c"]}
        self.assertEqual(draw_crates.rows_of(stands_on), {"a": 0, "b": 1, "c": 2, "d": 1, "e": 1})

    def test_lines_of_code(self):
        with tempfile.TemporaryDirectory() as folder:
            source = pathlib.Path(folder, "src/deep/one.rt")
            source.parent.mkdir(parents=True)
            source.write_text("//! One.\n\n/// It.\nfn one() // here\n    // none\n"
                              "    ensures { ⊤ }\n{\n}\n", "utf-8")
            self.assertEqual(draw_crates.lines_of(pathlib.Path(folder)), 4)

    def test_rounded_to_two_digits(self):
        self.assertEqual([draw_crates.rounded(number) for number in (7, 99, 104, 105, 2249, 9960)],
                         [7, 99, 100, 110, 2200, 10000])


if __name__ == "__main__":
    unittest.main()
