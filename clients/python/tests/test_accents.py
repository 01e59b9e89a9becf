"""Second words without accents."""

import time
import unittest

from rubewola import documents, letters, marks
from rubewola.words import NAMING, SIGN

from shapes import SHAPES
from support import Stores, mail, mbox


class Words(unittest.TestCase):
    """What is left of words."""

    def test_second_words(self):
        for text, told in [
                ("résumé plain", "resume"), ("RÉSUMÉ", "resume"), ("Straße", ""),
                ("straßen-café", "cafe"), ("über Über", "uber"), ("à la", ""), ("l'été", "ete"),
                ("Łódź", "lodz"), ("Ærø", "aero"), ("Σίσυφος", "σισυφοσ"), ("второй", ""),
                ("всё", "все"), ("x\u0302y", "xy"), ("日本語", ""), ("\u1100\u1161", ""), ("ascii", ""),
                ("é é", ""), ("カ\u3099", "")]:
            self.assertEqual(" ".join(letters.second(text)), told, text)

    def test_fields(self):
        self.assertEqual(letters.bare_field_words("from", "José Díaz <jose@x>"),
                         [NAMING, *(f"{SIGN}from_{word}" for word in ("jose", "diaz", "jose", "x"))])
        self.assertEqual(letters.bare_field_words("from", "Jose"), [])
        self.assertEqual(letters.bare_field_words("from", "日本"), [])

    def test_no_shape_takes_long(self):
        for name, shape in SHAPES.items():
            begin = time.process_time()
            letters.second(shape)
            letters.second("é" + shape)
            self.assertLess(time.process_time() - begin, 10, name)

    def test_room(self):
        text = " ".join(f"été{at}" for at in range(120_000))
        data, is_cut = documents.document("log", text)
        self.assertLessEqual(len(data), documents.MOST_BYTES)
        self.assertTrue(is_cut)

    def test_marks(self):
        begin, end = marks.BEGIN, marks.END
        self.assertEqual(marks.Marks(["resume", "caf*"]).marked("Résumé cafés ré"),
                         f"{begin}Résumé{end} {begin}cafés{end} ré")
        self.assertEqual(marks.Marks(["résumé"]).marked("resume"), "resume")


class Loads(Stores):
    """Mails, lines and objects."""

    def test_loads(self):
        box = self.write("box", mbox(mail("résumé", From="José Díaz <a@x>"),
                                     mail("resume", From="Bo <b@x>")))
        self.loaded(2, "load-mbox", box)
        self.loaded(1, "load-log", self.write("log", "café\n"))
        self.loaded(1, "load-json", self.write("json", '{"name": "Zoë"}\n'))
        self.assert_found({"resume": [1, 2], "resum*": [1, 2], "résumé": [1], "cafe": [3],
                           "from:jose": [1], 'from:"jose diaz"': [1], 'from:"josé díaz"': [1],
                           "name:zoe": [4], "from:josé": [1], 'from:"diaz bo"': []})

    def test_without_them(self):
        box = self.write("box", mbox(mail("résumé", From="José <a@x>")))
        self.loaded(1, "load-mbox", "--no-accents", box)
        self.assert_found({"resume": [], "résumé": [1], "from:jose": [], "from:josé": [1]})
        self.assertTrue(documents.chosen().accents)

    def test_in_processes_that_decode(self):
        box = self.write("box", mbox(*(mail(f"résumé{at} " * 900) for at in range(60))))
        self.loaded(60, "load-mbox", "--no-accents", "--jobs", "2", box)
        self.assert_found({"resume1": [], "résumé1": [2]})


if __name__ == "__main__":
    unittest.main()
