"""The words that must find each mail, and those that must not, by mailbox and by maildir."""

import base64
import random
import unittest

from rubewola import Store, documents, layout, mails, searching
from rubewola.texts import decoded, page_text

from support import Stores, mbox

HEAD = b"From: Ada Byron <ada@x.org>\nTo: bo@y.org\nSubject: plain\n"


def whole(body, kind="text/plain; charset=utf-8", head=HEAD, transfer="8bit"):
    """A mail of one part."""
    body = body.encode() if isinstance(body, str) else body
    told = f"MIME-Version: 1.0\nContent-Type: {kind}\nContent-Transfer-Encoding: {transfer}\n\n"
    return head + told.encode() + body + b"\n"


def part(body, kind="text/plain; charset=utf-8", more=""):
    """A part of a mail."""
    body = body.encode() if isinstance(body, str) else body
    return f"Content-Type: {kind}\n{more}\n".encode() + body


def parted(kind, *parts, head=HEAD, mark="=_mark"):
    """A mail of parts."""
    lines = b"".join(b"--" + mark.encode() + b"\n" + one + b"\n" for one in parts)
    told = f'MIME-Version: 1.0\nContent-Type: multipart/{kind}; boundary="{mark}"\n\n'
    return head + told.encode() + lines + b"--" + mark.encode() + b"--\n"


def headed(*lines, body="text"):
    """A mail with these lines as its head."""
    return "\n".join([*lines, "", body, ""]).encode()


PAGE = "text/html; charset=utf-8"
INNER = b"From: Inner Sender <inner@z.org>\nSubject: innersubject\n\ninnerbody\n"
DEEP = b"".join(b'Content-Type: multipart/mixed; boundary="b%d"\n\n--b%d\n' % (n, n)
                for n in range(1_500))

# What it is; the mail; queries that find it; queries that do not.
TABLE = [
    # Alternatives.
    ("a blank plain part beside HTML",
     parted("alternative", part("  \n"), part("<p>invoice fortytwo</p>", PAGE)),
     ["invoice fortytwo"], ["p"]),
    ("a plain part that only points to the HTML",
     parted("alternative", part("see the other part"), part("<p>rabatt coupon</p>", PAGE)),
     ["rabatt coupon", "see the other part"], []),
    ("a plain part and the same as HTML",
     parted("alternative", part("gleich text"), part("<p>gleich <b>text</b> mehrwort</p>", PAGE)),
     ["gleich text", "mehrwort"], ["b"]),
    ("an alternative within mixed parts",
     parted("mixed", parted("alternative", part("vorne"), part("<i>vorne</i>", PAGE), head=b"",
                            mark="in"), part("fuss")),
     ["vorne fuss"], []),
    ("alternatives without a plain one",
     parted("alternative", part("<p>nurpage</p>", PAGE), part("BEGIN:VCALENDAR\nSUMMARY: treffen",
                                                               "text/calendar")),
     ["nurpage", "treffen"], []),
    # Mixed parts.
    ("HTML and a list's foot", parted("mixed", part("<p>hauptteil</p>", PAGE), part("listenfuss")),
     ["hauptteil listenfuss"], []),
    ("plain text and HTML side by side", parted("mixed", part("erstes"),
                                                part("<p>zweites</p>", PAGE)),
     ["erstes zweites"], []),
    ("HTML and an invitation", parted("mixed", part("<p>einladung</p>", PAGE),
                                      part("BEGIN:VCALENDAR\nSUMMARY: sitzung", "text/calendar")),
     ["einladung sitzung"], []),
    # Parts in line that have names.
    ("a patch in line", parted("mixed", part("siehe patch"), part(
        "+int frobnicate;", 'text/x-patch; name="0001-fix.patch"',
        'Content-Disposition: inline; filename="0001-fix.patch"\n')),
     ["frobnicate", "siehe", "attachment:0001-fix.patch"], []),
    ("a body with a name in its type", whole("benannter koerper", 'text/plain; name="mail.txt"'),
     ["benannter koerper"], ["attachment:mail.txt"]),
    ("an attached text", parted("mixed", part("oben"), part(
        "verborgenes", 'text/plain; name="notiz.txt"',
        'Content-Disposition: attachment; filename="notiz.txt"\n')),
     ["oben", "attachment:notiz", "notiz"], ["verborgenes"]),
    ("an attached picture", parted("mixed", part("bild"), part(
        base64.b64encode(b"pixels"), 'image/png; name="=?utf-8?q?caf=C3=A9.png?="',
        "Content-Transfer-Encoding: base64\n")),
     ["bild", "attachment:café"], ["pixels", base64.b64encode(b"pixels").decode()]),
    # Bytes and charsets.
    ("one bad byte in UTF-8", whole("Größe Maß".encode() + b" \xff ende"),
     ["größe", "maß ende"], []),
    ("a text cut in a character", whole("Übung macht den Mei".encode() + b"\xc3"), ["übung"], []),
    ("Latin-1 that says UTF-8", whole("caf\xe9 na\xefve".encode("latin-1")), ["café naïve"], []),
    ("UTF-8 that says nothing", whole("Straße", "text/plain"), ["strasse"], []),
    ("windows-1252 that says Latin-1",
     whole(b"don\x92t \x80uro", "text/plain; charset=iso-8859-1"), ["don’t", "uro"], []),
    ("GBK that says GB 2312", whole("朱镕基".encode("gbk"), "text/plain; charset=gb2312"),
     ["朱镕基"], []),
    ("Shift JIS of windows", whole("①髙".encode("cp932"), "text/plain; charset=shift_jis"),
     ["髙"], []),
    ("Korean of windows", whole("똠방각하".encode("cp949"), "text/plain; charset=euc-kr"),
     ["똠방각하"], []),
    ("Thai", whole("สวัสดี".encode("cp874"), "text/plain; charset=tis-620"), ["สวัสดี"], []),
    ("UTF-8 that says ASCII", whole("Zürich", "text/plain; charset=us-ascii"), ["zürich"], []),
    ("a charset that nobody knows", whole("Köln", "text/plain; charset=x-none"), ["köln"], []),
    ("a codec that is no charset", whole("plainword", "text/plain; charset=rot13"),
     ["plainword"], ["cynvajbeq"]),
    ("base64 with a space behind its name",
     whole(base64.b64encode("gelöst".encode()), transfer="BASE64 "), ["gelöst"], []),
    ("lines that flow, with DelSp", whole("zusammen \ngesetzt", "text/plain; charset=utf-8; "
                                          "format=flowed; delsp=yes"), ["zusammengesetzt"], []),
    # Words of fields, which no body can write.
    ("code that looks like fields",
     whole("to_string(x) from_address id_rsa date_2013 subject_line"),
     ["to_string", "date_2013"], ["to:string", "from:address", "id:rsa", "date:2013",
                                  "subject:line"]),
    ("a body with the letter of fields", whole("\u01bbfrom_eve \u01bb2013 \u01bb\u01bbid_9 \u01bb"),
     ["text OR plain"], ["from:eve", "date:2013", "id:9"]),
    ("a body with the mark of words", whole("oben\n\x1d\u01bbfrom_eve unten"), ["oben unten"],
     ["from:eve"]),
    ("ideographs in a name", headed("From: =?utf-8?b?55Sw5Lit?= <t@x.jp>", "Subject: =?utf-8?b?"
                                    + base64.b64encode("東京の天気".encode()).decode() + "?="),
     ["from:田中", "subject:東京", "subject:天気", "from:田", "subject:の"], ["from:東京"]),
    ("ideographs in a body alone", whole("田中さん 東京"), ["田中", "東京"],
     ["from:田中", "subject:東京"]),
    ("Thai in a subject", headed("From: a@x", "Subject: =?utf-8?b?"
                                 + base64.b64encode("สวัสดี".encode()).decode() + "?="),
     ["subject:สวัสดี"], ["from:สวัสดี"]),
    ("katakana beside other letters", headed("From: a@x", "Subject: =?utf-8?b?" + base64.b64encode(
        "Linuxカーネル入門".encode()).decode() + "?="), ["subject:linux", "subject:カーネル"],
     ["subject:カー"]),
    ("accents in two characters", headed("From: =?utf-8?q?Jose=CC=81?= <j@x>",
                                         "Subject: =?utf-8?q?re=CC=81sume=CC=81?=",
                                         "MIME-Version: 1.0",
                                         "Content-Type: text/plain; charset=utf-8",
                                         body="un cafe\u0301 ici"),
     ["café", "cafe\u0301", "subject:résumé", "subject:re\u0301sume\u0301", "from:josé", "cafe",
      "subject:resume", "from:jose"],
     ["resumes", "subject:cafe"]),
    ("Devanagari with its marks", headed("From: a@x", "Subject: =?utf-8?b?" + base64.b64encode(
        "हिन्दी भाषा".encode()).decode() + "?="), ["subject:हिन्दी"], ["subject:हिन"]),
    ("signs that nobody sees",
     whole("un\xadbreak\xadable \u202a5551234\u202c שלום\u200f hello\u200c"),
     ["unbreakable", "5551234", "שלום", "hello"], []),
    ("capitals and sharp s", headed("From: a@x", "Subject: =?utf-8?q?STRASSE?="),
     ["subject:straße", "SUBJECT:Strasse"], []),
    # Dates.
    ("a plain date", headed("From: a@x", "Date: Fri, 14 May 2010 23:30:00 -0600"),
     ["date:2010", "date:2010-05", "date:2010-5-14", "date:2010-05-01..2010-06"],
     ["date:2010-05-15", "date:2011"]),
    ("a date in ISO 8601", headed("From: a@x", "Date: 2011-07-09T10:11:12Z"),
     ["date:2011-07-09"], []),
    ("a date in ISO 8601 with parts of seconds",
     headed("From: a@x", "Date: 2011-07-10T10:11:12.123456+02:00"), ["date:2011-07-10"], []),
    ("a leap second", headed("From: a@x", "Date: Sat, 31 Dec 2016 23:59:60 +0000"),
     ["date:2016-12-31"], []),
    ("a zone that is none", headed("From: a@x", "Date: Tue, 5 Apr 2011 12:00:00 +9999"),
     ["date:2011-04-05"], []),
    ("a date as C writes it", headed("From: a@x", "Date: Tue Apr  3 12:00:00 2012"),
     ["date:2012-04-03"], []),
    ("no date but of its delivery", headed(
        "Received: from a by b; Wed, 6 Apr 2011 12:00:00 +0000", "From: a@x"),
     ["date:2011-04-06"], []),
    ("a date that is none, with a delivery", headed(
        "Received: from a by b; Thu, 7 Apr 2011 12:00:00 +0000", "From: a@x", "Date: gestern"),
     ["date:2011-04-07"], []),
    ("no date at all", headed("From: nodate@x"), ["from:nodate"], ["date:..2010", "date:2010.."]),
    ("a year before all others", headed("From: a@x", "Date: Mon, 1 Jan 1900 00:00:00 +0000"),
     ["date:1900", "date:..1980"], ["date:1980.."]),
    # HTML.
    ("tags within a word", whole("unbr<b>eak</b>able <p>eins</p>zwei", PAGE),
     ["unbreakable", "eins zwei"], ["unbr", "einszwei"]),
    ("comments, scripts and styles", whole("<!-- kommentar > x --><style>stilwort</style>"
                                           "<script>var skript;</script><p>sichtbar", PAGE),
     ["sichtbar"], ["kommentar", "stilwort", "skript", "x"]),
    ("signs that are no tags", whole("<p>a < b und c > d, 3<4 fuenf</p>", PAGE),
     ["und", "fuenf"], []),
    ("words in place of images", whole('<img src="quellwort.png" alt="bildwort zwei">', PAGE),
     ["bildwort zwei"], ["quellwort.png"]),
    ("a charset that the page names", whole(
        "<html><meta charset='iso-8859-2'><p>".encode() + "łódź".encode("iso-8859-2"), "text/html"),
     ["łódź"], []),
    ("entities", whole("<p>na&iuml;ve&nbsp;&amp;&#233;t&eacute; foo&shy;bar", PAGE),
     ["naïve", "été", "foobar"], ["nbsp"]),
    ("an attribute with a sign", whole('<a title="x > y" href="h">linkwort</a>', PAGE),
     ["linkwort"], ["title"]),
    # Parts that are put otherwise than most.
    ("a mail that is one attached text", whole("nurtext", 'text/plain; name="n.txt"',
                                               HEAD + b"Content-Disposition: attachment\n"),
     ["nurtext", "attachment:n.txt"], []),
    ("text behind the last part", parted("mixed", part("innen")) + b"\nangehaengt\n",
     ["innen angehaengt"], []),
    ("a boundary that does not come", parted("mixed", part("verpasst")).replace(b"--=_m", b"--=_x"),
     ["verpasst"], []),
    ("an end that does not come", parted("mixed", part("offen")).partition(b"--=_mark--")[0],
     ["offen"], []),
    ("an invitation with folded lines", whole("BEGIN:VCALENDAR\nSUMMARY: jahres\n treffen",
                                              "text/calendar"), ["jahrestreffen"], []),
    ("an invitation for a phone's page", parted("alternative", part("plain"), part(
        "<p>ampwort</p>", "text/x-amp-html")), ["plain"], ["ampwort"]),
    # Heads that are not encoded.
    ("UTF-8 in a head", "From: Jürgen <j@x>\nSubject: Grüße\n\n".encode(),
     ["from:jürgen subject:grüße"], []),
    ("Latin-1 in a head", "From: Jürgen <j@x>\nSubject: Grüße\n\n".encode("latin-1"),
     ["from:jürgen subject:grüße"], []),
    ("encoded words cut in a character", headed(
        "From: a@x", "Subject: =?utf-8?q?Gr=C3?=", " =?utf-8?q?=BC=C3=9Fe?="), ["subject:grüße"], []),
    # Attached mails and failed deliveries.
    ("an attached mail", parted("mixed", part("weitergeleitet"), part(INNER, "message/rfc822")),
     ["weitergeleitet", "innersubject", "inner z.org", "innerbody"],
     ["from:inner", "subject:innersubject"]),
    ("a mail attached as a file", parted("mixed", part("anbei"), part(
        INNER, "message/rfc822", 'Content-Disposition: attachment; filename="m.eml"\n')),
     ["anbei innersubject innerbody", "attachment:m.eml"], []),
    ("a failed delivery", parted("report; report-type=delivery-status", part("not delivered"), part(
        "Reporting-MTA: dns; mx.y.org\n\nFinal-Recipient: rfc822; lostone@y.org\nAction: failed\n",
        "message/delivery-status"), part(INNER, "message/rfc822")),
     ["lostone failed", "innersubject"], []),
    ("the head of a failed mail", parted("report", part("bounce"), part(
        "From: x\nSubject: verlorenes", "text/rfc822-headers")), ["bounce verlorenes"], []),
    # Recipients, lists, attached files.
    ("all recipients", headed("From: a@x", "To: eins@x", "Cc: zwei@x", "Bcc: drei@x"),
     ["to:eins", "to:zwei", "to:drei", "cc:zwei"], ["cc:eins", "to:a"]),
    ("a list", headed("From: a@x", 'List-Id: "Debian developers" <debian-devel.lists.debian.org>'),
     ["list:debian-devel", "list:developers"], ["to:developers"]),
    ("names of attached files", parted("mixed", part("x"), part("eA==", "application/pdf", (
        "Content-Disposition: attachment;\n filename*=utf-8''%C3%BCbersicht.pdf\n"))),
     ["attachment:übersicht", "attachment:pdf"], ["subject:übersicht"]),
    ("a name in three parts", parted("mixed", part("x"), part("eA==", "application/pdf", (
        "Content-Disposition: attachment;\n filename*0=lang; filename*1=name; filename*2=.pdf\n"))),
     ["attachment:langname"], []),
    # What is long, deep or broken.
    ("parts in one another",
     HEAD.replace(b"plain", b"tiefe") + DEEP + b"Content-Type: text/plain\n\ngrundwort\n",
     ["subject:tiefe", "from:ada", "grundwort"], []),
    ("a head that is none", b"no colon here\n\nrumpfwort\n", ["rumpfwort"], []),
    ("encoded words that are none", headed("From: =?nonsense?b?!!!?= <x@kaputt.org>",
                                           "Subject: =?utf-8?b?a?= rest"),
     ["from:kaputt", "subject:rest"], []),
    ("three thousand recipients", headed("From: a@x", "To: " + ", ".join(
        f"r{number}@empfaenger.org" for number in range(3_000))),
     ["to:r0", "to:r2999", "to:empfaenger"], []),
    ("a message id that is long",
     headed("From: langeid@x", "Message-ID: <" + "Ab=" * 3_000 + "@x>"), ["from:langeid"], []),
    ("a message id in capitals", headed("From: a@x", "Message-ID: <Ab.C+9@X.org>"),
     ["id:Ab.C+9@X.org", "id:<Ab.C+9@X.org>"], ["id:Ab.C"]),
    ("a head alone", b"From: kopfallein@x\nSubject: nurkopf",
     ["from:kopfallein subject:nurkopf"], []),
    ("line ends of two bytes", b"From: zweibyte@x\r\nSubject: crlf\r\n\r\nzeile eins\r\nzwei\r\n",
     ["from:zweibyte subject:crlf zeile zwei"], []),
    ("words that are joined", whole("see lists.debian.org and foo_bar, it's v1,5mm"),
     ["debian", "bar", "lists.debian.org", "5mm"], ["org.debian"]),
    ("fields on several lines", headed("From: a@x", "Subject: erste", " zweite", "\tdritte"),
     ["subject:dritte subject:erste"], []),
    ("a mail that speaks of the past", whole("From the beginning\n\n>From here on"),
     ["beginning here on"], []),
]


class Table(Stores):
    """Each mail is found by its words, and by no others."""

    def check(self):
        with Store(self.store) as store:
            for number, (name, _, wanted, unwanted) in enumerate(TABLE, 1):
                for query in wanted:
                    with self.subTest(name, query=query):
                        self.assertIn(number, searching.find(store, query))
                for query in unwanted:
                    with self.subTest(name, unwanted=query):
                        self.assertNotIn(number, searching.find(store, query))

    def test_from_a_mailbox(self):
        self.write("box", mbox(*(raw for _, raw, *_ in TABLE)))
        self.loaded(len(TABLE), "load-mbox", self.folder / "box")
        self.check()
        self.loaded(0, "load-mbox", self.folder / "box")

    def test_from_a_maildir(self):
        for at, (_, raw, *_) in enumerate(TABLE, 1):
            self.write(f"m/cur/{1_000 + at}.M1P1.h:2,S", raw)
        self.loaded(len(TABLE), "load-maildir", self.folder / "m")
        self.check()
        self.loaded(0, "load-maildir", self.folder / "m")


class Cut(Stores):
    """What does not fit is cut, and that is told."""

    def test_what_was_cut_is_told(self):
        many = b"From: a@x\nSubject: large\n\n" + b"many words \xff\n" * 160_000
        names = b"From: b@x\nTo: " + b", ".join(b"n%d@long.example.org" % n for n in range(40_000))
        self.write("box", mbox(many, names + b"\n\nsmall\n", b"From: c@x\n\nsmall\n",
                               HEAD + DEEP + b"\n"))
        self.run_line(r"^loaded 4 documents \(2 cut\)", "load-mbox",
                      self.folder / "box")
        self.assert_found({"many subject:large": [1], "small": [2, 3], "to:n1": [2],
                           "from:ada": [4]})
        self.run_line(r'\\n\[cut]"}\n\Z', "search", "--format", "json", "subject:large")

    def test_documents_fit_whatever_they_hold(self):
        for text in ("é" * 700_000, "a.b " * 300_000, "\u01bb" * 400_000, "\n" * 1_100_000):
            words = [f"word{number}" for number in range(100_000)]
            for tail in ([], words):
                with self.subTest(text=text[:2], words=len(tail)):
                    data, _ = documents.document("mbox", text, tail)
                    self.assertLessEqual(len(data), documents.MOST_BYTES)
                    data.decode()
                    self.assertNotIn(b"\n", data)


class Pieces(unittest.TestCase):
    """Bytes and pages by themselves."""

    def test_bytes_by_what_charsets_mean(self):
        for data, charset, text in [
                (b"don\x92t", "ISO-8859-1", "don’t"), (b"\xe9", None, "é"), (b"\xe9", "utf-8", "é"),
                ("né".encode() + b"\xff", "utf-8", "né\ufffd"), (b"\x80", "iso-8859-15", "\x80"),
                ("ü".encode(), "latin1", "Ã¼"), ("ü".encode(), "us-ascii", "ü"),
                (b"abc", "idna", "abc"), (b"abc", "hex", "abc"), (b"abc", '"UTF-8"', "abc"),
                ("日本".encode("iso2022_jp"), "iso-2022-jp", "日本"), (b"", None, "")]:
            with self.subTest(data, charset=charset):
                self.assertEqual(decoded(data, charset), text)

    def test_a_page_takes_no_longer_than_its_length(self):
        for page in ("<a x='" * 30_000, "<img alt " * 30_000, "<" * 200_000, "<!--" * 50_000,
                     "<script>" * 30_000, "<img alt='" * 30_000, '<p "' * 50_000):
            page_text(page)

    def test_the_identity_of_a_mail_stays_when_it_is_read(self):
        raw = b"From: a@x\nMessage-ID: <1@x>\n\nbody\n"
        marked = raw.replace(b"\n\n", b"\nStatus: RO\nX-Status: A\nContent-Length: 5\n\n", 1)
        self.assertEqual(mails.identity(raw), mails.identity(marked))
        self.assertNotEqual(mails.identity(raw), mails.identity(raw + b"more\n"))
        self.assertEqual(mails.identity(raw)[0], b"1@x")

    def test_no_mail_of_chance_stops_the_reader(self):
        # Pieces of mails in any order, with faults.
        pieces = [b"Content-Type: multipart/mixed; boundary=b\n", b"--b\n", b"--b--\n", b"\n",
                  b"Content-Type: message/rfc822\n", b"From: =?utf-8?b?w6?= x\n", b"\xff\x00\n",
                  b"Content-Transfer-Encoding: base64\n", b"Date: 99 Foo 99999\n", b"%%%=\n",
                  b"Content-Type: text/html; charset=\"\n", b"<p>", b"Subject:\n \n", b": x\n"]
        draw = random.Random(1)
        for _ in range(2_000):
            raw = b"".join(draw.choices(pieces, k=draw.randint(0, 12)))
            parsed = mails.mail(raw)
            data, _ = documents.document("mbox", parsed.text, parsed.words)
            text, known = layout.split(data.decode().replace("\v", "\n"))
            self.assertEqual(known["kind"], "mbox")
            self.assertGreaterEqual(text.count("\n"), len(layout.HEAD), raw)
