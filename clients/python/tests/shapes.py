"""Texts that are made to hold a reader up: a million signs each."""

SIGNS = 1_000_000


def _filled(unit, begin="", end=""):
    """Units up to a million signs."""
    return begin + unit * ((SIGNS - len(begin) - len(end)) // len(unit)) + end


# By name; each is one line, but for those that are named so.
SHAPES = {
    "letters": _filled("a"), "dots": _filled("."), "dots behind a letter": _filled(".", "a"),
    "underscores": _filled("_", "a"), "letters and dots": _filled("a."),
    "digits and commas": _filled("1,"), "commas": _filled(",", "1"),
    "letters and commas": _filled("a,"), "joiners": _filled("\u200d", "a"),
    "joiners between letters": _filled("a\u200d"), "soft hyphens": _filled("\xad"),
    "quotes": _filled('"'), "quotes with one open": _filled('" ', '"'), "single quotes": _filled("'"),
    "spaces": _filled(" ", "x", "x"), "spaces alone": _filled(" "), "tabs": _filled("\t", "x", "x"),
    "spaces before a zone": _filled(" ", "Mon, 1 Jan 2010 00:00:00", "x"),
    "semicolons": _filled(";"), "semicolons in quotes": _filled(";", 'text/plain; a="'),
    "semicolons and spaces": _filled("; "), "parameters": _filled(";a=b", "text/plain"),
    "parameters in pieces": _filled("; name*1=b", "text/plain"),
    "backslashes": _filled("\\", 'text/plain; a="'),
    "round brackets": _filled("("), "square brackets": _filled("["), "braces": _filled('{"a":'),
    "angle brackets": _filled("<"), "addresses": _filled("a@b.c, "), "at signs": _filled("@"),
    "encoded words": _filled("=?utf-8?q?a?= "), "encoded words that do not end": _filled("=?u?q?a "),
    "begins of encoded words": _filled("=?"), "charsets": "".join(
        f"=?x{number}?q?a?= " for number in range(SIGNS // 16)),
    "references": _filled("&amp;"), "references that do not end": _filled("&a"),
    "numbers of characters": _filled("1", "&#"), "percent signs": _filled("%41"),
    "combining marks": _filled("\u0301", "a"), "marks in two orders": _filled("\u0301\u0323", "a"),
    "marks and soft hyphens": _filled("\u0301\u0316" * 15 + "\xad", "a"),
    "marks and joiners": _filled("\u0301\u0316" * 15 + "\u034f", "a"),
    "letters with marks": _filled("a\u0301"), "sharp s": _filled("ß"), "ideographs": _filled("日"),
    "hangul": _filled("\u1100\u1161"), "katakana": _filled("カ"), "Thai": _filled("ก"),
    "signs of loaders": _filled("\u01bb"), "emoji": _filled("\U0001f600"), "NULs": _filled("\0"),
    "tags": _filled("<b>"), "tags that do not end": _filled("<a x='"), "comments": _filled("<!--"),
    "scripts": _filled("<script>"), "ends of scripts": _filled("</script ", "<script>"),
    "images": _filled("<img alt "), "images and quotes": _filled("<img '\"alt="),
    "attributes": _filled("a=b ", "<p ", ">"), "one long tag": _filled("x", "<p ", ">"),
    "alt in one tag": _filled("alt ", "<img "), "quotes in one tag": _filled("''", "<img "),
    "equal signs": _filled("="), "dashes": _filled("-"), "dates": _filled("2010-05-14 "),
    "times": _filled(" 00:00", "From x"), "seconds": _filled("1"), "years": _filled("2010 ", "From x "),
    "words": "".join(f"wort{number} " for number in range(SIGNS // 10)),
    "joined words": "".join(f"a{number}.b{number} " for number in range(SIGNS // 14)),
}
# Of several lines; these are mails.
LINES = {
    "empty lines": _filled("\n"), "lines": _filled("a\n", "\n"), "carriage returns": _filled("\r"),
    "fields": _filled("a:\n"), "fields without a name": _filled(":\n"),
    "ids": _filled("Message-ID:\n"), "subjects": _filled("Subject: =?utf-8?q?a?=\n"),
    "folded lines": _filled(" a\n", "Subject: x\n"), "marks of reading": _filled("Status: a\n"),
    "spaces behind a field": _filled(" ", "Status", "x\n"),
    "parts": _filled("--b\n\n", "Content-Type: multipart/mixed; boundary=b\n\n"),
    "dashes of parts": _filled("--c\n", "Content-Type: multipart/mixed; boundary=b\n\n"),
    "alternatives": _filled("--b\n\na\n", "Content-Type: multipart/alternative; boundary=b\n\n"),
    "mails in mails": _filled("Content-Type: message/rfc822\n\n"),
    "reports": _filled("a: b\n\n", "Content-Type: message/delivery-status\n\n"),
    "digests": _filled("--b\n\na: b\n\n", "Content-Type: multipart/digest; boundary=b\n\n"),
    "uuencoded": _filled("#86%A\n", "Content-Transfer-Encoding: x-uue\n\nbegin 644 a\n"),
    "flowed": _filled("a \n", "Content-Type: text/plain; delsp=yes; format=flowed\n\n"),
    "calendars": _filled("\n a", "Content-Type: text/calendar\n\n"),
    "quoted": _filled("=3D=\n", "Content-Transfer-Encoding: quoted-printable\n\n"),
}


def _nested(kind):
    """Parts in one another, with lines in the innermost."""
    told = "".join(f"Content-Type: multipart/{kind}; boundary=b{number}\n\n--b{number}\n"
                   for number in range(300))
    return told + _filled("a\n", "\n")[:SIGNS - len(told)]


LINES["parts in one another"] = _nested("mixed")
LINES["alternatives in one another"] = _nested("alternative")
# Where a shape may stand in a mail.
PLACES = {
    "a text": "Subject: x\nContent-Type: text/plain; charset=utf-8\n\n{}\n",
    "a page": "Subject: x\nContent-Type: text/html; charset=utf-8\n\n{}\n",
    "a subject": "Subject: {}\n\nx\n", "a type": "Content-Type: {}\n\nx\n",
    "a date": "Date: {}\n\nx\n", "an id": "Message-ID: {}\n\nx\n", "a mail": "{}",
}
# Where some of them stand that mean nothing elsewhere.
PAGES = ("references", "references that do not end", "numbers of characters", "tags",
         "tags that do not end", "comments", "scripts", "ends of scripts", "images",
         "images and quotes", "attributes", "one long tag", "alt in one tag", "quotes in one tag",
         "angle brackets")
HEADS = ("parameters", "parameters in pieces", "backslashes", "semicolons", "semicolons in quotes",
         "semicolons and spaces", "encoded words", "encoded words that do not end",
         "begins of encoded words", "charsets", "percent signs", "spaces before a zone", "addresses")
