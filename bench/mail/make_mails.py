"""Makes a maildir and a mailbox of the same mails, drawn from English text by a seeded generator.

    make_mails.py SOURCE FOLDER MAILS

FOLDER gets `maildir` and `mbox`. Sizes are drawn about 3 KB; a mail in five answers an earlier one,
one in ten is Latin-1 in quoted-printable, one in twenty base64. Many bodies end with the address of
a mailing list, so that joined words are there.
"""

import datetime
import email.message
import pathlib
import random
import sys

SEED = 2010
NAMES = ["Ada Byron", "Bdale Garbee", "Chen Li", "Dana Scott", "Émile Zola", "Fatima Noor",
         "Grace Hopper", "Hélène Roy", "Ivan Petrov", "Jörg Müller", "Kaja Ness", "Lars Holm"]
LISTS = ["devel", "user", "security", "release", "mentors"]


def bodies(words, draw):
    """Texts of drawn lengths, in lines."""
    at = 0
    while True:
        count = max(20, int(draw.lognormvariate(5.9, 0.8)))
        if at + count > len(words):
            at = 0
        taken = words[at:at + count]
        at += count
        yield "\n".join(" ".join(taken[i:i + 12]) for i in range(0, count, 12)), taken


def address(name):
    """A name's mail address."""
    plain = name.encode("ascii", "ignore").decode().lower().replace(" ", ".")
    return f"{name} <{plain}@example.org>"


def mail(number, text, words, subjects, draw):
    """One mail, with its time of delivery in seconds."""
    made = email.message.EmailMessage()
    time = datetime.datetime(2010, 1, 1) + datetime.timedelta(minutes=97 * number)
    topic = f"debian-{draw.choice(LISTS)}"
    answer = subjects and draw.random() < 0.2
    subject = "Re: " + draw.choice(subjects[-200:]) if answer else " ".join(words[3:9])
    if not answer:
        subjects.append(subject.encode("ascii", "ignore").decode())
    made["From"], made["To"] = address(draw.choice(NAMES)), f"{topic}@lists.debian.org"
    made["Subject"], made["Date"] = subject, time.strftime("%a, %d %b %Y %H:%M:%S +0000")
    made["Message-ID"] = f"<{time:%Y%m%d}.{number}@lists.debian.org>"
    text += f"\n\n-- \nhttps://lists.debian.org/{topic}/\n"
    drawn = draw.random()
    if drawn < 0.1:
        text = text.encode("latin-1", "replace").decode("latin-1") + "café\n"
        made.set_content(text, charset="iso-8859-1", cte="quoted-printable")
    else:
        made.set_content(text, cte="base64" if drawn < 0.15 else "8bit")
    return int(time.replace(tzinfo=datetime.timezone.utc).timestamp()), made.as_bytes()


def main():
    """Makes them."""
    source, folder, count = pathlib.Path(sys.argv[1]), pathlib.Path(sys.argv[2]), int(sys.argv[3])
    draw, subjects = random.Random(SEED), []
    words = source.read_text(errors="ignore").split() or ["word"] * 10_000
    for part in ("cur", "new", "tmp"):
        (folder / "maildir" / part).mkdir(parents=True)
    with open(folder / "mbox", "wb") as box:
        for number, (text, taken) in zip(range(1, count + 1), bodies(words, draw)):
            time, raw = mail(number, text, taken, subjects, draw)
            (folder / "maildir" / "cur" / f"{time}.M{number}P1.bench:2,S").write_bytes(raw)
            stamp = datetime.datetime.fromtimestamp(time, datetime.timezone.utc)
            box.write(f"From bench {stamp:%a %b %d %H:%M:%S %Y}\n".encode())
            box.write(raw.replace(b"\nFrom ", b"\n>From ") + b"\n")


if __name__ == "__main__":
    main()
