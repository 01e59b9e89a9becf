"""The lines, replies and reasons of the program are the same wherever they are told: in the code that
writes them, the headers of its crates, the help, docs/SHELL.md and the manual."""
import pathlib
import re
import unittest

TOP = pathlib.Path(__file__).resolve().parents[2]
QUOTED = re.compile(r"`([^`]+)`")
# What stands for a number or a text in a reply or a reason.
PLACE = re.compile(r"\b[A-Z]\b.*|:.*")


def text_of(path):
    return (TOP / path).read_text("utf-8")


def section(text, begin, end):
    """What stands between two texts."""
    return text.partition(begin)[2].partition(end)[0]


def rows(text):
    """The cells of each row of the tables of a text, but for their heads."""
    lines = (line.lstrip("/! ") for line in text.splitlines())
    cells = [[cell.strip() for cell in line.strip("|").split(" | ")] for line in lines
             if line.startswith("|") and not line.startswith("|--")]
    return [row for row in cells if QUOTED.search(row[0])]


def fixed(words):
    """What is written alike each time, up to the first number or text in it."""
    return PLACE.sub("", words).strip()


def quoted(text):
    """What a text quotes, as far as it is written alike each time."""
    return {fixed(words) for words in QUOTED.findall(text)}


def first_quoted(cells):
    return {fixed(QUOTED.search(cell)[1]) for cell in cells if QUOTED.search(cell)}


def manual(text):
    """A part of the manual with its quotations as in the other documents."""
    text = re.sub(r"^\.Ql (.+?)(?: [,.])?$", r"`\1`", text, flags=re.M)
    return text.replace("\\e", "\\")


SHELL = text_of("docs/SHELL.md")
SHELL_LINES = rows(section(SHELL, "## Lines and replies", "T and Q"))
SHELL_REASONS = first_quoted(row[0] for row in rows(section(SHELL, "## Refusals", "Of the last")))
PROGRAM = SHELL.partition("## The program")[2]
PROGRAM_REASONS = first_quoted(row[0] for row in rows(section(PROGRAM, "| reason |",
                                                              "An argument is text")))
HELPS = text_of("crates/pk_arguments/src/command_line.rt")
HELP = section(HELPS, "const RUN_HELP", '";')
READ_HELP = section(HELPS, "const READ_HELP", '";')
# What a session that only reads refuses, beside the reasons of each session.
READ_ONLY = {"read only"}
MANUAL = text_of("man/pk_find.1")
MANUAL_LINES = section(MANUAL, "The lines are:", ".El")
HEADER = text_of("crates/pk_shell/src/lib.rt").partition("#![")[0]
SENDING = text_of("crates/pk_shell/src/sending.rt")


class Lines(unittest.TestCase):
    """The commands, and what each is answered."""

    COMMANDS = {QUOTED.search(row[0])[1].split()[0] for row in SHELL_LINES}
    REPLIES = first_quoted(row[1] for row in SHELL_LINES)

    def test_the_table_is_read(self):
        self.assertEqual(self.COMMANDS, {"add", "delete", "find", "show", "commit", "merge", "tidy",
                                         "count", "quit"})
        self.assertEqual(self.REPLIES, {"added", "deleted", "found", "text", "committed", "merged",
                                        "tidied", "count", "bye"})

    def test_header(self):
        lines = rows(HEADER.partition("Anything else")[0])
        self.assertEqual({QUOTED.search(row[0])[1].split()[0] for row in lines}, self.COMMANDS)
        self.assertEqual(first_quoted(row[1] for row in lines), self.REPLIES)

    def test_help(self):
        lines = section(HELP, "answered by one line:", "\n\n")
        self.assertEqual(set(re.findall(r"^  (\w+)", lines, re.M)), self.COMMANDS)
        self.assertLessEqual(self.REPLIES, quoted(lines))

    def test_help_of_a_reader(self):
        asked = set(re.findall(r"^  (\w+)", READ_HELP, re.M))
        changing = READ_HELP.partition("are refused as `read only`")[0].rpartition("\n\n")[2]
        self.assertEqual(asked | quoted(changing), self.COMMANDS)
        self.assertLessEqual({"found", "text", "count", "bye"}, quoted(READ_HELP))

    def test_manual(self):
        self.assertEqual(set(re.findall(r"^\.It Cm (\w+)", MANUAL_LINES, re.M)), self.COMMANDS)
        self.assertLessEqual(self.REPLIES, quoted(manual(MANUAL_LINES)))

    def test_code(self):
        written = {fixed(words) for words in re.findall(r'b"([a-z]\w+)[ "]', SENDING)}
        self.assertEqual(written - {"refused"}, self.REPLIES)


class Reasons(unittest.TestCase):
    """Why a line is refused."""

    def test_the_tables_are_read(self):
        self.assertEqual(len(SHELL_REASONS), 20)

    def test_code(self):
        written = {words.strip() for words in re.findall(r'b"refused ([^"]+)"', SENDING)}
        self.assertEqual(written, SHELL_REASONS)

    def test_help(self):
        reasons = quoted(section(HELP, "and why:", "After `refused"))
        self.assertEqual(reasons, SHELL_REASONS - READ_ONLY)
        self.assertLessEqual(READ_ONLY, quoted(READ_HELP))

    def test_manual(self):
        reasons = section(MANUAL, "and why:", ".El")
        self.assertEqual(quoted(manual(reasons)), SHELL_REASONS)

    def test_header(self):
        store = {word for row in rows(section(HEADER, "| reason |", "What is uncommitted"))
                 for word in quoted(row[0])}
        of_line = {"line too long", "not text", "unknown"} | READ_ONLY
        of_query = {words for words in SHELL_REASONS if words.startswith("query ")}
        self.assertEqual(store, SHELL_REASONS - of_line - of_query)


class ProgramReasons(unittest.TestCase):
    """Why a command of the program failed."""

    def test_the_table_is_read(self):
        self.assertEqual(len(PROGRAM_REASONS), 15)

    def test_code(self):
        written = set(re.findall(r'"pk_find: ([^"]+)\\n"',
                                 text_of("crates/pk_command/src/reporting.rt")))
        self.assertEqual(written, PROGRAM_REASONS)

    def test_header(self):
        told = text_of("crates/pk_command/src/lib.rt").partition("#![")[0]
        reasons = {word for row in rows(section(told, "| reason |", "The command line is judged"))
                   for word in quoted(row[0])}
        self.assertEqual(reasons, PROGRAM_REASONS)

    def test_manual(self):
        reasons = section(MANUAL, ".It 1", ".It 2")
        self.assertEqual(quoted(manual(reasons)), PROGRAM_REASONS)


if __name__ == "__main__":
    unittest.main()
