"""Links of documents lead to a file and to one head in it, and each page is linked."""
import pathlib
import re
import unittest

TOP = pathlib.Path(__file__).resolve().parents[2]
DOCUMENTS = sorted(TOP.joinpath(name) for pattern in ("*.md", "docs/*.md", "*/README.md")
                   for name in TOP.glob(pattern))
PAGES = {page.stem: page for page in DOCUMENTS if page.name != "README.md"}
LINK = re.compile(r"\[([^][]*)\]\(([^()#\s]*)(?:#([^()\s]*))?\)")
# What else may name a page, by its path from the top.
NAMING = ["Makefile", "bench/*/*.*", "clients/**/*.py", "debian/*", "man/*.1", "packages/*",
          "tests/*.*", "tools/**/*.*", "crates/*/src/**/*.rt", "crates/*/specs/*.antt"]


def text_of(page):
    """A document's text without its examples."""
    return re.sub(r"^( *)```.*?^\1```$", "", page.read_text("utf-8"), flags=re.M | re.S)


def heads(page):
    """What links may call the heads of a document: words in small letters, joined by hyphens."""
    found = re.findall(r"^#+ (.*)", text_of(page), re.M)
    return [re.sub(r"[^\w\- ]", "", head.lower()).replace(" ", "-") for head in found]


def links():
    """Each link within the repository: the document, what is shown, the file, the head if any."""
    for document in DOCUMENTS:
        for shown, path, head in LINK.findall(text_of(document)):
            if "://" not in path:
                yield document, shown, document.parent / path if path else document, head


class Links(unittest.TestCase):
    def test_they_are_found(self):
        self.assertGreater(len(list(links())), 100)
        self.assertEqual(len(list(links())), sum(len(re.findall(r"\]\((?!https?:)", text_of(page)))
                                                 for page in DOCUMENTS))

    def test_files(self):
        for document, _, path, _ in links():
            with self.subTest(document=document.name, path=path.name):
                self.assertTrue(path.exists())

    def test_heads(self):
        for document, _, path, head in links():
            if head:
                with self.subTest(document=document.name, path=path.name, head=head):
                    self.assertEqual(heads(path).count(head), 1)

    def test_a_page_is_called_by_its_name(self):
        for document, shown, path, _ in links():
            name = shown.removesuffix(".md")
            if name in PAGES:
                with self.subTest(document=document.name, shown=shown):
                    self.assertEqual(path.resolve(), PAGES[name])

    def test_each_page_is_linked(self):
        first = [TOP / "README.md", TOP / "CONTRIBUTING.md", TOP / "docs/GUIDE.md"]
        reached = {path.resolve() for document, _, path, _ in links() if document in first}
        self.assertEqual(set(TOP.glob("docs/*.md")) - reached, set())

    def test_paths_that_documents_quote(self):
        tops = "|".join(re.escape(path.name) for path in TOP.iterdir() if path.is_dir())
        count = 0
        for document in DOCUMENTS:
            for path in re.findall(rf"`((?:{tops})/[\w./*-]+)", document.read_text("utf-8")):
                if not re.search(r"/(?:[A-Z]+|out)(?:/|\Z)", path):
                    count += 1
                    with self.subTest(document=document.name, path=path):
                        self.assertTrue(any(TOP.glob(path)))
        self.assertGreater(count, 50)

    def test_pages_that_files_name(self):
        count = 0
        for pattern in NAMING:
            for file in TOP.glob(pattern):
                if file.is_file() and file.suffix != ".pyc":
                    named = re.findall(r"docs/[\w.]+\.md", file.read_text("utf-8", "replace"))
                    count += len(named)
                    for name in named:
                        with self.subTest(file=file.name):
                            self.assertTrue((TOP / name).exists(), name)
        self.assertGreater(count, 20)


if __name__ == "__main__":
    unittest.main()
