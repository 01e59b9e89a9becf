"""The scripts, each in each of its settings: `python3 -m unittest tests.test_scripts` plays all,
and with a name as `.Sessions.test_an_empty_text` behind it that one."""


from . import cases, scripts


def told_of(row):
    """What the player tells of a row: each difference once, with the settings that it comes in."""
    found = {}
    for setting in row.settings:
        told = scripts.differences([scripts.input_of(row, setting)])
        found.setdefault(told, []).append(setting.replace("\n", ", "))
    return "".join(
        f"{told}  in {'each setting' if len(found) == 1 else '; '.join(settings)}\n"
        for told, settings in found.items() if told)


def _test(row):
    def test(self):
        if scripts.differences([scripts.input_of(row, setting) for setting in row.settings]):
            self.fail(f"\n{told_of(row)}")
    return test


cases.make(globals(), _test, kind="script")
