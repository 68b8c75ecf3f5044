"""What the tests of all streams share."""

from tests import ROOT


class StreamTests:
    """The files of a test program's crate hold what `build` makes: entries, stdin and stdout."""

    crate = ""

    @classmethod
    def setUpClass(cls):
        super().setUpClass()
        cls.entries, cls.stdin, cls.stdout = cls.build()

    def test_files_are_as_built(self):
        for name, due in (("stdin", self.stdin), ("stdout", self.stdout)):
            path = ROOT / "crates" / self.crate / name
            held = path.read_bytes() if path.is_file() else None
            detail = "there is no such file" if held is None else "make streams, or find the change"
            self.check(f"crates/{self.crate}/{name}", held == due, detail)

    def test_every_case_has_a_name_of_its_own(self):
        names = [entry.name for entry in self.entries]
        self.assertEqual(len(set(names)), len(names))
