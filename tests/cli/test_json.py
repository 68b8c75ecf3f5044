"""--json of every verb, on what is accepted, refused and not there, held against the schema that is
shipped; and --separator."""

import csv
import io
import json
import sys
import tempfile
import unittest
from pathlib import Path

from tests import ROOT
from tests.cli.json_schema import faults_of
from tests.cli.run import DONE, REFUSED, TROUBLE, sample, xaropinto
from tests.cli.test_habits import ACCEPTED, BROKEN, all_verbs
from tests.support.report import run_unit_tests

SCHEMA = json.loads((ROOT / "python" / "xaropinto" / "schema.json").read_text(encoding="utf-8"))
STATUS = {DONE: "done", REFUSED: "refused", TROUBLE: "error"}


class Documents(unittest.TestCase):
    """What is printed."""

    def setUp(self):
        held = tempfile.TemporaryDirectory()
        self.addCleanup(held.cleanup)
        self.folder = Path(held.name)

    def document(self, *words, code=DONE, sent=b""):
        """What the command prints, once it is as the schema says."""
        run = xaropinto(*words, "--json", sent=sent)
        self.assertEqual(run.code, code, run.errors)
        found = json.loads(run.out)
        self.assertEqual(faults_of(found, SCHEMA), [])
        self.assertEqual((found["verb"], found["exit"]), (words[0], code))
        return found

    def test_every_verb(self):
        for name, verb in all_verbs(self.folder).items():
            with self.subTest(verb=name):
                out = self.folder / f"{name}.out"
                for given, code in ((verb.good, DONE), (verb.bad, REFUSED)):
                    results = self.document(*verb.line(name, given, out), code=code)["results"]
                    self.assertEqual({each["status"] for each in results}, {STATUS[code]})
                    if code == DONE:
                        self.assertEqual(verb.writes, "written" in results[0])
                        self.assertNotEqual(verb.writes, "answer" in results[0])
                if isinstance(verb.good, Path):
                    results = self.document(
                        *verb.line(name, self.folder / "nowhere", out), code=TROUBLE
                    )["results"]
                    self.assertEqual({each["status"] for each in results}, {"error"})

    def test_check(self):
        found = self.document("check", ACCEPTED, BROKEN, "/nowhere", "--all", code=TROUBLE)[
            "results"
        ]
        self.assertEqual([each["status"] for each in found], ["done", "refused", "error"])
        self.assertEqual(
            (found[0]["answer"]["n"], [group["group"] for group in found[0]["answer"]["groups"]]),
            (3, ["PG2"]),
        )
        self.assertTrue(found[0]["warnings"])
        self.assertEqual((found[1]["refusal"]["number"], found[1]["refusal"]["place"]), (12, 1232))
        self.assertEqual([fault["place"] for fault in found[1]["answer"]["faults"]], [1232])

    def test_the_same_figures(self):
        listing = self.document("list", ACCEPTED)["results"][0]["answer"]
        self.assertEqual(listing["text"], xaropinto("list", ACCEPTED).out.decode())
        self.assertEqual(
            [f"{line['setting']} {line['total']} {line['n']}" for line in listing["lines"]],
            listing["text"].splitlines(),
        )
        for words in (("years", ACCEPTED, "--setting", 7), ("classes", ACCEPTED)):
            rows = list(csv.DictReader(io.StringIO(xaropinto(*words).out.decode())))
            answer = self.document(*words)["results"][0]["answer"]
            self.assertEqual(
                [{name: str(cell) for name, cell in row.items()} for row in answer], rows
            )

    def test_files_that_are_written(self):
        out = self.folder / "out"
        found = self.document("list", ACCEPTED, BROKEN, "--folder", out, code=REFUSED)["results"]
        self.assertEqual(
            (found[0]["written"], [each["status"] for each in found]),
            ([str(out / "worked_example.listing")], ["done", "refused"]),
        )
        self.assertEqual(xaropinto("list", ACCEPTED, "-o", "-", "--json").code, TROUBLE)

    def test_a_full_output(self):
        with open("/dev/full", "wb") as full:
            run = xaropinto("check", ACCEPTED, "--json", output=full)
        self.assertEqual(run.code, TROUBLE)

    def test_the_schema_refuses(self):
        good = self.document("check", BROKEN, ACCEPTED, code=REFUSED)

        def without(document, *path):
            copy = json.loads(json.dumps(document))
            inside = copy
            for step in path[:-1]:
                inside = inside[step]
            del inside[path[-1]]
            return copy

        for path in (
            ("exit",),
            ("results", 0, "status"),
            ("results", 0, "refusal"),
            ("results", 1, "answer"),
            ("results", 0, "refusal", "owner"),
            ("results", 1, "answer", "n"),
            ("results", 1, "answer", "groups", 0, "contracts"),
        ):
            with self.subTest(path=path):
                self.assertNotEqual(faults_of(without(good, *path), SCHEMA), [])
        for wrong in (
            {**good, "exit": 3},
            {**good, "more": 1},
            {**good, "results": []},
            {**good, "verb": "list"},
            {**good, "xaropinto": 2},
        ):
            self.assertNotEqual(faults_of(wrong, SCHEMA), [])


class Separators(unittest.TestCase):
    """--separator."""

    def test_semicolons(self):
        for words in (
            ("years", ACCEPTED, "--setting", 0),
            ("classes", ACCEPTED),
            ("cell", ACCEPTED, "--setting", 0, "--subgroup", "PG2", "--sex", "men", "--class", 118),
        ):
            with self.subTest(words=words):
                commas = xaropinto(*words).out
                for separator, character in ((";", b";"), ("tab", b"\t"), ("|", b"|")):
                    run = xaropinto(*words, "--separator", separator)
                    self.assertEqual((run.code, run.out), (DONE, commas.replace(b",", character)))
                for wrong in ("", "ab", "1", "-", '"', "\n"):
                    self.assertEqual(xaropinto(*words, f"--separator={wrong}").code, TROUBLE)

    def test_words_with_the_separator(self):
        run = xaropinto("check", BROKEN, "--all", "--csv", "--separator", ";")
        rows = list(csv.reader(io.StringIO(run.out.decode()), delimiter=";"))
        self.assertEqual((len(rows), rows[1][:3]), (2, [str(BROKEN), "12", "1232"]))
        self.assertIn("; rule: ", rows[1][4])
        self.assertEqual(xaropinto("check", sample("one_record"), "--separator", ";").code, TROUBLE)


if __name__ == "__main__":
    sys.exit(run_unit_tests(sys.modules[__name__]))
