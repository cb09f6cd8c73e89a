"""ecn_origin.py [NAME..]: ecn table --origin and ecn check --origin. The last line is 'N passed, M failed'."""
import csv
import hashlib
import io
import json
import os
import shutil
import sys

import tools
from tools import BIN, SAMPLES, TOP, Tried

SCANNERS = SAMPLES / "streams/scanners.trace"


def sha(path) -> str:
    return hashlib.sha256(path.read_bytes()).hexdigest()


class Origins(Tried):
    def setUp(self):
        super().setUp()
        self.copy, self.origin = self.folder / "c1.trace", self.folder / "out.csv.origin"
        shutil.copy(SAMPLES / "c1.trace", self.copy)

    def made(self, *words, status=0):
        return self.ecn("table", self.copy, "-o", self.out, "--origin", *words, status=status)

    def compared(self, *paths, status=0, words=()) -> list:
        text = self.ecn("check", "--origin", "--csv", *(paths or [self.origin]), *words, status=status).stdout
        return [list(row.values())[1:] for row in csv.DictReader(io.StringIO(text))]

    def test_what_it_says(self):
        self.made()
        self.assertEqual(self.out.read_bytes(), (SAMPLES / "c1.csv").read_bytes())
        said = json.loads(self.origin.read_text())
        version = (TOP / "VERSION").read_text().strip()
        self.assertEqual((said["origin"], said["made by"]), (1, f"ecn {version}"))
        self.assertRegex(said["command"], "^ecn table .*c1.trace.* --origin$")
        self.assertEqual(said["trace"], {"name": "c1.trace", "bytes": 1024, "sha256": sha(self.copy)})
        self.assertEqual(said["table"], {"name": "out.csv", "bytes": self.out.stat().st_size, "sha256": sha(self.out)})
        self.assertEqual(said["program"]["sha256"], sha(BIN / "ecntable"))
        self.alone("c1.trace", "out.csv", "out.csv.origin")

    def test_the_same(self):
        self.made()
        self.assertEqual(self.compared(), [["same"] * 4])
        self.assertRegex(self.ecn("check", "--origin", self.origin).stdout, "^origin +trace +table +again +program\n.*origin +same +same +same +same\n$")
        moved = self.new_folder() / "paper"
        shutil.copytree(self.folder, moved)
        self.copy.unlink()
        self.assertEqual(self.compared(moved / "out.csv.origin"), [["same"] * 4])

    def test_what_differs(self):
        self.made()
        kept = {path: path.read_bytes() for path in (self.copy, self.out)}
        self.out.write_bytes(kept[self.out] + b"x")
        self.assertEqual(self.compared(status=1), [["same", "differs", "same", "same"]])
        self.out.unlink()
        self.assertEqual(self.compared(status=1), [["same", "missing", "same", "same"]])
        self.out.write_bytes(kept[self.out])
        shutil.copy(SAMPLES / "reboot.trace", self.copy)
        self.assertEqual(self.compared(status=1), [["differs", "same", "differs", "same"]])
        self.copy.unlink()
        self.assertEqual(self.compared(status=1), [["missing", "same", "missing", "same"]])
        self.copy.write_bytes(kept[self.copy][:700])
        self.assertEqual(self.compared(status=1), [["differs", "same", "differs", "same"]])

    def test_another_build_of_the_program(self):
        """It is well if it makes the same table."""
        self.made()
        other = self.program(f"exec '{BIN / 'ecntable'}'")
        self.assertEqual(self.compared(words=["--bin", other]), [["same", "same", "same", "differs"]])
        wrong = self.program(f"cat >/dev/null; cat '{SAMPLES / 'reboot.csv'}'")
        self.assertEqual(self.compared(words=["--bin", wrong], status=1), [["same", "same", "differs", "differs"]])
        failing = self.ecn("check", "--origin", self.origin, "--bin", self.program("kill -9 $$"), status=2)
        self.assertIn("c1.trace: ecntable ended by signal 9", failing.stderr)
        self.assertIn("ecntable is not found in", self.ecn("check", "--origin", self.origin, "--bin", self.folder, status=2).stderr)

    def test_several_and_streams(self):
        tables = self.folder / "tables"
        self.ecn("table", SAMPLES / "c1.trace", SAMPLES / "reboot.trace", "-o", tables, "-j", "2", "--origin")
        self.ecn("table", SCANNERS, "-o", self.out, "--streams", "--origin")
        self.assertEqual(self.compared(*sorted(tables.glob("*.origin")), self.origin), [["same"] * 4] * 3)

    def test_a_refused_trace_has_none(self):
        for name in (self.out, self.origin):
            name.write_text("as it was")
        shutil.copy(SAMPLES / "damaged.trace", self.copy)
        self.assertIn("block 5 is refused with 13", self.made(status=1).stderr)
        self.assertEqual((self.out.read_text(), self.origin.read_text()), ("as it was", "as it was"))
        self.alone("c1.trace", "out.csv", "out.csv.origin")

    def test_files_only(self):
        with open(self.copy, "rb") as trace:
            for name in ("-", "/dev/stdin"):
                ran = self.ecn("table", name, "-o", self.out, "--origin", status=2, stdin=trace)
                self.assertIn("--origin reads a trace more than once: give the trace's file", ran.stderr)
        for out in ("-", "/dev/null"):
            self.assertIn("--origin stands beside a table: give the table's file", self.ecn("table", self.copy, "-o", out, "--origin", status=2).stderr)
        self.assertIn("missing: No such file", self.ecn("table", self.folder / "missing", "-o", self.out, "--origin", status=2).stderr)
        os.link(self.copy, self.origin)
        self.assertIn("given as input and as output", self.made(status=2).stderr)
        self.assertEqual(self.origin.read_bytes(), (SAMPLES / "c1.trace").read_bytes())

    def test_a_trace_that_changes(self):
        """What was read and what is summed has to be one trace."""
        other = self.program(f"'{BIN / 'ecntable'}'; printf x >>'{self.copy}'")
        self.assertIn("has changed while it was read; the table is not put in place", self.made("--bin", other, status=2).stderr)
        self.alone("c1.trace")

    def test_foreign_origins(self):
        self.made()
        said = json.loads(self.origin.read_text())
        wrong = [b"", b"{", b"[]", b"null", b"{}", self.copy.read_bytes(), b"[" * 100000, b'{"origin": 1}', json.dumps({**said, "origin": 2}).encode()]
        for part in ("trace", "table", "program"):
            wrong += [json.dumps({**said, part: value}).encode() for value in (None, 5, {}, *({**said[part], "name": name} for name in (5, "a\0b")))]
        wrong += [json.dumps({**said, "program": {**said["program"], "name": "../../bin/sh"}}).encode(), b"x" * (1 << 21)]
        for text in wrong:
            self.origin.write_bytes(text)
            self.assertIn("is no origin of a table, as ecn table --origin writes it", self.ecn("check", "--origin", self.origin, status=1).stderr)
        self.assertIn("missing: No such file", self.ecn("check", "--origin", self.folder / "missing", status=2).stderr)
        self.assertIn("Is a directory", self.ecn("check", "--origin", self.folder, status=2).stderr)

    def test_names(self):
        self.copy.rename(odd := self.folder / "a\n\udcff, \"b\".trace")
        self.copy = odd
        self.made()
        self.assertEqual(self.compared(), [["same"] * 4])


if __name__ == "__main__":
    sys.exit(tools.main(sys.argv[1:], __name__, "ecn table --origin and ecn check --origin"))
