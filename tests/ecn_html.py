"""ecn_html.py [NAME..]: ecn page against the proved programs, and that its pages hold nothing foreign. The last line is 'N passed, M failed'."""
import csv
import hashlib
import html.parser
import io
import os
import pathlib
import re
import shutil
import subprocess
import sys

import tools
from tools import BIN, SAMPLES, TOP, Tried, arrivals, label, needs_library

SCANNERS = SAMPLES / "streams/scanners.trace"
SOUND = [path for path in sorted(SAMPLES.glob("*.trace")) if path.stem != "damaged"]
HOSTILE = b'<script>alert("1")</script><img src=x onerror=\'f()\'>&amp;&#60;/title></style>"\'>'
ALLOWED = "html head meta title style body h1 h2 p span div table thead tbody tr th td a section ul li code svg defs pattern rect path circle text".split()


class Page(html.parser.HTMLParser):
    """The elements of a page with their attributes, its text, and the cells of its first table."""

    def __init__(self, text: str):
        super().__init__()
        self.elements, self.words, self.rows, self.cell = [], [], [], False
        self.feed(text)
        self.close()
        self.text = re.sub(r"\s+", " ", "".join(self.words))

    def handle_starttag(self, tag, attrs):
        self.elements.append((tag, dict(attrs)))
        if tag == "tr":
            self.rows.append([])
        self.cell = tag in ("td", "th") or self.cell
        if tag in ("td", "th"):
            self.rows[-1].append("")

    def handle_endtag(self, tag):
        self.cell = self.cell and tag not in ("td", "th")

    def handle_data(self, data):
        self.words.append(data)
        if self.cell:
            self.rows[-1][-1] += data


def printed(name: str, trace) -> bytes:
    with open(trace, "rb") as file:
        return subprocess.run([BIN / name], stdin=file, capture_output=True, check=False).stdout


def wanted_cells(table: bytes) -> list:
    """What the summary says of each row of a table from the packets on."""
    found = []
    for row in csv.DictReader(io.StringIO(table.decode(), newline="")):
        ect0, ect1, ce, notect, lost, dup = (int(row[name]) for name in ("ect0", "ect1", "ce", "notect", "lost", "dup"))
        received = ect0 + ect1 + ce + notect
        shares = [f"{100 * part / whole:.2f}" if whole > 0 else "\u2013" for part, whole in ((ce, received), (lost, received + lost - dup))]
        cells = [f"{received:,}", f"{ce:,}", shares[0], f"{lost:,}", shares[1], row["dup"], row["jumped"], row["restarts"]]
        found.append([row["ssrc"], *(cell.replace("-", "\u2212") for cell in cells)])
    return found


@needs_library
class Pages(Tried):
    def page(self, *words, status=0, **kept) -> Page:
        self.told = self.ecn("page", *words, "-o", self.out, status=status, library=True, **kept).stderr
        return Page(self.out.read_text(encoding="utf-8"))

    def own(self, page: Page) -> None:
        """Nothing in it is loaded from elsewhere, or run, and no name is given twice."""
        self.assertLessEqual({tag for tag, _ in page.elements}, set(ALLOWED))
        ids = [given["id"] for _, given in page.elements if "id" in given]
        self.assertEqual(len(ids), len(set(ids)))
        for tag, given in page.elements:
            self.assertFalse([name for name in given if name.startswith("on") or name in ("src", "style", "srcset", "xlink:href", "action")], (tag, given))
            self.assertTrue(tag != "a" or given["href"][1:] in ids)
            for name, value in given.items():
                inside = re.fullmatch(r"url\(#(.*)\)", value or "")
                self.assertTrue(inside[1] in ids if inside else name == "xmlns" or not re.search("url|://", value or ""), (tag, name, value))

    def test_summary(self):
        """Each row has the numbers of the last row of ecntable, and the page the sums of the trace and of its table."""
        page = self.page(*SOUND)
        self.own(page)
        self.assertIn(f"{len(SOUND)} traces, {len(SOUND)} whole.", page.text)
        head, *rows = page.rows
        self.assertEqual([row[0] for row in rows], list(map(str, SOUND)))
        for path, row in zip(SOUND, rows):
            table = printed("ecntable", path)
            self.assertEqual((row[2], [row[3], *row[5:]], row[4]), ("whole", wanted_cells(table)[-1], f"{path.stat().st_size // 512:,}"), path)
            for data in (path.read_bytes(), table):
                self.assertIn(f"{len(data):,} bytes, SHA-256 {hashlib.sha256(data).hexdigest()}", page.text)
        self.assertEqual(len([tag for tag, _ in page.elements if tag == "svg"]), len(SOUND))
        library = pathlib.Path(tools.SHARED).read_bytes()
        self.assertIn(f"Library libflasknib.so: {len(library):,} bytes, SHA-256 {hashlib.sha256(library).hexdigest()}", page.text)

    def test_pictures(self):
        """Each is the one that plot draws with no heading, but for the names of its patterns."""
        self.page(SAMPLES / "c1.trace", SAMPLES / "damaged.trace", status=1)
        text = re.sub(r"(id=.|url\(#)t\d+-", r"\1", self.out.read_text())
        for name, ended in (("c1", 0), ("damaged", 1)):
            drawn = self.ecn("plot", SAMPLES / f"{name}.trace", "--bare", "-o", "-", status=ended, library=True).stdout
            self.assertIn(drawn, text)

    def test_hostile(self):
        names = ["a<b>&amp;.trace", "\"><script>f()<.trace", "\udcff.trace", "c\nd.trace"]
        paths = [self.trace(label(text), arrivals(), name=name) for name, text in zip(names, (HOSTILE, b"-->" + HOSTILE, b"\r\n<svg onload=f()>", b"x" * 502))]
        page = self.page(*paths, "--title", "</title><script>g()</script>", cwd=self.folder)
        self.own(page)
        self.assertIn(f"Label \u201c{HOSTILE.decode()}\u201d", page.text)
        self.assertIn("</title><script>g()</script>", page.text)
        self.assertIn("\ufffd.trace", page.text)
        policy = [given["content"] for tag, given in page.elements if "http-equiv" in given]
        self.assertEqual(policy, ["default-src 'none'; style-src 'unsafe-inline'"])

    def test_refused(self):
        """In plain words, with what to do, and the rest of the trace is judged, too."""
        page = self.page(SAMPLES / "damaged.trace", SAMPLES / "c1.trace", status=1)
        self.assertIn("2 traces, 1 whole, 1 not whole.", page.text)
        self.assertRegex(self.told, r"damaged\.trace: block 5 is refused with 13: .*; 2 blocks are refused; the page says what to do\n$")
        self.assertEqual([row[2] for row in page.rows[1:]], ["2 blocks refused", "whole"])
        for said in (
            "Block 5 is refused with 13: the block's checksum does not fit.",
            "Block 9 is refused with 1: the input is empty, or ends in the middle of a block or a header.",
            "What to do:For 1: The file was cut off, or its writer was stopped. Copy it again.",
            "ecn salvage saves the other blocks.",
        ):
            self.assertIn(said, page.text)
        wrong = [arrivals(), b"\0" * 512] * 22
        page = self.page(self.trace(label(), b"\1" * 512, b"\2" * 512, *wrong), status=1)
        self.assertIn("Blocks 1 to 2 are refused with 13", page.text)
        self.assertIn("Block 40 is refused with 13: the block's checksum does not fit.And 3 more blocks: ecn look --refused lists them all.", page.text)
        self.assertNotIn("Block 42", page.text)
        page = self.page(SCANNERS, status=1)
        self.assertIn("Blocks 1 to 4 are refused with 14", page.text)
        self.assertIn("Blocks are of other sources than the label's (SSRC 100, 500, 900): make the page with --streams", page.text)
        self.assertNotIn("Table, as", page.text)

    def test_salvage(self):
        """The counts are those of the copy that ecnsalvage makes, and the refused blocks are listed as before."""
        page = self.page(SAMPLES / "damaged.trace", SAMPLES / "c1.trace", "--salvage", status=1)
        self.own(page)
        row = page.rows[1]
        self.assertEqual((row[2], [row[3], *row[5:]]), ("2 blocks refused, left out", wanted_cells(printed("ecntable", SAMPLES / "salvaged.trace"))[-1]))
        for said in ("Block 5 is refused with 13", "Block 9 is refused with 1", "They are left out of the counts and the picture: their packets count as lost."):
            self.assertIn(said, page.text)
        told = self.ecn("page", SAMPLES / "c1.trace", "--salvage", "--streams", "-o", "-", status=2, library=True).stderr
        self.assertIn("--salvage is for traces of one source", told)

    def test_no_traces(self):
        for path, block, advice, told in (
            (os.devnull, "Block 0 is refused with 1", "The file is empty, or was cut off", False),
            (self.trace(b"x" * 300), "Block 0 is refused with 1", "The file is empty, or was cut off", False),
            (TOP / "README.md", "Block 0 is refused with 13", "Probably this file is no trace at all", True),
            (self.trace(arrivals(), arrivals(), name="b.trace"), "Block 0 is refused with 14", "Probably this file is no trace at all", True),
        ):
            page = self.page(path, status=1)
            self.own(page)
            self.assertIn(block, page.text)
            self.assertIn(advice, page.text)
            self.assertEqual("The rest of the file was not judged." in page.text, told)
            self.assertIn("There are no packets to draw.", page.text)
        page = self.page(self.trace(label()))
        self.assertEqual(page.rows[1][2], "whole, with no packets")

    def test_several_sources(self):
        page = self.page(SCANNERS, SAMPLES / "c1.trace", "--streams")
        self.own(page)
        found = [[row[3], *row[5:]] for row in page.rows[1:]]
        self.assertEqual(found, wanted_cells(printed("ecnstreams", SCANNERS)) + wanted_cells(printed("ecnstreams", SAMPLES / "c1.trace")))
        self.assertIn(hashlib.sha256(printed("ecnstreams", SCANNERS)).hexdigest(), page.text)
        self.assertIn("Milliseconds since the first packet", page.text)
        page = self.page(self.trace(label(), *(arrivals(ssrc=ssrc) for ssrc in range(18))), "--streams", status=1)
        self.assertIn("Blocks 17 to 18 are refused with 15", page.text)
        self.assertIn("Only 16 sources can be counted together.", page.text)

    def test_jobs(self):
        made = []
        for jobs in ("1", "3"):
            self.page(*SOUND, SAMPLES / "damaged.trace", "-j", jobs, status=1)
            made.append(self.out.read_text().replace(f"-j {jobs}", "-j N"))
        self.assertEqual(made[0], made[1])

    def test_files(self):
        with open(SAMPLES / "c1.trace", "rb") as trace:
            text = self.ecn("page", "-", "-o", "-", stdin=trace, library=True).stdout
        self.assertEqual(Page(text).rows[1][:3], ["standard input", "probe 2, left", "whole"])
        self.out.write_text("as it was")
        told = self.ecn("page", SAMPLES / "c1.trace", self.folder / "missing", "-o", self.out, status=2, library=True).stderr
        self.assertRegex(told, "missing: No such file or directory\necn: .*: the page is not put in place\n$")
        copy = self.trace(label(), arrivals())
        for words, said in (
            ([copy, "-o", copy], "given as input and as output"),
            ([copy, "-o", "/dev/full"], "No space left"),
            ([copy, SAMPLES / "c1.trace", copy, "-o", self.out], "made.trace is given twice: give each trace once"),
            (["-", "-", "-o", self.out], "standard input can be read only once"),
            ([copy], "required: -o/--out; for example: ecn page traces/*.trace -o night.html -j 4; ecn page --help says more"),
        ):
            self.assertIn(said, self.ecn("page", *words, status=2, library=True).stderr)
        self.assertIn("libflasknib.so is not there", self.ecn("page", copy, "-o", self.out, status=2).stderr)
        self.assertEqual(self.out.read_text(), "as it was")
        self.alone("out.csv", "made.trace")

    def test_in_a_browser(self):
        """Where one is installed: what it makes of a page with hostile labels has no script, and the pictures are there."""
        browser = shutil.which("chromium") or shutil.which("google-chrome")
        words = [browser, "--headless", "--no-sandbox", "--disable-gpu", f"--user-data-dir={self.new_folder()}", "--dump-dom"]
        tried = subprocess.run([*words, "data:text/html,<p>well"], capture_output=True, text=True, timeout=120) if browser else None
        if not tried or "well" not in tried.stdout:
            self.skipTest("no browser that runs here")
        self.page(self.trace(label(HOSTILE), arrivals()))
        shown = self.folder / "night.html"
        self.out.rename(shown)
        seen = subprocess.run([*words, shown.as_uri()], capture_output=True, text=True, timeout=120).stdout
        self.own(Page(seen))
        self.assertIn("Milliseconds since the first packet", seen)


if __name__ == "__main__":
    sys.exit(tools.main(sys.argv[1:], __name__, "ecn page"))
