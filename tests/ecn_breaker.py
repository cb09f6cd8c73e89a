"""ecn_breaker.py [NAME..]: ecn breaker, held to the worked examples and to many random links. The last line is 'N passed, M failed'."""
import csv
import io
import random
import sys
import unittest
from types import SimpleNamespace

import tools
from ecn_plot import ALARM, Drawn, Pictures
from tools import Tried, needs_library

from ecnlib import plotlink, replay, rules, sheets
from ecnlib.common import Ended

HEAD = "kind,time,highest,fraction,rtt,size,rate\n"
ECN_HEAD = "kind,time,highest,lost,marked,expected,rtt,size,rate\n"


def reports(*rates: int, head=HEAD, fraction=64, rtt=100, size=1000, apart=5000) -> str:
    """A report for each rate, with a new number each."""
    rows = (f"report,{apart * at},{1000 * at},{fraction},{rtt},{size},{rate}\n" for at, rate in enumerate(rates, 1))
    return head + "".join(rows)


class Breakers(Tried):
    def breaker(self, text, *words, status=0, **kept):
        return self.ecn("breaker", "-", *words, status=status, **{"library": True, "input": text, **kept})

    def rows(self, text, *words, status=0) -> list:
        return list(csv.DictReader(io.StringIO(self.breaker(text, *words, "--csv", status=status).stdout)))

    def answers(self, text, *words, status=0) -> list:
        return [(row["answer"], row["rule"]) for row in self.rows(text, *words, status=status)]


@needs_library
class Replays(Breakers):
    """Each rule, at its limit and beside it."""

    def test_congestion_at_its_limit(self):
        for rate, words, found, limit in (
            (244948, ["--k", "2"], ("go", ""), "244948"),
            (244949, ["--k", "2"], ("stop", "3"), "244948"),
            (31606, ["--k", "2", "--full"], ("go", ""), "31606"),
            (31607, ["--k", "2", "--full"], ("stop", "3"), "31606"),
        ):
            *_, last = self.rows(reports(rate, rate, rate), *words)
            self.assertEqual((last["answer"], last["rule"]), found)
            self.assertEqual((last["limit"], last["w"], last["p"], last["since"]), (limit, "10000", "640000", "5000"))
        for rate, answer in ((1000000, "go"), (1000001, "stop")):
            *_, last = self.rows(reports(rate, rate, rate, fraction=150, rtt=16), "--k", "2")
            self.assertEqual((last["answer"], last["limit"]), (answer, "1000000"))

    def test_no_limit(self):
        """Where the equation sets no bound, no rate is too high."""
        for kept in ({"fraction": 0}, {"rtt": 0}):
            *_, last = self.rows(reports(*[125000000] * 3, **kept), "--k", "2")
            self.assertEqual((last["answer"], last["intervals"], last["limit"]), ("go", "2", ""))
        self.assertRegex(self.breaker(reports(9, 9, 9, rtt=0), "--k", "2").stdout, r"2 of 2 +9 +none\n")

    def test_timeout(self):
        text = HEAD + "tick,14999\nheard,14999\ntick,29998\ntick,29999\nheard,30000\n"
        self.assertEqual(self.answers(text), [("go", "")] * 3 + [("stop", "1")] * 2)
        self.assertIn("STOP by rule 1, timeout: 15,000 ms since the last report or heard packet, at 14999", self.breaker(text).stdout)
        self.assertIn("15,000 ms since the start, at 0 (--start says when that was)", self.breaker(HEAD + "tick,15000\n").stdout)
        self.assertEqual(self.answers(HEAD + "tick,15000\n", "--start", "1"), [("go", "")])
        self.assertEqual(self.answers(HEAD + "tick,500\n", "--timeout", "500"), [("stop", "1")])

    def test_media(self):
        text = HEAD + "".join(f"report,{1000 * at},4294967295,0,1,1,1\n" for at in range(1, 5))
        found = self.rows(text)
        self.assertEqual([row["run"] for row in found], ["0", "1", "2", "3"])
        self.assertEqual((found[-1]["answer"], found[-1]["rule"]), ("stop", "2"))
        self.assertIn("STOP by rule 2, media: 3 in a row had no new highest number, the last one was 4294967295; m is 3", self.breaker(text).stdout)
        self.assertEqual(self.answers(text + "report,5000,0,0,1,1,1\n", "--m", "4")[-1], ("go", ""))

    def test_a_reduction_and_its_trial(self):
        rates = (125000000,) * 2 + (1,) * 2 + (125000000,) * 4
        found = [answer for answer, _ in self.answers(reports(*rates), "--k", "1", "--reduce")]
        self.assertEqual(found, ["go", "reduce", "go", "go", "reduce", "stop", "stop", "stop"])
        self.assertIn("reduce by rule 3, congestion: 125,000,000 bytes/s is above", self.breaker(reports(*rates), "--k", "1", "--reduce").stdout)

    def test_rate_0_is_not_tested(self):
        self.assertEqual({answer for answer, _ in self.answers(reports(0, 0, 0, 0, apart=60000))}, {"go"})

    def test_marks_count_as_losses(self):
        rows = ((1, -9, 244948), (2, -9, 244948), (3, -9, 244948), (4, 10, 244948))
        text = ECN_HEAD + "".join(f"report,{1000 * at},{1000 * at},{lost},250,1000,100,1000,{rate}\n" for at, lost, rate in rows)
        *_, before, last = self.rows(text, "--k", "2")
        self.assertEqual((before["answer"], before["p"], before["limit"]), ("go", str(2000 * 64), "244948"))
        self.assertEqual((last["answer"], last["p"]), ("stop", str(1000 * 64 + 1000 * 66)))

    def test_lines_that_the_breaker_refuses(self):
        text = HEAD + "report,5,1,0,1,1,1\nreport,5,2,0,1,1,1\nreport,6,2,256,1,1,1\nheard,8,,,,,\n"
        text += "report,7,2,0,1,1,1\nreport,9,2,0,70000,0,1\nreport,9,2,0,1,0,1\ntick,10\n"
        self.assertEqual([row["refused"] for row in self.rows(text, status=1)], ["", "11", "10", "", "11", "10", "10", ""])
        ran = self.breaker(text, status=1)
        for told in (
            "refused with 11: it is not later than the last report or the start, at 5",
            "refused with 10: fraction is at most 255",
            "refused with 11: it is earlier than the last report, heard packet or start, at 8",
            "refused with 10: rtt is at most 60000",
            "refused with 10: size is 1 or more",
        ):
            self.assertIn(told, ran.stdout)
        self.assertIn("standard input: the breaker refuses 5 of the lines", ran.stderr)
        self.assertIn("8 lines, 5 refused; not stopped", ran.stdout)

    def test_separators_and_files(self):
        wanted = self.breaker(reports(5, 6, 7)).stdout
        for each in (";", "\t"):
            self.assertEqual(self.breaker(reports(5, 6, 7).replace(",", each)).stdout, wanted)
        path = self.folder / "link.csv"
        path.write_text("\ufeff" + reports(5, 6, 7).replace("\n", "\r\n").replace("kind", " Kind "))
        self.assertEqual(self.ecn("breaker", path, library=True).stdout, wanted)


@needs_library
class WrongInput(Breakers):
    def test_no_such_rows(self):
        for text, told in (
            ("", "line 1: no column kind and no column time"),
            ("kind\n", "no column time; commas, semicolons or tabs separate the columns"),
            (HEAD + "stop,5\n", "line 2: kind 'stop' is none of report, heard, tick"),
            (HEAD + "tick,\n", "line 2: time '' is no whole number"),
            (HEAD + "tick,5.5\n", "time '5.5' is no whole number"),
            (HEAD + f"tick,{2**64}\n", "time '18446744073709551616' is no whole number"),
            (HEAD + "report,5,4294967296,0,1,1,1\n", "highest '4294967296'"),
            (HEAD + "report,5,1,,1,1,1\n", "a report has either a fraction or all of lost, marked, expected"),
            (ECN_HEAD + "report,5,1,0,,9,1,1,1\n", "a report has either a fraction or all of"),
            (ECN_HEAD.replace("\n", ",fraction\n") + "report,5,1,0,0,9,1,1,1,3\n", "a report has either a fraction or all of"),
            ("kind,time\nreport,5\n", "a report needs the column highest and the column rtt"),
            ("kind,time,time\n", "more than one column time"),
            (HEAD + "tick,5,,,,,,1\n", "1 more than the 7 fields"),
            (HEAD + "tick,5\nrep", "line 3: kind 'rep'"),
            (HEAD + "x" * 200000, "line 2 has 100,000 characters or more: this is no file of rows"),
            (HEAD + '"tick,5\n', "unexpected end of data"),
        ):
            self.assertIn(told, self.breaker(text, status=1).stderr)

    def test_foreign_files(self):
        self.assertIn("no column kind", self.ecn("breaker", tools.SAMPLES / "c1.csv", status=1, library=True).stderr)
        self.assertIn("this is no text in UTF-8", self.ecn("breaker", sys.executable, status=1, library=True).stderr)
        self.assertIn("100,000 characters or more", self.ecn("breaker", "/dev/zero", status=1, library=True).stderr)
        self.assertIn("missing: No such file", self.ecn("breaker", self.folder / "missing", status=2, library=True).stderr)
        self.assertIn("Is a directory", self.ecn("breaker", self.folder, status=2, library=True).stderr)

    def test_settings(self):
        for words in (["--k", "0"], ["--k", "33"], ["--m", "33"], ["--timeout", "600001"], ["--start", str(2**48)]):
            self.assertIn("--k and --m are 1 to 32", self.breaker(HEAD, *words, status=2).stderr)
        self.assertIn("'x' is no whole number", self.breaker(HEAD, "--k", "x", status=2).stderr)

    def test_no_library_and_no_room(self):
        self.assertIn("libflasknib.so is not there", self.breaker(HEAD, status=2, library=False).stderr)
        with open("/dev/full", "w") as full:
            self.assertIn("standard output: No space left", self.breaker(HEAD, status=2, stdout=full).stderr)


@needs_library
class Plots(Pictures, Breakers):
    """The pictures of the links above: what is said, what is marked, and that every text has room."""

    def drawn(self, text, *words, status=0) -> Drawn:
        out = self.folder / "link.svg"
        self.breaker(text, *words, "--plot", out, status=status)
        return Drawn(out.read_text())

    def test_a_stop_by_each_rule(self):
        media = HEAD + "".join(f"report,{1000 * at},5,0,1,1,1\n" for at in range(1, 5))
        for text, words, rule, begins, told in (
            (reports(244948, 244949, 244949), ["--k", "2"], "congestion", "STOP by rule 3, congestion: 244,949 bytes/s is above", 244949),
            (media, [], "media", "STOP by rule 2, media: 3 in a row had no new highest number", None),
            (HEAD + "tick,8000\ntick,15000\ntick,16000\n", [], "timeout", "STOP by rule 1, timeout: 15,000 ms since the start", None),
        ):
            for width in ("60", "85", "180", "400"):
                found = self.drawn(text, *words, "--width", width)
                self.room(found)
            self.assertIn(begins, " ".join(found.texts))
            self.assertIn(f"STOP, {rule}", found.texts)
            self.assertEqual(found.count(ALARM), 4)  # in the key and in each panel
            self.assertEqual("10 \u00d7 equation" in found.texts, told is not None)

    def test_no_stop(self):
        found = self.drawn(reports(5, 6, 7))
        self.assertLess({"Not stopped.", "3 lines; k 3, m 3, timeout 15,000 ms, the simplified equation, without reductions."}, set(found.texts))
        self.assertEqual(found.count(ALARM), 0)
        self.assertNotIn("no report for half the timeout or longer", found.texts)
        self.assertIn("none reported", self.drawn(HEAD + "tick,9\n").texts)

    def test_marks(self):
        """Reductions, silences and refused lines are marked, each as often as it is met."""
        rates = (125000000,) * 2 + (1,) * 2 + (125000000,)
        self.assertIn("reduce (2)", self.drawn(reports(*rates), "--k", "1", "--reduce").texts)
        quiet = HEAD + "heard,7499\nheard,14999\nreport,22498,9,0,1,1,1\nreport,22498,9,0,1,1,1\ntick,30000\ntick,31000\n"
        found = self.drawn(quiet, status=1)
        self.assertLess({"line refused (1)", "no report for half the timeout or longer"}, set(found.texts))
        self.assertEqual(found.count("silent"), 1 + 2 * 3)  # in the key, and two in each panel: from 7,499 and from 22,498

    def test_points(self):
        """Each line is a point, up to 2,000; then some are one, with the highest rate, the lowest limit and the longest silence of them."""
        draw = random.Random(9)
        for count in (1, 7, 2000, 2001, 2002, 4003, 9001):
            link, values = plotlink.Link(0), []
            for at in range(count):
                rate, limit = (draw.choice((None, draw.randrange(99))) for _ in range(2))
                values.append(plotlink.Point(at, at, rate, limit, draw.randrange(99), None))
                link.point(values[-1])
            found, at = link.drawn(), 0
            self.assertTrue(len(found) <= 2001 and (count > 2000 or found == values))
            for each in found:
                part = [one for one in values if each.begin <= one.begin <= each.end]
                self.assertEqual((part[0].begin, each.since), (at, max(one.since for one in part)))
                self.assertEqual(each.rate, max((one.rate for one in part if one.rate is not None), default=None))
                self.assertEqual(each.limit, min((one.limit for one in part if one.limit is not None), default=None))
                at = each.end + 1
            self.assertEqual(at, count)

    def test_files(self):
        path = self.folder / "link.csv"
        path.write_text(reports(5, 6, 7))
        for out, told in ((path, "given as input and as output"), ("-", "give --plot a file for the picture"), ("/dev/full", "No space left")):
            self.assertIn(told, self.ecn("breaker", path, "--plot", out, status=2, library=True).stderr)
        self.assertIn("name its file, as: ecn breaker", self.ecn("breaker", path, "--width", "85", status=2, library=True).stderr)
        out = self.folder / "o.svg"
        for text, told in ((HEAD, "the breaker took no line"), (HEAD + "tick,5\nstop,9\n", "kind 'stop' is none of")):
            path.write_text(text)
            self.assertIn(told, self.ecn("breaker", path, "--plot", out, status=1, library=True).stderr)
        self.alone("link.csv")


@needs_library
class Numbers(unittest.TestCase):
    """The numbers beside the calls."""

    def replay(self, **settings) -> replay.Replay:
        import flasknib

        return replay.Replay(flasknib, SimpleNamespace(**{"start": 0, "k": 3, "m": 3, "timeout": 15000, "reduce": False, "full": False, **settings}))

    def test_random_links(self):
        """No line of any link has other numbers than the call. Each rule is met often, and so is a refusal."""
        draw, met = random.Random(42), dict.fromkeys(("go", "reduce", "stop 1", "stop 2", "stop 3", "refused"), 0)
        for _ in range(1500):
            settings = {"k": draw.choice((1, 2, 3, 32)), "m": draw.choice((1, 3, 32)), "timeout": draw.choice((1000, 15000, 600000))}
            link = self.replay(**settings, reduce=draw.random() < 0.5, full=draw.random() < 0.5)
            time, highest = 0, draw.choice((0, 2**32 - 5))
            for line in range(40):
                time, highest = time + draw.choice((-1, 1, 400, 999, 1000)), (highest + draw.choice((0, 1, 90, 90, 2**31 - 1, 2**31))) % 2**32
                kind = draw.choice(("report",) * 6 + ("tick", "heard"))
                losses = {"fraction": draw.choice((0, 1, 64, 255))}
                if draw.random() < 0.5:
                    losses = {"lost": draw.choice((-3, 0, 7)), "marked": draw.choice((0, 9)), "expected": draw.choice((0, 10, 1000))}
                near = draw.choice((0, 1, 20000, 31607, 244949, 125000000))
                sent = {"rtt": draw.choice((0, 1, 100, 60000)), "size": draw.choice((1, 1000, 65535)), "rate": near}
                cells = {"kind": kind, "time": max(time, 0), "highest": highest, **sent}
                found = link.answered(sheets.Cells("here", line, {name: str(value) for name, value in {**cells, **losses}.items()}))
                met[found.word if found.word != "stop" else f"stop {found.rule}"] += 1
                if found.word == "stop":
                    break
        self.assertGreater(min(met.values()), 50, met)

    def test_limits_are_the_least(self):
        """Of both equations: at the limit the condition of document 01 does not hold, and at the next rate it does."""
        draw = random.Random(43)
        for _ in range(3000):
            w = draw.randrange(1, 320000001)
            p, rtt, size = draw.randrange(1, 255 * w + 1), draw.randrange(1, 60001), draw.randrange(1, 65536)
            least = rules.simplified(w, p, rtt, size)
            above = [rate * rate * rtt * rtt * p > 38400000000 * size * size * w for rate in (least, least + 1)]
            self.assertEqual(above, [False, True])

    def test_a_call_that_differs(self):
        """What the numbers do not say ends the run."""
        link = self.replay()
        link.called = lambda call: 1
        with self.assertRaisesRegex(Ended, "the call answers 1, but by its numbers it would be 0") as ended:
            link.answered(sheets.Cells("here", 2, {"kind": "tick", "time": "5"}))
        self.assertEqual(ended.exception.status, 2)


if __name__ == "__main__":
    sys.exit(tools.main(sys.argv[1:], __name__, "ecn breaker"))
