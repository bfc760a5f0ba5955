"""Pictures, as text: their rows, arrows and marks, the files, and what is refused."""

import re
import unittest
import xml.etree.ElementTree as ElementTree
from typing import Dict, List
from unittest import mock

import samples
from test_cli import Command, Result
from zaru.drawing import DRAWN, MOST_STEPS, short
from zaru.refusals import REFUSALS
from zaru.svg import SIGN

EXAMPLES = samples.ROOT / "examples"
SVG = "{http://www.w3.org/2000/svg}"
SHARE = "1 1 0*5 1*3 2*3".split()
NO_FILE = "No such file or directory"
STORED = samples.ROOT / "docs" / "lost_share.svg"


def words(element: ElementTree.Element) -> List[str]:
    return ["".join(one.itertext()) for one in element.iter(f"{SVG}text")]


def having(root: ElementTree.Element, kind: str) -> List[ElementTree.Element]:
    return [one for one in root.iter() if kind in one.get("class", "").split()]


@samples.needs_engine
class Drawn(Command):
    def setUp(self) -> None:
        super().setUp()
        for name in ("lost_share", "lost_update", "range", "calls", "lock"):
            self.file(f"{name}.zaru", (EXAMPLES / f"{name}.zaru").read_bytes())

    def draw(self, *given: str) -> ElementTree.Element:
        result = self.zaru("picture", *given, "-o", "new.svg")
        self.assertEqual((result.status, result.err), (0, ""), result)
        self.said = result.out.splitlines()
        return ElementTree.fromstring((self.folder / "new.svg").read_text())

    def rows(self, root: ElementTree.Element) -> Dict[str, ElementTree.Element]:
        return {one.get("data-step", ""): one for one in having(root, "step")}

    def test_rows_and_columns(self) -> None:
        root = self.draw("lost_update.zaru", *"00110101")
        found = words(root)
        for name in ("lost_update.zaru", "order: 0 0 1 1 0 1 0 1", "thread 0", "thread 1", "work", "cell[0]", "ends 1"):
            self.assertIn(name, found)
        rows = self.rows(root)
        self.assertEqual([row.get("data-thread") for row in rows.values()], list("00110101"))
        self.assertEqual(words(rows["1"]), ["1", "1: p := cell"])
        self.assertEqual(words(rows["5"]), ["5", "1", "lost at 6", "3: p[0] := v + 1"])
        self.assertIn("finished, 0 entries unused", found)

    def test_arrows(self) -> None:
        """A read goes from the cell to the thread, a write from the thread to the cell."""
        rows = self.rows(self.draw("lost_update.zaru", *"00110101"))
        [read], [write] = having(rows["2"], "read"), having(rows["5"], "write")
        self.assertEqual((having(rows["2"], "write"), having(rows["5"], "read"), having(rows["1"], "read")), ([], [], []))
        lines = [line for arrow in (read, write) for line in arrow.iter(f"{SVG}line")]
        (cell, thread), (out, back) = ([float(line.get(name, "")) for name in ("x1", "x2")] for line in lines)
        self.assertGreater(cell, thread)
        self.assertLess(out, back)

    def test_the_lost_share(self) -> None:
        root = self.draw("lost_share.zaru", *SHARE)
        [mark], [stop] = having(root, "mark"), having(root, "stop")
        sentence = "thread 1 writes 1 from its read at step 2, thread 0 wrote at step 5"
        failed = "blocked after 12 steps: thread 2 at label 9, inside the atomic block: the assertion at label 9 failed"
        self.assertEqual((words(mark), words(stop)), ([sentence], [failed]))
        self.assertEqual(self.said, ["new.svg: a picture of 12 steps", f"step 8: {sentence}", failed])
        rows = self.rows(root)
        brackets = [one for one in having(root, "bracket") if one.get("data-step")]
        self.assertEqual([one.get("data-step") for one in brackets], ["8"])
        self.assertEqual([number for number, row in rows.items() if having(row, "old")], ["2", "8"])
        self.assertEqual([number for number, row in rows.items() if "blocked" in row.get("class", "")], ["13"])
        self.assertIn("9: atomic: count := p[0];", words(rows["13"]))

    def test_the_picture_of_the_documents(self) -> None:
        self.zaru("picture", "lost_share.zaru", *SHARE, "-o", "new.svg")
        drawn = (self.folder / "new.svg").read_text().replace(">lost_share.zaru<", ">examples/lost_share.zaru<")
        command = f"zaru picture examples/lost_share.zaru {' '.join(SHARE)} -o docs/lost_share.svg"
        self.assertEqual(STORED.read_text(), drawn, f"`{command}` draws it anew")

    def test_other_ends(self) -> None:
        self.assertIn("used: the order has no entry left", words(self.draw("lost_update.zaru")))
        root = self.draw("lost_update.zaru", "0*5")
        self.assertEqual(words(having(root, "stop")[0]), ["blocked after 4 steps: thread 0 is finished"])
        self.assertEqual(words(self.rows(root)["5"]), ["5", "finished"])

    def test_several_events_in_a_step(self) -> None:
        rows = self.rows(self.draw("calls.zaru", *"01101001010101"))
        [read], [write] = having(rows["10"], "read"), having(rows["10"], "write")
        self.assertEqual((words(read), words(write)), (["30"], ["34"]))

    def test_a_long_run_is_cut(self) -> None:
        self.file("long.zaru", b"concurrent\nprocedure w()\nwhile true\nend\nend\nthread w\n")
        root = self.draw("long.zaru", "0*200")
        numbers = list(self.rows(root))
        self.assertEqual(numbers, [str(number) for number in [*range(1, 31), *range(151, 201)]])
        self.assertIn(f"steps 31 to 150 are left out: {DRAWN}", words(root))
        self.assertNotIn("left out", " ".join(words(self.draw("long.zaru", f"0*{MOST_STEPS}"))))

    def test_what_is_marked_is_drawn(self) -> None:
        """In the middle of a long run: the read, the other write and the write that rests on the read."""
        loop = "p := m\nwhile true\nv := p[0]\np[0] := v + 1\nend\n"
        text = f"concurrent\nlocation m[1]\nprocedure w()\nlocals p, v\n{loop}end\nthread w\nthread w\n"
        self.file("loops.zaru", text.encode())
        root = self.draw("loops.zaru", "0*60", "1*4", "0*3", "1*100")
        self.assertEqual(list(self.rows(root))[28:36], ["29", "30", "60", "64", "65", "118", "119", "120"])
        gaps = [text.split(" left out: ")[0] for text in words(root) if "left out: " in text]
        self.assertEqual(gaps, ["steps 31 to 59 are", "steps 61 to 63 are", "steps 66 to 117 are"])
        sentence = "thread 0 writes 20 from its read at step 60, thread 1 wrote at step 64"
        self.assertEqual([words(one) for one in having(root, "mark")], [[sentence]])
        self.assertEqual(self.said[1:], [f"step 65: {sentence}"])

    def test_more_cells_than_columns(self) -> None:
        body = "".join(f"p[{place}] := {place}\n" for place in range(14))
        text = f"concurrent\nlocation m[14]\nprocedure w()\nlocals p\np := m\n{body}end\nthread w\n"
        self.file("cells.zaru", text.encode())
        found = words(self.draw("cells.zaru", "0*15"))
        self.assertEqual([f"m[{place}]" in found for place in range(14)], [True] * 11 + [False] * 3)
        self.assertTrue({"other cells", "m[11] = 11", "m[13] = 13"} <= set(found))
        found = words(self.draw("cells.zaru", "0*13"))
        self.assertNotIn("other cells", found)

    def test_more_arrows_than_are_drawn(self) -> None:
        lines = "p := m\natomic\n" + "v := p[0]\n" * 11 + "end\n"
        text = f"concurrent\nlocation m[1]\nprocedure w()\nlocals p, v\n{lines}end\nthread w\n"
        self.file("reads.zaru", text.encode())
        row = self.rows(self.draw("reads.zaru", "0*2"))["2"]
        self.assertEqual((len(having(row, "read")), words(row)[9]), (8, "and 3 more"))

    def test_the_words_of_another_cell(self) -> None:
        text = "concurrent\nlocation m[1]\nlocation n[1]\nprocedure w()\nlocals p, v\n"
        text += "p := m\nv := p[0]\np := n\np[0] := v + 2\nend\nprocedure o()\nlocals p\np := m\np[0] := 9\nend\nthread w\nthread o\n"
        self.file("other.zaru", text.encode())
        self.draw("other.zaru", *"001100")
        expected = "step 6: thread 0 writes n[0] = 2 from its read of m[0] at step 2, thread 1 wrote m[0] at step 4"
        self.assertEqual(self.said[1:], [expected])

    def test_texts_fit_their_frames(self) -> None:
        """By the width that a sign is taken to have; `make look` asks a browser."""
        for given in (["range.zaru", *"001101"], ["lock.zaru", "0*5", "1*6", "0*5", "1*6"], ["lost_share.zaru", *SHARE]):
            for frame in having(self.draw(*given), "frame"):
                width = float(frame.find(f"{SVG}rect").get("width", "0"))  # type: ignore[union-attr]
                self.assertLess(max(map(len, words(frame))) * SIGN, width)

    def test_nothing_from_outside(self) -> None:
        self.draw("lost_share.zaru", *SHARE)
        text = (self.folder / "new.svg").read_text().replace('xmlns="http://www.w3.org/2000/svg"', "")
        for word in ("http", "script", "@import", "url(", "href"):
            self.assertNotIn(word, text)

    def test_a_page(self) -> None:
        self.draw("lost_share.zaru", *SHARE)
        result = self.zaru("picture", "lost_share.zaru", *SHARE, "-o", "new.html")
        self.assertEqual(result.out.splitlines(), [self.said[0].replace(".svg", ".html"), *self.said[1:]])
        page = (self.folder / "new.html").read_text()
        self.assertIn((self.folder / "new.svg").read_text(), page)
        self.assertNotIn("<script", page)
        self.assertEqual(len(re.findall("<tr><td>", page)), 12)
        self.assertIn("<td>8</td><td>1</td><td>3</td><td>p[0] := v + 1</td><td>write sum[0] = 1 at label 3</td>", page)
        self.assertIn("the assertion at label 9 failed</p>", page)

    def test_signs_in_names(self) -> None:
        self.file("a&<b>.zaru", (EXAMPLES / "lost_update.zaru").read_bytes())
        self.assertIn("a&<b>.zaru", words(self.draw("a&<b>.zaru", "0")))
        self.zaru("picture", "a&<b>.zaru", "0", "-o", "new.html")
        self.assertIn("<h1>A run of a&amp;&lt;b&gt;.zaru</h1>", (self.folder / "new.html").read_text())

    def test_the_bench_draws_what_it_found(self) -> None:
        result = self.zaru("bench", "lost_share.zaru", "2", "5", "-o", "found.svg")
        self.draw("lost_share.zaru", *SHARE)
        self.assertEqual((self.folder / "found.svg").read_text(), (self.folder / "new.svg").read_text())
        self.assertEqual(result.out.splitlines()[-2:], ["found.svg: a picture of 12 steps", self.said[1]])
        result = self.zaru("bench", "lost_update.zaru", "1", "5", "-o", "none.svg")
        nothing = "none.svg: not written, there is nothing to draw"
        self.assertEqual(result.out.splitlines(), ["none of 36 orders blocks", nothing])
        self.assertNotIn("none.svg", self.listed())

    def test_refusals(self) -> None:
        for number, given in ((11, ["b.table", "2"]), (1, ["-", "0"])):
            result = self.zaru("picture", *given, "-o", "new.svg")
            self.assertEqual(result, Result(1, "", f"refused {number}: {REFUSALS[number]}\n"))
        self.assertNotIn("new.svg", self.listed())

    def test_one_line_each(self) -> None:
        ending = "a picture is written to a file that ends in .svg or .html, not to new.png"
        for given, message in (
            (["picture", "b.table", "0", "-o", "new.png"], ending),
            (["bench", "b.table", "1", "1", "-o", "new.png"], ending),
            (["picture", "b.table", "0", "-o", "none/new.svg"], f"none/new.svg cannot be written: {NO_FILE}"),
            (["picture", "b.table", "0*513", "-o", "new.svg"], "an order of 513 entries is too long; the most is 512"),
        ):
            self.assertEqual(self.zaru(*given), Result(2, "", f"zaru: {message}\n"))

    def test_a_fault_writes_nothing(self) -> None:
        with mock.patch("zaru.follow.first_labels", lambda program: (2,)):
            self.assertEqual(self.zaru("picture", "b.table", "0", "-o", "new.svg").status, 4)
        self.assertNotIn("new.svg", self.listed())


class Short(unittest.TestCase):
    def test_short(self) -> None:
        self.assertEqual((short("abcde", 5), short("abcdef", 5), short("a\x01\udc80b", 9)), ("abcde", "abc..", "a??b"))


if __name__ == "__main__":
    unittest.main()
