"""The looker at pictures, on PNG files that are made here."""

import unittest
import zlib

import samples

LOOK = samples.load_tool("look")


def png(rows: list, colour: int = 2) -> bytes:
    """A PNG file of these rows of bytes, unfiltered."""

    def chunk(kind: bytes, content: bytes) -> bytes:
        return len(content).to_bytes(4, "big") + kind + content + bytes(4)

    width = len(rows[0]) // (3 if colour == 2 else 4)
    head = width.to_bytes(4, "big") + len(rows).to_bytes(4, "big") + bytes([8, colour, 0, 0, 0])
    packed = zlib.compress(b"".join(b"\0" + row for row in rows))
    return b"\x89PNG\r\n\x1a\n" + chunk(b"IHDR", head) + chunk(b"IDAT", packed) + chunk(b"IEND", b"")


class Empty(unittest.TestCase):
    def test_one_colour(self) -> None:
        self.assertTrue(LOOK.is_empty(png([b"\xff" * 300] * 100)))
        self.assertTrue(LOOK.is_empty(png([b"\xff" * 400] * 100, colour=6)))
        few = [b"\xff" * 300] * 90 + [b"\xff\0\0" * 100] * 10
        self.assertTrue(LOOK.is_empty(png(few)))

    def test_something_in_it(self) -> None:
        drawn = [b"\xff" * 150 + b"\0" * 150] * 30 + [b"\xff" * 300] * 70
        self.assertFalse(LOOK.is_empty(png(drawn)))

    def test_not_a_picture(self) -> None:
        with self.assertRaises(SystemExit):
            LOOK.is_empty(b"nothing of a picture" * 10)


class Many(unittest.TestCase):
    def test_pictures_of_every_example(self) -> None:
        drawn = {program for _, program, _ in LOOK.PICTURES if program}
        self.assertEqual(drawn, {path.stem for path in (samples.ROOT / "examples").glob("*.zaru")})


if __name__ == "__main__":
    unittest.main()
