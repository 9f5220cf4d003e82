"""The memory of a long `read()`: the system hands it out ahead of the bases, and the bases do not depend on it."""

import io
import mmap
import threading
import unittest
import unittest.mock

import fantailclock as fc
from fantailclock import Alphabet


class MemoryAhead(unittest.TestCase):
    """Stretches of three pages, where the module's own have four large ones."""

    PAGE, STRETCH, FILE = mmap.PAGESIZE, 3 * mmap.PAGESIZE, bytes(range(256)) * (41 * mmap.PAGESIZE // 256 + 1)

    class Decoder(fc.StreamingDecoder):
        LONG_CHUNK = mmap.PAGESIZE + 5

    def setUp(self):
        self.asked, self.before, self.processors = [], threading.active_count(), {0, 1}
        for owner, name, value in (
            (fc, "_advise", lambda *given: self.asked.append(given)),
            (fc, "_ANEW", 4 * self.PAGE),
            (fc, "_STRETCH", self.STRETCH),
            (fc.os, "sched_getaffinity", lambda process: self.processors),
        ):
            patch = unittest.mock.patch.object(owner, name, value)
            patch.start()
            self.addCleanup(patch.stop)

    def read(self, source, bases=len(FILE)):
        try:
            return self.Decoder.for_window(source, Alphabet.Ascii, 0, bases).read()
        finally:
            self.assertEqual(threading.active_count(), self.before)

    def test_it_is_asked_for_stretch_by_stretch(self):
        case, given = self, 0

        class Source(io.BytesIO):
            def read(self, count):
                nonlocal given
                asked = sum(length for _, length, _ in case.asked)
                case.assertLessEqual(asked, given + 2 * case.STRETCH)
                part = super().read(count)
                given += len(part)
                return part

        self.assertTrue(self.read(Source(self.FILE)) == self.FILE)
        self.assertEqual({advice for _, _, advice in self.asked}, {fc._POPULATE})
        ends = [first + length for first, length, _ in self.asked]
        self.assertEqual([first for first, _, _ in self.asked[1:]], ends[:-1])
        self.assertEqual({length for _, length, _ in self.asked[:-1]}, {self.STRETCH})
        self.assertEqual((self.asked[0][0] % self.PAGE, ends[-1] % self.PAGE), (0, 0))
        self.assertIn(len(self.FILE) // self.PAGE - (ends[-1] - self.asked[0][0]) // self.PAGE, (0, 1))

    def test_the_thread_ends_with_the_read(self):
        self.assertRaises(fc.Outstanding, self.read, io.BytesIO(self.FILE[:9]))
        self.assertEqual(sum(length for _, length, _ in self.asked), 2 * self.STRETCH)
        broken = unittest.mock.Mock()
        broken.read.side_effect = OSError
        self.assertRaises(OSError, self.read, broken)
        nothing_yet = unittest.mock.Mock()
        nothing_yet.read.return_value = None
        self.assertIsNone(self.read(nothing_yet))

    def test_without_it_the_bases_are_the_same(self):
        with unittest.mock.patch.object(fc.threading.Thread, "start", side_effect=RuntimeError):
            self.assertTrue(self.read(io.BytesIO(self.FILE)) == self.FILE)
        self.processors = {1}
        self.assertTrue(self.read(io.BytesIO(self.FILE)) == self.FILE)
        self.processors = {0, 1}
        short = 4 * self.PAGE - 1
        self.assertTrue(self.read(io.BytesIO(self.FILE), short) == self.FILE[:short])
        self.assertEqual(self.asked, [])


if __name__ == "__main__":
    unittest.main()
