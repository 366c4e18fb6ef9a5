"""Whether numpy reads and fills records where they lie. Where it is not here, that is skipped."""

import unittest

from verified_disruptor import Disruptor

try:
    import numpy
except ImportError:
    numpy = None


def table_of(view):
    return numpy.asarray(view).reshape(-1, 2)


@unittest.skipUnless(numpy, "numpy is not here")
class Tables(unittest.TestCase):
    def test_numpy_reads_and_fills_records_where_they_lie(self):
        seen = []

        def add(views, first):
            for table in map(table_of, views):
                table[:, 1] += table[:, 0]

        def see(views, first):
            for table in map(table_of, views):
                self.assertFalse(table.flags.owndata or table.flags.writeable)
                seen.extend(table[:, 1].tolist())

        disruptor = Disruptor(4, record="QQ").handle_batches("adds", add, changes=True).and_then()
        disruptor.handle_batches("sees", see)
        with disruptor.sender() as sender:
            # (some batches go round the end of the slots)
            for k in range(0, 12, 3):
                sender.send(numpy.array([[k, 1], [k + 1, 1], [k + 2, 1]], dtype="u8"))
            with sender.events(2) as views:
                for view in views:
                    table_of(view)[:] = 6, 7
        self.assertEqual(seen, [*range(1, 13), 13, 13])


if __name__ == "__main__":
    unittest.main()
