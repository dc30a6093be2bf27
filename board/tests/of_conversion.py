"""Records of other programs, as reports and hexd-gtp read them. The page's own reader has the same table (of_records.py)."""

import unittest

from tests import support, table  # noqa: F401  The first one finds board/.

import records


class Conversion(unittest.TestCase):
    def test_the_table(self):
        for given, text, notes in table.READ:
            with self.subTest(given=given[:80]):
                record = records.read(given)
                self.assertEqual((f"(;FF[4]GM[11]{text}", notes), (record.text, record.notes))
        for given, why in (*table.REFUSED, *table.QUOTED):
            with self.subTest(given=given[:80]), self.assertRaises(records.Refused) as refused:
                records.read(given)
            self.assertEqual(why, str(refused.exception))

    def test_what_is_long(self):
        """No longer record is read than hexd reads, and of many changes some are told."""
        head = b"(;SZ[5];B[a1]"
        record = records.read(head + b";W[]" * ((records.MOST_BYTES - len(head)) // 4))
        self.assertEqual(f"Of {(records.MOST_BYTES - len(head)) // 4 - records.MOST_NOTES} changes more nothing is said.", record.notes[-2])
        self.assertEqual(records.MOST_NOTES + 2, len(record.notes))
        with self.assertRaises(records.Refused) as refused:
            records.read(head.ljust(records.MOST_BYTES + 1))
        self.assertEqual("it has more than 1,048,576 bytes", str(refused.exception))
