"""What tools/failover holds acknowledged changes against finds what it has to: python3 -m unittest outside.test_failover, at the top."""

import unittest

from outside.cases import Wrong
from outside.failover import Ack, hundredth, judge, longest_gap, terms_of

A, B = "127.0.0.1:1", "127.0.0.1:2"


def ack(txn: int, begun: float, ended: float, address: str = A, process: str = "w0") -> Ack:
    return Ack(begun, ended, address, process, txn, txn)


# Two clients, and a server that took over from another one behind the third transaction, which its client was told late.
WELL = [ack(1, 0.0, 0.1), ack(2, 0.0, 0.2, process="w1"), ack(3, 0.3, 5.0), ack(4, 0.3, 4.0, B, "w1"), ack(5, 5.0, 5.1, B)]
SUBMITS = [(one.process, one.value) for one in WELL]


class Judging(unittest.TestCase):
    def test_one_history(self) -> None:
        judge(WELL, SUBMITS, {A: 1, B: 1})
        self.assertEqual([[one.txn for one in term] for term in terms_of(WELL)], [[1, 2, 3], [4, 5]])
        # Who made what was asked for again is not known: it may be either of two.
        again = [*WELL[:2], WELL[2]._replace(address=""), *WELL[3:]]
        judge(again, SUBMITS, {A: 1, B: 1})
        self.assertEqual([[one.txn for one in term] for term in terms_of(again)], [[1, 2], [4, 5]])

    def test_what_is_wrong(self) -> None:
        swapped = [SUBMITS[1], SUBMITS[0], *SUBMITS[2:]]
        again = [*SUBMITS, SUBMITS[0]]
        for word, acks, submits in [
            ("lost", WELL, SUBMITS[:4]),
            ("is", WELL, swapped),
            ("made twice", WELL, again),
            ("told to nobody", WELL, [*SUBMITS, ("w0", 99)]),
            ("given twice", [*WELL, ack(5, 6.0, 6.1, B)], SUBMITS),
            # Asked for when a later one had been answered.
            ("was asked for when", [*WELL[:3], ack(4, 5.2, 5.3, B, "w1"), WELL[4]], SUBMITS),
            # The first server acknowledged a change behind one of the second, in the same life.
            ("2 terms", [ack(1, 0.0, 0.1), ack(2, 0.1, 0.3, B, "w1"), ack(3, 0.2, 0.5)], SUBMITS[:3]),
        ]:
            with self.subTest(word), self.assertRaisesRegex(Wrong, word):
                judge(acks, submits, {A: 1, B: 1})

    def test_how_long_nobody_was_served(self) -> None:
        self.assertAlmostEqual(longest_gap(WELL, 0.15, 6.0), 3.8)
        self.assertAlmostEqual(longest_gap([], 1.0, 6.0), 5.0)
        self.assertEqual((hundredth(range(100), 50), hundredth(range(100), 99), hundredth([3.0], 99)), (50, 99, 3.0))


if __name__ == "__main__":
    unittest.main()
