#!/usr/bin/env python3
"""Tests of pictures.py: python3 tools/test_pictures.py"""

import re
import unittest
import xml.etree.ElementTree as xml

import pictures
import studios

HEADER = (pictures.ROOT / "include" / "keeper.h").read_text()
STATES = (pictures.MODEL / "specs" / "Lines.antt").read_text()
TABLE = (pictures.MODEL / "src" / "lines.rt").read_text()
TRANSFERS = (pictures.MODEL / "specs" / "State.antt").read_text()
STUDIOS = (pictures.ROOT / "examples" / "studios.out").read_text()
ARROW = "{http://www.w3.org/2000/svg}path[@marker-end]"


def arrows(picture):
    return len(xml.fromstring(picture).findall(".//" + ARROW))


def changed(source, old, new):
    """The source with one thing changed, which must be there."""
    assert source.count(old) >= 1, old
    return source.replace(old, new, 1)


class Made(unittest.TestCase):
    def test_committed(self):
        for path, picture in pictures.made().items():
            with self.subTest(path.name):
                self.assertEqual(path.read_text(), picture)

    def test_an_arrow_for_each_line(self):
        drawn, pages, _ = pictures.made().values()
        self.assertEqual(arrows(drawn), 12)
        self.assertEqual(arrows(pages), len(pictures.PAGE_ARROWS))

    def test_an_arrow_for_each_account_that_passes_its_charges_up(self):
        accounts = xml.fromstring(list(pictures.made().values())[2])
        shown = [element.text for element in accounts.iter("{http://www.w3.org/2000/svg}text")]
        _, parents, limits, used = studios.read(STUDIOS)
        up = [account for account in range(1, len(limits)) if limits[account] == 0]
        self.assertTrue(up)
        self.assertEqual(len(accounts.findall(".//" + ARROW)), len(up))
        self.assertEqual(shown.count("mill pays"), len(up))
        for limit, count in zip(limits, used):
            self.assertIn(f"limit {limit}, used {count}", shown)

    def test_labels_beside_their_arrows(self):
        """No label of who pays stands on its arrow: it is above the arrow's middle, on its outer side."""
        left, right = studios.beside((265, 270), (130, 340), (400, 200)), studios.beside((535, 270), (670, 340), (400, 200))
        self.assertEqual((left, right), ((255, 260, "end"), (545, 260, "start")))
        shown = list(pictures.made().values())[2]
        self.assertIn('<text x="255"', shown)
        self.assertIn("Account 0 always pays", shown)

    def test_the_sum_of_the_limits_stays(self):
        """Every line of the example after its limit event: a move moves, and no more."""
        rows = re.findall(r"; limits((?: \d+)+); used", STUDIOS)
        self.assertGreater(len(rows), 10)
        self.assertEqual({sum(map(int, row.split())) for row in rows}, {10})

    def test_the_table_is_the_definition(self):
        pairs = re.findall(r"line ([A-Z]+) ([A-Z]+)\n", STATES)
        self.assertEqual(pictures.code_lines(TABLE, pictures.state_names(STATES)), set(pairs))


class Refused(unittest.TestCase):
    """A picture is not made where the code says otherwise."""

    def refused(self, words, make, *sources):
        with self.assertRaises(pictures.Bad) as caught:
            make(*sources)
        self.assertIn(words, str(caught.exception))

    def test_a_line_more(self):
        table = changed(TABLE, "[false, true, true, false,", "[false, true, true, true,")
        self.refused("('FREE', 'LIVE')", pictures.record_states, STATES, table, HEADER)

    def test_a_line_less(self):
        table = changed(TABLE, "[true,", "[false,")
        self.refused("('LEAVING', 'FREE')", pictures.record_states, STATES, table, HEADER)

    def test_no_accounts(self):
        for text, words in ((STUDIOS.replace("; used", "; kept"), "no used"), (STUDIOS.replace("; parents 0", "; parents"), "places for 5")):
            with self.assertRaises(studios.Bad) as caught:
                studios.picture(text)
            self.assertIn(words, str(caught.exception))

    def test_no_table(self):
        self.refused("LINES is no table", pictures.record_states, STATES, "", HEADER)

    def test_another_state(self):
        states = STATES.replace("FILED", "RESTING")
        self.refused("RESTING", pictures.record_states, states, TABLE, HEADER)
        states = changed(STATES, "FILED = 1", "FILED = 2")
        self.refused("not numbered", pictures.record_states, states, TABLE, HEADER)

    def test_another_kind(self):
        header = changed(HEADER, "KEEPER_CLAIM =", "KEEPER_EVICT =")
        self.refused("no kind of request: CLAIM", pictures.record_states, STATES, TABLE, header)
        self.refused("EVICT", pictures.page_life, TRANSFERS, header)
        header = changed(HEADER, "    KEEPER_LIMIT =", "    KEEPER_RENAME = 16, KEEPER_LIMIT =")
        self.refused("RENAME", pictures.page_life, TRANSFERS, header)


if __name__ == "__main__":
    unittest.main()
