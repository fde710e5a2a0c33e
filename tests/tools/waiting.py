"""How many functions of a crate may wait for a thread, as tools/waits.py reads it in a log of `rt ci`."""
import unittest

import waits

LOG = """== low
logic=proved functions=12 native=nat,char,string logic-built=trusted
rt: low proved
== low: its tests
logic=proved tests=3 functions=9 may-wait=2 native=nat,char,string logic-built=trusted
rt: low: its tests are proved
== pool
logic=proved functions=30 may-wait=18 native=nat,char,string logic-built=trusted
rt: pool proved
== app
logic=proved functions=4 threads=2 main=Threads+Wait may-wait=3 native=nat,char,string logic-built=trusted
rt: app proved
"""


class Log(unittest.TestCase):
    def test_counts(self):
        self.assertEqual(dict(waits.proved(LOG)), {"low": 0, "pool": 18, "app": 3})

    def test_list(self):
        text = "low:\npool may_wait=18: low\nhigh status=3 may_wait=2 opt_level=0: low pool\n"
        self.assertEqual(waits.listed(text), {"low": 0, "pool": 18, "high": 2})
