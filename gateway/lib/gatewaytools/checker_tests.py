"""Tests of the checker itself: planted faults make it fail. And of the tables of docs/GATEWAY.md. They need no program."""
import datetime
import hashlib
import json
import os
import pathlib
import re
import socket
import subprocess
import tempfile
import time
import unittest
from unittest import mock

from regdtools import operations as table
from gatewaytools import auditing, logs, network, operations, plain, removals, rules, tools

TOKEN = "00000000-0000-4000-8000-00000000000"


def change(number, token=True):
    member = f',"token":"{TOKEN}{number}"' if token else ""
    return f'{{"ops":[{{"op":"prune","before":{number}}}]{member}}}'.encode()


def rest(place, text=""):
    return b'"place":%d,"replies":[{"pruned":[%s]}],"result":"committed"}' % (place, text.encode())


def reply(place, text=""):
    return b'{"call":7,' + rest(place, text)


def log(*numbers, token=True):
    """Returns a replayed log that commits the changes of these numbers, one after another."""
    return [auditing.Replayed(place, change(number, token), rest(place)) for place, number in enumerate(numbers, 1)]


def kinds(acknowledged, replayed, base=0):
    return [fault.kind for fault in auditing.faults(acknowledged, replayed, base)]


class CountingPlain:
    """In place of `regd plain`: each prune commits, and a query shows how often that was."""

    def __init__(self, *_):
        self.place = 0

    def __enter__(self):
        return self

    def __exit__(self, *_):
        pass

    def run(self, lines):
        replies = []
        for line in lines:
            self.place += b"prune" in line
            replies.append(reply(self.place) if b"prune" in line else b'{"call":1,' + shown(self.place, self.place))
        return replies


def shown(place, book):
    return b'"place":%d,"replies":["book %d"],"result":"answered"}' % (place, book)


def read(place, book):
    return {"read": True, "place": place, "query": '{"ops":[{"op":"show"}]}', "answer": '{"call":3,' + shown(place, book).decode()}


class WrongReads(unittest.TestCase):
    def wrong(self, *events):
        with mock.patch.object(auditing.plain, "Plain", CountingPlain):
            return auditing.wrong_reads("regd", "ex.org", log(1, 2, 3), 0, None, events)

    def test_right_books(self):
        self.assertEqual(self.wrong(read(0, 0), read(2, 2), read(2, 2), read(3, 3), {"place": 1, "line": "x", "reply": "y"}), 0)

    def test_another_book_at_the_right_place(self):
        self.assertEqual(self.wrong(read(1, 1), read(2, 1), read(2, 2), read(2, 3)), 2)

    def test_a_place_that_the_log_does_not_have(self):
        self.assertEqual(self.wrong(read(9, 9)), 1)


class Faults(unittest.TestCase):
    def test_nothing_wrong(self):
        acknowledged = [(change(n), reply(n)) for n in (3, 1, 2)]
        self.assertEqual(kinds(acknowledged, log(1, 2, 3)), [])
        self.assertEqual(kinds(acknowledged[:1], log(1, 2, 3)), [])

    def test_lost(self):
        self.assertEqual(kinds([(change(3), reply(3))], log(1, 2)), ["lost"])

    def test_lost_and_another_in_its_place(self):
        self.assertEqual(kinds([(change(3), reply(2))], log(1, 2)), ["different"])

    def test_doubled(self):
        replayed = log(1, 1)
        self.assertEqual(kinds([(change(1), reply(1))], replayed), ["doubled"])

    def test_doubled_without_token(self):
        line = change(1, token=False)
        self.assertEqual(kinds([(line, reply(1)), (line, reply(1))], log(1, token=False)), ["doubled"])
        self.assertEqual(kinds([(line, reply(1)), (line, reply(2))], log(1, 1, token=False)), [])

    def test_altered_reply(self):
        self.assertEqual(kinds([(change(1), reply(1, '"x"'))], log(1)), ["different"])

    def test_altered_line(self):
        self.assertEqual(kinds([(change(1) + b" ", reply(1))], log(1)), ["different"])

    def test_repeated(self):
        again = reply(1).replace(b"committed", b"repeated")
        self.assertEqual(kinds([(change(1), reply(1)), (change(1), again)], log(1, 2)), [])
        self.assertEqual(kinds([(change(2), again)], log(1, 2)), ["different"])
        self.assertEqual(kinds([(change(1), again)], []), ["lost"])

    def test_refused(self):
        refused = b'"code":"O3","op":0,"place":1,"result":"refused"}'
        replayed = [auditing.Replayed(1, change(1), refused)]
        self.assertEqual(kinds([(change(1), b'{"call":7,' + refused)], replayed), [])
        self.assertEqual(kinds([(change(1), b'{"call":7,' + refused.replace(b"O3", b"O4"))], replayed), ["different"])

    def test_own_codes(self):
        self.assertEqual(kinds([(change(9), b'{"code":"G7","line":3}')], log(1)), [])

    def test_ids(self):
        sent = b'{"ops":[{"op":"create","parent":"p"}]}'
        logged = b'{"ops":[{"op":"create","parent":"p","id":"x"}]}'
        self.assertTrue(auditing.is_line_of(sent, logged))
        self.assertFalse(auditing.is_line_of(sent, logged.replace(b'"p"', b'"q"')))
        self.assertFalse(auditing.is_line_of(sent.replace(b"create", b"update"), logged.replace(b"create", b"update")))

    def test_snapshot(self):
        self.assertEqual(kinds([(change(9), reply(1))], [], base=1), [])


def entry(number, before, lines=(b"{}",), time=1000, **more):
    """Returns the value of an entry, and its name."""
    header = {"entry": number, "before": before, "time": time, "id": f"run.{number}", **more}
    value = b"\n".join([json.dumps(header).encode(), *lines]) + b"\n"
    name = hashlib.sha256(value).hexdigest()
    return name.encode() + b" " + value, name


class Chain(unittest.TestCase):
    def setUp(self):
        self.values, self.names = [], [logs.ORIGIN]
        for number in range(1, 4):
            value, name = entry(number, self.names[-1], callers=["spiffe://ex.org/a", ""], by=[1])
            self.values.append(value)
            self.names.append(name)

    def entries(self):
        return [logs.read_entry(number, value) for number, value in enumerate(self.values, 1)]

    def test_nothing_wrong(self):
        entries = self.entries()
        self.assertEqual(list(auditing.gaps(entries, None, (3, self.names[3]))), [])
        self.assertEqual((entries[0].lines, entries[0].sent, entries[0].time), ([b"{}"], [(1, "")], 1000))
        snapshot = logs.Snapshot(2, self.names[2], 2, [], [])
        self.assertEqual(list(auditing.gaps(entries[2:], snapshot, (3, self.names[3]))), [])

    def test_a_bit(self):
        for at in range(len(self.values[1])):
            value = bytearray(self.values[1])
            value[at] ^= 1
            with self.assertRaises((logs.Damaged, ValueError)):
                logs.read_entry(2, bytes(value))

    def test_another_number(self):
        with self.assertRaises(logs.Damaged):
            logs.read_entry(3, self.values[1])

    def test_entries_that_do_not_follow(self):
        first, second, third = self.entries()
        logs.follows(second, first.name, first.time)
        for before, moment in ((third.name, 0), (first.name, 1001)):
            with self.assertRaises(logs.Damaged):
                logs.follows(second, before, moment)

    def test_gaps(self):
        first, second, third = self.entries()
        other = second._replace(before=third.name)
        for entries, snapshot, end in (([first, third], None, (3, third.name)), ([first, other, third], None, (3, third.name)),
                                       ([first, second], None, (3, third.name)), ([first, second, third], None, (3, second.name)),
                                       ([third], logs.Snapshot(2, "lost", 2, [], []), (3, third.name)), ([], None, (1, first.name))):
            self.assertEqual({fault.kind for fault in auditing.gaps(entries, snapshot, end)}, {"gap"})


class Records(unittest.TestCase):
    """The record of a gateway, compared with the log."""

    def setUp(self):
        entry = plain.NO_ENTRY._replace(time=1_000_000_000_123)
        self.replayed = [auditing.Replayed(number, change(number), rest(number), 2, "spiffe://ex.org/a", entry) for number in (7, 8)]
        self.right = {"time": "2001-09-09T01:46:40.123Z", "caller": "spiffe://ex.org/a", "entry": 7, "line": 2, "place": 7, "outcome": "committed"}

    def kinds(self, base=0, skips=(), **more):
        return [fault.kind for fault in auditing.record_faults([{**self.right, **more}], self.replayed, base, skips)]

    def test_nothing_wrong(self):
        self.assertEqual(self.kinds(), [])
        self.assertEqual(self.kinds(outcome="unknown", entry=0), [])
        self.assertEqual(self.kinds(entry=99, base=99), [])
        self.assertEqual(self.kinds(entry=9, outcome="refused", code="G7", place=0, skips={(9, 2)}), [])

    def test_wrong(self):
        for more in ({"time": "2001-09-09T01:46:40.124Z"}, {"caller": "spiffe://ex.org/b"}, {"place": 8}, {"outcome": "repeated"},
                     {"outcome": "refused", "code": "O3"}):
            self.assertEqual(self.kinds(**more), ["recorded otherwise"])
        for more in ({"entry": 9}, {"line": 1}, {"skips": {(7, 2)}}):
            self.assertEqual(self.kinds(**more), ["not in the log"])

    def test_outcomes(self):
        for reply, want in ((rest(7), ("committed", "", 7)), (b'"code":"O3","op":0,"place":7,"result":"refused"}', ("refused", "O3", 7)),
                            (b'{"code":"L2"', ("refused", "L2", 0)), (b'"place":7,"replies":[],"result":"answered"}', ("answered", "", 7))):
            self.assertEqual(auditing.outcome_of(reply), want)


class StaleReads(unittest.TestCase):
    def test_order(self):
        write = {"from": 10, "to": 20, "place": 5, "reply": '"committed"}'}
        for begin, end, place, stale in ((21, 30, 5, 0), (21, 30, 4, 1), (15, 30, 4, 0), (15, 30, 5, 0), (1, 5, 4, 0)):
            read = {"from": begin, "to": end, "place": place, "read": True}
            self.assertEqual(auditing.stale_reads([write, read]), stale, read)

    def test_reads_do_not_go_back(self):
        reads = [{"from": 1, "to": 2, "place": 7, "read": True}, {"from": 3, "to": 4, "place": 6, "read": True}]
        self.assertEqual(auditing.stale_reads(reads), 1)

    def test_repeated_answers_do_not_count(self):
        events = [{"from": 1, "to": 2, "place": 7, "reply": 'x"repeated"}'}, {"from": 3, "to": 4, "place": 6, "read": True}]
        self.assertEqual(auditing.stale_reads(events), 0)


class Go(unittest.TestCase):
    def test_warning(self):
        for version, today, oldest in (("go1.19.8", (2025, 2, 1), 23), ("go1.23.4", (2025, 2, 1), None), ("go1.23.4", (2025, 8, 1), 24),
                                       ("go1.24", (2026, 1, 31), None), ("go version go1.25.1 linux/amd64", (2026, 8, 1), 26), ("devel", (2026, 8, 1), 26)):
            warning = tools.go_warning(version, datetime.date(*today))
            self.assertEqual(warning is None, oldest is None, version)
            self.assertIn(f"fixes go1.{oldest} and later" if oldest else "", warning or "")


class Network(unittest.TestCase):
    """A node `m` sends back what it gets from this process, the node `g`."""

    def setUp(self):
        self.network = network.Network(lambda: {"g": os.getpid()})
        self.addCleanup(self.network.close)
        listener = socket.create_server(("127.0.0.1", 0))
        self.addCleanup(listener.close)
        port = self.network.listen("m", listener.getsockname()[1])
        self.conn = socket.create_connection(("127.0.0.1", port), 10)
        self.addCleanup(self.conn.close)
        self.inner, _ = listener.accept()
        self.addCleanup(self.inner.close)

    def comes(self, conn, seconds=0.2):
        conn.settimeout(seconds)
        try:
            return conn.recv(10)
        except TimeoutError:
            return None

    def test_directions(self):
        with self.network.cut((["g"], ["m"])):
            self.conn.sendall(b"there")
            self.inner.sendall(b"back")
            self.assertEqual(self.comes(self.conn, 10), b"back")
            self.assertIsNone(self.comes(self.inner))
        self.assertEqual(self.comes(self.inner, 10), b"there")

    def test_delay(self):
        self.network.set(["m"], ["g"], delay=0.3)
        begin = time.monotonic()
        self.inner.sendall(b"back")
        self.assertEqual(self.comes(self.conn, 10), b"back")
        self.assertGreaterEqual(time.monotonic() - begin, 0.3)
        self.network.heal()
        self.conn.shutdown(socket.SHUT_WR)
        self.assertEqual(self.comes(self.inner, 10), b"")


class Mutants(unittest.TestCase):
    def test_tests(self):
        for test in sorted({one.test[0] for one in removals.all_mutants()}):
            self.assertEqual(len(removals.packages_of(tools.SOURCES, test)), 1, test)


class Rules(unittest.TestCase):
    def test_operations(self):
        self.assertEqual(rules.CHANGES, {*table.CHANGES})
        self.assertEqual(rules.QUERIES, {*table.QUERIES})

    def test_own_code(self):
        query, prune = b'{"op":"show"}', b'{"op":"prune"}'
        for line, code in (
            (b'{"ops":[' + b",".join([query] * 5 + [prune]) + b"]}", "G2"),
            (b'{"ops":[' + b",".join([query] * 4 + [prune]) + b"]}", None),
            (b'{"ops":[' + b",".join([query] * 9) + b"]}", None),
            (b'{"ops":[' + b",".join([b'{"op":"trust"}'] * 16) + b"]}", None),
            (b'{"ops":[' + b",".join([b'{"op":"page"}'] * 17), "G2"),
            (b'{"ops":[{"op":"create"}]}' + b" " * (rules.MOST_BYTES - 60), "G3"),
            (b'{"ops":[{"op":"create"}]}' + b" " * rules.MOST_BYTES, None),
            (b'{"ops":[', None),
        ):
            self.assertEqual(rules.own_code(line), code, line[:80])

    def test_token(self):
        for text, digits in (("URN:UUID:" + TOKEN + "9", TOKEN + "9"), ("{" + TOKEN + "9}", TOKEN + "9"), ("9", None), ("{" + "0" * 32 + "}", None)):
            line = b'{"ops":[{"op":"prune"}],"token":"%s"}' % text.encode()
            self.assertEqual(rules.token_of(line), digits and digits.replace("-", ""))


class Units(unittest.TestCase):
    def test_units_need_systemd_analyze(self):
        def without(words, **_):
            if words[0] == "systemd-analyze":
                raise FileNotFoundError(words[0])
            return subprocess.CompletedProcess(words, 0, "", "")

        def which(command):
            return None if command == "systemd-analyze" else f"/usr/bin/{command}"

        programs = tools.Programs("/usr/bin/regd-gateway", "/usr/bin/regd", "load")
        with tempfile.TemporaryDirectory() as folder, mock.patch("subprocess.run", without), mock.patch("shutil.which", which):
            self.assertRaises(FileNotFoundError, operations.units, programs, pathlib.Path(folder))
        for parts, needed in ((["fast"], False), (["operation/pages"], False), (["fast", "operation/units"], True)):
            self.assertEqual("systemd-analyze" in tools.commands_of(parts), needed, parts)


if __name__ == "__main__":
    unittest.main()


class Tables(unittest.TestCase):
    """The tables of docs/GATEWAY.md have what the sources have, and nothing else."""

    def setUp(self):
        self.page = (tools.TOP / "docs/GATEWAY.md").read_text()

    def source(self, name):
        return (tools.SOURCES / name).read_text()

    def listed(self, heading):
        """Returns what the first columns of the tables below a heading have in inline code."""
        part = re.split(r"^#+ ", self.page.partition(f"# {heading}\n")[2], maxsplit=1, flags=re.M)[0]
        return {name for row in part.splitlines() if row.startswith("| ") for name in re.findall(r"`([^`]+)`", row.split("|")[1])}

    def test_metrics(self):
        usual, _, members = self.source("internal/server/status.go").partition("func addMembers")
        names = {*re.findall(r'name\+"(\w+)"', usual)} - {"etcd_"} | {f"etcd_{name}" for name in re.findall(r'name\+"(\w+)"', members)}
        self.assertEqual(self.listed("Metrics"), names)

    def test_status(self):
        keys = re.findall(r'"(\w+)":', self.source("internal/server/status.go")) + re.findall(r'status\["(\w+)"\]', self.source("internal/server/status.go"))
        self.assertEqual(self.listed("What the gateway shows"), {*keys})

    def test_options(self):
        names = re.findall(r'flags\.\w+\((?:&[\w.]+, )?"([a-z-]+)"', self.source("main.go"))
        self.assertEqual((self.listed("Options") | self.listed("Limits")) - {"-limit-.."}, {f"-{name}" for name in names})

    def test_log_lines(self):
        texts = [file.read_text() for file in tools.SOURCES.rglob("*.go") if not file.stem.endswith("_test") and file.parent.name != "load"]
        self.assertEqual(self.listed("Log lines"), {event for text in texts for event in re.findall(r'\.(?:Info|Error)\("([^"]+)"', text)})

    def test_codes(self):
        codes = re.findall(r'= "(G\d)"', self.source("internal/wire/batch.go"))
        self.assertEqual(re.findall(r"^\| (G\d) \|", self.page, flags=re.M), codes)
