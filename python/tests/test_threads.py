"""Pools and sessions that several threads use: run as the tests beside this."""

import threading
import unittest
from unittest import mock

import etherparse_proved as ep
from etherparse_proved import _handles

THREADS, EACH = 4, 5_000
LINE = b"frame 0 0200000000020200000000010800450000210000" b"4000401126ca0a0000010a00000200010002000da7fc68656c6c6f\n"
ANSWER = b"message 17 good 000100020"


def fragments(identification):
    """Both fragments of an IPv4 datagram of 16 bytes, protocol 253, with this identification."""
    for offset, data in ("2000", bytes(8)), ("0001", bytes(8)):
        header = f"4500001c{identification:04x}{offset}40fd00000a0000010a000002"
        yield bytes.fromhex("020000000002020000000001" + "0800" + header) + data


def in_threads(count, job):
    """Runs the job in so many threads at once, each with its number; raises what one raised."""
    raised, start = [], threading.Barrier(count)

    def run(number):
        start.wait()
        try:
            job(number)
        except BaseException as error:
            raised.append(error)

    threads = [threading.Thread(target=run, args=(number,)) for number in range(count)]
    for thread in threads:
        thread.start()
    for thread in threads:
        thread.join()
    if raised:
        raise raised[0]


def until_taken(call, *arguments):
    while True:
        try:
            return call(*arguments)
        except ep.InUse:
            pass


class Threads(unittest.TestCase):
    def held(self, library, name):
        """A call of the library that begins, and returns when it may: as a context, and the two events."""
        call, entered, may_end = getattr(library, name), threading.Event(), threading.Event()

        def slow(*arguments):
            entered.set()
            self.assertTrue(may_end.wait(60))
            return call(*arguments)

        return mock.patch.object(library, name, slow), entered, may_end

    def test_a_second_call_at_once_is_refused(self):
        first, second = fragments(1)
        pool, session = ep.Pool(), ep.Session()
        pool_calls = (
            lambda: pool.add(second, 1),
            lambda: pool.forget_before(9),
            lambda: len(pool),
            pool.close,
        )
        session_calls = (lambda: session.feed(LINE), session.finish, session.close)
        for library, name, started, others, word in (
            (_handles.etherparse, "ep_pool_add", lambda: pool.add(first, 1), pool_calls, "pool"),
            (_handles.netlines, "netlines_feed", lambda: session.feed(LINE), session_calls, "session"),
        ):
            patched, entered, may_end = self.held(library, name)
            with patched:
                results = []
                thread = threading.Thread(target=lambda: results.append(started()))
                thread.start()
                try:
                    self.assertTrue(entered.wait(60))
                    for call in others * 3:
                        with self.assertRaisesRegex(ep.InUse, f"^the {word} is in use: another call to it hasn't returned$"):
                            call()
                finally:
                    may_end.set()
                    thread.join()
            self.assertEqual(len(results), 1)
        self.assertEqual(pool.add(second, 2).data, bytes(16))
        self.assertEqual(len(pool), 0)
        self.assertTrue(session.feed(LINE).startswith(ANSWER))
        self.assertEqual(session.finish(), b"")

    def test_a_pool_loses_nothing(self):
        pool, messages = ep.Pool(), [[] for _ in range(THREADS)]

        def job(number):
            for identification in range(EACH):
                for fragment in fragments(identification):
                    messages[number].append(until_taken(pool.add, fragment, identification, number))

        in_threads(THREADS, job)
        for ones in messages:
            self.assertEqual([it is None for it in ones], [True, False] * EACH)
        self.assertEqual(len(pool), 0)

    def test_a_session_loses_nothing(self):
        session, lines = ep.Session(), [0] * THREADS

        def job(number):
            for _ in range(EACH):
                lines[number] += until_taken(session.feed, LINE).count(ANSWER)

        in_threads(THREADS, job)
        self.assertEqual(lines, [EACH] * THREADS)

    def test_one_thread_after_another(self):
        pool, session = ep.Pool(), ep.Session()
        found = []
        for fragment in fragments(7):
            thread = threading.Thread(target=lambda it=fragment: found.append((pool.add(it, 1), session.feed(LINE))))
            thread.start()
            thread.join()
        self.assertIsNone(found[0][0])
        self.assertEqual(found[1][0].data, bytes(16))
        self.assertEqual([answer.count(ANSWER) for _, answer in found], [1, 1])
        thread = threading.Thread(target=lambda: (pool.close(), session.close()))
        thread.start()
        thread.join()
        with self.assertRaises(ValueError):
            pool.add(LINE, 1)


if __name__ == "__main__":
    unittest.main()
