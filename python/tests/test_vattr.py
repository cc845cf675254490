"""What the package promises: right answers, and an exception for each misuse. `python3 -m unittest discover python/tests`"""
import copy
import gc
import os
import pickle
import random
import resource
import subprocess
import sys
import threading
import time
import unittest

sys.path.insert(0, os.environ.get("VATTR_PACKAGE", os.path.join(os.path.dirname(os.path.abspath(__file__)), "..")))
import vattr  # noqa: E402
from vattr import Code, Engine, Group, Item, Misuse, Reader, Refused, Totals  # noqa: E402

try:
    import numpy
except ImportError:
    numpy = None


def put(document, **fields):
    names = ",".join(f'"{name}":{value}' for name, value in fields.items())
    return f'{{"put":"id:a:b::{document}","fields":{{{names}}}}}\n'


def in_thread(call):
    """What a call in another thread came to."""
    found = []

    def run():
        try:
            found.append(call())
        except BaseException as fault:
            found.append(fault)

    thread = threading.Thread(target=run, name="other")
    thread.start()
    thread.join()
    return found[0]


class Kept:
    """A thread that stays alive and makes the calls that it is given."""

    def __init__(self):
        self.ready, self.done, self.call, self.came = threading.Semaphore(0), threading.Semaphore(0), None, None
        self.thread = threading.Thread(target=self.run, name="kept", daemon=True)
        self.thread.start()

    def run(self):
        while True:
            self.ready.acquire()
            if self.call is None:
                return
            try:
                self.came = self.call()
            except BaseException as fault:
                self.came = fault
            self.done.release()

    def ask(self, call):
        self.call = call
        self.ready.release()
        self.done.acquire()
        return self.came

    def end(self):
        self.call = None
        self.ready.release()
        self.thread.join()


class Answers(unittest.TestCase):
    def setUp(self):
        self.engine = Engine("year:single:long,tags:weightedset:string,parts:array:string", readers=2)
        for document in range(1, 11):
            self.engine.feed(put(document, year=1960 + document, tags=f'{{"a":{document},"b":-1}}', parts='["x","","x"]'))
        self.engine.commit()
        self.reader = self.engine.reader()

    def tearDown(self):
        self.reader.close()
        self.engine.close()

    def test_hits(self):
        hits = self.reader.hits("[1962;1964]")
        self.assertEqual((hits.typecode, list(hits)), ("I", [2, 3, 4]))
        self.assertEqual(list(self.reader.hits()), [2, 3, 4])
        self.assertEqual(list(self.reader.hits(first=1, most=1)), [3])
        self.assertEqual(list(self.reader.hits("1800")), [])
        self.assertEqual(list(self.reader.hits(first=7)), [])
        self.assertEqual(self.reader.count("[;]"), 10)
        self.assertEqual(self.reader.ask("[;1963]"), (1, 10, 3))
        self.assertEqual(list(self.reader.hits()), [1, 2, 3])

    def test_buffers(self):
        hits = memoryview(self.reader.hits("[;]"))
        self.assertEqual((hits.format, hits.itemsize, len(hits)), ("I", 4, 10))
        scores = self.reader.scores('tags:dot("a":2,"b":1)')
        self.assertEqual([(it.document, it.score, it.exact) for it in scores], [(d, 2 * d - 1, 1) for d in range(1, 11)])
        self.assertEqual(memoryview(scores).nbytes, 160)
        self.assertEqual(len(self.reader.scores("[;]")), 0)

    @unittest.skipUnless(numpy, "numpy is not installed")
    def test_numpy(self):
        hits = self.reader.hits("[;]")
        taken = numpy.asarray(hits)
        self.assertEqual((taken.dtype, taken.sum()), (numpy.uint32, 55))
        hits[0] = 100
        self.assertEqual(taken[0], 100, "numpy has the same memory")
        scores = self.reader.scores('tags:dot("a":2)')
        taken = numpy.asarray(scores)
        self.assertEqual(taken.dtype.names, ("score", "document", "exact"))
        self.assertEqual(taken["score"].sum(), 110)
        scores[0].score = 7
        self.assertEqual(taken["score"][0], 7, "numpy has the same memory")

    def test_items(self):
        self.assertEqual(self.reader.items(3), [Item(1963, 1)])
        self.assertEqual(self.reader.items(3, "tags"), [("a", 3), ("b", -1)])
        self.assertEqual(self.reader.items(3, 2), [("x", 1), ("", 1), ("x", 1)])
        self.assertIsNone(self.reader.items(99))
        for field in ("none", 3):
            with self.assertRaises(Refused):
                self.reader.items(3, field)

    def test_guards_nest(self):
        with self.reader.hold() as outer:
            self.engine.feed(put(11, year=1))
            self.engine.commit()
            with self.reader.hold() as inner:
                self.assertEqual((outer.commit, inner.commit, inner.operations), (1, 1, 10))
            self.assertEqual(self.reader.count("[;]"), 10)
        self.assertEqual(self.reader.count("[;]"), 11)
        outer.release()
        guard = self.reader.hold()
        self.engine.feed(put(12, year=1))
        self.engine.commit()
        self.assertEqual(self.reader.count("[;]"), 11)
        del guard
        self.assertEqual(self.reader.count("[;]"), 12)

    def test_sorting(self):
        for document, year in ((11, 1963), (12, 1900)):
            self.engine.feed(put(document, year=year))
        self.engine.feed(put(13, tags='{"c":1}'))
        self.engine.commit()
        self.assertEqual(len(self.reader.sort("year")), 0, "nothing was asked so far")
        self.assertEqual(self.reader.ask("or([;1963],tags:\"c\")").count, 6)
        up, down = self.reader.sort("year"), self.reader.sort(0, descending=True)
        self.assertEqual((up.typecode, list(up)), ("I", [12, 1, 2, 3, 11, 13]))
        self.assertEqual(list(down), [3, 11, 2, 1, 12, 13])
        self.assertEqual(list(self.reader.sort("year", True, 1, 2)), [11, 2])
        self.assertEqual(list(self.reader.sort("tags")), [1, 2, 3, 13, 11, 12], "by the first item")
        for first, most in ((0, 0), (6, 5), (2**63, None), (1, 0)):
            self.assertEqual(len(self.reader.sort("year", first=first, most=most)), 0)
        self.assertEqual(list(self.reader.hits()), [1, 2, 3, 11, 12, 13])
        for call in (lambda: self.reader.sort(3), lambda: self.reader.sort("none"), lambda: self.reader.totals(9),
                     lambda: self.reader.groups(3), lambda: self.reader.longs(3, [1])):
            self.assertRaises(Refused, call)
        for call in (lambda: self.reader.sort("year", first=-1), lambda: self.reader.groups(0, most=-1), lambda: self.reader.documents(-1),
                     lambda: self.reader.documents(1 << 32), lambda: self.reader.best("1", -1)):
            self.assertRaises(ValueError, call)

    def test_totals(self):
        ends = [2**63 - 1, 2**63 - 1, 2**63 - 1, -2**63, -2**63, -2**63, -2**63]
        for document, year in enumerate(ends, 21):
            self.engine.feed(put(document, year=year))
        self.engine.commit()
        self.reader.ask(f"[{2**63 - 1};]")
        self.assertEqual(self.reader.totals("year"), Totals(3, 3 * (2**63 - 1), 2**63 - 1, 2**63 - 1))
        self.reader.ask(f"[;{-2**63}]")
        self.assertEqual(self.reader.totals("year"), Totals(4, -2**65, -2**63, -2**63))
        self.reader.ask(f"or([{2**63 - 1};],[;{-2**63}])")
        self.assertEqual(self.reader.totals("year"), Totals(7, sum(ends), -2**63, 2**63 - 1))
        for text in ("1800", "tags:\"none\""):
            self.reader.ask(text)
            self.assertEqual(self.reader.totals("year"), Totals(0, 0, None, None))
        self.reader.ask("[1961;1970]")
        self.assertEqual(self.reader.totals("tags"), Totals(0, 0, None, None), "texts are no numbers")

    def test_groups(self):
        self.engine.feed(put(11, parts='["y","x"]', tags='{"":1}', year=1969))
        self.engine.commit()
        self.reader.ask("[1969;]")
        self.assertEqual(self.reader.groups("parts"), [Group("", 2), Group("x", 3), Group("y", 1)], "a document counts once for a value")
        self.assertEqual(self.reader.groups("tags", by_count=True), [("a", 2), ("b", 2), ("", 1)])
        self.assertEqual(self.reader.groups("year", by_count=True, most=1), [(1969, 2)])
        self.assertEqual(self.reader.groups("year", most=0), [])
        self.assertEqual(self.reader.terms('parts:"x"*'), [("x", 11)], "terms are of all documents")
        self.assertEqual(self.reader.terms("[1968;]", 2), [(1968, 1), (1969, 2)])
        self.assertEqual(self.reader.terms('tags:>""'), [("a", 10), ("b", 10)])
        self.reader.ask("1800")
        self.assertEqual(self.reader.groups("year"), [])
        for text, said in (("and(1,2)", "not one comparison: it breaks off at byte 0"), ("tags:dot(\"a\":1)", "not one comparison"),
                           ("[1;", "it breaks off at its end")):
            with self.assertRaises(Refused) as refused:
                self.reader.terms(text)
            self.assertEqual(refused.exception.code, Code.SYNTAX)
            self.assertIn(said, str(refused.exception))

    def test_best(self):
        best = self.reader.best('tags:dot("a":2,"b":1)', 3)
        self.assertEqual([(it.document, it.score, it.exact) for it in best], [(10, 19, 1), (9, 17, 1), (8, 15, 1)])
        self.assertEqual([it.document for it in self.reader.best('tags:dot("b":1)', 2)], [1, 2], "equal scores by document")
        self.assertEqual(len(self.reader.best('tags:dot("a":1)', 10**9)), 10)
        self.assertEqual((len(self.reader.best("[;]", 3)), len(self.reader.best('tags:dot("a":1)', 0))), (0, 0))
        self.engine.feed(put(11, tags=f'{{"a":{-2**31},"b":{-2**31}}}'))
        self.engine.commit()
        best = self.reader.best(f'tags:dot("a":{-2**31},"b":{-2**31})', 1)
        self.assertEqual((best[0].document, best[0].score, best[0].exact), (11, 2**63 - 1, 0), "the nearest number")

    def test_longs(self):
        numbers, present = self.reader.longs("year", self.reader.hits("[;]"))
        self.assertEqual((numbers.typecode, list(numbers)), ("q", [1960 + it for it in range(1, 11)]))
        self.assertEqual((present.typecode, sum(present)), ("B", 10))
        numbers, present = self.reader.longs(0, [10, 99, 0, 2**32 - 1, 10, 1])
        self.assertEqual((list(numbers), list(present)), ([1970, 0, 0, 0, 1970, 1961], [1, 0, 0, 0, 1, 1]))
        self.assertEqual([list(it) for it in self.reader.longs("year", [])], [[], []])
        self.assertEqual(list(self.reader.longs("tags", [1, 2]).present), [0, 0])
        for documents in ([-1], [1 << 32], ["1"], [1.5], 5):
            self.assertRaises((TypeError, OverflowError), self.reader.longs, 0, documents)

    def test_documents(self):
        self.assertEqual(list(self.reader.documents()), list(range(1, 11)))
        self.assertEqual(list(self.reader.documents(4, 3)), [4, 5, 6])
        self.assertEqual([len(self.reader.documents(*it)) for it in ((11,), (0, 0), (2**32 - 1,), (0, 10**9))], [0, 0, 0, 10])
        self.engine.feed("".join(put(it, year=it) for it in range(20, 9020)))
        self.engine.commit()
        self.assertEqual(list(self.reader.documents(15)), list(range(20, 9020)))
        self.assertEqual(len(self.reader.best('tags:dot("a":1)', 10**6)), 10)

    def test_of_one_commit(self):
        with self.reader.hold() as held:
            self.reader.ask("[1965;]")
            self.engine.feed(put(5, year=2000) + '{"remove":"id:a:b::6"}\n' + put(11, year=1966))
            self.engine.commit()
            self.assertEqual((held.commit, list(self.reader.sort("year")), len(self.reader.documents())), (1, [5, 6, 7, 8, 9, 10], 10))
            self.assertEqual(self.reader.groups("year", most=2), [(1965, 1), (1966, 1)])
        self.assertEqual(list(self.reader.sort("year")), [7, 8, 9, 10, 5, 6], "the values of now, and a document that is gone is last")
        self.assertEqual(self.reader.totals("year").count, 5)
        self.assertEqual(list(self.reader.longs("year", [5, 6]).numbers), [2000, 0])
        self.assertEqual(self.reader.terms("[1965;1967]"), [(1966, 1), (1967, 1)])

    def test_saves(self):
        with Engine("year:single:long", readers=1) as other:
            told = other.load(bytearray(self.reader.save()))
            self.assertEqual((told.operations, other.commit().operations), (10, 10))
            self.assertEqual(list(other.reader().hits("1965")), [5])
            with self.assertRaises(Refused) as refused:
                other.load(self.reader.save()[:-1])
            self.assertEqual(refused.exception.code, Code.BAD_SAVE)

    def test_refusals(self):
        with self.assertRaises(Refused) as refused:
            self.engine.feed(put(20, year=1) + "\n" + '{"put":1}\n')
        self.assertEqual((refused.exception.code, refused.exception.line), (Code.BAD_ID, 3))
        self.assertEqual(str(refused.exception), "the id does not end with the number of a document: line 3, at byte 42")
        for text, code, said in [("or(1", Code.SYNTAX, "no query and no dot product: it breaks off at its end"),
                                 ("year:x", Code.SYNTAX, "at byte 5, before x"), ("none:1", Code.NO_FIELD, "at byte 0, before none:1"),
                                 ('"x"', Code.WRONG_TYPE, "")]:
            with self.assertRaises(Refused) as refused:
                self.reader.hits(text)
            self.assertEqual(refused.exception.code, code)
            self.assertIn(said, str(refused.exception))
        self.engine.reader()
        self.assertIn("words=8192", repr(self.engine.counts()))

    def test_quoted(self):
        with Engine("a:single:string", readers=1) as engine:
            texts = ['a"b', "\\", '"', 'x","y', "", "é\0z", '\\"', "or(1,2)"]
            for document, text in enumerate(texts, 1):
                escaped = "".join(f"\\u{ord(c):04x}" for c in text)
                engine.feed(put(document, a=f'"{escaped}"'))
            engine.commit()
            reader = engine.reader()
            for document, text in enumerate(texts, 1):
                self.assertEqual(list(reader.hits(vattr.quoted(text))), [document], text)
                self.assertEqual(reader.items(document), [(text, 1)])


class Misuses(unittest.TestCase):
    """None of these calls the library, and so none can stop the process."""

    def setUp(self):
        self.engine = Engine("year:single:long", readers=3)
        self.engine.feed(put(1, year=1))
        self.engine.commit()

    def tearDown(self):
        self.engine.close()

    def refused(self, say, call, *words):
        with self.assertRaises(Misuse) as fault:
            call(*words)
        self.assertIn(say, str(fault.exception))

    def test_closed(self):
        reader, other = self.engine.reader(), self.engine.reader()
        self.engine.take_back(reader)
        reader.close()
        other.close()
        other.close()
        for gone in (reader, other):
            for call in (gone.hold, gone.save, gone.hits, gone.unbind):
                self.refused("closed", call)
            for call in (gone.hits, gone.ask, gone.count, gone.scores):
                self.refused("closed", call, "[;]")
            self.refused("closed", gone.items, 1)
            for call in (gone.sort, gone.totals, gone.groups):
                self.refused("closed", call, 0)
            self.refused("closed", gone.terms, "1")
            self.refused("closed", gone.best, "1", 1)
            self.refused("closed", gone.longs, 0, [1])
            self.refused("closed", gone.documents)
            self.refused("closed", self.engine.take_back, gone)
        self.engine.close()
        self.engine.close()
        for call in (self.engine.commit, self.engine.compact, self.engine.counts, self.engine.reader):
            self.refused("closed", call)
        self.refused("closed", self.engine.feed, "")
        self.refused("closed", self.engine.load, b"")

    def test_after_the_engine(self):
        reader = self.engine.reader()
        self.engine.close()
        self.assertEqual(list(reader.hits("[;]")), [1])
        self.refused("closed", self.engine.take_back, reader)
        reader.close()

    def test_of_another_engine(self):
        with Engine("year:single:long", readers=3) as other:
            reader = self.engine.reader()
            self.refused("another engine", other.take_back, reader)
            self.assertEqual(list(reader.hits("[;]")), [1])
            self.engine.take_back(reader)

    def test_of_another_thread(self):
        reader, kept = self.engine.reader(), Kept()
        self.assertEqual(list(kept.ask(lambda: reader.hits("[;]"))), [1])
        self.refused("belongs to the thread kept", reader.hits, "[;]")
        self.refused("belongs to the thread kept", reader.hold)
        self.assertIsNone(kept.ask(reader.unbind))
        self.assertEqual(list(reader.hits("[;]")), [1])
        self.assertIsInstance(kept.ask(lambda: reader.hits("[;]")), Misuse)
        self.assertIsInstance(kept.ask(self.engine.commit), Misuse)
        kept.end()
        other = self.engine.reader()
        in_thread(lambda: other.hits("[;]"))
        self.assertEqual(list(other.hits("[;]")), [1], "a thread that has ended gives its reader up")
        guard = other.hold()
        self.assertIsInstance(in_thread(guard.release), Misuse)
        guard.release()

    def test_two_calls_at_once(self):
        reader, wrong, stop = self.engine.reader(), [], threading.Event()
        self.engine.feed("".join(put(d, year=d) for d in range(1, 20000)))
        self.engine.commit()
        taken = [0, 0]

        def run():
            while not stop.is_set():
                try:
                    if len(reader.hits("[;]")) != 19999:
                        wrong.append("hits")
                    reader.unbind()
                    taken[0] += 1
                except Misuse:
                    taken[1] += 1

        threads = [threading.Thread(target=run) for _ in range(4)]
        for it in threads:
            it.start()
        stop.wait(1)
        for _ in range(200):
            try:
                reader.close()
                break
            except Misuse:
                pass
        stop.set()
        for it in threads:
            it.join()
        self.assertEqual(wrong, [])
        self.assertGreater(taken[0], 0)

    def test_values(self):
        reader = self.engine.reader()
        for call in (lambda: self.engine.feed(None), lambda: self.engine.feed(3), lambda: reader.hits(3), lambda: reader.items("1"),
                     lambda: Engine(None), lambda: self.engine.take_back(None), lambda: self.engine.take_back(self.engine), Reader,
                     lambda: reader.items(1.5), lambda: copy.copy(reader), lambda: copy.deepcopy(self.engine),
                     lambda: pickle.dumps(reader)):
            self.assertRaises(TypeError, call)
        for call in (lambda: reader.items(-1), lambda: reader.items(1 << 32), lambda: self.engine.compact(-1),
                     lambda: reader.hits("[;]", first=-1), lambda: reader.hits("[;]", most=-1),
                     lambda: Engine("a:single:long", buffers=-1), lambda: Engine("a:single:long", readers=1 << 32)):
            self.assertRaises(ValueError, call)
        self.assertRaises(UnicodeEncodeError, reader.hits, "\ud800")
        for sizes in (dict(buffers=8191, words=65536), dict(readers=65), dict(buffers=0), dict(words=1)):
            with self.assertRaises(Refused) as refused:
                Engine("a:single:long", **sizes)
            self.assertEqual(refused.exception.code, Code.BOUNDS)
        for text in ("", "a", "a:single", "a:single:long,", "é:single:long", "a:single:long," * 9):
            self.assertRaises(Refused, Engine, text)
        self.assertRaises(Refused, self.engine.feed, b"\xff\n")
        self.assertRaises(Refused, reader.hits, b"\xff")
        self.refused("open already", self.engine.__init__, "a:single:long")
        self.assertRaises(AttributeError, Engine.__new__(Engine).commit)
        self.assertRaises(AttributeError, Reader.__new__(Reader).hits)

    def test_dropped(self):
        before = resource.getrusage(resource.RUSAGE_SELF).ru_maxrss
        for _ in range(24):
            engine = Engine("a:single:long", buffers=1023, words=8192, readers=1)
            engine.feed(put(1, a=1))
            engine.commit()
            reader = engine.reader()
            del engine
            self.assertEqual(reader.count("[;]"), 1)
            del reader
        gc.collect()
        self.assertLess(resource.getrusage(resource.RUSAGE_SELF).ru_maxrss - before, 512 * 1024, "the memory of dropped engines comes back")
        readers = [self.engine.reader() for _ in range(3)]
        self.assertRaises(Refused, self.engine.reader)
        del readers

    def test_fork(self):
        reader = self.engine.reader()
        child = os.fork()
        if child == 0:
            try:
                came = 0
                for call in (self.engine.commit, reader.hold, self.engine.reader):
                    try:
                        call()
                        came = 1
                    except Misuse as fault:
                        came |= 0 if "forked" in str(fault) else 2
                reader.close()
                self.engine.close()
                with Engine("a:single:long", readers=1) as own:
                    own.commit()
            finally:
                os._exit(came)
        self.assertEqual(os.waitpid(child, 0)[1], 0)
        self.assertEqual(list(reader.hits("[;]")), [1])

    def test_random_calls_of_six_threads(self):
        """Threads that share all handles and close them under each other: an exception each time, and never a crash."""
        end, readers, guards, done = time.monotonic() + 2, [], [], []
        engines = [Engine("year:single:long", buffers=32, readers=6) for _ in range(2)]

        def run(seed):
            pick, lines = random.Random(seed), "".join(put(document, year=document % 50) for document in range(1, 200))
            while time.monotonic() < end:
                engine, reader = pick.choice(engines), pick.choice(readers or [None])
                calls = [lambda: readers.append(engine.reader()), lambda: engine.feed(lines), engine.commit, engine.compact, engine.counts,
                         engine.unbind, lambda: guards.pop(), lambda: guards.pop().release(),
                         lambda: readers.pop(pick.randrange(len(readers))), gc.collect]
                if reader:
                    asks = lambda: (sum(reader.hits(f"[{pick.randrange(50)};]")), reader.unbind())
                    calls += [lambda: engine.take_back(reader), reader.close, lambda: guards.append(reader.hold()), reader.unbind,
                              reader.save, lambda: reader.items(pick.randrange(300)), lambda: reader.sort(0, most=9),
                              lambda: reader.groups(0), lambda: reader.terms("[;]", 9), lambda: reader.longs(0, range(99)), *[asks] * 8]
                try:
                    pick.choice(calls)()
                    done.append(1)
                except (Misuse, Refused, IndexError, ValueError):
                    pass

        threads = [threading.Thread(target=run, args=(seed,)) for seed in range(6)]
        for it in threads:
            it.start()
        for it in threads:
            it.join()
        self.assertGreater(len(done), 50)
        for engine in engines:
            engine.close()

    def test_exit_with_a_thread_in_a_call(self):
        text = ("import sys, threading; sys.path.insert(0, %r); import vattr; e = vattr.Engine('a:single:long', readers=1); r = e.reader()\n"
                "e.feed(''.join('{\"put\":\"id:a:b::%%d\",\"fields\":{\"a\":%%d}}\\n' %% (i, i) for i in range(1, 5000))); e.commit()\n"
                "def run():\n    while True: r.hits('[;]')\n"
                "threading.Thread(target=run, daemon=True).start()\nimport time; time.sleep(0.3)\n" % sys.path[0])
        self.assertEqual(subprocess.run([sys.executable, "-c", text], check=False).returncode, 0)


if __name__ == "__main__":
    unittest.main()
