#!/usr/bin/env python3
"""test_jentry: the client for threads, on the fake server and on the built program, which JENTRY_PROGRAM names if there is one."""
import io
import os
import signal
import struct
import subprocess
import sys
import tempfile
import threading
import unittest

HERE = os.path.dirname(os.path.abspath(__file__))
sys.path[:0] = [HERE, os.path.join(HERE, "../tests")]
import jentry
from class_files import EXAMPLES, WITHDRAW_TEXTS, heavy, plus, ratio, with_strings, withdraw
from jentry import requests
from jentry.constant_pool import Strings
from jentry.requests import read_answer
from python_cases import HAS_PROCESSORS, Endings, Threaded, wrong_calls
from running import PATIENCE, PROGRAM, SERVER, STAND_IN

LEAST, MOST = -(2**63), 2**63 - 1
GET, CONTAINS = requests.get(7), requests.contains(7)
INVOKE, INVOKE_ALL = requests.invoke(7, jentry.Class(0, 0, 0), ()), requests.invoke_all([7], jentry.Class(0, 0, 0), ())
INTERRUPTED = """
import signal, sys, threading
sys.path.insert(0, sys.argv[1])
import jentry
signal.signal(signal.SIGINT, signal.default_int_handler)  # a shell's background command has it ignored
with jentry.Cache.start(*sys.argv[2:]) as cache:
    def tell():
        while cache._exchanges._waiting or not cache._exchanges._is_led:
            threading.Event().wait(0.01)
        print("begins", flush=True)
    threading.Thread(target=tell).start()
    try:
        cache.get(1)
    except KeyboardInterrupt:
        try:
            cache.get(1)
        except jentry.StreamEnded:
            print("ended", flush=True)
"""


class Interrupted:
    """A reader with the replies to a get and to its round's end. It blocks until `goes_on` is set, and raises KeyboardInterrupt when read past the
    end."""

    def __init__(self):
        self.goes_on, self._replies = threading.Event(), io.BytesIO(b"\0\0\0\2\4\0" + b"\0\0\0\1\x09")

    def read(self, count):
        self.goes_on.wait(PATIENCE)
        text = self._replies.read(count)
        if not text:
            raise KeyboardInterrupt
        return text


def example(name):
    with open(os.path.join(EXAMPLES, name + ".class"), "rb") as file:
        return file.read()


class Plain(unittest.TestCase):
    def setUp(self):
        self.cache = jentry.Cache.start(*SERVER)
        self.addCleanup(self.cache.close)

    def test_the_plain_requests(self):
        cache = self.cache
        self.assertIsNone(cache.get(7))
        self.assertIsNone(cache.put(7, 41))
        self.assertEqual(cache.get(7), 41)
        self.assertIs(cache.contains(7), True)
        self.assertIs(cache.remove(7), True)
        self.assertIs(cache.remove(7), False)
        self.assertIs(cache.contains(7), False)

    def test_the_ends_of_long(self):
        for number in (LEAST, -1, 0, MOST):
            self.cache.put(number, number)
            self.assertEqual(self.cache.get(number), number)

    def test_what_can_not_be_sent_is_not_sent(self):
        processor = self.cache.define(plus())
        for wrong in wrong_calls(self.cache, processor):
            with self.subTest(wrong=wrong), self.assertRaises(jentry.WrongArgument) as told:
                wrong()
            self.assertIsInstance(told.exception, ValueError)
        for number in (2**63, -(2**63) - 1):
            with self.assertRaisesRegex(jentry.Error, f"one of 1, {number} is no Long"):
                self.cache.put(1, number)
        self.assertIsNone(self.cache.get(1))

    def test_a_program_that_is_not_there(self):
        with self.assertRaisesRegex(jentry.NotConnected, "/none/jentry can't be started: No such file") as told:
            jentry.Cache.start("/none/jentry", "serve")
        self.assertIsInstance(told.exception, OSError)

    def test_processors(self):
        processor = self.cache.define(plus())
        self.assertEqual((processor.number, processor.steps, processor.words), (0, 14, 0))
        self.cache.put(7, 41)
        self.assertEqual(self.cache.invoke(7, processor), 42)
        with self.assertRaises(jentry.ProcessorThrew) as told:
            self.cache.invoke(8, processor)
        self.assertEqual((told.exception.number, told.exception.name), (3, "NullPointerException"))
        told = self.cache.invoke_all([7, 8, 7], processor)
        self.assertEqual(list(told), [7, 8])
        self.assertEqual(told[7], 43)
        self.assertIsInstance(told[8], jentry.ProcessorThrew)

    def test_a_class_that_the_stream_does_not_have(self):
        with self.assertRaises(jentry.Denied) as told:
            self.cache.invoke(7, jentry.Class(5, 0, 0))
        self.assertEqual((told.exception.number, told.exception.name), (1, "UnknownClass"))

    def test_a_round(self):
        with self.cache.round() as r:
            puts = [r.put(key, 2 * key) for key in range(4_096)]
            with self.assertRaises(ValueError):
                r.get(1)
            with self.assertRaises(jentry.Error):
                puts[0].result()
        self.assertEqual({it.result() for it in puts}, {None})
        with self.cache.round() as r:
            gets = [r.get(key) for key in range(4_096)]
        self.assertEqual([it.result() for it in gets], [2 * key for key in range(4_096)])

    def test_a_round_that_is_left_by_an_error_is_not_sent(self):
        with self.assertRaises(KeyError), self.cache.round() as r:
            r.put(1, 1)
            raise KeyError
        self.assertIsNone(self.cache.get(1))

    def test_closed(self):
        self.cache.close()
        self.cache.close()
        with self.assertRaises(jentry.StreamEnded):
            self.cache.get(1)


class Threads(Threaded, Endings):
    def test_64_threads_on_one_key(self):
        told = [[] for _ in range(64)]
        with jentry.Cache.start(*SERVER) as cache:
            processor = cache.define(plus())
            cache.put(1, 0)

            def work(me):
                for _ in range(50):
                    told[me].append(cache.invoke(1, processor))

            self.run_threads(64, work)
            self.assertEqual(cache.get(1), 3_200)
        self.assertEqual(sorted(sum(told, [])), list(range(1, 3_201)))
        for mine in told:
            self.assertEqual(mine, sorted(mine))

    def test_each_thread_sees_its_own_puts(self):
        with jentry.Cache.start(*SERVER) as cache:

            def work(me):
                for n in range(30):
                    cache.put(me, n)
                    with cache.round() as r:
                        answers = [r.get(me), r.get(-1 - me)]
                    if [it.result() for it in answers] != [n, None]:
                        raise AssertionError("another's reply")

            self.run_threads(32, work)

    def test_rounds_of_many_beside_single_calls(self):
        with jentry.Cache.start(*SERVER) as cache:
            processor = cache.define(plus())
            cache.put(-1, 0)

            def work(me):
                for n in range(5):
                    if me % 2:
                        for _ in range(50):
                            cache.invoke(-1, processor)
                        continue
                    keys = range(1_000 * me, 1_000 * me + 700)
                    with cache.round() as r:
                        puts = [r.put(key, key + n) for key in keys]
                    with cache.round() as r:
                        gets = [r.get(key) for key in keys]
                    if [it.result() for it in puts + gets] != 700 * [None] + [key + n for key in keys]:
                        raise AssertionError("another's reply")

            self.run_threads(16, work)
            self.assertEqual(cache.get(-1), 8 * 5 * 50)

    @unittest.skipUnless(PROGRAM, "the program isn't built")
    def test_the_server_is_killed_in_mid_round(self):
        with tempfile.TemporaryDirectory() as folder:
            number = os.path.join(folder, "number")
            with jentry.Cache.start("sh", "-c", f"echo $$ >{number}; exec {PROGRAM} serve") as cache:
                processor, told = cache.define(heavy()), []
                rounds = [lambda: cache.invoke_all(range(4_096), processor)] + 8 * [lambda: cache.put(1, 1)]

                def work(n):
                    try:
                        told.append(rounds[n]())
                    except jentry.StreamEnded:
                        told.append("ended")

                def kill():
                    while not cache._exchanges._is_led or len(cache._exchanges._waiting) < 8:
                        threading.Event().wait(0.001)
                    self.assertEqual(told, [])
                    with open(number) as file:
                        os.kill(int(file.read()), signal.SIGKILL)

                leader = threading.Thread(target=work, args=(0,))
                leader.start()
                while not cache._exchanges._is_led or cache._exchanges._waiting:
                    threading.Event().wait(0.001)
                self.run_threads(8, lambda n: work(n + 1), meanwhile=kill)
                leader.join(PATIENCE)
                self.assertEqual(told, 9 * ["ended"])
                with self.assertRaises(jentry.StreamEnded):
                    cache.get(1)

    def ends_for_all(self, option, *more):
        cache = jentry.Cache.start(*STAND_IN, option, "40", *more)
        ended = []

        def work(me):
            try:
                for n in range(1_000):
                    cache.put(me, n)
            except jentry.StreamEnded:
                ended.append(me)

        self.run_threads(16, work)
        self.assertEqual(sorted(ended), list(range(16)))
        with self.assertRaises(jentry.StreamEnded):
            cache.get(1)
        cache.close()

    def test_closed_while_a_call_is_out(self):
        cache = jentry.Cache.start(*STAND_IN, "--slow", "1")
        told = []

        def work(_):
            try:
                told.append(cache.get(1))
            except jentry.StreamEnded:
                told.append("ended")

        thread = threading.Thread(target=work, args=(0,))
        thread.start()
        while not cache._exchanges._is_led:
            threading.Event().wait(0.01)
        cache.close()
        thread.join(PATIENCE)
        self.assertIn(told, (["ended"], [None]))

    def test_an_interrupted_leader_wakes_its_round(self):
        reader, told = Interrupted(), []
        cache = jentry.Cache(reader, io.BytesIO(), lambda: None)

        def work():
            try:
                told.append(str(cache.get(1)))
            except (jentry.StreamEnded, KeyboardInterrupt) as e:
                told.append(type(e).__name__)

        threads = [threading.Thread(target=work) for _ in range(3)]
        threads[0].start()
        while not cache._exchanges._is_led:
            threading.Event().wait(0.01)
        for thread in threads[1:]:
            thread.start()
        while len(cache._exchanges._waiting) < 2:
            threading.Event().wait(0.01)
        reader.goes_on.set()
        for thread in threads:
            thread.join(PATIENCE)
        self.assertEqual(sorted(told), ["KeyboardInterrupt", "None", "OutcomeUnknown"])

    def test_a_leader_that_is_interrupted_breaks_the_stream(self):
        words = [sys.executable, "-c", INTERRUPTED, HERE, *STAND_IN, "--slow", "30"]
        child = subprocess.Popen(words, stdout=subprocess.PIPE, text=True)
        self.assertEqual(child.stdout.readline(), "begins\n")
        threading.Event().wait(1)
        child.send_signal(signal.SIGINT)
        self.assertEqual(child.communicate(timeout=PATIENCE)[0], "ended\n")


class Answers(unittest.TestCase):
    def test_what_is_no_reply(self):
        values = (b"\x04", b"\x04\1", b"\x04\2\0\0\0\1", b"\x04\3", b"\x04\4", b"\x04\0\0")
        for text in (b"", b"\0", *values, b"\3", b"\5\1", b"\x09", b"\x0a"):
            with self.subTest(text=text), self.assertRaises(jentry.StreamEnded):
                read_answer(GET, text)
        self.assertIsNone(read_answer(GET, b"\4\0"))
        self.assertIsInstance(read_answer(GET, b"\x08\3"), jentry.Denied)

    def test_each_kind_of_argument(self):
        request = requests.invoke(7, jentry.Class(5, 0, 0), (9, jentry.Int(-1), None, True, False))
        arguments = b"\5" + b"\1" + bytes(7) + b"\x09" + b"\2\xff\xff\xff\xff" + b"\0" + b"\4" + b"\3"
        text = b"\6\0\0\0\5" + bytes(7) + b"\7" + arguments
        self.assertEqual(request.frame(), bytes([0, 0, 0, len(text)]) + text)

    def test_each_kind_of_result(self):
        for text, wanted in ((b"\0", None), (b"\1" + bytes(7) + b"\x09", 9), (b"\3", False), (b"\4", True)):
            with self.subTest(text=text):
                told = read_answer(INVOKE, b"\6\0" + text)
                self.assertIs(type(told), type(wanted))
                self.assertEqual(told, wanted)
        keys = [bytes(7) + bytes([key]) for key in range(3)]
        results = b"\7\0\3" + keys[0] + b"\0\4" + keys[1] + b"\0\3" + keys[2] + b"\0\2\0\0\0\5"
        self.assertEqual(read_answer(INVOKE_ALL, results), {0: True, 1: False, 2: 5})
        for text in (b"\3\0", b"\5", b"\7"):
            with self.subTest(text=text), self.assertRaises(jentry.StreamEnded):
                read_answer(INVOKE, b"\6\0" + text)

    def test_an_exception_that_the_processor_throws(self):
        request = requests.invoke(7, jentry.Class(0, 0, 0, withdraw()), ())
        for index in (0, 1, 15, 16, 32, 999, 65_535):
            for number, name in ((1, "ArithmeticException"), (9, "IllegalStateException"), (77, "unknown")):
                told = read_answer(request, b"\6\3" + struct.pack(">BH", number, index))
                self.assertIsInstance(told, jentry.ProcessorThrew)
                self.assertEqual((told.number, told.name, told.text), (number, name, WITHDRAW_TEXTS.get(index)))
        self.assertEqual(str(read_answer(request, b"\6\3\x09\0\x20")), "IllegalStateException: insufficient funds")
        self.assertEqual(str(read_answer(request, b"\6\3\x09\0\0")), "IllegalStateException")
        told = read_answer(INVOKE, b"\6\3\x09\0\x20")
        self.assertEqual((told.number, told.text, str(told)), (9, None, "IllegalStateException"))
        for text in (b"\3", b"\3\x09", b"\3\x09\0", b"\3\x09\0\0\0", b"\4\x09\0\0"):
            with self.subTest(text=text), self.assertRaises(jentry.StreamEnded):
                read_answer(request, b"\6" + text)

    def test_a_get_whose_loader_failed(self):
        told = read_answer(GET, b"\6\1\6")
        self.assertIsInstance(told, jentry.ProcessorThrew)
        self.assertEqual((told.number, told.name, told.text), (6, "CacheLoaderException", None))
        for text in (b"\6\0\0", b"\6\2\3", b"\6\1", b"\6\1\6\0", b"\6\3\6\0\0"):
            with self.subTest(text=text), self.assertRaises(jentry.StreamEnded):
                read_answer(GET, text)
        with self.assertRaises(jentry.StreamEnded):
            read_answer(CONTAINS, b"\6\1\6")

    def test_names(self):
        names = [jentry.ProcessorThrew(number).name for number in range(5, 12)]
        self.assertEqual(names[:3], ["IncompatibleClassChangeError", "CacheLoaderException", "EntryProcessorException"])
        self.assertEqual(names[3:5], ["IllegalArgumentException", "IllegalStateException"])
        self.assertEqual(names[5:], ["UnsupportedOperationException", "unknown"])
        self.assertEqual(str(jentry.Refused(17, 186)), "refused: 17 OutsideProfile opcode 186")
        self.assertEqual(str(jentry.Refused(22, 9)), "refused: 22 TypeMismatch at 9")
        self.assertEqual(str(jentry.Denied(77)), "denied: 77 unknown")

    def test_all_exceptions_have_one_base(self):
        exceptions = {
            name: it for name, it in vars(jentry).items() if isinstance(it, type) and issubclass(it, Exception)
        }
        self.assertEqual(len(exceptions), 10)
        for name, it in exceptions.items():
            self.assertTrue(issubclass(it, jentry.Error))
            self.assertEqual((it.__module__, it.__name__), ("jentry", name))


EACH_KIND = [
    b"\1\0\2ab",
    b"\3\0\0\0\1",
    b"\4\0\0\0\1",
    b"\5" + bytes(8),
    b"\6" + bytes(8),
    *(bytes([tag, 0, 1]) for tag in (7, 8, 16)),
    *(bytes([tag, 0, 1, 0, 1]) for tag in (9, 10, 11, 12, 18)),
    b"\x0f\6\0\1",
    b"\x08\0\1",
]
"""Constants of each kind. The Long and the Double take two indexes, so the last one, a String, has the index 17."""


class Texts(unittest.TestCase):
    """The texts in class files."""

    def test_characters(self):
        for text, wanted in (
            (b"", ""),
            (b"insufficient funds", "insufficient funds"),
            (b"a\xc0\x80b", "a\0b"),
            (b"\xc2\x80\xc3\xa9\xdf\xbf", "\x80\xe9\u07ff"),
            (b"\xe0\xa0\x80\xe2\x82\xac\xef\xbf\xbf", "\u0800\u20ac\uffff"),
            (b"\xed\xa0\xbd\xed\xb8\x80!", "\U0001f600!"),
            (b"\xed\xaf\xbf\xed\xbf\xbf", "\U0010ffff"),
            (b"\xed\xa0\xbd", "\ud83d"),
            (b"\xed\xb8\x80\xed\xa0\xbd", "\ude00\ud83d"),
            (b"a\xff\xe2\x82", "a\ufffd\ufffd"),
        ):
            with self.subTest(text=text):
                self.assertEqual(Strings(with_strings({2: text})).at(2), wanted)

    def test_constants_of_each_kind_are_stepped_over(self):
        file = b"\xca\xfe\xba\xbe\0\0\0\x34" + struct.pack(">H", 18) + b"".join(EACH_KIND)
        found = {index: Strings(file).at(index) for index in range(20)}
        self.assertEqual({index: text for index, text in found.items() if text is not None}, {9: "ab", 17: "ab"})

    def test_files_without_such_a_constant(self):
        whole = with_strings({2: b"ab"})
        for file in (*(whole[:end] for end in range(len(whole))), whole.replace(b"\x08\0\1", b"\x08\0\2")):
            self.assertIsNone(Strings(file).at(2))
        self.assertIsNone(Strings(whole[:10] + b"\2" + whole[11:]).at(2))


class Thrown(unittest.TestCase):
    """A server whose classes throw."""

    def setUp(self):
        self.cache = jentry.Cache.start(*STAND_IN, "--throw", "9:32")
        self.addCleanup(self.cache.close)

    def test_invoke(self):
        processor = self.cache.define(withdraw())
        with self.assertRaises(jentry.ProcessorThrew) as told:
            self.cache.invoke(7, processor, 1)
        self.assertEqual((told.exception.number, told.exception.name), (9, "IllegalStateException"))
        self.assertEqual(told.exception.text, "insufficient funds")

    def test_a_class_that_another_client_defined(self):
        number = self.cache.define(withdraw()).number
        with self.assertRaises(jentry.ProcessorThrew) as told:
            self.cache.invoke(7, jentry.Class(number, 0, 0), 1)
        self.assertEqual((told.exception.number, told.exception.text), (9, None))

    def test_each_class_has_its_own_texts(self):
        other = self.cache.define(with_strings({32: b"others"}))
        first = self.cache.define(withdraw())
        self.cache.put(8, 1)
        with self.cache.round() as r:
            answers = [r.invoke(7, other), r.invoke(7, first), r.invoke(8, first), r.invoke(7, other)]
        self.assertEqual(answers[2].result(), 2)
        told = []
        for answer in (answers[0], answers[1], answers[3]):
            with self.assertRaises(jentry.ProcessorThrew) as raised:
                answer.result()
            told.append(raised.exception.text)
        self.assertEqual(told, ["others", "insufficient funds", "others"])

    def test_invoke_all(self):
        processor = self.cache.define(withdraw())
        self.cache.put(8, 1)
        told = self.cache.invoke_all([7, 8, 9], processor)
        self.assertEqual(told[8], 2)
        self.assertEqual([(told[key].number, told[key].text) for key in (7, 9)], 2 * [(9, "insufficient funds")])


@unittest.skipUnless(PROGRAM, "the program isn't built")
class Machine(unittest.TestCase):
    def setUp(self):
        self.cache = jentry.Cache.start(*SERVER)
        self.addCleanup(self.cache.close)

    def test_arguments(self):
        add = self.cache.define(example("Add"))
        self.cache.put(7, 41)
        self.assertEqual(self.cache.invoke(7, add, 1), 42)
        with self.assertRaises(jentry.ProcessorThrew) as told:
            self.cache.invoke(7, add, jentry.Int(1))
        self.assertEqual(told.exception.name, "ClassCastException")
        self.assertEqual(self.cache.get(7), 42)

    def test_booleans(self):
        reserve = self.cache.define(example("Reserve"))
        self.cache.put(7, 41)
        self.assertIs(self.cache.invoke(7, reserve, 50), False)
        self.assertIs(self.cache.invoke(7, reserve, 40, True), True)
        self.assertEqual(self.cache.get(7), 41)
        self.assertIs(self.cache.invoke(7, reserve, 40, False), True)
        self.assertEqual(self.cache.get(7), 1)
        self.assertEqual(self.cache.invoke_all([7, 8], reserve, 1, True), {7: True})
        self.assertIsNone(self.cache.invoke(8, reserve, 1))
        for wrong, name in ((1, "ClassCastException"), (jentry.Int(1), "ClassCastException"), (None, "NullPointer")):
            with self.assertRaises(jentry.ProcessorThrew) as told:
                self.cache.invoke(7, reserve, 1, wrong)
            self.assertTrue(told.exception.name.startswith(name))

    def test_exceptions_that_a_class_throws(self):
        processor = self.cache.define(withdraw())
        self.cache.put(7, 41)
        told = []
        for amount in (0, 42):
            with self.assertRaises(jentry.ProcessorThrew) as raised:
                self.cache.invoke(7, processor, amount)
            told.append((raised.exception.number, raised.exception.text))
        self.assertEqual(told, [(8, WITHDRAW_TEXTS[15]), (9, WITHDRAW_TEXTS[32])])
        results = self.cache.invoke_all([6, 7], processor, 40)
        self.assertEqual((results[7], results[6].text), (1, WITHDRAW_TEXTS[32]))
        self.assertEqual(self.cache.get(7), 1)

    def test_a_refused_class(self):
        with self.assertRaises(jentry.Refused) as told:
            self.cache.define(b"none")
        self.assertEqual((told.exception.number, told.exception.name), (3, "BadMagic"))
        self.cache.put(1, 1)
        self.assertEqual(self.cache.invoke(1, self.cache.define(plus())), 2)

    def test_results_that_are_null_are_left_out(self):
        processor = self.cache.define(ratio())
        with self.cache.round() as r:
            r.put(1, -5), r.put(2, 0), r.put(3, 1)
        told = self.cache.invoke_all([3, 2, 1], processor)
        self.assertEqual(list(told), [2, 1])
        self.assertEqual(told[1], 0)
        self.assertEqual(told[2].name, "ArithmeticException")
        self.assertIsNone(self.cache.invoke(3, processor))


@unittest.skipUnless(PROGRAM and HAS_PROCESSORS, "the program or the class files of the processors aren't there")
class BuiltIn(Threaded):
    def setUp(self):
        self.cache = jentry.Cache.start(*SERVER)
        self.addCleanup(self.cache.close)

    def test_each(self):
        cache = self.cache
        self.assertIsNone(cache.get_and_put(1, 10))
        self.assertEqual(cache.get_and_put(1, 11), 10)
        self.assertIs(cache.put_if_absent(1, 5), False)
        self.assertIs(cache.put_if_absent(2, 5), True)
        self.assertIs(cache.remove_if(1, 10), False)
        self.assertIs(cache.remove_if(1, 11), True)
        self.assertIs(cache.replace(1, 1), False)
        self.assertIs(cache.replace(2, 6), True)
        self.assertIs(cache.replace_if(2, 5, 7), False)
        self.assertIs(cache.replace_if(2, 6, 7), True)
        self.assertIsNone(cache.get_and_replace(1, 1))
        self.assertEqual(cache.get_and_replace(2, 8), 7)
        self.assertIsNone(cache.get_and_remove(1))
        self.assertEqual(cache.get_and_remove(2), 8)
        self.assertEqual((cache.contains(1), cache.contains(2)), (False, False))

    def test_in_a_round(self):
        with self.cache.round() as r:
            answers = [r.put_if_absent(key, key) for key in range(10)]
        self.assertEqual([it.result() for it in answers], 10 * [True])
        self.assertEqual(self.cache.processor("PutIfAbsent").number, 0)

    def test_one_of_many_threads_puts(self):
        told = []
        self.run_threads(32, lambda n: told.append(self.cache.put_if_absent(1, n)))
        self.assertEqual(sorted(told), 31 * [False] + [True])
        self.assertEqual(self.cache.define(plus()).number, 1)


if __name__ == "__main__":
    unittest.main()
