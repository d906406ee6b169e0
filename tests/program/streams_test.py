"""Streams through `jentry serve`, byte by byte: classes, jobs of each kind, denials, and streams that break off."""
import os
import struct
import subprocess
import tempfile
import time

import row_classes as rows
from running import LIMIT, Row, Runs, Told, proved_only, side_by_side, told

WORKERS = ["0", "1", "4", "16"]
TRIES = 10
"""How often threads are looked for that a busy machine may hide."""
ROUND_END = bytes([0, 0, 0, 1, 8])
ENDED = bytes([0, 0, 0, 1, 9])
ACCEPTED_PLUS = bytes([0, 0, 0, 13, 1, 0, 0, 0, 0, 0, 0, 0, 14, 0, 0, 0, 0])
PUT_1_ON_5 = bytes([0, 0, 0, 0x11, 2, 0, 0, 0, 0, 0, 0, 0, 5, 0, 0, 0, 0, 0, 0, 0, 1])
GET_5 = bytes([0, 0, 0, 9, 3, 0, 0, 0, 0, 0, 0, 0, 5])


def define(file):
    """Returns the frame that defines a class."""
    return struct.pack(">IB", 1 + len(file), 1) + file


def serve(given, output, workers=WORKERS, fault=None):
    """Returns a row for each number of workers, with this input and its result."""
    status, errors = (3, f"serve fault {fault}\n") if fault else (0, "")
    return [Row(["serve", "--workers", count], status, output, errors, given=given) for count in workers]


def returned(number):
    return bytes([0, 0, 0, 0x0B, 6, 0, 1, 0, 0, 0, 0, 0, 0, 0, number])


def beside_a_put(key):
    """Returns a round with a put of 1 on a key and two invocations of class 0 with the argument 1, and a round that gets the entry after them."""
    put = bytes([0, 0, 0, 0x11, 2]) + struct.pack(">qq", key, 1)
    invoke = bytes([0, 0, 0, 0x17, 6, 0, 0, 0, 0]) + struct.pack(">qBBq", key, 1, 1, 1)
    get = bytes([0, 0, 0, 9, 3]) + struct.pack(">q", key)
    return put + invoke + invoke + ROUND_END + get + ROUND_END


REPLIES_BESIDE = 5 + 15 + 15 + 5 + 14 + 5
"""The number of bytes in the replies to them."""
IN_SOME_ORDER = [(2, 3, 3), (3, 2, 3), (1, 2, 2), (2, 1, 2), (1, 2, 1), (2, 1, 1)]
"""The results of the two invocations and the entry after them, for each order of the three calls."""


class Requests(Runs):
    variable = "JENTRY_PROGRAM"

    def served(self, given, count):
        """Serves a stream that has to end well, and returns the output."""
        it = told(self.program, ["serve", "--workers", count], given=given)
        self.assertEqual((it.status, it.errors), (0, b""))
        return it.output

    def test_a_class_is_defined_by_its_bounds(self):
        plus = rows.plus()
        self.assertEqual(len(plus), 727)
        given = define(plus) + ROUND_END
        self.assertTrue(given.startswith(bytes([0, 0, 2, 0xD8, 1])))
        self.hold(serve(given, ACCEPTED_PLUS + ENDED))

    def test_refused_classes_have_no_number(self):
        first = define(rows.named("Circle")) + define(rows.named("Mixed")) + define(rows.plus()) + ROUND_END
        self.hold(
            serve(
                first + define(rows.named("Counter")) + ROUND_END,
                bytes.fromhex(
                    "00 00 00 06 02 19 00 00 00 00  00 00 00 06 02 16 00 00 00 01  "
                    "00 00 00 0d 01 00 00 00 00 00 00 00 0e 00 00 00 00  00 00 00 01 09  "
                    "00 00 00 0d 01 00 00 00 01 00 00 00 18 00 00 00 00  00 00 00 01 09"
                ),
                ["4"],
            )
        )

    def test_a_class_that_was_not_accepted_before_is_denied(self):
        """A round invokes Plus before and after it defines it."""
        invoke = bytes([0, 0, 0, 14, 6, 0, 0, 0, 5, 0, 0, 0, 0, 0, 0, 0, 5, 0])
        invoke_all = bytes([0, 0, 0, 8, 7, 0, 0, 0, 0, 0, 0, 0])
        self.hold(
            serve(
                invoke + invoke_all + define(rows.plus()) + invoke_all + ROUND_END,
                bytes.fromhex(
                    "00 00 00 02 08 01  00 00 00 02 08 01  "
                    "00 00 00 0d 01 00 00 00 00 00 00 00 0e 00 00 00 00  00 00 00 03 07 00 00  "
                    "00 00 00 01 09"
                ),
                ["4"],
            )
        )

    def test_more_keys_than_jobs_are_denied(self):
        """4,097 different keys, and no arguments, in 32,784 bytes."""
        head = bytes([0, 0, 0x80, 0x10, 7, 0, 0, 0, 0, 0x10, 0x01])
        keys = b"".join(struct.pack(">Q", key) for key in range(4097))
        given = define(rows.plus()) + head + keys + b"\0" + ROUND_END
        self.hold(serve(given, ACCEPTED_PLUS + bytes([0, 0, 0, 2, 8, 5]) + ENDED, ["4"]))

    def test_more_classes_than_a_stream_may_have_are_denied(self):
        """A class 4,096 times, a class of no bytes, and the first class again."""
        unbox = define(rows.named("Unbox"))
        output = self.served(4096 * unbox + define(b"") + unbox + ROUND_END, "4")
        self.assertEqual(len(output), 4096 * 17 + 17)
        self.assertEqual(output[4095 * 17 : 4096 * 17 - 4], bytes([0, 0, 0, 13, 1, 0, 0, 0x0F, 0xFF, 0, 0, 0, 6]))
        self.assertEqual(output[4096 * 17 :], bytes([0, 0, 0, 2, 8, 4, 0, 0, 0, 2, 8, 4, 0, 0, 0, 1, 9]))

    def test_an_empty_stream_is_served(self):
        self.hold(serve(b"", b"", ["4"]) + serve(ROUND_END, ENDED, ["4"]))

    def test_frames_that_are_none_end_the_stream(self):
        malformed = "3 Malformed"
        self.hold(
            [
                *serve(bytes([0, 0, 0, 0]), b"", ["4"], malformed),
                *serve(bytes([0, 0, 0, 1, 10, 0, 0, 0, 1, 8]), b"", ["4"], malformed),
                *serve(bytes([0, 2, 0, 1, 8]), b"", ["4"], "1 TooLong"),
            ]
        )

    def test_a_round_that_is_cut_is_not_answered(self):
        """Two rounds of one invocation each are cut after each byte. The rounds that are whole are answered."""
        one = bytes([0, 0, 0, 14, 6, 0, 0, 0, 5, 0, 0, 0, 0, 0, 0, 0, 5, 0, 0, 0, 0, 1, 8])
        reply = bytes([0, 0, 0, 2, 8, 1, 0, 0, 0, 1, 9])
        for end in range(47):
            fault = "2 Truncated" if end % 23 else None
            self.hold(serve((one + one)[:end], end // 23 * reply, ["4"], fault))

    def test_counts_that_can_not_be_are_told_before_a_read(self):
        for workers, stripes, status, output, errors in [
            (17, 16, 3, b"", b"serve fault 7 BadCount\n"),
            (4, 0, 3, b"", b"serve fault 7 BadCount\n"),
            (4, 65, 3, b"", b"serve fault 7 BadCount\n"),
            (17, 0, 3, b"", b"serve fault 7 BadCount\n"),
            (0, 1, 0, ENDED, b""),
            (16, 64, 0, ENDED, b""),
        ]:
            with self.subTest(workers=workers, stripes=stripes), tempfile.TemporaryFile() as given:
                given.write(ROUND_END)
                given.seek(0)
                words = [self.program, "serve", "--workers", str(workers), "--stripes", str(stripes)]
                ran = subprocess.run(words, stdin=given, capture_output=True, timeout=LIMIT)
                self.assertEqual(Told(ran.returncode, ran.stdout, ran.stderr), Told(status, output, errors))
                # The offset in the file is shared: nothing is read if the counts are out of range.
                self.assertEqual(os.lseek(given.fileno(), 0, os.SEEK_CUR), 0 if status else len(ROUND_END))

    def test_a_reader_and_a_writer_that_fail_are_told(self):
        """A folder can't be read, and a full device can't be written."""
        folder = os.open("/", os.O_RDONLY)
        self.addCleanup(os.close, folder)
        ran = subprocess.run([self.program, "serve"], stdin=folder, capture_output=True, timeout=LIMIT)
        self.assertEqual(Told(ran.returncode, ran.stdout, ran.stderr), Told(3, b"", b"serve fault 4 Read\n"))
        with open("/dev/full", "wb") as full:
            self.assertEqual(
                told(self.program, ["serve"], given=ROUND_END, stdout=full), Told(3, None, b"serve fault 6 Write\n")
            )

    def test_a_put_is_read_in_the_next_round(self):
        self.hold(
            serve(
                PUT_1_ON_5 + ROUND_END + GET_5 + ROUND_END,
                bytes.fromhex(
                    "00 00 00 01 03  00 00 00 01 09  00 00 00 0a 04 01 00 00 00 00 00 00 00 01  " "00 00 00 01 09"
                ),
            )
        )

    def test_a_class_is_invoked_on_the_entry_of_the_round_before(self):
        self.hold(
            serve(
                define(rows.plus())
                + bytes.fromhex(
                    "00 00 00 11 02 00 00 00 00 00 00 00 07 00 00 00 00 00 00 00 29  00 00 00 01 08  "
                    "00 00 00 0e 06 00 00 00 00 00 00 00 00 00 00 00 07 00  00 00 00 01 08"
                ),
                ACCEPTED_PLUS
                + bytes.fromhex(
                    "00 00 00 01 03  00 00 00 01 09  00 00 00 0b 06 00 01 00 00 00 00 00 00 00 2a  " "00 00 00 01 09"
                ),
            )
        )

    def test_a_removed_key_is_not_there(self):
        self.hold(
            serve(
                PUT_1_ON_5
                + ROUND_END
                + bytes.fromhex(
                    "00 00 00 09 04 00 00 00 00 00 00 00 05  00 00 00 01 08  "
                    "00 00 00 09 05 00 00 00 00 00 00 00 05  00 00 00 01 08"
                ),
                bytes.fromhex(
                    "00 00 00 01 03 00 00 00 01 09  00 00 00 02 05 01 00 00 00 01 09  "
                    "00 00 00 02 05 00 00 00 00 01 09"
                ),
            )
        )

    def test_results_have_no_nulls_and_no_doubles(self):
        """Three puts, and Ratio on keys 1, 2, 2 and 3."""
        given = define(rows.named("Ratio")) + bytes.fromhex(
            "00 00 00 11 02 00 00 00 00 00 00 00 01 00 00 00 00 00 00 00 02  "
            "00 00 00 11 02 00 00 00 00 00 00 00 02 00 00 00 00 00 00 00 00  "
            "00 00 00 11 02 00 00 00 00 00 00 00 03 00 00 00 00 00 00 00 01  00 00 00 01 08  "
            "00 00 00 28 07 00 00 00 00 00 04  00 00 00 00 00 00 00 01  00 00 00 00 00 00 00 02  "
            "00 00 00 00 00 00 00 02  00 00 00 00 00 00 00 03  00  00 00 00 01 08"
        )
        for count in WORKERS:
            output = self.served(given, count)
            # The replies to the class and to three puts, and the end of a round, come first.
            self.assertEqual(len(output), 77)
            self.assertEqual(
                output[17 + 3 * 5 + 5 :],
                bytes.fromhex(
                    "00 00 00 1f 07 00 02  00 00 00 00 00 00 00 01 00 01 00 00 00 00 00 00 00 00  "
                    "00 00 00 00 00 00 00 02 01 01  00 00 00 01 09"
                ),
            )

    def test_a_round_that_is_cut_is_not_run(self):
        given = (
            PUT_1_ON_5
            + ROUND_END
            + bytes.fromhex(
                "00 00 00 11 02 00 00 00 00 00 00 00 05 00 00 00 00 00 00 00 02  " "00 00 00 09 03 00 00 00 00 00 00"
            )
        )
        self.hold(serve(given, bytes([0, 0, 0, 1, 3, 0, 0, 0, 1, 9]), fault="2 Truncated"))

    def test_more_jobs_than_a_round_may_have_are_denied(self):
        """Of a round of 4,097 jobs only the last one is denied."""
        jobs = b"".join(bytes([0, 0, 0, 9, 5, 0, 0, 0, 0, 0, 0]) + struct.pack(">H", key) for key in range(4097))
        for count in ("0", "4"):
            output = self.served(jobs + ROUND_END, count)
            self.assertEqual(len(output), 4097 * 6 + 5)
            self.assertEqual(output[4095 * 6 :], bytes([0, 0, 0, 2, 5, 0, 0, 0, 0, 2, 8, 5, 0, 0, 0, 1, 9]))

    def are_in_some_order(self, replies):
        """Checks that the replies are those of the put and the two invocations in some order."""
        one, other, after = replies[19], replies[34], replies[53]
        between = bytes([0, 0, 0, 1, 9, 0, 0, 0, 0x0A, 4, 1, 0, 0, 0, 0, 0, 0, 0])
        wanted = bytes([0, 0, 0, 1, 3]) + returned(one) + returned(other) + between + bytes([after]) + ENDED
        self.assertEqual(replies, wanted)
        self.assertIn((one, other, after), IN_SOME_ORDER)

    def test_jobs_on_one_key_come_one_after_the_other(self):
        """The bound of the class is so high that the round is worth several workers."""
        given = define(rows.costly_counter()) + ROUND_END + beside_a_put(5)
        for output in side_by_side(lambda count: self.served(given, count), WORKERS):
            # The reply to the class and the end of its round come first.
            self.assertEqual(len(output), 17 + 5 + REPLIES_BESIDE)
            self.are_in_some_order(output[22:])

    def test_a_thousand_rounds_are_each_in_some_order(self):
        """Each pair of rounds has its own key, and each first round is worth several workers."""
        keys = [256 * high + low for high in range(4) for low in range(250)]
        given = define(rows.costly_counter()) + ROUND_END + b"".join(beside_a_put(key) for key in keys)
        output = self.served(given, "4")
        self.assertEqual(len(output), 22 + 1000 * REPLIES_BESIDE)
        for at in range(22, len(output), REPLIES_BESIDE):
            self.are_in_some_order(output[at : at + REPLIES_BESIDE])

    def most_threads(self, given, count, wanted):
        """Returns the highest number of threads that was seen while the program served this input with `count` workers. Where this process waited for
        a processor while the threads ran, it saw fewer than it wants, and looks again."""
        most = 0
        for _ in range(TRIES):
            most = max(most, self.seen_threads(given, count))
            if most >= wanted:
                break
        return most

    def seen_threads(self, given, count):
        with subprocess.Popen(
            [self.program, "serve", "--workers", count], stdin=subprocess.PIPE, stdout=subprocess.DEVNULL
        ) as it:
            it.stdin.write(given)
            it.stdin.close()
            most, end = 0, time.monotonic() + LIMIT
            while it.poll() is None and time.monotonic() < end:
                most = max(most, threads_of(it.pid))
                time.sleep(0.001)
        self.assertEqual(it.returncode, 0)
        return most

    @proved_only
    def test_a_round_has_the_workers_that_it_is_worth(self):
        """There is a round of 512 invocations that take 131,072 instructions each, and a round of one such invocation. The first thread waits for
        several workers, and is itself a single one."""
        long = define(rows.line_of(16, 2)) + ROUND_END
        jobs = b"".join(bytes([0, 0, 0, 14, 6, 0, 0, 0, 0]) + struct.pack(">qB", key, 0) for key in range(512))
        for count in WORKERS[1:]:
            with self.subTest(workers=count):
                threads = int(count) + 1 if int(count) > 1 else 1
                self.assertEqual(self.most_threads(long + jobs + ROUND_END, count, threads), threads)
                self.assertEqual(self.most_threads(long + jobs[:18] + ROUND_END, count, 1), 1)


def threads_of(process):
    """Returns the number of threads of a process, 0 if it has ended."""
    try:
        return len(os.listdir(f"/proc/{process}/task"))
    except OSError:
        return 0
