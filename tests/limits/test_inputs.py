"""Inputs of many bytes, and of the most reads.

A read gives what the device has, at most 4,096 bytes. FORMATS: an input is too long if each of its first 1,048,576 reads
gave bytes. A pipe in packet mode (Linux's O_DIRECT) gives one packet a read, so here each read is counted. An input of
as many full reads would have 4 GiB, which is not tried."""

import os
import resource
import subprocess
import threading

from process import DIAL, DIALLED, ProgramTest, fault, start

MOST_READS = 1_048_576
TOO_LONG = fault("LONG") + b"crossbar5: standard input is too long\n"
# Empty lines are skipped, so these bytes are no rows.
PACKET = b"\n" * 4


def with_little_memory():
    resource.setrlimit(resource.RLIMIT_AS, (256 << 20, 256 << 20))


def feed(descriptor, packets, last):
    """Writes so many packets and one more, and ends the input."""
    try:
        for _ in range(packets):
            os.write(descriptor, PACKET)
        os.write(descriptor, last)
    except BrokenPipeError:
        pass
    finally:
        os.close(descriptor)


class Inputs(ProgramTest):
    def in_packets(self, packets, last, *words):
        """The status and both outputs of a run whose input comes in packets, the last one being `last`."""
        try:
            reading, writing = os.pipe2(os.O_DIRECT | os.O_CLOEXEC)
        except OSError as error:
            self.skipTest(f"the system has no pipes in packet mode: {error}")
        feeder = threading.Thread(target=feed, args=(writing, packets, last))
        with start(*words, stdin=reading, stdout=subprocess.PIPE, stderr=subprocess.PIPE) as running:
            os.close(reading)
            feeder.start()
            output, errors = running.communicate(timeout=600)
            feeder.join()
        return running.returncode, output, errors

    def test_most_reads(self):
        """1,048,575 reads give bytes, 4 MiB in all, and the next one the end."""
        self.assertEqual(self.in_packets(MOST_READS - 2, DIAL), (0, DIALLED, b""))

    def test_a_read_too_many(self):
        self.assertEqual(self.in_packets(MOST_READS - 1, DIAL), (4, b"", TOO_LONG))

    def test_a_read_too_many_for_records(self):
        self.assertEqual(self.in_packets(MOST_READS - 1, DIAL, "draw"), (4, b"", TOO_LONG))

    def test_input_without_end(self):
        """/dev/zero has no end: it is too long, or there is no memory for it. Here memory ends first."""
        with open("/dev/zero", "rb") as zeros:
            self.expect(["replay"], 5, errors=fault("MEMORY"), stdin=zeros, preexec_fn=with_little_memory)

    def test_many_bytes(self):
        """24 MB: empty lines before the rows, and rows of an idle marker after them."""
        before, after = b"\n" * 12_000_000, b"S,1,1,,\n" * 1_500_000
        self.expect(["replay"], 0, DIALLED, data=before + DIAL + after)

    def test_a_fault_behind_many_bytes(self):
        """Line ends are counted as lines, and rows from the first one that isn't empty."""
        sentence = b"crossbar5: traffic line 3000001 (row 1): expected 5 fields, found 1 (T1)\n"
        self.expect(["replay"], 4, fault("T1,1"), sentence, data=b"\n" * 3_000_000 + b"Q\n")

    def test_a_long_field(self):
        """One field of 3 MB is quoted by its first 40 characters."""
        sentence = b'crossbar5: traffic line 1 (row 1), field 1 "' + b"Q" * 40 + b'"..: expected J or S (T2)\n'
        self.expect(["replay"], 4, fault("T2,1"), sentence, data=b"Q" * 3_000_000 + b",0,1,D,3041\n")

    def test_records_of_many_bytes(self):
        """3 MB of bytes without a line end are no record."""
        ended = self.run_here("audit", data=b"0" * 3_000_000)
        self.assertEqual((ended.status, ended.output), (4, fault("U1,1")))
