"""Tests of the log of psu-relay: the text of payloads, the lines, and the thread that writes them."""
import io
import json
import os
import tempfile
import time
import unittest

from blocked_file import BlockedFile
from psu.frames import MessageType
from psu.relay_log import Entry, Event, LogWriter, RotatingFile, json_event, json_line, payload_text, text_event, text_line

MOMENT = 1_800_000_000.25


def entry(kind=MessageType.DATA_END, control=0, payload=b"", seconds=None, fault="", **other):
    fields = dict(time=MOMENT, session=3, is_async=False, is_from_client=True, kind=kind, control=control,
                  parameter=0xFFFFFF00, length=len(payload), payload=payload, seconds=seconds, fault=fault)
    fields.update(other)
    return Entry(**fields)


class PayloadTest(unittest.TestCase):
    def shown(self, payload, length=None):
        return payload_text(payload, len(payload) if length is None else length)

    def test_text_is_text(self):
        self.assertEqual(self.shown(b'SYST:ERR?;:MMEM:DEL "a"\r\n'), 'SYST:ERR?;:MMEM:DEL "a"\\r\\n')
        self.assertEqual(self.shown(b""), "")

    def test_other_bytes_are_numbers(self):
        self.assertEqual(self.shown(b"\x00\x7f\xff\t"), "\\x00\\x7f\\xff\\t")

    def test_blocks_are_cut_short(self):
        self.assertEqual(self.shown(b"#15hello\n"), "#15hello\\n")
        self.assertEqual(self.shown(b"#3100" + b"x" * 100 + b"\n"), "#3100" + "x" * 16 + "..(100 bytes)\\n")
        two = b"#217" + b"x" * 17 + b";#217" + b"y" * 17 + b"\n"
        self.assertEqual(self.shown(two), f"#217{'x' * 16}..(17 bytes);#217{'y' * 16}..(17 bytes)\\n")

    def test_long_texts_are_cut_short(self):
        self.assertEqual(self.shown(b"x" * 120), "x" * 120)
        self.assertEqual(self.shown(b"x" * 121), "x" * 120 + "..(121 bytes)")

    def test_what_was_not_read_is_counted(self):
        self.assertEqual(self.shown(b"", 70000), "..(70000 bytes)")


class LineTest(unittest.TestCase):
    def test_a_query_and_its_response(self):
        query = text_line(entry(control=1, payload=b"MEAS:VOLT?\n"))
        response = text_line(entry(payload=b"5.250\n", seconds=0.00126, is_from_client=False))
        begin = ".250000    3 --> DataEnd             ffffff00              RMT-delivered  "
        self.assertEqual(query[8:], begin + "MEAS:VOLT?\\n\n")
        self.assertEqual(response[8:], ".250000    3 <-- DataEnd             ffffff00     +1.3 ms  5.250\\n\n")

    def test_the_asynchronous_connection_has_other_arrows(self):
        line = text_line(entry(MessageType.ASYNC_SERVICE_REQUEST, 96, parameter=0, is_async=True, is_from_client=False))
        self.assertIn(" <.. AsyncServiceRequest", line)
        self.assertIn("status 96 ESB+RQS", line)

    def test_faults_and_errors_are_marked(self):
        self.assertIn(" !  3 -->", text_line(entry(fault="held back: rule 1")))
        self.assertIn("[held back: rule 1]\n", text_line(entry(fault="held back: rule 1")))
        self.assertIn(" !  3 -->", text_line(entry(MessageType.FATAL_ERROR, 4)))
        self.assertIn("the server serves its maximum number of clients", text_line(entry(MessageType.FATAL_ERROR, 4)))

    def test_sizes_are_numbers(self):
        size = (65536).to_bytes(8, "big")
        line = text_line(entry(MessageType.ASYNC_MAXIMUM_MESSAGE_SIZE, payload=size, parameter=0))
        self.assertTrue(line.endswith("  65536 bytes\n"), line)

    def test_events(self):
        self.assertTrue(text_event(Event(MOMENT, 3, "ended", "closed by the client")).endswith(
            "   3 --- ended: closed by the client\n"))
        self.assertIn(" !  3 --- unanswered", text_event(Event(MOMENT, 3, "unanswered", "ffffff00 VOLT?")))

    def test_json(self):
        item = json.loads(json_line(entry(control=1, payload=b"5.250\n", seconds=0.0012345, fault="held back: rule 1")))
        self.assertEqual(item, {
            "time": "2027-01-15T08:00:00.250000+00:00", "session": 3, "from": "client", "connection": "synchronous",
            "type": "DataEnd", "control": 1, "control_words": "RMT-delivered", "message_id": 0xFFFFFF00,
            "length": 6, "payload": "5.250\\n", "data": "NS4yNTAK", "response_ms": 1.234, "fault": "held back: rule 1"})
        self.assertEqual(json.loads(json_event(Event(MOMENT, 0, "listening", "x")))["event"], "listening")


class BrokenFile(io.StringIO):
    def write(self, text):
        raise OSError("no space")


class WriterTest(unittest.TestCase):
    def test_every_line_is_written_once_and_in_order(self):
        file = io.StringIO()
        writer = LogWriter(file, self.fail)
        lines = [f"{number}\n" for number in range(10_000)]
        for line in lines:
            self.assertTrue(writer.add(line))
        writer.end(10)
        self.assertEqual(file.getvalue(), "".join(lines))

    def test_a_file_that_takes_nothing_holds_up_nobody(self):
        file = BlockedFile()
        writer = LogWriter(file, self.fail, "{} are missing\n".format, limit=100)
        begun = time.monotonic()
        taken = [writer.add(f"{number}\n") for number in range(1000)]
        self.assertLess(time.monotonic() - begun, 1)
        self.assertTrue(all(taken[:100]))
        self.assertFalse(all(taken))
        file.go.set()
        writer.flush(10)
        self.assertTrue(writer.add("next\n"))
        self.assertTrue(writer.add("last\n"))
        writer.end(10)
        written = [f"{number}" for number, had_place in enumerate(taken) if had_place]
        self.assertEqual(file.getvalue().splitlines(), [*written, f"{taken.count(False)} are missing", "next", "last"])

    def test_a_fault_is_reported_once(self):
        reports = []
        writer = LogWriter(BrokenFile(), reports.append)
        writer.add("one\n")
        writer.add("two\n")
        writer.flush(10)
        self.assertFalse(writer.add("three\n"))
        writer.end(10)
        self.assertEqual(len(reports), 1)
        self.assertIn("no space", reports[0])

    def test_a_file_that_rotates(self):
        with tempfile.TemporaryDirectory() as folder:
            path = os.path.join(folder, "traffic.log")
            writer = LogWriter(RotatingFile(path, 100, older=3), self.fail)
            for number in range(40):
                writer.add(f"line {number:02}\n")  # eight bytes, of which 100 bytes take twelve
                writer.flush(10)
            writer.end(10)
            texts = []
            for name in ("traffic.log.3", "traffic.log.2", "traffic.log.1", "traffic.log"):
                with open(os.path.join(folder, name)) as file:
                    texts.append(file.read())
            self.assertEqual([len(text) // 8 for text in texts], [12, 12, 12, 4])
            self.assertEqual("".join(texts), "".join(f"line {number:02}\n" for number in range(40)))

    def test_the_oldest_file_goes(self):
        with tempfile.TemporaryDirectory() as folder:
            file = RotatingFile(os.path.join(folder, "traffic.log"), 10, older=1)
            for text in ("one\n", "two two\n", "three\n"):
                file.write(text)
            file.close()
            self.assertEqual(sorted(os.listdir(folder)), ["traffic.log", "traffic.log.1"])

    def test_a_file_that_rotates_and_fails_is_reported(self):
        reports = []
        file = RotatingFile("/dev/full")
        writer = LogWriter(file, reports.append)
        writer.add("one\n")
        writer.end(10)
        self.assertEqual(len(reports), 1)
        self.assertIn("No space left", reports[0])


if __name__ == "__main__":
    unittest.main()
