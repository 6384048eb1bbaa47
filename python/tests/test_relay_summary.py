"""Tests of what psu-relay writes of its traffic beside the lines: the summary at its end, and a file for Wireshark."""
import io
import shutil
import struct
import subprocess
import tempfile
import unittest

from fake_server import FakeServer
from psu.client import Instrument
from psu.errors import Timeout
from psu.frames import MessageType
from psu.relay import Relay
from psu.relay_log import Entry
from psu.relay_pcap import FILE_HEADER, LARGEST_PIECE, Packets
from psu.relay_summary import Summary


def entry(kind, seconds=None, is_from_client=False, payload=b"", session=1, is_async=False, moment=1.5):
    return Entry(moment, session, is_async, is_from_client, kind, 0, 0xFFFFFF00, len(payload), payload, seconds, "")


class SummaryTest(unittest.TestCase):
    def test_its_lines(self):
        summary = Summary()
        for number in range(40):
            summary.add(entry(MessageType.DATA_END, is_from_client=True, payload=b"VOLT?\n"))
            summary.add(entry(MessageType.DATA_END, 0.002, payload=b"5.000\n"))
        for seconds in (0.0005, 5.0, 0.05):
            summary.add(entry(MessageType.ASYNC_STATUS_RESPONSE, seconds, session=2))
        self.assertEqual(summary.lines(3, ["hold response to NEVER"]), [
            "from the client: 40 DataEnd",
            "from the server: 40 DataEnd, 3 AsyncStatusResponse",
            "responses under 0.001 s         1 #",
            "responses under 0.003 s        40 " + "#" * 40,
            "responses under 0.01 s          0",
            "responses under 0.03 s          0",
            "responses under 0.1 s           1 #",
            "responses under 0.3 s           0",
            "responses under 1 s             0",
            "responses under 3 s             0",
            "responses from 3 s on           1 #",
            "slow: 5000.0 ms, session 2, AsyncStatusResponse",
            "slow: 50.0 ms, session 2, AsyncStatusResponse",
            "slow: 2.0 ms, session 1, DataEnd 5.000\\n",
            "unanswered queries: 3",
            "a rule that never applied: hold response to NEVER",
        ])

    def test_without_traffic(self):
        expected = ["from the client: nothing", "from the server: nothing", "unanswered queries: 0"]
        self.assertEqual(Summary().lines(0, []), expected)

    def test_it_is_at_the_end_of_the_log(self):
        log = io.StringIO()
        with FakeServer() as server:
            with Relay(server.port, ["hold response to B?", "hold response to NEVER"], log) as relay:
                with Instrument(port=relay.port, timeout=5) as client:
                    client.query("A?")
                    with self.assertRaises(Timeout):
                        client.query("B?", timeout=0.05)
        text = log.getvalue()
        self.assertRegex(text, r"(?m)^\S+ +- --- summary: from the client: 2 DataEnd, 1 Initialize, ")
        self.assertIn("--- summary: unanswered queries: 1\n", text)
        self.assertTrue(text.endswith("--- summary: a rule that never applied: hold response to NEVER\n"), text)


class PcapTest(unittest.TestCase):
    def test_the_bytes_of_a_packet(self):
        packets = Packets()
        packet = packets.of(entry(MessageType.DATA_END, is_from_client=True, payload=b"*IDN?\n", session=3))
        self.assertEqual(packet[:16], struct.pack("<IIII", 1, 500000, 62, 62))
        self.assertEqual(packet[16:36].hex(), "4500003e0000400040060000" + "7f0000017f000001")
        self.assertEqual(packet[36:56], struct.pack(">HHIIBBHHH", 20006, 4880, 1, 1, 0x50, 0x18, 65535, 0, 0))
        self.assertEqual(packet[56:], b"HS\x07\0\xff\xff\xff\0" + (6).to_bytes(8, "big") + b"*IDN?\n")
        back = packets.of(entry(MessageType.DATA_END, payload=b"1\n", session=3))
        self.assertEqual(back[36:48], struct.pack(">HHII", 4880, 20006, 1, 23))

    def test_a_long_message_has_several_packets(self):
        packet = Packets().of(entry(MessageType.DATA_END, payload=bytes(LARGEST_PIECE)))
        self.assertEqual(len(packet), 2 * (16 + 40) + 16 + LARGEST_PIECE)

    @unittest.skipUnless(shutil.which("tshark"), "no tshark")
    def test_wireshark_reads_it(self):
        with tempfile.NamedTemporaryFile("wb") as file, FakeServer() as server:
            with Relay(server.port, ["hold response to HELD"], pcap=file) as relay, Instrument(port=relay.port) as client:
                client.query("VOLT?")
                client.write("SRQ")
                client.wait_for_service_request(5)
                client.query("A?" + "x" * 65000)
            fields = ["-e", "hislip.messagetype", "-e", "hislip.msgpara.messageid", "-e", "_ws.malformed"]
            command = ["tshark", "-r", file.name, "-Y", "hislip", "-T", "fields", *fields]
            ended = subprocess.run(command, stdout=subprocess.PIPE, stderr=subprocess.DEVNULL, universal_newlines=True)
        lines = [it.split("\t") for it in ended.stdout.splitlines()]
        kinds = [int(it, 0) for line in lines for it in line[0].split(",")]
        for kind in (MessageType.INITIALIZE, MessageType.INITIALIZE_RESPONSE, MessageType.ASYNC_INITIALIZE,
                     MessageType.ASYNC_MAXIMUM_MESSAGE_SIZE_RESPONSE, MessageType.ASYNC_SERVICE_REQUEST):
            self.assertEqual(kinds.count(kind), 1, kind)
        self.assertEqual(kinds.count(MessageType.DATA_END), 5)
        identified = [line[1] for line in lines if line[0] == "0x07"]
        self.assertEqual(identified, ["0xffffff00", "0xffffff00", "0xffffff02", "0xffffff04", "0xffffff04"])
        self.assertEqual([line[2] for line in lines if line[2]], [])

    def test_a_file_has_its_header(self):
        self.assertEqual(FILE_HEADER[:4], b"\xd4\xc3\xb2\xa1")


if __name__ == "__main__":
    unittest.main()
