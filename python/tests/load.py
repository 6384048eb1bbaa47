"""A load of queries, to measure psu-relay and psu-socket by: sessions that each send so many messages a second.

    PYTHONPATH=python python3 python/tests/load.py --port 4880 --sessions 16 --rate 100 --seconds 60
    PYTHONPATH=python python3 python/tests/load.py --port 5025 --raw ..
    PYTHONPATH=python python3 python/tests/load.py --check traffic.log --sessions 16

The first two print how long responses took. Each query has to have its own response: over HiSLIP by its MessageID, at a raw
socket by its text, since the queries take turns. The third says whether each message is in the relay's log once, and its
response too: a message is known by its session and its MessageID.
"""
import argparse
import asyncio
import collections
import re
import sys
import time

from psu.frames import FIRST_MESSAGE_ID, PROTOCOL_1_0, Frame, MessageType, after
from psu.listening import read_frame

MESSAGE = re.compile(r"^\S+ !? *(\d+) (-->|<--) DataEnd +([0-9a-f]{8}) .*\\n(?:  \[.*\])?$")
QUERY = b"MEAS:VOLT?\n"
# What raw clients ask of a supply that no client has set, and what that answers.
RAW_QUERIES = (
    (b"MEAS:VOLT?\n", b"0.000\n"), (b"*IDN?\n", b"EXAMPLE,PSU4,0,1.0\n"), (b"VOLT? MAX\n", b"60.000\n"),
    (b"CURR? MAX\n", b"5.000\n"), (b"SIM:LOAD?\n", b"10000\n"), (b"*IDN?;VOLT?\n", b"EXAMPLE,PSU4,0,1.0;0.000\n"),
)


async def begin(port):
    """Returns both connections of a new session."""
    sync = await asyncio.open_connection("127.0.0.1", port)
    sync[1].write(Frame(MessageType.INITIALIZE, 0, PROTOCOL_1_0 << 16, b"hislip0").pack())
    session = (await read_frame(sync[0])).parameter & 0xFFFF
    second = await asyncio.open_connection("127.0.0.1", port)
    second[1].write(Frame(MessageType.ASYNC_INITIALIZE, 0, session).pack())
    await read_frame(second[0])
    return sync, second


async def send_queries(arguments, times):
    """Sends queries at the rate, and puts the seconds to each response into `times`."""
    (reader, writer), second = await begin(arguments.port)
    message_id, begun = FIRST_MESSAGE_ID, time.monotonic()
    for count in range(arguments.rate * arguments.seconds):
        await asyncio.sleep(max(0, begun + count / arguments.rate - time.monotonic()))
        sent = time.perf_counter()
        writer.write(Frame(MessageType.DATA_END, int(count > 0), message_id, QUERY).pack())
        response = await read_frame(reader)
        times.append(time.perf_counter() - sent)
        if response.parameter != message_id:
            raise ValueError(f"{response} to the query {message_id:08x}")
        message_id = after(message_id)
    for one in (writer, second[1]):
        one.close()


async def send_raw_queries(arguments, times):
    """The same at a raw socket; the end of the input has no further response."""
    reader, writer = await asyncio.open_connection("127.0.0.1", arguments.port)
    begun = time.monotonic()
    for count in range(arguments.rate * arguments.seconds):
        query, expected = RAW_QUERIES[count % len(RAW_QUERIES)]
        await asyncio.sleep(max(0, begun + count / arguments.rate - time.monotonic()))
        sent = time.perf_counter()
        writer.write(query)
        response = await reader.readline()
        times.append(time.perf_counter() - sent)
        if response != expected:
            raise ValueError(f"{response} to the query {query}, message {count} of a client")
    writer.write_eof()
    if await reader.read():
        raise ValueError("a response that no query had")
    writer.close()


async def load(arguments):
    times, begun = [], time.monotonic()
    send = send_raw_queries if arguments.raw else send_queries
    await asyncio.gather(*(send(arguments, times) for _ in range(arguments.sessions)))
    seconds = time.monotonic() - begun
    times.sort()
    shown = ", ".join(f"{times[len(times) * part // 1000] * 1000:.2f} ms ({part / 10:g} %)" for part in (500, 900, 990))
    print(f"{len(times)} messages in {seconds:.1f} s, {len(times) / seconds:.0f} a second: {shown}, "
          f"at most {times[-1] * 1000:.1f} ms")


def check(path):
    """Says how often messages are in a log; returns the exit status."""
    counts, others = collections.Counter(), collections.Counter()
    with open(path) as file:
        for line in file:
            found = MESSAGE.search(line)
            if found:
                counts[found.groups()] += 1
            else:
                others[" ".join(line.split()[2:4])] += 1
    queries = [key for key in counts if key[1] == "-->"]
    once = sum(1 for key in queries if counts[key] == 1 == counts[key[0], "<--", key[2]])
    print(f"{len(queries)} queries, {len(counts) - len(queries)} responses; once each: {once}; others: {dict(others)}")
    return 0 if 2 * once == len(counts) else 1


def main():
    parser = argparse.ArgumentParser(description=__doc__, formatter_class=argparse.RawDescriptionHelpFormatter)
    parser.add_argument("--port", type=int, default=4880)
    parser.add_argument("--sessions", type=int, default=16)
    parser.add_argument("--rate", type=int, default=100, help="messages a second of each session")
    parser.add_argument("--seconds", type=int, default=60)
    parser.add_argument("--raw", action="store_true", help="at raw sockets")
    parser.add_argument("--check", metavar="LOG")
    arguments = parser.parse_args()
    if arguments.check:
        return check(arguments.check)
    return asyncio.run(load(arguments))


if __name__ == "__main__":
    sys.exit(main())
