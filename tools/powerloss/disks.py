"""Disks over NBD (network block device), served to a guest: one whose power is cut, with a log of what happened to it, and a mailbox."""
import asyncio
import random
import struct
import sys

SECTOR = 512
NEWSTYLE, EXPORT_NAME, ABORT, INFO, GO = 1, 1, 2, 6, 7
ACK, INFORMATION, UNSUPPORTED = 1, 3, 0x80000001
READ, WRITE, LEAVE, FLUSH = 0, 1, 2, 3
HAS_FLAGS_AND_FLUSH = 1 | 4


class Sectors:
    """A disk's content: a base that is never changed, and the sectors that were written over it."""

    def __init__(self, base, size):
        self.base, self.size, self.written = base, size, {}

    def copy(self):
        other = Sectors(self.base, self.size)
        other.written = dict(self.written)
        return other

    def sector(self, number):
        found = self.written.get(number)
        if found is None:
            found = bytes(self.base[number * SECTOR : (number + 1) * SECTOR])
        return found.ljust(SECTOR, b"\0")

    def read(self, at, length):
        first, last = at // SECTOR, (at + length) // SECTOR
        if not any(number in self.written for number in range(first, last)):
            return bytes(self.base[at : at + length]).ljust(length, b"\0")
        return b"".join(map(self.sector, range(first, last)))

    def write(self, at, data):
        before, behind = at % SECTOR, -(at + len(data)) % SECTOR
        if before or behind:
            # A part of a sector: the rest of it stays.
            whole = bytearray(self.read(at - before, before + len(data) + behind))
            whole[before : before + len(data)] = data
            at, data = at - before, bytes(whole)
        for offset in range(0, len(data), SECTOR):
            self.written[(at + offset) // SECTOR] = data[offset : offset + SECTOR]


class PlainDisk:
    """A disk that answers at once. Calls `heard` with what is written to sector 0."""

    def __init__(self, base, size, heard=None):
        self.sectors, self.heard = Sectors(base, size), heard

    async def write(self, at, data):
        self.sectors.write(at, data)
        if at == 0 and self.heard:
            self.heard(data.rstrip(b"\0").decode(errors="replace"))

    async def flush(self):
        pass


class LoggedDisk:
    """A disk with a cache that it loses with the power. Answers come up to `delay` seconds late, at random. The log lists, in the order in which they
    happened: ("write", id, at, data) when a write arrives, ("answered", id) when it is answered, ("flush", id,
    covered) when a flush arrives, with the writes that were answered before it, and ("flushed", id) when it is
    answered. With `keeps` the disk lies: of the writes that were answered, each
    flush leaves the last ones in its cache."""

    def __init__(self, base, size, log, seed, keeps=0, delay=0.004):
        self.sectors, self.log, self.keeps, self.delay = Sectors(base, size), log, keeps, delay
        self.random, self.count, self.answered = random.Random(seed), 0, []

    def insert(self, sectors):
        """Has it begin anew with these sectors and an empty log."""
        self.sectors, self.log, self.answered = sectors, [], []

    async def late(self):
        await asyncio.sleep(self.random.random() * self.delay)

    async def write(self, at, data):
        self.count += 1
        number = self.count
        self.sectors.write(at, data)
        self.log.append(("write", number, at, data))
        await self.late()
        self.answered.append(number)
        self.log.append(("answered", number))

    async def flush(self):
        self.count += 1
        number = self.count
        covered = len(self.answered) - self.keeps
        self.log.append(("flush", number, self.answered[: max(covered, 0)]))
        await self.late()
        self.log.append(("flushed", number))


async def negotiate(disk, reader, writer):
    """The handshake of NBD; whether the client then uses the disk."""
    export = struct.pack(">QH", disk.sectors.size, HAS_FLAGS_AND_FLUSH)
    writer.write(b"NBDMAGIC" + b"IHAVEOPT" + struct.pack(">H", NEWSTYLE))
    await reader.readexactly(4)
    while True:
        _, option, length = struct.unpack(">8sII", await reader.readexactly(16))
        await reader.readexactly(length)

        def reply(kind, data=b"", option=option):
            writer.write(struct.pack(">QIII", 0x3E889045565A9, option, kind, len(data)) + data)

        if option == EXPORT_NAME:
            writer.write(export + bytes(124))
            return True
        if option in (INFO, GO):
            reply(INFORMATION, struct.pack(">H", 0) + export)
            reply(ACK)
            if option == GO:
                return True
        elif option == ABORT:
            reply(ACK)
            return False
        else:
            reply(UNSUPPORTED)


async def serve(disk, reader, writer):
    """Serves a disk on a connection of NBD. Requests are answered as they are done, in any order."""
    tasks = set()

    def answer(handle, data=b"", error=0):
        writer.write(struct.pack(">IIQ", 0x67446698, error, handle) + data)

    async def change(handle, work):
        try:
            await work
        except Exception as error:  # the guest would wait for good
            print(f"powerloss: {error!r}", file=sys.stderr)
            writer.transport.abort()
            raise
        answer(handle)

    try:
        is_used = await negotiate(disk, reader, writer)
        while is_used:
            _, _, kind, handle, at, length = struct.unpack(">IHHQQI", await reader.readexactly(28))
            if kind == READ:
                answer(handle, disk.sectors.read(at, length))
            elif kind == LEAVE:
                break
            elif kind in (WRITE, FLUSH):
                work = disk.write(at, await reader.readexactly(length)) if kind == WRITE else disk.flush()
                task = asyncio.ensure_future(change(handle, work))
                tasks.add(task)
                task.add_done_callback(tasks.discard)
                # A write is in the log, and a flush has its list, before the next request is read.
                await asyncio.sleep(0)
            else:
                answer(handle, error=22)
    except (asyncio.IncompleteReadError, ConnectionError):
        pass
    finally:
        for task in tasks:
            task.cancel()
        writer.close()


async def listen(disk, path):
    """Begins to serve a disk at a socket's path."""
    return await asyncio.start_unix_server(lambda reader, writer: serve(disk, reader, writer), path)
