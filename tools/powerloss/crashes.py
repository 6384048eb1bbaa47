"""The disks that a power loss may leave: what the last flush covered, and of all other writes any."""
from disks import SECTOR


def at_cut(log, cut):
    """The writes before an entry of the log, in their order: those that a flush has made durable, and the others."""
    writes, durable, covered = [], set(), {}
    for entry in log[:cut]:
        if entry[0] == "write":
            writes.append(entry)
        elif entry[0] == "flush":
            covered[entry[1]] = entry[2]
        elif entry[0] == "flushed":
            durable.update(covered[entry[1]])
    return writes, [it for it in writes if it[1] not in durable]


def torn(write, random):
    """A write of which only some sectors, at random, are done."""
    _, number, at, data = write
    parts = range(0, len(data), SECTOR)
    done = random.sample(parts, random.randint(0, len(parts) - 1)) if len(parts) > 1 else []
    return [("write", number, at + offset, data[offset : offset + SECTOR]) for offset in sorted(done)]


def torn_within(write, random):
    """A write that ends, or begins, in the middle of a sector: its first bytes are done, or its last ones."""
    _, number, at, data = write
    split = random.randrange(len(data) // SECTOR) * SECTOR + random.randrange(1, SECTOR)
    return [("write", number, at, data[:split]) if random.random() < 0.5 else ("write", number, at + split, data[split:])]


def choices(unsafe, random, most, tears):
    """Which of the writes that are not durable are done: none, all, each one missing, random ones, and for each way to tear a write
    random ones with one of them torn."""
    yield []
    if not unsafe:
        return
    yield list(unsafe)
    for missing in random.sample(range(len(unsafe)), min(most, len(unsafe))):
        yield unsafe[:missing] + unsafe[missing + 1 :]
    for _ in range(most):
        yield [it for it in unsafe if random.random() < 0.5]
    for tear in tears * most:
        split = random.randrange(len(unsafe))
        some = [it for it in unsafe[:split] if random.random() < 0.7]
        yield some + tear(unsafe[split], random)


def crash_images(empty, log, cuts, random, most, tears):
    """Each cut, and each disk that a power loss there may leave, once: (cut, sectors)."""
    for cut in cuts:
        writes, unsafe = at_cut(log, cut)
        numbers, seen = {it[1] for it in unsafe}, set()
        first = next((at for at, it in enumerate(writes) if it[1] in numbers), len(writes))
        base = empty.copy()
        for _, _, at, data in writes[:first]:
            base.write(at, data)
        for done in choices(unsafe, random, most, tears):
            key = tuple((it[1], it[2], len(it[3])) for it in done)
            if key not in seen:
                seen.add(key)
                yield cut, over(base, [it for it in writes[first:] if it[1] not in numbers] + done)


def over(base, writes):
    """The disk after these writes, in the order in which they arrived."""
    disk = base.copy()
    for _, _, at, data in sorted(writes, key=lambda it: it[1]):
        disk.write(at, data)
    return disk
