"""Cuts the power of a real kernel with a real file system under psu, and looks what is there afterwards.

    python3 tools/powerloss                  the file systems that keep the promise, and two planted faults: five to ten minutes
    python3 tools/powerloss --full           every file system, through run and serve, with and without other work on the disk
    python3 tools/powerloss --plant NAME     one planted fault, or `all`: the tool has to find its loss

A guest under QEMU makes an image on the file system, and sends numbered changes of every kind to `psu run` or `psu
serve`, or those of several clients at once; it reports each `*OPC?` that is confirmed on a second disk. The disks are
served from here, so every write and every flush is seen, when it arrives and when it is answered. At many points the
disks are built that a power loss may leave: with the writes that the last flush covered, and of the others none, all,
each one missing, random ones, and torn ones; with --tear also ones that are torn within a sector of 512 bytes. A second
guest mounts each of them, which replays its journal, copies the image out, and opens it with `psu recover`. What the
image represents is compared with the contents after each change, by a model that was written from the instrument's
specification: it has to be the contents after one of the changes, and no earlier one than was confirmed before the
power was cut (of several clients, the files of each after one of its own changes). `psu recover` has to report these
contents, and leave them. What the second guest writes to the disk, from mounting it to the end, is cut again at a point,
and the disk that this leaves is looked at in the same way (--again).

Needs: the built program (crates/psu/out/psu, or --psu), Debian's qemu-system-x86, gcc, e2fsprogs, xfsprogs,
btrfs-progs, kmod and dpkg, and a kernel package unpacked with --kernel FOLDER, else it is downloaded (apt-get
download) and unpacked. No root, nothing is installed, all is in a temporary folder.

Exit status 1: something confirmed was lost, or a planted fault was not found. 2: something is missing on this machine.
"""
import argparse
import asyncio
import concurrent.futures
import mmap
import os
import platform
import random
import sys
import tempfile
import time
from dataclasses import dataclass, field

import crashes
import disks
import machine
import model

MEBIBYTE = 1 << 20
MAILBOX = 2 * MEBIBYTE
IMAGE_SIZE = 263168
# As in guest.c: where the mailbox has what `psu recover` printed, and the image after it; a client's part of a mark.
REPORT, REPORT_ROOM, AFTER = MEBIBYTE + (512 << 10), 64 << 10, MEBIBYTE + (640 << 10)
CLIENT = 100000
CLIENTS = 4
SECONDS = 900

EXT4 = ("ext4", ["mkfs.ext4", "-q", "-F"], 64)
NO_JOURNAL = ("ext4", ["mkfs.ext4", "-q", "-F", "-O", "^has_journal"], 64)
XFS = ("xfs", ["mkfs.xfs", "-q", "-f"], 320)
BTRFS = ("btrfs", ["mkfs.btrfs", "-q", "-f"], 128)
SYSTEMS = {
    "ext4 ordered": (EXT4, "data=ordered"),
    "ext4 writeback": (EXT4, "data=writeback"),
    "ext4 journal": (EXT4, "data=journal"),
    "xfs": (XFS, ""),
    "btrfs": (BTRFS, ""),
    "ext4 without a journal": (NO_JOURNAL, ""),
}
COLUMNS = ("writes", "flushes", "confirmed", "cuts", "disks", "again", "unmounted")
# The file system whose loss has to be found.
NOT_KEPT = "ext4 without a journal"
# Faults that have to be found: how psu loses syncs, how many writes a disk keeps to itself, or a file system that
# does not keep the promise.
PLANTS = {
    "no sync": ("ext4 ordered", "all", 0),
    "first sync of a commit lost": ("ext4 ordered", "first", 0),
    "second sync of a commit lost": ("ext4 ordered", "second", 0),
    "a disk that keeps its last writes": ("ext4 ordered", "", 6),
    "ext4 without a journal": ("ext4 without a journal", "", 0),
}


@dataclass
class Trial:
    """One file system, one way to psu, and what came of it."""

    name: str
    system: str
    via: str = "run"
    noise: bool = False
    drop: str = ""
    keeps: int = 0
    is_plant: bool = False
    seed: int = 1
    tears: bool = False
    counts: dict = field(default_factory=dict)
    losses: list = field(default_factory=list)
    fault: str = ""

    @property
    def clients(self):
        """How many clients there are at once, where they are several."""
        return CLIENTS if self.via == "clients" else 0

    @property
    def is_good(self):
        return not self.fault and bool(self.losses) == self.is_plant


class Guest:
    """A guest's run with its two disks."""

    def __init__(self, trial, kernel, initial, folder):
        self.trial, self.kernel, self.initial, self.folder = trial, kernel, initial, folder
        self.console = ""

    async def run(self, disk, mailbox, mode):
        """Runs it to its end."""
        sockets = [os.path.join(self.folder, f"{mode}-{it}.socket") for it in ("disk", "mailbox")]
        servers = [await disks.listen(one, path) for one, path in zip((disk, mailbox), sockets)]
        (kind, _, _), options = SYSTEMS[self.trial.system]
        words = {"mode": mode, "fs": kind, "options": options, "noise": self.trial.noise and "1", "serve": self.trial.via == "serve" and "1"}
        words["drop"] = self.trial.drop
        words["clients"] = self.trial.clients and str(self.trial.clients)
        command = machine.words_of(self.kernel, self.initial, sockets, words)
        how = {"stdin": asyncio.subprocess.DEVNULL, "stdout": asyncio.subprocess.PIPE, "stderr": asyncio.subprocess.STDOUT}
        process = await asyncio.create_subprocess_exec(*command, **how)
        try:
            said, _ = await asyncio.wait_for(process.communicate(), SECONDS)
            self.console = said.decode(errors="replace")
        except asyncio.TimeoutError:
            self.console = f"FAULT: the guest ran for over {SECONDS} seconds"
        finally:
            if process.returncode is None:
                process.kill()
            for server in servers:
                server.close()
        fault = next((line for line in self.console.splitlines() if "FAULT" in line), "")
        if fault:
            raise RuntimeError(fault.strip())


async def work(trial, guest, base, size, seed):
    """The first guest: the log of its disk, with ("mark", n) where the confirmation of line n arrived."""
    log, is_done = [], []

    def heard(text):
        word, _, number = text.partition(" ")
        if word == "MARK":
            log.append(("mark", int(number)))
        elif word == "DONE":
            is_done.append(True)

    disk = disks.LoggedDisk(base, size, log, seed, trial.keeps)
    await guest.run(disk, disks.PlainDisk(b"", MAILBOX, heard), "work")
    if not is_done:
        raise RuntimeError("the guest ended too early:\n" + guest.console[-2000:])
    return log


def cuts_of(log, most, chance):
    """Where the power is cut: at random, and around the confirmations."""
    first = 1 + next(at for at, it in enumerate(log) if it[0] == "mark")
    found = set(chance.sample(range(first, len(log) + 1), min(most, len(log) + 1 - first)))
    marks = [at for at, it in enumerate(log) if it[0] == "mark"]
    found.update(at + 1 for at in chance.sample(marks, min(most // 4, len(marks))))
    return sorted(found)


class Judge:
    """The host's side of the second guest: puts one crash image after another into the disk, and judges what was in it.

    `contents` has for each client the contents after each of its lines. `again` of the disks that a cut of the second
    guest's own writes leaves are looked at for each disk; `chance` picks them.
    """

    def __init__(self, trial, images, log, contents, again, chance):
        self.trial, self.images, self.log, self.contents = trial, images, log, contents
        self.again, self.chance = again, chance
        self.disk, self.mailbox = disks.LoggedDisk(b"", 0, [], trial.seed, delay=0), disks.PlainDisk(b"", MAILBOX, self.hear)
        self.cut, self.begun, self.is_second, self.waiting = 0, None, False, []
        self.count, self.second, self.unmounted = 0, 0, 0

    def hear(self, text):
        word, _, number = text.partition(" ")
        if word == "NEXT":
            self.next()
        elif word:
            self.judge(word, number)

    def next(self):
        self.is_second = bool(self.waiting)
        found = self.waiting.pop() if self.waiting else next(self.images, None)
        if found:
            self.cut, sectors = found
            self.begun = sectors.copy()
            self.disk.insert(sectors)
            self.count += not self.is_second
            self.second += self.is_second
        self.mailbox.sectors.write(disks.SECTOR, (b"GO" if found else b"STOP").ljust(disks.SECTOR, b"\0"))

    def judge(self, word, number):
        if word == "NOMOUNT":
            self.unmounted += 1
            # A sector that is torn within may belong to the file system, which relies on whole ones.
            if not self.trial.tears:
                self.lose(f"the kernel does not mount the disk: {os.strerror(int(number))}")
        elif word == "NOFILE":
            self.lose("there is no image")
        else:
            self.compare(self.mailbox.sectors.read(MEBIBYTE, IMAGE_SIZE))
        if not self.is_second:
            self.cut_again()

    def cut_again(self):
        """Notes disks that a cut leaves while the guest mounts this one, opens its image, and unmounts it."""
        log = self.disk.log
        for _ in range(self.again if any(it[0] == "write" for it in log) else 0):
            point = self.chance.randrange(1, len(log) + 1)
            # No torn ones: a mount writes the superblock in place, and file systems rely on it to be written whole.
            left = list(crashes.crash_images(self.begun, log, [point], self.chance, 1, []))
            self.waiting.append((self.cut, self.chance.choice(left)[1]))

    def confirmed(self, client):
        """The last line of a client that was confirmed before the cut."""
        marks = [it[1] for it in self.log[: self.cut] if it[0] == "mark"]
        return max([it % CLIENT for it in marks if it // CLIENT == client], default=0)

    def compare(self, image):
        try:
            items = model.represented(image)
        except ValueError as why:
            self.lose(str(why))
            return
        if self.trial.clients and not all(any(model.is_of_client(key, it) for it in range(self.trial.clients)) for key in items):
            self.lose("there is an item of no client")
        for client, contents in enumerate(self.contents):
            is_own = (lambda key, it=client: model.is_of_client(key, it)) if self.trial.clients else (lambda key: True)
            self.compare_client(client, {key: value for key, value in items.items() if is_own(key)}, contents)
        self.compare_report(image, items)

    def compare_client(self, client, items, contents):
        confirmed = self.confirmed(client)
        if items not in contents[confirmed:]:
            old = [at for at, it in enumerate(contents[:confirmed]) if it == items]
            self.lose(f"the contents are those after line {old[-1]}" if old else "the contents are those after no line", client)

    def compare_report(self, image, items):
        """What `psu recover` says of the image, and leaves of it."""
        read = self.mailbox.sectors.read(REPORT, REPORT_ROOM)
        status, length = map(int, read[: disks.SECTOR].rstrip(b"\0").split())
        text = read[disks.SECTOR : disks.SECTOR + length].decode(errors="replace")
        if status != 0 or text != model.report(image, items):
            self.lose(f"psu recover ends with status {status} and prints {text!r}")
            return
        try:
            left = model.represented(self.mailbox.sectors.read(AFTER, IMAGE_SIZE))
        except ValueError as why:
            self.lose(f"after psu recover: {why}")
            return
        if left != items:
            self.lose("psu recover changes the contents")

    def lose(self, what, client=0):
        where = f"cut {self.cut}{' and again' if self.is_second else ''}, line {self.confirmed(client)} was confirmed"
        self.trial.losses.append(f"{where}{f' to client {client}' if self.trial.clients else ''}: {what}")


def scripts_of(trial, changes):
    """The lines of each client, and the contents after each of them."""
    models = [model.FilesOfClient(trial.seed + it, it, CLIENTS) for it in range(trial.clients)] or [model.Model(trial.seed)]
    histories = [model.history(it, changes, 4) for it in models]
    return [it[0] for it in histories], [it[1] for it in histories]


async def attempt(trial, kernel, programs, program, size_of_run, folder):
    """Both guests of a trial."""
    changes, cuts, most, again = size_of_run
    scripts, contents = scripts_of(trial, changes)
    initial = os.path.join(folder, "initial")
    with open(initial, "wb") as file:
        file.write(machine.archive(kernel, program, *programs, scripts))
    (_, command, mebibytes), _ = SYSTEMS[trial.system]
    size, chance = mebibytes * MEBIBYTE, random.Random(trial.seed)
    with open(machine.format_disk(folder, "empty", command, size), "rb") as file:
        base = mmap.mmap(file.fileno(), 0, access=mmap.ACCESS_READ)
    log = await work(trial, Guest(trial, kernel, initial, folder), base, size, trial.seed)
    points = cuts_of(log, cuts, chance)
    images = crashes.crash_images(disks.Sectors(base, size), log, points, chance, most, [crashes.torn] + [crashes.torn_within] * trial.tears)
    judge = Judge(trial, images, log, contents, again, chance)
    judge.disk.insert(disks.Sectors(base, size))
    await Guest(trial, kernel, initial, folder).run(judge.disk, judge.mailbox, "check")
    kinds = [it[0] for it in log]
    trial.counts = {
        "writes": kinds.count("write"),
        "flushes": kinds.count("flush"),
        "confirmed": kinds.count("mark") - 1,
        "cuts": len(points),
        "disks": judge.count,
        "again": judge.second,
        "unmounted": judge.unmounted,
    }


def run_trial(trial, kernel, programs, program, size_of_run):
    """A trial in a process and a folder of its own."""
    began = time.monotonic()
    with tempfile.TemporaryDirectory(prefix="powerloss-") as folder:
        try:
            asyncio.run(attempt(trial, kernel, programs, program, size_of_run, folder))
        except (RuntimeError, machine.Unavailable) as error:
            trial.fault = str(error)
    trial.counts["seconds"] = int(time.monotonic() - began)
    return trial


def plants(names):
    return [Trial(name, *PLANTS[name][:1], drop=PLANTS[name][1], keeps=PLANTS[name][2], is_plant=True) for name in names]


def chosen(trials, words):
    """The trials of the command line's file system, with its seed and its tears."""
    trials = [it for it in trials if not words.only or it.system == words.only]
    for it in trials:
        it.seed += words.seed - 1
        it.tears = words.tear
    return trials


def trials_of(words):
    """What is tried."""
    if words.plant:
        return plants(PLANTS if words.plant == "all" else [words.plant])
    kept = [it for it in SYSTEMS if it != NOT_KEPT]
    if not words.full:
        found = [Trial(it, it, via="serve" if at % 2 else "run", noise=at % 2 == 0) for at, it in enumerate(kept)]
        found.append(Trial("ext4 ordered", "ext4 ordered", via="clients"))
        return found + plants(["second sync of a commit lost", "ext4 without a journal"])
    every = [(it, via, noise) for it in kept for via in ("run", "serve", "clients") for noise in (False, True)]
    unsafe = [Trial(NOT_KEPT, NOT_KEPT, *way, is_plant=True) for way in (("run", True), ("serve", False), ("serve", True))]
    return [Trial(it, it, via, noise, seed=2 + at) for at, (it, via, noise) in enumerate(every)] + plants(PLANTS) + unsafe


def report(trial):
    """A row of the table."""
    counts = trial.counts
    outcome = "FAULT" if trial.fault else str(len(trial.losses))
    way = trial.via + (", noise" if trial.noise else "")
    row = [f"{trial.name:34}", f"{way:13}"] + [f"{counts.get(it, 0):10}" for it in COLUMNS]
    verdict = "as it has to be" if trial.is_good else "NOT as it has to be"
    print("".join(row) + f"{outcome:>10}{counts['seconds']:8} s  {verdict}", flush=True)
    for line in [trial.fault] if trial.fault else [] if trial.is_plant else trial.losses[:5]:
        print(f"    {line}", flush=True)


def parse():
    top = os.path.dirname(os.path.dirname(machine.HERE))
    parser = argparse.ArgumentParser(prog="powerloss", description=__doc__, formatter_class=argparse.RawDescriptionHelpFormatter)
    parser.add_argument("--full", action="store_true", help="every file system, each way, with and without other work")
    parser.add_argument("--plant", choices=[*PLANTS, "all"], metavar="NAME", help="one planted fault, or all: " + ", ".join(PLANTS))
    parser.add_argument("--only", choices=SYSTEMS, metavar="SYSTEM", help="one file system: " + ", ".join(SYSTEMS))
    parser.add_argument("--psu", default=os.path.join(top, "crates", "psu", "out", "psu"), metavar="FILE", help="the program")
    parser.add_argument("--kernel", metavar="FOLDER", help="an unpacked kernel package (boot/, lib/modules/)")
    parser.add_argument("--jobs", type=int, default=len(os.sched_getaffinity(0)), metavar="N", help="guests at once")
    parser.add_argument("--changes", type=int, default=90, metavar="N", help="changes of a trial")
    parser.add_argument("--cuts", type=int, default=60, metavar="N", help="points at which the power is cut, in a trial")
    parser.add_argument("--most", type=int, default=4, metavar="N", help="disks of each kind at a point")
    parser.add_argument("--again", type=int, default=1, metavar="N", help="second cuts of each disk, while it is looked at")
    parser.add_argument("--tear", action="store_true", help="also writes that are torn within a sector of 512 bytes")
    parser.add_argument("--seed", type=int, default=1, metavar="N", help="another seed makes other changes, cuts and disks")
    return parser.parse_args()


def main():
    words = parse()
    began = time.monotonic()
    with tempfile.TemporaryDirectory(prefix="powerloss-") as folder:
        try:
            machine.need_programs()
            if not os.path.isfile(words.psu):
                raise machine.Unavailable(f"no program {words.psu}: ./psu builds it")
            if not words.kernel:
                machine.fetch_kernel(folder)
            kernel = machine.Kernel(words.kernel or folder)
            programs = machine.compile_guest(folder)
        except machine.Unavailable as why:
            print(f"powerloss: {why}", file=sys.stderr)
            return 2
        print(f"guest: Linux {kernel.version}; host: Linux {platform.release()}; {machine.call('qemu-system-x86_64', '--version').splitlines()[0]}")
        print(f"{'file system or planted fault':34}{'psu':13}" + "".join(f"{it:>10}" for it in COLUMNS) + "    losses", flush=True)
        size_of_run = words.changes, words.cuts, words.most, words.again
        trials = []
        with concurrent.futures.ProcessPoolExecutor(max(1, words.jobs)) as pool:
            started = [pool.submit(run_trial, it, kernel, programs, words.psu, size_of_run) for it in chosen(trials_of(words), words)]
            for future in concurrent.futures.as_completed(started):
                trials.append(future.result())
                report(trials[-1])
    good = sum(it.is_good for it in trials)
    count = sum(it.counts.get("disks", 0) + it.counts.get("again", 0) for it in trials if not it.is_plant)
    print(f"{count} disks; {good} of {len(trials)} trials as they have to be; {(time.monotonic() - began) / 60:.1f} minutes")
    return 0 if good == len(trials) else 1


if __name__ == "__main__":
    sys.exit(main())
