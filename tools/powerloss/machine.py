"""The guest: its kernel, its first file system in memory, and QEMU."""
import glob
import gzip
import os
import shutil
import stat
import subprocess

HERE = os.path.dirname(os.path.realpath(__file__))
MODULES = ("virtio_pci", "virtio_blk", "xfs", "btrfs")
PACKAGE = "linux-image-cloud-amd64"


class Unavailable(Exception):
    """What is missing on this machine."""


def call(*words, **how):
    """Runs a command that has to succeed, and returns what it prints."""
    ran = subprocess.run(words, stdout=subprocess.PIPE, stderr=subprocess.STDOUT, check=False, **how)
    if ran.returncode:
        raise Unavailable(f"{' '.join(words)}\n{ran.stdout.decode(errors='replace')}")
    return ran.stdout.decode(errors="replace")


def need_programs():
    """Looks whether the programs are there that are used here."""
    found = ("qemu-system-x86_64", "gcc", "mkfs.ext4", "mkfs.xfs", "mkfs.btrfs", "modprobe", "depmod")
    os.environ["PATH"] += ":/usr/sbin:/sbin"
    missing = [it for it in found if not shutil.which(it)]
    if missing:
        raise Unavailable(
            f"not found: {', '.join(missing)} (Debian: apt-get install qemu-system-x86 gcc libc6-dev e2fsprogs xfsprogs btrfs-progs kmod)"
        )


def fetch_kernel(folder):
    """Unpacks Debian's kernel for virtual machines into a folder. Nothing is installed."""
    depends = call("apt-cache", "depends", PACKAGE)
    name = next(line.split()[1] for line in depends.splitlines() if "Depends: linux-image-" in line)
    call("apt-get", "download", name, cwd=folder)
    for package in glob.glob(os.path.join(folder, "*.deb")):
        call("dpkg", "-x", package, folder)
        os.remove(package)


class Kernel:
    """A kernel's package, unpacked: its file, its version, and the modules that are loaded, each after those that it needs."""

    def __init__(self, folder):
        files = sorted(glob.glob(os.path.join(folder, "boot", "vmlinuz-*")))
        if not files:
            raise Unavailable(f"no kernel in {folder}/boot")
        self.file = files[-1]
        self.version = os.path.basename(self.file)[len("vmlinuz-") :]
        call("depmod", "-b", folder, self.version)
        self.modules = []
        for module in MODULES:
            said = call("modprobe", "-d", folder, "-S", self.version, "--show-depends", module)
            found = [line.split()[1] for line in said.splitlines() if line.startswith("insmod")]
            self.modules += [it for it in found if it not in self.modules]


def entry(name, mode, data=b""):
    """A file of an archive in cpio's new format."""
    fields = [0, mode, 0, 0, 1, 0, len(data), 0, 0, 0, 0, len(name) + 1, 0]
    head = "070701" + "".join(f"{it:08X}" for it in fields)
    text = (head + name).encode() + b"\0"
    return text + bytes(-len(text) % 4) + data + bytes(-len(data) % 4)


def libraries_of(program):
    """The files that a program is linked with."""
    return [word for line in call("ldd", program).splitlines() for word in line.split() if word.startswith("/")]


def folders_of(paths):
    """Each folder of some paths, after the one that it is in."""
    found = set()
    for path in paths:
        while path := os.path.dirname(path):
            found.add(path)
    return sorted(found)


def archive(kernel, program, guest, losing, scripts):
    """The guest's first file system: our program as its process 1, psu with its libraries, the modules, and the lines of each client."""
    files = {"init": guest, "psu": program, "losing.so": losing}
    for path in libraries_of(program):
        files[path[1:]] = path
    names = []
    for module in kernel.modules:
        names.append(os.path.basename(module))
        files[names[-1]] = module
    parts = [entry(it, stat.S_IFDIR | 0o755) for it in folders_of(files)]
    for name, path in files.items():
        with open(path, "rb") as file:
            parts.append(entry(name, stat.S_IFREG | 0o755, file.read()))
    parts.append(entry("modules", stat.S_IFREG | 0o644, "".join(f"/{it}\n" for it in names).encode()))
    for client, lines in enumerate(scripts):
        parts.append(entry(f"lines{client}", stat.S_IFREG | 0o644, "".join(f"{it}\n" for it in lines).encode()))
    parts.append(entry("dev", stat.S_IFDIR | 0o755))
    parts.append(entry("TRAILER!!!", 0))
    return gzip.compress(b"".join(parts), 1)


def compile_guest(folder):
    """Compiles our two programs of the guest: their files."""
    guest, losing = os.path.join(folder, "guest"), os.path.join(folder, "losing.so")
    call("gcc", "-O2", "-Wall", "-static", "-o", guest, os.path.join(HERE, "guest.c"))
    call("gcc", "-O2", "-Wall", "-shared", "-fPIC", "-o", losing, os.path.join(HERE, "losing.c"))
    return guest, losing


def format_disk(folder, name, command, size):
    """A file with an empty file system: its path."""
    path = os.path.join(folder, f"{name}.disk")
    with open(path, "wb") as file:
        file.truncate(size)
    call(*command, path)
    return path


def words_of(kernel, initial, sockets, words):
    """The command of QEMU, with no accelerator, so that it runs anywhere."""
    append = "console=ttyS0 quiet panic=-1 no_timer_check " + " ".join(f"pl.{key}={value}" for key, value in words.items() if value)
    found = ["qemu-system-x86_64", "-accel", "tcg", "-cpu", "max", "-m", "512", "-nodefaults", "-nographic", "-serial", "stdio", "-no-reboot"]
    found += ["-kernel", kernel.file, "-initrd", initial, "-append", append]
    for socket in sockets:
        found += ["-drive", f"file=nbd+unix:///?socket={socket},format=raw,if=virtio,cache=none"]
    return found
