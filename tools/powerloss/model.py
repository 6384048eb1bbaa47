"""The instrument's nonvolatile contents, written from its specification: what each command makes of them, and what an image's bytes represent.

Contents are compared as the items of the image format: a map from keys to values. Key 01: SRE and ESE; 02 r: the
settings of register r; 03: user data; 04: macros; 05 and a name: a file, its type and its bytes; 06: the settings at
power-on are those of register 0.
"""
import random
import struct

RESET_OUTPUT = struct.pack(">HHHB", 0, 0, 60000, 0)
RESET = RESET_OUTPUT * 4
PAGE = 512
LIMIT = 256
BIN, STAT, MACR = b"\0", b"\1", b"\2"


def block(data):
    """A definite length block."""
    length = str(len(data))
    return f"#{len(length)}{length}{data}"


class Model:
    """The contents after the changes so far, with what of the instrument's volatile state the changes take up."""

    def __init__(self, seed):
        self.random, self.number, self.room = random.Random(seed), 0, LIMIT
        self.settings, self.registers, self.user = RESET, {}, b""
        self.macros, self.files, self.recall = [], {}, False
        self.sre, self.ese, self.flag = 0, 0, True

    def items(self):
        """The map that represents the contents."""
        found = {b"\2" + bytes([r]): value for r, value in self.registers.items() if value != RESET}
        found.update({b"\5" + name.encode(): kind + data for name, (kind, data) in self.files.items()})
        if not self.flag:
            found[b"\1"] = bytes([self.sre, self.ese])
        if self.user:
            found[b"\3"] = self.user
        if self.macros:
            found[b"\4"] = b"".join(bytes([len(label)]) + label + struct.pack(">H", len(body)) + body for label, body in self.macros)
        if self.recall:
            found[b"\6"] = b"\1"
        return found

    def cost(self):
        return sum(1 + -(-len(value) // PAGE) for value in self.items().values())

    # ---- the changes: each returns the messages of one line

    def save(self):
        is_full = self.registers and self.cost() > self.room - 20
        register = self.random.choice(sorted(self.registers)) if is_full else self.random.randrange(100)
        volts = self.number % 60000 + 1
        self.settings = struct.pack(">HHHB", volts, 0, 60000, 0) + RESET_OUTPUT * 3
        self.registers[register] = self.settings
        return f"VOLT {volts / 1000:.3f};*SAV {register}"

    def store_user_data(self):
        self.user = f"user data {self.number}".encode()
        return f":DIAG:PUD:PROT OFF;*PUD {block(self.user.decode())}"

    def define_macro(self):
        if len(self.macros) == 32:
            return self.remove_macro()
        label, body = f"M{self.number}", f"VOLT {self.number % 60}"
        self.macros.append((label.encode(), body.encode()))
        return f'*DMC "{label}",{block(body)}'

    def remove_macro(self):
        if not self.macros:
            return self.define_macro()
        label, _ = self.macros.pop(self.random.randrange(len(self.macros)))
        return f'*RMC "{label.decode()}"'

    def purge_macros(self):
        self.macros = []
        return "*PMC"

    def set_flag(self):
        self.flag = not self.flag
        return f"*PSC {int(self.flag)}"

    def enable(self):
        if self.flag:
            return self.set_flag()
        self.sre = self.number % 64
        return f"*SRE {self.sre}"

    def enable_events(self):
        if self.flag:
            return self.set_flag()
        self.ese = self.number % 256
        return f"*ESE {self.ese}"

    def choose_power_on(self):
        self.recall = not self.recall
        return f":OUTP:PON:STAT {'RCL0' if self.recall else 'RST'}"

    def write_file(self):
        if self.cost() > self.room - 40:
            return self.delete_file()
        name = f"f{self.random.randrange(12)}"
        data = f"file {self.number} " * self.random.randrange(1, 300)
        self.files[name] = BIN, data.encode()
        return f':MMEM:DATA "{name}",{block(data)}'

    def some_file(self):
        return self.random.choice(sorted(self.files))

    def delete_file(self):
        if not self.files:
            return self.save()
        name = self.some_file()
        del self.files[name]
        return f':MMEM:DEL "{name}"'

    def copy_file(self):
        if not self.files or self.cost() > self.room - 40:
            return self.delete_file()
        name, other = self.some_file(), f"c{self.number}"
        self.files[other] = self.files[name]
        return f':MMEM:COPY "{name}","{other}"'

    def move_file(self):
        if not self.files:
            return self.write_file()
        name, other = self.some_file(), f"m{self.number}"
        self.files[other] = self.files.pop(name)
        return f':MMEM:MOVE "{name}","{other}"'

    def store_state(self):
        register = self.random.choice(sorted(self.registers) or [0])
        name = f"s{self.random.randrange(4)}"
        self.files[name] = STAT, self.registers.get(register, RESET)
        return f':MMEM:STOR:STAT {register},"{name}"'

    def load_state(self):
        name = next((name for name, (kind, _) in sorted(self.files.items()) if kind == STAT), None)
        if name is None:
            return self.store_state()
        register = self.random.randrange(100)
        self.registers[register] = self.files[name][1]
        return f':MMEM:LOAD:STAT {register},"{name}"'

    def store_macro(self):
        if not self.macros:
            return self.define_macro()
        label, body = self.random.choice(self.macros)
        self.files["macro"] = MACR, body
        return f':MMEM:STOR:MACR "{label.decode()}","macro"'

    def load_macro(self):
        if "macro" not in self.files or len(self.macros) == 32:
            return self.remove_macro()
        label = f"L{self.number}"
        self.macros.append((label.encode(), self.files["macro"][1]))
        return f':MMEM:LOAD:MACR "{label}","macro"'

    KINDS = [
        save, save, save, store_user_data, define_macro, remove_macro, set_flag, enable, enable_events, choose_power_on, write_file, write_file,
        delete_file, copy_file, move_file, store_state, load_state, store_macro, load_macro,
    ]  # fmt: skip

    def change(self):
        """Makes a change of a random kind: the message that asks for it."""
        self.number += 1
        kind = Model.purge_macros if self.number % 61 == 0 else self.random.choice(Model.KINDS)
        return kind(self)


class FilesOfClient(Model):
    """The files of one of several clients at once, whose names begin with its own letter. No other client changes them."""

    def __init__(self, seed, client, clients):
        super().__init__(seed)
        self.letter, self.room = letter_of(client), LIMIT // clients

    def change(self):
        self.number += 1
        if not self.files or self.cost() <= self.room - 40 and self.random.random() < 0.5:
            return self.write_own()
        name, other = self.some_file(), f"{self.letter}{self.number}"
        kind = self.random.choice(["DEL", "COPY", "MOVE"])
        if kind == "DEL" or kind == "COPY" and self.cost() > self.room - 40:
            del self.files[name]
            return f':MMEM:DEL "{name}"'
        self.files[other] = self.files[name] if kind == "COPY" else self.files.pop(name)
        return f':MMEM:{kind} "{name}","{other}"'

    def write_own(self):
        name = f"{self.letter}f{self.random.randrange(4)}"
        data = f"file {self.number} " * self.random.randrange(1, 300)
        self.files[name] = BIN, data.encode()
        return f':MMEM:DATA "{name}",{block(data)}'


def letter_of(client):
    return chr(ord("a") + client)


def is_of_client(key, client):
    """Whether an item is a file of a client."""
    return key.startswith(b"\5" + letter_of(client).encode())


def history(model, changes, together):
    """The lines of a script, the contents after each line (the first: before all), and which lines confirm what came before them."""
    lines, contents, confirming = [], [model.items()], set()
    while changes > 0:
        for _ in range(model.random.randint(1, together)):
            lines.append(model.change())
            contents.append(model.items())
            changes -= 1
        lines.append("*OPC?;:SYST:ERR?")
        contents.append(model.items())
        confirming.add(len(lines))
    return lines, contents, confirming


# ---- what an image represents


def root_of(image, page):
    """A root whose gate is open: its number and its bytes; or nothing."""
    root = image[page * PAGE : (page + 1) * PAGE]
    return (struct.unpack(">Q", root[8:16])[0], root) if len(root) == PAGE and root[0] == 0xA5 else None


def item_of(image, page):
    """The item of a head page: its key and its value."""
    head = image[page * PAGE : (page + 1) * PAGE]
    key = head[1 : 1 + head[0]]
    at = 1 + head[0]
    length, count = struct.unpack(">IH", head[at : at + 6])
    pages = struct.unpack(f">{count}H", head[at + 6 : at + 6 + 2 * count])
    return key, b"".join(image[it * PAGE : (it + 1) * PAGE] for it in pages)[:length]


def represented(image):
    """The items that an image represents: those of the root with an open gate and the higher number. ValueError where there is none."""
    roots = sorted(filter(None, (root_of(image, 0), root_of(image, 1))))
    if not roots or roots[-1][1][1:4] != b"PSU":
        raise ValueError("no root")
    try:
        root = roots[-1][1]
        count = struct.unpack(">H", root[16:18])[0]
        heads = struct.unpack(f">{count}H", root[18 : 18 + 2 * count])
        return dict(item_of(image, page) for page in heads)
    except (struct.error, IndexError) as error:
        raise ValueError(f"bad root: {error}") from error


KIND_NAMES = {0: "BIN", 1: "STAT", 2: "MACR"}


def macros_in(value):
    """How many macros an item has."""
    count, at = 0, 0
    while at < len(value):
        at += 1 + value[at]
        at += 2 + struct.unpack_from(">H", value, at)[0]
        count += 1
    return count


def report(image, items):
    """What `psu recover` has to print of an image with these items."""
    number, root = max(filter(None, (root_of(image, 0), root_of(image, 1))))
    version, limit = struct.unpack(">HH", root[4:8])
    cost = sum(1 + -(-len(value) // PAGE) for value in items.values())
    sre, ese = items.get(b"\1", (None, None))
    is_requested = sre is not None and sre & 32 and ese & 128
    lines = [f"image version {version} root {number}", f"pages {cost} of {limit}"]
    lines.append("enables none" if sre is None else f"enables {sre} {ese}")
    lines.append("request 96" if is_requested else "request none")
    lines += ["power RCL0"] if b"\6" in items else []
    lines += [f"user {len(items.get(bytes([3]), b''))}", f"macros {macros_in(items.get(bytes([4]), b''))}"]
    for key, value in sorted(items.items()):
        if key[:1] == b"\5":
            lines.append(f"file {key[1:].decode()},{KIND_NAMES[value[0]]},{len(value) - 1}")
    return "".join(f"{it}\n" for it in lines)
