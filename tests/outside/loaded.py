"""What apparmor_parser would load into the kernel, read from its binary form, and what the kernel would decide by it.

A profile's binary form is a row of tagged values. Its automata are tables in the kernel's form: a state's next one stands in a
table that states share, at the state's base and the byte's class, if the table's check names the state, else the state has one
for all other bytes.
"""

import os
import struct
import subprocess
import tempfile

FEATURES = "/usr/share/apparmor-features/features"
# Tags of values: numbers of 1, 2, 4 and 8 bytes, a name of what follows, texts, bytes, and what begins and ends.
SIZES = {0: "<B", 1: "<H", 2: "<I", 3: "<Q"}
NAME, TEXT, BYTES, STRUCT, STRUCT_END, LIST, LIST_END, ARRAY, ARRAY_END = range(4, 13)
# Bits of a state's permissions: exec, write, read, append, link, lock, map, and what an execution leads to; the half of who
# doesn't own the file lies 14 bits up.
EXEC, WRITE, READ, APPEND, LINK, LOCK, MAP = (1 << bit for bit in range(7))
LETTERS = {"r": READ, "w": WRITE, "a": APPEND, "l": LINK, "k": LOCK, "m": MAP, "x": EXEC}
BASE, OTHERS = 0x7F, 14


class Endless(Exception):
    """The parser takes long: some patterns have very large automata, and some it never ends on."""


class Automaton:
    """An automaton as the kernel walks it."""

    def __init__(self, blob):
        _, header, size, _ = struct.unpack_from(">IIIH", blob)
        self.tables, at = {}, header
        while at < size:
            kind, width, _, count = struct.unpack_from(">HHII", blob, at)
            self.tables[kind] = struct.unpack_from(f">{count}{'xBHxI'[width]}", blob, at + 12)
            at += (12 + width * count + 7) // 8 * 8

    def step(self, state, byte):
        classes = self.tables.get(5)
        place = classes[byte] if classes else byte
        while True:
            base = self.tables[2][state]
            at = (base & 0xFFFFFF) + place
            if self.tables[3][at] == state:
                return self.tables[8][at]
            state = self.tables[4][state]
            if not base & 0x80000000:
                return state

    def walk(self, state, text):
        for byte in text:
            state = self.step(state, byte)
        return state

    def accepts(self, state):
        """The two words of permissions that a state has."""
        return self.tables[1][state], self.tables[7][state] if 7 in self.tables else 0


class Perms:
    """What a file automaton says of one path: allowed, audited and quiet bits, and what an execution leads to."""

    def __init__(self, words, owned):
        shift = 0 if owned else OTHERS
        allow, other = words[0] >> shift, words[1] >> shift
        self.allow, self.audit, self.quiet = allow & BASE, other & BASE, (other >> 7) & BASE
        self.unsafe, self.inherit, self.unconfined = allow & 0x100, allow & 0x200, allow & 0x80
        self.leads = (allow >> 10) & 0xF

    def transition(self):
        """All that tells what an execution leads to."""
        return (bool(self.unsafe), bool(self.inherit), bool(self.unconfined), self.leads)


class Values:
    """The tagged values of a binary form, one after another."""

    def __init__(self, blob):
        self.blob, self.at = blob, 0

    def take(self, form):
        (value,) = struct.unpack_from(form, self.blob, self.at)
        self.at += struct.calcsize(form)
        return value

    def bytes(self, size):
        self.at += size
        return self.blob[self.at - size : self.at]

    def next(self):
        """The next value with its name."""
        name, tag = "", self.take("<B")
        if tag == NAME:
            name = self.bytes(self.take("<H"))[:-1].decode()
            tag = self.take("<B")
        if tag in SIZES:
            return name, tag, self.take(SIZES[tag])
        if tag == TEXT:
            return name, tag, self.bytes(self.take("<H"))[:-1]
        if tag == BYTES:
            return name, tag, self.bytes(self.take("<I"))
        if tag == ARRAY:
            return name, tag, self.take("<H")
        return name, tag, None

    def rest(self):
        """All values up to the end of what was begun, with what stands inside the values that begin something."""
        found = []
        while self.at < len(self.blob):
            name, tag, value = self.next()
            if tag in (STRUCT_END, LIST_END, ARRAY_END):
                break
            if tag in (STRUCT, LIST, ARRAY):
                value = self.rest()
            found.append((name, tag, value))
        return found


def automaton_of(blob):
    """The automaton of some bytes, which zeros may stand before."""
    return Automaton(blob[blob.index(struct.pack(">I", 0x1B5E783D)) :])


class Profile:
    """A profile as the kernel holds it."""

    def __init__(self, values):
        self.named = {name: value for name, _, value in values if name}
        self.name = next(value for _, tag, value in values if tag == TEXT).decode()
        plain = [value for name, tag, value in values if tag == 2 and not name]
        blobs = [at for at, (name, tag, _) in enumerate(values) if tag == BYTES]
        flags = next(at for at, (name, _, _) in enumerate(values) if name == "flags")
        matching = [at for at in blobs if at < flags]
        self.attachment = automaton_of(values[matching[0]][2]) if matching else None
        self.length = plain.pop(0) if matching else 0
        self.caps = [low | high << 32 for low, high in zip(plain[:4], [value for _, _, value in self.named["caps64"]])]
        files = [at for at in blobs if at > flags]
        self.files = automaton_of(values[files[-1]][2]) if files else None
        table = self.named.get("xtable", [])
        self.targets = [value.decode() for _, tag, value in (table[0][2] if table else []) if tag == TEXT]
        rules = self.named.get("policydb", [])
        self.rules = automaton_of(rules[0][2]) if rules else None

    def perms(self, path, owned):
        if self.files is None:
            return Perms((0, 0), owned)
        return Perms(self.files.accepts(self.files.walk(1, path.encode())), owned)

    def attaches(self, path):
        if self.attachment is None:
            return self.name == path
        return self.attachment.accepts(self.attachment.walk(1, path.encode()))[0] & EXEC != 0


def loaded(policy):
    """The profiles that the parser makes of the policy, by their names, and none where it refuses it."""
    with tempfile.NamedTemporaryFile("w") as file:
        file.write(policy)
        file.flush()
        command = ["apparmor_parser", "-QKS", "--features-file", FEATURES, file.name]
        try:
            done = subprocess.run(command, stdout=subprocess.PIPE, stderr=subprocess.PIPE, timeout=10)
        except subprocess.TimeoutExpired as error:
            raise Endless from error
    if done.returncode:
        return None
    profiles = {}
    for name, tag, value in Values(done.stdout).rest():
        if name == "profile" and tag == STRUCT:
            profile = Profile(value)
            profiles[profile.name] = profile
    return profiles
