#!/usr/bin/env python3
"""What stands in an archive of object files, for Linux and Android (ELF) and for Apple's systems (Mach-O), fat ones too.

    objects.py look ARCHIVE DECLARED TRIPLE..   whether it is what an app for these triples can link: exactly one object for each, of its machine and
                                                system, that defines exactly the functions that the file DECLARED names, needs nothing else than to copy
                                                and to fill memory, and has nothing that can be written. Status 1, with the reason, where it is not.
    objects.py fat OUT ARCHIVE..                joins archives for several processors of one of Apple's systems
    objects.py image DYLIB NAME BYTES SOURCE    of a linked Mach-O library: the bytes of its text segment, and an assembler source that holds them and
                                                has its functions' names, so that a Linux program can call them. Status 1 where something has to be
                                                changed in it when it is loaded, or can be written.

Written against the ELF specification and Apple's <mach-o/loader.h> and <mach-o/fat.h>. Sizes and places are little-endian but in a fat file's head.
"""
import re
import struct
import sys

# Of C, what an object may leave undefined. Apple's systems have bzero beside memset, and its compiler takes one for the other.
FROM_C = {"memcpy", "memmove", "memset", "memcmp"}
FROM_APPLE = FROM_C | {"bzero", "__bzero"}
FAT = 0xCAFEBABE
MACHO = 0xFEEDFACF
CPUS = {0x01000007: "x86_64", 0x0100000C: "aarch64"}
ELF_MACHINES = {62: "x86_64", 183: "aarch64"}
SYSTEMS = {1: "macos", 2: "ios", 7: "ios-simulator"}
LC_SYMTAB, LC_SEGMENT, LC_BUILD_VERSION, LC_DYLD_INFO_ONLY = 0x2, 0x19, 0x32, 0x80000022
LC_DYLD_CHAINED_FIXUPS = 0x80000034


class Wrong(Exception):
    pass


def text(data, at):
    return data[at:data.index(b"\0", at)].decode("ascii")


def fixed(data):
    return data.split(b"\0")[0].decode("ascii")


class Object:
    """The facts of one object file."""

    def __init__(self, name):
        self.name, self.machine, self.system = name, None, None
        self.defined, self.undefined, self.writable = [], [], []


def elf(name, data):
    o = Object(name)
    if data[4:6] != b"\x02\x01":
        raise Wrong(f"{name} is no little-endian ELF file of 64 bits")
    kind, machine = struct.unpack_from("<HH", data, 16)
    if kind != 1:
        raise Wrong(f"{name} is no object file")
    # Android's are of the same kind; lib-archive.sh tells them by their name
    o.machine, o.system = ELF_MACHINES.get(machine, f"machine {machine}"), "android" if name.endswith("-android.o") else "linux"
    table, = struct.unpack_from("<Q", data, 40)
    width, count, names = struct.unpack_from("<HHH", data, 58)
    sections = [struct.unpack_from("<IIQQQQIIQQ", data, table + i * width) for i in range(count)]
    for s in sections:
        if s[2] & 1:
            o.writable.append(text(data, sections[names][4] + s[0]))
        if s[1] != 2:
            continue
        strings = sections[s[6]][4]
        for at in range(s[4], s[4] + s[5], s[9]):
            label, info, _, where = struct.unpack_from("<IBBH", data, at)
            if info >> 4 == 0:
                continue  # local
            (o.undefined if where == 0 else o.defined).append(text(data, strings + label))
    return o


def commands(data):
    """The load commands of a Mach-O file: number and place of each."""
    at = 32
    for _ in range(struct.unpack_from("<I", data, 16)[0]):
        number, size = struct.unpack_from("<II", data, at)
        yield number, at
        at += size


def symbols(data, at):
    """Name, type, section and value of each entry of a symbol table."""
    place, count, strings, _ = struct.unpack_from("<IIII", data, at + 8)
    for i in range(count):
        label, kind, section, _, value = struct.unpack_from("<IBBHQ", data, place + 16 * i)
        yield text(data, strings + label), kind, section, value


def version(number):
    return f"{number >> 16}.{number >> 8 & 255}"


def macho(name, data):
    o = Object(name)
    cpu, _, kind = struct.unpack_from("<III", data, 4)
    if kind != 1:
        raise Wrong(f"{name} is no object file")
    o.machine = CPUS.get(cpu, f"processor {cpu:#x}")
    for number, at in commands(data):
        if number == LC_BUILD_VERSION:
            system, least = struct.unpack_from("<II", data, at + 8)
            o.system = f"{SYSTEMS.get(system, f'system {system}')} {version(least)}"
        elif number == LC_SEGMENT:
            for i in range(struct.unpack_from("<I", data, at + 64)[0]):
                section, segment = (fixed(data[at + 72 + 80 * i + k:][:16]) for k in (0, 16))
                # an object has no protections yet: its segment's name says where a section will stand. What is told of frames is for the linker.
                if segment not in ("__TEXT", "__LD"):
                    o.writable.append(f"{segment},{section}")
        elif number == LC_SYMTAB:
            for label, kind, _, _ in symbols(data, at):
                if not kind & 1:
                    continue  # local
                if not label.startswith("_"):
                    raise Wrong(f"{name} has the symbol {label}, which no C can name")
                (o.defined if kind & 0x0E else o.undefined).append(label[1:])
    return o


def members(name, data):
    """The files of an archive, by their names and places in it, but for its own tables."""
    if data[:8] != b"!<arch>\n":
        raise Wrong(f"{name} is no archive")
    at, found = 8, []
    while at < len(data):
        head = data[at:at + 60]
        if len(head) < 60 or head[58:] != b"`\n":
            raise Wrong(f"{name} is broken at byte {at}")
        size = int(head[48:58])
        start, label = at + 60, head[:16].decode("ascii").rstrip()
        body = data[start:start + size]
        if head[16:40].split() != [b"0", b"0", b"0"] and label not in ("/", "//"):
            raise Wrong(f"{name} has a time or an owner at byte {at}")
        if label.startswith("#1/"):
            long = int(label[3:])
            label, body, start = fixed(body[:long]), body[long:], start + long
        if label not in ("/", "//", "__.SYMDEF", "__.SYMDEF SORTED"):
            found.append((label.rstrip("/"), start, body))
        at += 60 + size + (size & 1)
    return found


def slices(name, data):
    """The archives in a file: itself, or those of a fat one."""
    if struct.unpack_from(">I", data)[0] != FAT:
        return [(None, 0, data)]
    found = []
    for i in range(struct.unpack_from(">I", data, 4)[0]):
        cpu, _, start, size, _ = struct.unpack_from(">IIIII", data, 8 + 20 * i)
        found.append((CPUS.get(cpu), start, data[start:start + size]))
    return found


def objects(name):
    with open(name, "rb") as file:
        data = file.read()
    found = []
    for cpu, place, archive in slices(name, data):
        for label, start, body in members(name, archive):
            if body[:4] == b"\x7fELF":
                o = elf(label, body)
            elif struct.unpack_from("<I", body)[0] == MACHO:
                o = macho(label, body)
                if (place + start) % 8:
                    raise Wrong(f"{name} has {label} at byte {place + start}, which is no multiple of 8, as Apple's linker wants")
            else:
                raise Wrong(f"{name} has {label}, which is no object file")
            if cpu not in (None, o.machine):
                raise Wrong(f"{name} has {label} for {o.machine} under {cpu}")
            found.append(o)
    return found


def wanted(triple):
    """Machine and system that an object for a triple has."""
    cpu, _, system = triple.split("-", 2)
    machine = {"arm64": "aarch64"}.get(cpu, cpu)
    if system.startswith("linux-"):
        return machine, {"linux-gnu": "linux", "linux-android": "android"}[system]
    name, least, simulator = re.fullmatch(r"(ios|macosx)([\d.]+)(-simulator)?", system).groups()
    return machine, f"{name.removesuffix('x')}{simulator or ''} {least}"


def look(name, declared, triples):
    with open(declared, encoding="ascii") as file:
        functions = sorted(file.read().split())
    found = objects(name)
    machines = sorted((o.machine, o.system) for o in found)
    if machines != sorted(map(wanted, triples)):
        raise Wrong(f"{name} is for {machines}, not for {sorted(map(wanted, triples))}")
    for o in found:
        more, less = sorted(set(o.defined) - set(functions)), sorted(set(functions) - set(o.defined))
        if more or less or len(o.defined) != len(functions):
            raise Wrong(f"{name} has not exactly the functions of include/seg2.h; more: {more}, less: {less}")
        left = sorted(set(o.undefined) - (FROM_C if o.system in ("linux", "android") else FROM_APPLE))
        if left:
            raise Wrong(f"{name} needs more of C than to copy and to fill memory: {left}")
        if o.writable:
            raise Wrong(f"{name} has memory of its own: {o.writable}")


def fat(out, archives):
    """A fat file's head, then each archive at a multiple of 8 bytes, as the archive's own parts are."""
    parts, head, at = [], struct.pack(">II", FAT, len(archives)), 8 + 20 * len(archives)
    for name in archives:
        with open(name, "rb") as file:
            data = file.read()
        (_, _, body), = members(name, data)
        cpu, kind = struct.unpack_from("<II", body, 4)
        at += -at % 8
        head += struct.pack(">IIIII", cpu, kind, at, len(data), 3)
        parts.append((at, data))
        at += len(data)
    with open(out, "wb") as file:
        file.write(head)
        for start, data in parts:
            file.write(bytes(start - file.tell()) + data)


def image(name, base, to, source):
    with open(name, "rb") as file:
        data = file.read()
    held, labels = None, []
    for number, at in commands(data):
        if number == LC_SEGMENT:
            segment = fixed(data[at + 8:at + 24])
            address, size, start, length, _, protection = struct.unpack_from("<QQQQII", data, at + 24)
            if segment == "__TEXT":
                if address or start or length != size or protection & 2:
                    raise Wrong(f"{name}'s text does not stand at its start, or can be written")
                held = data[:size]
            elif segment != "__LINKEDIT":
                raise Wrong(f"{name} has a segment {segment}: something in it is changed when it is loaded")
        elif number == LC_DYLD_INFO_ONLY and any(struct.unpack_from("<8I", data, at + 8)[1::2]):
            raise Wrong(f"{name} has places that are changed when it is loaded")
        elif number == LC_DYLD_CHAINED_FIXUPS:
            place, = struct.unpack_from("<I", data, at + 8)
            if struct.unpack_from("<I", data, place + 16)[0]:
                raise Wrong(f"{name} has imports")
        elif number == LC_SYMTAB:
            labels = [(label[1:], value) for label, kind, section, value in symbols(data, at) if kind & 0x0E and label.startswith("_seg2_")]
    if held is None or not labels:
        raise Wrong(f"{name} has no text or no function")
    with open(to, "wb") as file:
        file.write(held)
    with open(source, "w", encoding="ascii") as file:
        file.write(f'.section .text.{base},"ax"\n.balign 16384\n{base}:\n.incbin "{to}"\n')
        for label, value in labels:
            file.write(f".globl {label}\n.type {label}, %function\n.set {label}, {base} + {value}\n")
        file.write('.section .note.GNU-stack,"",%progbits\n')


def main(words):
    try:
        match words:
            case ["look", archive, declared, *triples] if triples:
                look(archive, declared, triples)
            case ["fat", out, *archives] if archives:
                fat(out, archives)
            case ["image", name, base, to, source]:
                image(name, base, to, source)
            case _:
                sys.exit(__doc__)
    except (Wrong, struct.error, ValueError, IndexError) as reason:
        sys.exit(f"objects.py: {reason}")


if __name__ == "__main__":
    main(sys.argv[1:])
