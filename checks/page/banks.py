"""Bank files for pages: what is in one, and small ones with hostile names."""
import struct


def chunk(name, content):
    return name + struct.pack("<I", len(content)) + content + b"\0" * (len(content) % 2)


def lists_of(data):
    """Returns the chunks in the lists of a bank file, by name."""
    found, at = {}, 12
    while at + 8 <= len(data):
        name, size = data[at:at + 4], struct.unpack_from("<I", data, at + 4)[0]
        if name == b"LIST":
            at += 12
            continue
        found[name] = data[at + 8:at + 8 + size]
        at += 8 + size + size % 2
    return found


def names_of(data):
    """Returns the names of the presets, the instruments and the samples of a bank file, as a page shows them."""
    found = lists_of(data)
    sizes = {"preset": (b"phdr", 38), "inst": (b"inst", 22), "sample": (b"shdr", 46)}
    return {
        kind: [shown(found[name][at:at + 20]) for at in range(0, len(found[name]) - size, size)]
        for kind, (name, size) in sizes.items()
    }


def shown(name):
    """A name as a page shows it."""
    return "".join(chr(b) if 32 <= b <= 126 or b in b"\r\n" else "\ufffd" for b in name.split(b"\0")[0])


def hostile(names, texts):
    """Returns a bank file with a preset, an instrument and a sample of each name."""
    points = struct.pack("<48h", *(30_000 if i % 2 else -30_000 for i in range(48)))
    head = lambda name: name[:20].ljust(20, b"\0")  # noqa: E731
    count = len(names)
    presets = b"".join(head(it) + struct.pack("<3H3I", i, 0, i, 0, 0, 0) for i, it in enumerate([*names, b"EOP"]))
    instruments = b"".join(head(it) + struct.pack("<H", i) for i, it in enumerate([*names, b"EOI"]))
    samples = b"".join(
        head(it) + struct.pack("<5I2B2H", i * 94, i * 94 + 48, i * 94 + 8, i * 94 + 40, 44_100, 60, 0, 0, 1)
        for i, it in enumerate(names))
    bags = b"".join(struct.pack("<2H", i, 0) for i in range(count + 1))
    generators = lambda target: b"".join(  # noqa: E731
        struct.pack("<2H", target, i) for i in range(count)) + bytes(4)
    records = [
        (b"phdr", presets), (b"pbag", bags), (b"pmod", bytes(10)), (b"pgen", generators(41)),
        (b"inst", instruments), (b"ibag", bags), (b"imod", bytes(10)), (b"igen", generators(53)),
        (b"shdr", samples + head(b"EOS") + bytes(26)),
    ]
    info = chunk(b"ifil", struct.pack("<2H", 2, 4)) + b"".join(
        chunk(name, text + b"\0" * (2 - len(text) % 2)) for name, text in texts.items())
    data = b"".join([
        chunk(b"LIST", b"INFO" + info),
        chunk(b"LIST", b"sdta" + chunk(b"smpl", (points + bytes(92)) * count)),
        chunk(b"LIST", b"pdta" + b"".join(chunk(name, text) for name, text in records)),
    ])
    return chunk(b"RIFF", b"sfbk" + data)
