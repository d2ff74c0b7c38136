"""A model of the import of several recordings and of kits, for checks/kits/run: WAVE files, tables, and the edits that
`sfbank` must make of them. It shares no code with the program."""
import itertools
import os
import struct
from dataclasses import dataclass, replace

NAME_BYTES = 20
SIDES = (" L", " R")
UNPITCHED_KEY = 60
KEYS = VELOCITIES = (0, 127)
# The pans of a left and a right side.
SIDE_PANS = (-500, 500)
# Generators.
KEY_RANGE, VELOCITY_RANGE, PAN, LOOPED, CLASS, ROOT = 43, 44, 17, 54, 57, 58


# ---- recordings


@dataclass(frozen=True)
class Recording:
    """A recording: its frames a second, the points of each channel, its pitch as a note and cents above it or None, and
    its loop as its first frame and the first one after it, or None. Only a recording with a pitch has a loop."""

    rate: int
    channels: tuple
    pitch: tuple = None
    loop: tuple = None

    def wave(self):
        """Returns the WAVE file."""
        data = b"".join(struct.pack(f"<{len(it)}h", *it) for it in zip(*self.channels))
        count = len(self.channels)
        chunks = [(b"fmt ", struct.pack("<HHIIHH", 1, count, self.rate, 2 * count * self.rate, 2 * count, 16))]
        if self.pitch:
            chunks.append((b"smpl", self.sampler()))
        chunks.append((b"data", data))
        body = b"WAVE" + b"".join(name + struct.pack("<I", len(it)) + it for name, it in chunks)
        return b"RIFF" + struct.pack("<I", len(body)) + body

    def sampler(self):
        """Returns the body of the chunk `smpl`; the fraction of the pitch is in 2^32 parts of a semitone."""
        note, cents = self.pitch
        head = struct.pack("<9I", 0, 0, 10**9 // self.rate, note, (cents << 32) // 100, 0, 0, 1 if self.loop else 0, 0)
        return head + (struct.pack("<6I", 0, 0, self.loop[0], self.loop[1] - 1, 0, 0) if self.loop else b"")

    def key(self):
        """Returns the key and the correction of its samples."""
        if not self.pitch:
            return UNPITCHED_KEY, 0
        note, cents = self.pitch
        return (note, -cents) if cents <= 50 or note == 127 else (note + 1, 100 - cents)


def as_read(recording, key, channel):
    """Returns a recording as it is read with `--key` and `--channel`, each None if it is not given."""
    if channel is not None:
        recording = replace(recording, channels=(recording.channels[channel - 1],))
    return replace(recording, pitch=(key, 0)) if key is not None else recording


# ---- tables


@dataclass(frozen=True)
class Row:
    """A line of a table. The path is that of the table; the optional parts are None if they are left out."""

    path: str
    keys: tuple
    velocities: tuple = None
    root: int = None
    pan: int = None
    group: int = None


def indexed(rows):
    """Returns the distinct paths of the rows of a table, in the order of first use, and each row with the index of its
    path among them."""
    paths = list(dict.fromkeys(it.path for it in rows))
    return paths, [(paths.index(it.path), it) for it in rows]


def whole(paths):
    """Returns these paths, which are given without a table, and a row for each with its index."""
    return paths, [(index, Row(path, KEYS)) for index, path in enumerate(paths)]


# ---- edits


def literal(name):
    is_plain = all(0x20 <= it <= 0x7E and it != 0x22 for it in name)
    return f'"{name.decode()}"' if is_plain else f"x{name.hex()}"


def stem_of(path):
    return os.fsencode(os.path.splitext(os.path.basename(path))[0])


def names_of(stem, ending, sides):
    """Returns the names of the samples of a recording, with this ending of the stem."""
    most = NAME_BYTES - len(sides[0]) - len(ending)
    return [stem[:most] + (ending + it).encode() for it in sides]


def distinct_names(recordings):
    """Returns the names of the samples of each recording, given by its path and its number of channels."""
    used, names = set(), []
    for path, channels in recordings:
        sides = SIDES if channels == 2 else ("",)
        endings = itertools.chain([""], (f"~{it}" for it in itertools.count(2)))
        names.append(next(it for ending in endings if not used & set(it := names_of(stem_of(path), ending, sides))))
        used |= set(names[-1])
    return names


def pans_of(row, channels):
    """Returns the pan of each side, or None."""
    if channels == 1:
        return [row.pan]
    return [max(-500, min(500, it + (row.pan or 0))) for it in SIDE_PANS]


def zone(row, sample, pan, is_looped):
    """Returns a zone as text, in canonical form."""
    root = row.root if row.root is not None else row.keys[0] if row.keys[0] == row.keys[1] else None
    items = [f"g {PAN} {pan}" if pan is not None else "", f"g {LOOPED} 1" if is_looped else ""]
    items += [f"g {CLASS} {row.group}" if row.group else "", f"g {ROOT} {root}" if root is not None else ""]
    ranges = [(KEY_RANGE, row.keys, KEYS), (VELOCITY_RANGE, row.velocities or VELOCITIES, VELOCITIES)]
    ranged = [f"g {operator} {low}..{high}" for operator, (low, high), full in ranges if (low, high) != full]
    return " ".join(["{", str(sample), *ranged, *(it for it in items if it), "}"])


@dataclass
class Sample:
    """A sample: its name, its recording with the channel, and the sample that is its other side, or None."""

    name: bytes
    recording: Recording
    channel: int
    other: int

    def line(self, number, kind, with_points=True):
        key, correction = self.recording.key()
        points = self.recording.channels[self.channel]
        loop = "loop {} {}".format(*self.recording.loop) if self.recording.loop else "noloop"
        last = f"x{struct.pack(f'<{len(points)}h', *points).hex()}" if with_points else str(len(points))
        return f"{number} {literal(self.name)} {self.recording.rate} {key} {correction} {kind} {loop} {last}"

    def kind(self):
        return "mono" if self.other is None else f"{('left', 'right')[self.channel]} {self.other}"


class Kit:
    """What a command makes in a bank with so many samples, instruments and presets. `recordings` has each path with its
    recording as it is read, and each of `rows` is a row with the index of its recording. An instrument is a name, a
    preset its two numbers and its name."""

    def __init__(self, counts, recordings, rows, instrument=None, preset=None):
        self.counts, self.instrument, self.preset = counts, instrument, preset
        self.samples, self.zones = {}, []
        names = distinct_names([(path, len(it.channels)) for path, it in recordings])
        number, first = counts[0], []
        for (_, recording), sides in zip(recordings, names):
            first.append(number)
            for side, name in enumerate(sides):
                other = number + 1 - 2 * side if len(sides) == 2 else None
                self.samples[number] = Sample(name, recording, side, other)
                number += 1
        self.zones = [
            zone(row, first[index] + side, pan, recordings[index][1].loop is not None)
            for index, row in rows
            for side, pan in enumerate(pans_of(row, len(recordings[index][1].channels)))
        ]

    def instrument_line(self):
        return " ".join([str(self.counts[1]), literal(self.instrument), *self.zones])

    def preset_line(self):
        bank, number, name = self.preset
        return f"{self.counts[2]} {literal(name)} {number} {bank} 0 0 0 {{ {self.counts[1]} }}"

    def edits(self):
        """Returns the lines of the edits."""
        lines = []
        for number, it in self.samples.items():
            lines.append(f"add-sample {it.line(number, 'mono' if it.channel == 0 else f'right {it.other}')}")
            if it.channel == 1:
                lines.append(f"set-kind {it.other} left {number}")
        lines += [f"add-inst {self.instrument_line()}"] if self.instrument is not None else []
        return lines + ([f"add-preset {self.preset_line()}"] if self.preset else [])

    def undo(self):
        """Returns the lines of the undo script."""
        lines = [f"remove-preset {self.counts[2]}"] if self.preset else []
        lines += [f"remove-inst {self.counts[1]}"] if self.instrument is not None else []
        for number, it in reversed(self.samples.items()):
            lines += [f"set-kind {it.other} mono"] if it.channel == 1 else []
            lines.append(f"remove-sample {number}")
        return lines

    def script(self, lines):
        """Returns the script of the bank with the kit, from that of the bank without it."""
        samples = [f"add-sample {it.line(number, 'mono')}" for number, it in self.samples.items()]
        kinds = [f"set-kind {number} {it.kind()}" for number, it in self.samples.items() if it.other is not None]
        instruments = [f"add-inst {self.instrument_line()}"] if self.instrument is not None else []
        presets = [f"add-preset {self.preset_line()}"] if self.preset else []
        kept = {it: [] for it in ("", "add-sample", "set-kind", "add-inst", "add-preset")}
        for line in lines:
            word = line.split()[0]
            kept[word if word in kept else ""].append(line)
        parts = zip(kept.values(), ([], samples, kinds, instruments, presets))
        return [line for old, new in parts for line in (*old, *new)]

    def listing(self, lines):
        """Returns the listing with zones of the bank with the kit, from that of the bank without it."""
        first, counts, *lines = lines
        samples = [f"sample {it.line(number, it.kind(), False)}" for number, it in self.samples.items()]
        instruments, presets = [], []
        if self.instrument is not None:
            number = self.counts[1]
            instruments = [f"inst {number} {literal(self.instrument)} {len(self.zones)}"]
            instruments += [f"zone inst {number} {place} {it}" for place, it in enumerate(self.zones)]
        if self.preset:
            bank, midi, name = self.preset
            presets = [f"preset {self.counts[2]} {literal(name)} {midi} {bank} 1"]
            presets.append(f"zone preset {self.counts[2]} 0 {{ {self.counts[1]} }}")
        kept = {"preset": [], "inst": [], "sample": []}
        for line in lines:
            words = line.split()
            kept[words[1] if words[0] == "zone" else words[0]].append(line)
        parts = zip(kept.values(), (presets, instruments, samples))
        return [self.first_line(first), counts, *(line for old, new in parts for line in (*old, *new))]

    def first_line(self, line):
        words = line.split()
        points = sum(len(it.recording.channels[it.channel]) for it in self.samples.values())
        more = (self.preset is not None, self.instrument is not None, len(self.samples), points)
        for place, count in zip((3, 5, 7, 9), more):
            words[place] = str(int(words[place]) + count)
        return " ".join(words)
