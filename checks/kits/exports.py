"""Tests of `sfbank wave --all` for checks/kits/run: the files of a folder must be those of a model, which reads the listing
of the bank and shares no code with the program; and an instrument of which a table says all must play the same notes
identically after its import."""
import random
import re
import shlex
from dataclasses import dataclass

KEY_RANGE, VELOCITY_RANGE, PAN, MODES, CLASS, ROOT = 43, 44, 17, 54, 57, 58
IN_TABLES = {KEY_RANGE, VELOCITY_RANGE, PAN, MODES, CLASS, ROOT}
RANGES = {KEY_RANGE, VELOCITY_RANGE}
RESERVED = b'"*/:<>?\\|'
NAMES = (b"", b"kick", b"my snare", b"a/b", b'"quoted"', b"\xff\x01", b"twenty bytes of name", b"# 1", b".wav")
# Settings that a table has no room for, as items of a zone.
OTHERS = ("g 48 60", "g 51 -12", "g 8 9000", "m 1282 48 480 0 0", "g 38 -2000")
PRESET = (16000, 127)


# ---- the model


@dataclass
class Zone:
    """A zone of the listing: its target, None for a global zone, its amounts by operator, whether it has modulators,
    and its text."""

    target: int
    amounts: dict
    has_modulators: bool
    text: str

    def is_plain(self):
        return not self.has_modulators and self.amounts.keys() <= IN_TABLES


@dataclass
class Sample:
    name: bytes
    key: int
    is_looped: bool


def bytes_of(literal):
    return literal[1:-1].encode() if literal.startswith('"') else bytes.fromhex(literal[1:])


def zone_of(text):
    """Returns the zone that a text in braces describes."""
    words = text.split()[1:-1]
    first = words.pop(0)
    amounts, has_modulators = {}, False
    while words:
        if words.pop(0) == "m":
            has_modulators, words = True, words[5:]
            continue
        operator, amount = int(words.pop(0)), words.pop(0)
        amounts[operator] = tuple(map(int, amount.split(".."))) if operator in RANGES else int(amount)
    return Zone(None if first == "global" else int(first), amounts, has_modulators, text)


def sample_of(line):
    name, rest = re.fullmatch(r'sample \d+ ("[^"]*"|x\S*) (.*)', line).groups()
    words = rest.split()
    return Sample(bytes_of(name), int(words[1]), "noloop" not in words)


class Bank:
    """A bank by its listing with zones."""

    def __init__(self, lines):
        self.samples = [sample_of(it) for it in lines if it.startswith("sample ")]
        self.names = [it.split(" ", 2)[2].rsplit(" ", 1)[0] for it in lines if it.startswith("inst ")]
        self.globals = [Zone(None, {}, False, "")] * len(self.names)
        self.zones = [[] for _ in self.names]
        for line in lines:
            found = re.fullmatch(r"zone inst (\d+) (global|\d+) (\{.*\})", line)
            if not found:
                continue
            zone = zone_of(found[3])
            if found[2] == "global":
                self.globals[int(found[1])] = zone
            else:
                self.zones[int(found[1])].append(zone)

    def file_of(self, number):
        kept = bytes(it if 32 <= it <= 126 and it not in RESERVED else 95 for it in self.samples[number].name)
        return f"{number:04}{' ' + kept.decode() if kept else ''}.wav"

    def table(self, instrument):
        """Returns the lines of the table of an instrument."""
        if instrument >= len(self.names):
            return []
        lines = [f"# inst {instrument} {self.names[instrument]}"]
        shared = self.globals[instrument]
        lines += [] if shared.is_plain() else [f"# zone {shared.text}"]
        for number, zone in enumerate(self.zones[instrument]):
            lines += self.lines_of(number, zone, shared.amounts | zone.amounts)
        return lines

    def lines_of(self, number, zone, amounts):
        sample = self.samples[zone.target]
        keys, velocities = (self.clipped(amounts.get(it, (0, 127))) for it in (KEY_RANGE, VELOCITY_RANGE))
        is_selected = keys[0] <= keys[1] and velocities[0] <= velocities[1]
        lines = [self.row(zone.target, keys, velocities, amounts)] if is_selected else []
        is_whole = is_selected and zone.is_plain() and self.fits(amounts, sample)
        return lines if is_whole else [*lines, f"# zone {number} {zone.text}"]

    def row(self, target, keys, velocities, amounts):
        words = [f'"samples/{self.file_of(target)}"', "{}..{}".format(*keys), "{}..{}".format(*velocities)]
        own = self.samples[target].key
        root = amounts.get(ROOT, -1)
        words += ["root", str(root if 0 <= root <= 127 else own if own <= 127 else 60)]
        words += ["pan", str(max(-500, min(500, amounts[PAN])))] if PAN in amounts else []
        words += ["class", str(amounts[CLASS])] if 0 < amounts.get(CLASS, 0) <= 127 else []
        return " ".join(words)

    @staticmethod
    def clipped(ends):
        return ends[0], min(ends[1], 127)

    @staticmethod
    def fits(amounts, sample):
        mode = amounts.get(MODES, 0) % 4
        is_alike = mode == 1 if sample.is_looped else mode != 3
        return is_alike and abs(amounts.get(PAN, 0)) <= 500 and 0 <= amounts.get(CLASS, 0) <= 127


# ---- random banks


def literal(name):
    return f'"{name.decode()}"' if all(0x20 <= it <= 0x7E and it != 0x22 for it in name) else f"x{name.hex()}"


def random_range(lot):
    ends = [lot.choice((0, 127, lot.randint(0, 127))) for _ in range(2)]
    return "{}..{}".format(*sorted(ends))


def random_items(lot, strange):
    """Returns the items of a zone, which may have others than a table."""
    amounts = {
        KEY_RANGE: random_range(lot), VELOCITY_RANGE: random_range(lot), PAN: lot.choice((-500, 0, 500, lot.randint(-500, 500))),
        MODES: lot.choice((0, 1, 1, 1, 3)) if strange else 1, CLASS: lot.choice((0, 1, 127, lot.randint(1, 127))),
        ROOT: lot.choice((-1, 0, 127, lot.randint(0, 127))),
    }
    if strange and lot.random() < 0.2:
        amounts |= {PAN: lot.choice((-501, 501, 32767, -32768)), CLASS: lot.choice((128, -1, 300)), ROOT: lot.choice((128, -5))}
    items = [f"g {operator} {amount}" for operator, amount in amounts.items() if lot.random() < 0.4]
    return items + ([lot.choice(OTHERS)] if strange and lot.random() < 0.3 else [])


def random_script(lot, strange):
    """Returns a script of samples and instruments; without `strange` a table can say all of each instrument."""
    lines, count = [], lot.randint(1, 6)
    for number in range(count):
        points = [lot.randint(-32768, 32767) for _ in range(lot.randint(50, 90))]
        loop = "loop {} {}".format(*sorted(lot.sample(range(len(points)), 2))) if lot.random() < 0.5 else "noloop"
        key, correction = lot.choice((60, 36, 127, 255)), lot.randint(-99, 99)
        data = b"".join(it.to_bytes(2, "little", signed=True) for it in points).hex()
        name, rate = literal(lot.choice(NAMES)), lot.choice((8000, 44100))
        lines.append(f"add-sample {number} {name} {rate} {key} {correction} mono {loop} x{data}")
    for number in range(lot.randint(1, 3)):
        shared = random_items(lot, strange) + ([] if strange else ["g 54 1"])
        zones = [f"{{ global {' '.join(shared)} }}"] if shared else []
        zones += [f"{{ {lot.randrange(count)} {' '.join(random_items(lot, strange))} }}" for _ in range(lot.randint(0, 6))]
        lines.append(f"add-inst {number} {literal(lot.choice(NAMES))} {' '.join(zones)}")
    return "\n".join(lines) + "\n"


def random_notes(lot):
    notes = [f"{it * 200} {lot.randint(1, 400)} {PRESET[0]} {PRESET[1]} {lot.randint(0, 127)} {lot.randint(1, 127)}" for it in range(40)]
    return "\n".join(notes) + "\n"


# ---- tests


class Export:
    """An instrument of a bank that is written to a folder and imported again, by a function that runs the program."""

    def __init__(self, place, run, bank):
        self.place, self.run, self.bank = place, run, bank
        self.model = Bank(run(place, "show", "--zones", bank).splitlines())

    def faults(self, instrument, words, lot):
        """Yields what is wrong with the folder that these words make for this instrument."""
        self.run(self.place, "wave", "--all", "folder", *words, self.bank)
        table = (self.place / "folder/kit.txt").read_text().splitlines()
        wanted = self.model.table(instrument)
        if table != wanted:
            number = next((n for n, both in enumerate(zip(table, wanted)) if both[0] != both[1]), min(len(table), len(wanted)))
            yield f"kit.txt, line {number + 1}: {table[number:number + 1]}, the model: {wanted[number:number + 1]}"
        yield from self.wrong_waves()
        if any(it.startswith('"') for it in table) and not any(it.startswith("# zone") for it in table):
            yield from self.wrong_sound(instrument, random_notes(lot))

    def wrong_waves(self):
        files = {it.name for it in (self.place / "folder/samples").iterdir()}
        names = [self.model.file_of(it) for it in range(len(self.model.samples))]
        if files != set(names):
            yield f"samples has {sorted(files ^ set(names))} more or less"
        for number, name in enumerate(names):
            self.run(self.place, "wave", "--force", self.bank, str(number), "one.wav")
            if (self.place / "folder/samples" / name).read_bytes() != (self.place / "one.wav").read_bytes():
                yield f"{name} is not sample {number}"

    def wrong_sound(self, instrument, notes):
        """Yields whether notes sound otherwise on a preset of the instrument and on the preset of the imported kit."""
        (self.place / "preset.txt").write_text(f'add-preset 0 "p" {PRESET[1]} {PRESET[0]} 0 0 0 {{ {instrument} }}\n')
        (self.place / "notes.txt").write_text(notes)
        self.run(self.place, "apply", self.bank, "preset.txt", "first.sf2", "undo.txt")
        self.run(self.place, "new", "none.sf2")
        numbers = "{}:{}".format(*PRESET)
        words = ["--kit", "folder/kit.txt", "--preset", numbers, "p"]
        self.run(self.place, "import", "none.sf2", "second.sf2", "undo2.txt", *words)
        for name in ("first", "second"):
            self.run(self.place, "play", f"{name}.sf2", "notes.txt", f"{name}.wav")
        if (self.place / "first.wav").read_bytes() != (self.place / "second.wav").read_bytes():
            yield "the imported kit sounds otherwise"


def faults_of_seed(place, run, seed):
    """Yields what is wrong with the folder of an instrument of a random bank."""
    lot = random.Random(seed)
    (place / "script.txt").write_text(random_script(lot, lot.random() < 0.5))
    run(place, "new", "empty.sf2")
    run(place, "apply", "--no-undo", "empty.sf2", "script.txt", "bank.sf2")
    export = Export(place, run, "bank.sf2")
    instrument = lot.randrange(len(export.model.names))
    words = [] if instrument == 0 and lot.random() < 0.5 else ["--instrument", str(instrument)]
    yield from export.faults(instrument, words, lot)


def rejections():
    """Yields rows of words, with the exit status and the line of the run; the bank has an instrument and two samples."""
    words = "sfbank: words are rejected"
    yield "wave --all there small.sf2", 5, "sfbank: output fault 81 FolderThere there"
    yield "wave --all new --instrument 1 small.sf2", 4, "sfbank: refused 21 NoSuchInstrument"
    yield "wave --all new --instrument 4294967295 small.sf2", 4, "sfbank: refused 21 NoSuchInstrument"
    yield "wave --all no/new small.sf2", 5, "sfbank: write fault no/new after 0 bytes"
    for tail in ("--instrument x", "--instrument 4294967296", "--pair", "--instrument -1"):
        yield f"wave --all new small.sf2 {tail}", 1, words
    for tail in ("small.sf2", "small.sf2 0", "--instrument 0 small.sf2 0 x.wav", "--all - small.sf2", "--all new small.sf2 0"):
        yield f"wave {tail}", 1, words


def faults_of_rejection(place, ended, words, status, line):
    """Yields what is wrong with a run that must be rejected and make no folder."""
    got = ended(place, *shlex.split(words))
    if got[0] != status or got[1] or not (status == 1 or got[2] == line + "\n"):
        yield f"{words}: {got}, wanted {status} {line}"
    if (place / "new").exists():
        yield f"{words}: there is a new folder"
