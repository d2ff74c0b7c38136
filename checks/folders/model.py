"""A model of a bank as a folder, for checks/folders/run: names of files, WAVE files of samples, and the script that a
packed folder stands for. It shares no code with the program."""
import re
import struct
from dataclasses import dataclass

# The bytes of a name that its file keeps.
KEPT = frozenset(b"abcdefghijklmnopqrstuvwxyzABCDEFGHIJKLMNOPQRSTUVWXYZ0123456789 !#$%&'()+,-.;=@[]^_`{}~")
UNPITCHED_KEY, HIGHEST_KEY = 60, 127
HIGHEST_PITCH = 12_799
FIRST_LINE = re.compile(r"\A# sfbank new --minor (\d+)")
USUAL_MINOR, HIGHEST_MINOR = 4, 65_535
NAME, NUMBERS = r'("[^"]*"|x[0-9a-f]*)', r"(\d+) (\d+) (-?\d+)"
KIND, LOOP = r"([a-z]+(?: \d+)?)", r"(noloop|loop (\d+) (\d+))"
# A line of a canonical script and its comment: tokens with a blank between them, and then three blanks and `#`.
TOKENS = r'(?:"[^"]*"|[^"# ][^ ]*)(?: (?:"[^"]*"|[^"# ][^ ]*))*'
COMMENTED_LINE = re.compile(rf"({TOKENS})(?:   # [^ ].*)?")
SAMPLE = re.compile(rf"add-sample (\d+) {NAME} {NUMBERS} {KIND} {LOOP} x([0-9a-f]*)".replace(" ", "[ \t]+"))


def literal(name):
    is_plain = all(0x20 <= it <= 0x7E and it != 0x22 for it in name)
    return f'"{name.decode()}"' if is_plain else f"x{name.hex()}"


def sample_file(number, name):
    """Returns the name of the file of a sample."""
    text = "".join(chr(it) if it in KEPT else "_" for it in name)
    return f"{number:04} {text}.wav" if name else f"{number:04}.wav"


def chunk(name, body):
    return name + struct.pack("<I", len(body)) + body + bytes(len(body) % 2)


def wave_file(rate, data, channels=1, bits=16, chunks=b""):
    """Returns a WAVE file of integers, with other chunks before its data."""
    width = channels * bits // 8
    head = struct.pack("<HHIIHH", 1, channels, rate, min(width * rate, 2**32 - 1), width, bits)
    body = b"WAVE" + chunk(b"fmt ", head) + chunks + chunk(b"data", data)
    return b"RIFF" + struct.pack("<I", len(body)) + body


def data_of(file):
    """Returns the bytes of the data of a WAVE file."""
    at = 12
    while file[at:at + 4] != b"data":
        size = struct.unpack_from("<I", file, at + 4)[0]
        at += 8 + size + size % 2
    return file[at + 8:at + 8 + struct.unpack_from("<I", file, at + 4)[0]]


def reversed_points(points):
    return b"".join(points[at:at + 2] for at in range(len(points) - 2, -1, -2))


def with_data(file, data):
    """Returns a WAVE file whose last chunk is its data with other data of the same length."""
    assert len(data) == len(data_of(file)) and file.endswith(data_of(file))
    return file[:len(file) - len(data)] + data


def sampler(rate, pitch, loop=None, more=b""):
    """Returns a chunk `smpl`; the pitch is in cents, the loop its first frame and the first one after it, or None."""
    fraction = (pitch % 100 << 32) // 100
    period = 10**9 // rate if rate else 0
    head = struct.pack("<9I", 0, 0, period, pitch // 100, fraction, 0, 0, 1 if loop else 0, len(more))
    return chunk(b"smpl", head + (struct.pack("<6I", 0, 0, loop[0], loop[1] - 1, 0, 0) if loop else b"") + more)


@dataclass(frozen=True)
class Sample:
    """The sample that a line adds. The loop is its first point and the first one after it, or None; the points are the
    bytes of the line."""

    number: int
    name: bytes
    rate: int
    key: int
    correction: int
    kind: str
    loop: tuple
    points: bytes

    def file(self):
        return sample_file(self.number, self.name)

    def line(self):
        loop = "loop {} {}".format(*self.loop) if self.loop else "noloop"
        words = (self.number, literal(self.name), self.rate, self.key, self.correction, self.kind, loop)
        return " ".join(("add-sample", *map(str, words), f"x{self.points.hex()}"))

    def wave(self):
        """Returns the WAVE file that `sfbank` writes."""
        key = self.key if self.key <= HIGHEST_KEY else UNPITCHED_KEY
        pitch = max(0, min(HIGHEST_PITCH, 100 * key - self.correction))
        both = b"sfbk" + struct.pack("<Bbxx", self.key, self.correction)
        return wave_file(self.rate, self.points, chunks=sampler(self.rate, pitch, self.loop, both))


def sample_of(line):
    """Returns the sample that a line adds, or None for any other line."""
    it = SAMPLE.fullmatch(line.strip(" \t"))
    if not it:
        return None
    name = it[2][1:-1].encode() if it[2][0] == '"' else bytes.fromhex(it[2][1:])
    loop = (int(it[8]), int(it[9])) if it[8] else None
    return Sample(int(it[1]), name, int(it[3]), int(it[4]), int(it[5]), it[6], loop, bytes.fromhex(it[10]))


def samples_of(text):
    return [it for it in map(sample_of, text.split("\n")) if it]


def without_points(text):
    """Returns bank.txt of the bank that a script makes."""
    first, rest = text.split("\n", 1)
    return f"{first} without points\n" + re.sub(r"^(add-sample .* x)[0-9a-f]*$", r"\1", rest, flags=re.M)


def without_comments(text):
    """Returns a canonical script without the comments at the ends of its lines; its first line is a comment."""
    first, *lines = text.split("\n")
    return "\n".join((first, *(line and COMMENTED_LINE.fullmatch(line)[1] for line in lines)))


def minor_of(text):
    """Returns the minor version of a folder with this bank.txt."""
    it = FIRST_LINE.match(text)
    return int(it[1]) if it and int(it[1]) <= HIGHEST_MINOR else USUAL_MINOR


def filled(text, points):
    """Returns the script that a folder stands for; `points` has those of its files by their names."""
    lines = []
    for line in text.split("\n"):
        it = sample_of(line)
        lines.append(line + points[it.file()].hex() if it and not it.points else line)
    return "\n".join(lines)
