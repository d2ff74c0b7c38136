"""The rows of checks/keys: what a MIDI input sends, and the lines of the session that it becomes. The input ends after
each row, which releases what it holds."""
from dataclasses import dataclass, field


@dataclass
class Row:
    """What the input sends, in parts; the lines; and what is printed to standard error before the end."""

    name: str
    parts: list
    lines: list
    messages: list = field(default_factory=list)
    words: tuple = ()


def on(key, velocity=100, channel=0):
    return bytes([0x90 | channel, key, velocity])


def off(key, channel=0):
    return bytes([0x80 | channel, key, 64])


def control(number, value, channel=0):
    return bytes([0xB0 | channel, number, value])


def program(number, channel=0):
    return bytes([0xC0 | channel, number])


def press(key, number=0, bank=0, velocity=100):
    return f"press {bank} {number} {key} {velocity}"


def release(key, number=0, bank=0):
    return f"release {bank} {number} {key}"


def left_out(kind, count):
    return f"sfbank-keys: left out: {kind} ({count})"


NOTE = [press(60), release(60)]

BYTES = [
    Row("nothing", [b""], []),
    Row("a note", [on(60), off(60)], NOTE),
    Row("a note on without velocity is a note off", [on(60), on(60, 0)], NOTE),
    Row(
        "a status byte for several messages",
        [b"\x90\x3c\x64\x3e\x50\x3c\0\x3e\0"],
        [press(60), press(62, velocity=80), release(60), release(62)],
    ),
    Row("a message in three parts", [b"\x90", b"\x3c", b"\x64" + off(60)], NOTE),
    Row("a clock between the bytes of a message", [b"\xf8\x90\x3c\xf8\x64\x80\xfe\x3c\xff\x40"], NOTE),
    Row("data without a status", [b"\x3c\x64" + on(60) + off(60)], NOTE),
    Row(
        "data after a system exclusive message, which ends the status",
        [on(60), b"\xf0\x7e\x3e\x64\xf7\x3e\x64", off(60)],
        NOTE,
        [left_out("system exclusive messages", 1)],
    ),
    Row("a song position and a song number", [on(60), b"\xf2\x3e\x64\xf3\x05", off(60)], NOTE),
    Row(
        "messages that no line can state",
        [b"\xe0\0\x40\xd0\x05\xa0\x3c\x05", control(7, 100), on(60), off(60)],
        NOTE,
        [
            left_out("pitch bends", 1),
            left_out("pressures of channels", 1),
            left_out("pressures of keys", 1),
            left_out("controller 7", 1),
        ],
    ),
    Row("five thousand notes together", [(on(60) + off(60)) * 5000], NOTE * 5000),
]

KEYS = [
    Row(
        "the keys that are held at the end",
        [on(60), on(64), on(60)],
        [press(60), press(64), press(60)] + [release(60), release(60), release(64)],
    ),
    Row("a release of a key that is not held", [off(60), on(60), off(60), off(60)], NOTE),
    Row(
        "a key of two channels",
        [on(60), on(60, channel=1), off(60, channel=1), off(60)],
        [press(60), press(60), release(60), release(60)],
    ),
    Row("the keys of another channel", [on(60), off(60, channel=1)], NOTE),
    Row(
        "all notes off",
        [on(60), on(62), on(60, channel=1), control(123, 0), on(64), off(60), off(64)],
        [press(60), press(62), press(60), release(60), release(62), press(64), release(64), release(60)],
    ),
    Row("all sound off", [on(60), control(120, 0), off(60)], [press(60), release(60), "stop"]),
    Row(
        "a note without a voice, reported once",
        [program(99), on(60), off(60), on(62), off(62)],
        [press(60, 99), release(60, 99), press(62, 99), release(62, 99)],
        ["sfbank-keys: preset 0:99 has no voice for key 60"],
    ),
]

PRESETS = [
    Row(
        "programs",
        [program(5), on(60), off(60), on(60, channel=1), off(60, channel=1)],
        [press(60, 5), release(60, 5), *NOTE],
    ),
    Row(
        "a change of program while a key is held",
        [on(60), program(5), on(60), off(60), off(60)],
        [press(60), press(60, 5), release(60), release(60, 5)],
    ),
    Row(
        "a bank counts from the next program on",
        [control(0, 8), on(60), off(60), program(1), on(60), off(60)],
        [*NOTE, press(60, 1, 8), release(60, 1, 8)],
    ),
    Row(
        "controller 32",
        [control(0, 8), control(32, 3), program(5), on(60)],
        [press(60, 5, 8), release(60, 5, 8)],
        [left_out("controller 32", 1)],
    ),
    Row(
        "xg",
        [control(0, 0), control(32, 3), program(5), on(60)],
        [press(60, 5, 3), release(60, 5, 3)],
        words=("--bank-select", "xg"),
    ),
    Row(
        "mma",
        [control(0, 8), control(32, 3), program(5), on(60)],
        [press(60, 5, 1027), release(60, 5, 1027)],
        words=("--bank-select", "mma"),
    ),
    Row(
        "drums",
        [on(36, channel=9), control(0, 8, 9), program(25, 9), on(38, channel=9)],
        [press(36, 0, 128), press(38, 25, 128), release(36, 0, 128), release(38, 25, 128)],
    ),
]

PEDAL = [
    Row(
        "the pedal",
        [on(60), control(64, 127), off(60), control(64, 0)],
        [press(60), "pedal on 0 0", release(60), "pedal off 0 0"],
    ),
    Row("63 is up, 64 is down", [control(64, 63), control(64, 64), control(64, 63)], ["pedal on 0 0", "pedal off 0 0"]),
    Row(
        "a pedal that reports each position",
        [control(64, it) for it in (40, 70, 100, 127, 90, 50, 0)],
        ["pedal on 0 0", "pedal off 0 0"],
    ),
    Row(
        "a pedal that is down at the end",
        [control(64, 127), on(60)],
        ["pedal on 0 0", press(60), "pedal off 0 0", release(60)],
    ),
    Row("controllers reset", [control(64, 127), control(121, 0), control(64, 0)], ["pedal on 0 0", "pedal off 0 0"]),
    Row(
        "the pedal holds the preset of a new program too",
        [control(64, 127), on(60), program(5), on(62), off(60), off(62), control(64, 0)],
        [
            "pedal on 0 0",
            press(60),
            "pedal on 0 5",
            press(62, 5),
            release(60),
            release(62, 5),
            "pedal off 0 0",
            "pedal off 0 5",
        ],
    ),
    Row(
        "the pedal holds the keys of the program before",
        [on(60), program(5), control(64, 127), off(60), control(64, 0)],
        [press(60), "pedal on 0 5", "pedal on 0 0", release(60), "pedal off 0 0", "pedal off 0 5"],
    ),
    Row(
        "a preset that the pedals of two channels hold",
        [control(64, 127), control(64, 127, 1), control(64, 0), control(64, 0, 1)],
        ["pedal on 0 0", "pedal off 0 0"],
    ),
    Row(
        "all sound off, and the pedal stays down",
        [control(64, 127), on(60), control(120, 0), control(64, 0)],
        ["pedal on 0 0", press(60), release(60), "stop", "pedal off 0 0"],
    ),
]

ROWS = [*BYTES, *KEYS, *PRESETS, *PEDAL]

# The lines of aseqdump, by version 1.2.8, of an input with the address 24:0.
ASEQDUMP = Row(
    "the lines of aseqdump",
    [
        "Waiting for data. Press Ctrl+C to end.",
        "Source  Event                  Ch  Data",
        " 24:0   Program change          0, program 5",
        " 24:0   Note on                 0, note 60, velocity 100",
        " 24:0   Active Sensing        ",
        " 24:0   Control change          0, controller 64, value 127",
        " 24:0   Note off                0, note 60",
        " 24:0   Note on                 9, note 36, velocity 90",
        " 24:0   Note off                9, note 36, velocity 64",
        " 24:0   Pitch bend              0, value -8192",
        " 24:0   Channel aftertouch      0, value 5",
        " 24:0   Polyphonic aftertouch   0, note 60, value 5",
        " 24:0   System exclusive          F0 7E F7",
        " 24:0   Control change          0, controller 64, value 0",
    ],
    [
        press(60, 5),
        "pedal on 0 5",
        release(60, 5),
        press(36, 0, 128, 90),
        release(36, 0, 128),
        "pedal off 0 5",
    ],
    [left_out("pitch bends", 1), left_out("pressures of channels", 1), left_out("pressures of keys", 1)],
)
# Lines with which aseqdump reports that an input has gone, and nothing after them is played.
GONE = [
    "  0:1   Port unsubscribed          24:0 -> 128:0",
    "  0:1   Client exit                client 24",
    "  0:1   Port exit                  24:0",
]
# What `aseqdump -l` prints, and the names of the inputs.
LISTED = """ Port    Client name                      Port name
  0:0    System                           Timer
  0:1    System                           Announce
 14:0    Midi Through                     Midi Through Port-0
 24:0    Keystation 49                    Keystation 49 MIDI 1
"""
NAMES = ["Midi Through:Midi Through Port-0 14:0", "Keystation 49:Keystation 49 MIDI 1 24:0"]
