"""The rows of checks/midi: MIDI files, their notes, and the messages about what is left out.

A quarter note has 480 ticks and lasts half a second unless a row changes that, so a tick has 45.9375 frames."""
from dataclasses import dataclass, field

from mido import Message, MetaMessage


@dataclass
class Row:
    """The tracks of a file, the lines of its notes, and the lines on standard error."""

    name: str
    tracks: list
    notes: list
    messages: list = field(default_factory=list)
    division: int = 480
    words: tuple = ()


def on(time, key, channel=0, velocity=100):
    return Message("note_on", time=time, note=key, channel=channel, velocity=velocity)


def off(time, key, channel=0):
    return Message("note_off", time=time, note=key, channel=channel)


def control(time, number, value, channel=0):
    return Message("control_change", time=time, control=number, value=value, channel=channel)


def program(time, number, channel=0):
    return Message("program_change", time=time, program=number, channel=channel)


def tempo(time, microseconds):
    return MetaMessage("set_tempo", time=time, tempo=microseconds)


def end(time):
    return MetaMessage("end_of_track", time=time)


def left_out(kind, count):
    return f"notes_of_midi: left out: {kind} ({count})"


def never_ended(count):
    return f"notes_of_midi: held to the end: notes never ended ({count})"


def choice(high, low):
    """Returns the two controllers of a bank, then a program and a note."""
    return [control(0, 0, high), control(0, 32, low), program(0, 5), on(0, 60), off(480, 60)]


TIMES = [
    Row("no notes", [[]], []),
    Row("no tracks", [], []),
    Row("a note", [[on(480, 60), off(480, 60)]], ["22050 22050 0 0 60 100"]),
    Row("a note on without velocity is a note off", [[on(0, 60), on(480, 60, velocity=0)]], ["0 22050 0 0 60 100"]),
    Row(
        "a chord keeps the file's order",
        [[on(0, 67), on(0, 60), on(0, 64), off(480, 60), off(0, 64), off(480, 67)]],
        ["0 44100 0 0 67 100", "0 22050 0 0 60 100", "0 22050 0 0 64 100"],
    ),
    Row(
        "the order is that of the starts",
        [[on(0, 60), on(480, 62), off(480, 62), off(480, 60)]],
        ["0 66150 0 0 60 100", "22050 22050 0 0 62 100"],
    ),
    Row(
        "another tempo while a note sounds",
        [[on(0, 60), tempo(480, 1_000_000), off(480, 60), on(0, 62), off(480, 62)]],
        ["0 66150 0 0 60 100", "66150 44100 0 0 62 100"],
    ),
    Row(
        "the tempo is for all tracks",
        [[tempo(0, 1_000_000), tempo(480, 250_000)], [on(240, 60), off(720, 60)], [on(480, 62, 1), off(480, 62, 1)]],
        ["22050 33075 0 0 60 100", "44100 11025 0 0 62 100"],
    ),
    Row(
        "half a frame is rounded up, also an end",
        [[tempo(0, 5_000), on(1, 60), on(2, 61), off(1, 60), off(1, 61), on(0, 62), off(2, 62)]],
        ["1 1 0 0 60 100", "2 1 0 0 61 100", "3 1 0 0 62 100"],
        division=441,
    ),
    Row(
        "nothing is lost over a thousand quarters",
        [[tempo(0, 333_333), *[tempo(480, 333_333) for _ in range(1000)], on(0, 60), off(480, 60)]],
        ["14699985 14700 0 0 60 100"],
    ),
    Row(
        "ticks of a film, which no tempo changes",
        [[tempo(0, 250_000), on(1000, 60), off(500, 60)]],
        ["44100 22050 0 0 60 100"],
        division=-(25 << 8) + 40,
    ),
    Row(
        "a film of 30000 frames in 1001 s",
        [[on(0, 60), off(30_000, 60)]],
        ["0 44144100 0 0 60 100"],
        division=-(29 << 8) + 1,
    ),
]

PRESETS = [
    Row(
        "programs",
        [
            [
                program(0, 5),
                on(0, 60),
                program(240, 6),
                off(240, 60),
                on(0, 62),
                off(480, 62),
                on(0, 60, 1),
                off(480, 60, 1),
            ]
        ],
        ["0 22050 0 5 60 100", "22050 22050 0 6 62 100", "44100 22050 0 0 60 100"],
    ),
    Row(
        "a bank counts from the next program on",
        [[control(0, 0, 8), on(0, 60), off(480, 60), program(0, 1), on(0, 60), off(480, 60)]],
        ["0 22050 0 0 60 100", "22050 22050 8 1 60 100"],
    ),
    Row("a bank of one channel", [[control(0, 0, 8, 1), *choice(0, 0)]], ["0 22050 0 5 60 100"]),
    Row("controller 0 is the bank", [choice(8, 0)], ["0 22050 8 5 60 100"]),
    Row("controller 32 is none", [choice(8, 3)], ["0 22050 8 5 60 100"], [left_out("controller 32", 1)]),
    Row("xg: controller 32 is the bank", [choice(0, 3)], ["0 22050 3 5 60 100"], words=("--bank-select", "xg")),
    Row("xg: drums", [choice(127, 0)], ["0 22050 128 5 60 100"], words=("--bank-select", "xg")),
    Row("mma: both are", [choice(8, 3)], ["0 22050 1027 5 60 100"], words=("--bank-select", "mma")),
    Row(
        "drums on the tenth channel, whatever bank is selected",
        [[on(0, 36, 9), off(480, 36, 9), control(0, 0, 8, 9), program(0, 25, 9), on(0, 36, 9), off(480, 36, 9)]],
        ["0 22050 128 0 36 100", "22050 22050 128 25 36 100"],
    ),
]

PEDAL = [
    Row(
        "the pedal holds a note",
        [[control(0, 64, 127), on(0, 60), off(480, 60), control(480, 64, 0)]],
        ["0 44100 0 0 60 100"],
    ),
    Row(
        "a pedal after the key's release",
        [[on(0, 60), off(480, 60), control(0, 64, 127), end(480)]],
        ["0 22050 0 0 60 100"],
    ),
    Row(
        "a key that is held longer than the pedal",
        [[on(0, 60), control(0, 64, 127), control(480, 64, 0), off(480, 60)]],
        ["0 44100 0 0 60 100"],
    ),
    Row("63 is up", [[control(0, 64, 63), on(0, 60), off(480, 60), end(480)]], ["0 22050 0 0 60 100"]),
    Row("64 is down", [[control(0, 64, 64), on(0, 60), off(480, 60), control(480, 64, 63)]], ["0 44100 0 0 60 100"]),
    Row(
        "a key struck again ends its note that the pedal holds, and no other",
        [
            [
                control(0, 64, 127),
                on(0, 60),
                on(0, 64),
                off(480, 60),
                off(0, 64),
                on(480, 60),
                off(480, 60),
                control(480, 64, 0),
            ]
        ],
        ["0 44100 0 0 60 100", "0 88200 0 0 64 100", "44100 44100 0 0 60 100"],
    ),
    Row(
        "the pedal of another channel",
        [[control(0, 64, 127, 1), on(0, 60), off(480, 60), control(480, 64, 0, 1)]],
        ["0 22050 0 0 60 100"],
    ),
    Row("a pedal that stays down", [[control(0, 64, 127), on(0, 60), off(480, 60), end(480)]], ["0 44100 0 0 60 100"]),
    Row(
        "controllers reset",
        [[control(0, 64, 127), on(0, 60), off(480, 60), control(480, 121, 0), end(480)]],
        ["0 44100 0 0 60 100"],
    ),
    Row(
        "a note without a length of its own",
        [[control(0, 64, 127), on(0, 60), off(0, 60), control(480, 64, 0)]],
        ["0 22050 0 0 60 100"],
    ),
]

ENDS = [
    Row(
        "two notes of a key: the first off ends the first",
        [[on(0, 60), on(480, 60, velocity=90), off(480, 60), off(480, 60)]],
        ["0 44100 0 0 60 100", "22050 44100 0 0 60 90"],
    ),
    Row(
        "a key struck again where it is released",
        [[on(0, 60), on(480, 60), off(0, 60), off(480, 60)]],
        ["0 22050 0 0 60 100", "22050 22050 0 0 60 100"],
    ),
    Row(
        "a key of two channels",
        [[on(0, 60), on(0, 60, 1), off(480, 60, 1), off(480, 60)]],
        ["0 44100 0 0 60 100", "0 22050 0 0 60 100"],
    ),
    Row("an off of a key that isn't held", [[off(0, 60), on(0, 60), off(480, 60), off(0, 60)]], ["0 22050 0 0 60 100"]),
    Row("a note that never ends", [[on(0, 60), end(480)]], ["0 22050 0 0 60 100"], [never_ended(1)]),
    Row(
        "the end is that of the longest track",
        [[on(0, 60), on(0, 60)], [end(960)], [end(480)]],
        ["0 44100 0 0 60 100", "0 44100 0 0 60 100"],
        [never_ended(2)],
    ),
    Row(
        "a note of no length",
        [[on(0, 60), off(0, 60), on(0, 62), off(480, 62)]],
        ["0 22050 0 0 62 100"],
        [left_out("notes of no length", 1)],
    ),
    Row("a note that begins at the end", [[on(480, 60)]], [], [left_out("notes of no length", 1), never_ended(1)]),
    Row(
        "all notes off",
        [[on(0, 60), on(0, 62), on(0, 60, 1), control(480, 123, 0), off(480, 60, 1)]],
        ["0 22050 0 0 60 100", "0 22050 0 0 62 100", "0 44100 0 0 60 100"],
    ),
    Row(
        "all notes off, and the pedal",
        [[control(0, 64, 127), on(0, 60), control(480, 123, 0), control(480, 64, 0)]],
        ["0 44100 0 0 60 100"],
    ),
    Row(
        "all sound off, and the pedal, which stays down",
        [
            [
                control(0, 64, 127),
                on(0, 60),
                on(0, 62),
                off(0, 62),
                control(480, 120, 0),
                on(0, 64),
                off(480, 64),
                control(480, 64, 0),
            ]
        ],
        ["0 22050 0 0 60 100", "0 22050 0 0 62 100", "22050 44100 0 0 64 100"],
    ),
]

REST = [
    Row(
        "what no list can state is reported, the most frequent first",
        [
            [
                Message("sysex", data=(126, 127, 9, 1)),
                *[control(0, 7, value) for value in range(3)],
                control(0, 10, 64),
                *[Message("pitchwheel", pitch=pitch) for pitch in range(4)],
                Message("aftertouch", value=1),
                Message("polytouch", note=60, value=1),
                MetaMessage("track_name", name="none"),
                on(0, 60),
                off(480, 60),
            ]
        ],
        ["0 22050 0 0 60 100"],
        [
            left_out("pitch bends", 4),
            left_out("controller 7", 3),
            left_out("system exclusive messages", 1),
            left_out("controller 10", 1),
            left_out("pressures of channels", 1),
            left_out("pressures of keys", 1),
        ],
    ),
    Row(
        "a list ends at 100,000,000 frames",
        [[on(99_999_999, 60), off(1, 60), on(0, 62), off(1, 62)]],
        ["99999999 1 0 0 60 100"],
        [left_out("notes that end after frame 100,000,000", 1)],
        division=22_050,
    ),
    Row(
        "a list has 65,535 notes",
        [[on(0, 60), off(1, 60)] * 65_537],
        [f"{start} 1 0 0 60 100" for start in range(65_535)],
        [left_out("notes after the first 65,535", 2)],
        division=22_050,
    ),
]

ROWS = [*TIMES, *PRESETS, *PEDAL, *ENDS, *REST]
