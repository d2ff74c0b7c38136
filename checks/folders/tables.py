"""The cases of checks/folders/run on a small bank and its folder `it`, and names and banks of other cases. Each change
is a function of the folder that they are in."""
from model import chunk, sampler, wave_file

# The small bank. In bank.txt its samples are on lines 4 to 6.
SMALL = """set-info INAM "Small"
add-sample 0 "kick" 44100 60 0 mono loop 1 3 x0010001800f0ff00
add-sample 1 "my snare" 22050 62 -5 mono noloop x000100020003
add-sample 2 "" 48000 255 7 mono noloop x0a00fb0f
set-kind 0 left 1
set-kind 1 right 0
add-inst 0 "a" { global g 54 1 } { 0 g 43 0..59 } { 1 g 43 60..127 g 17 -100 }
add-preset 0 "p" 0 0 0 0 0 { 0 }
"""
KICK, SNARE, BARE = "it/samples/0000 kick.wav", "it/samples/0001 my snare.wav", "it/samples/0002.wav"
KICK_LINE = 'add-sample 0 "kick" 44100 60 0 mono loop 1 3 x'
SNARE_LINE = 'add-sample 1 "my snare" 22050 62 -5 mono noloop x'
BARE_LINE = 'add-sample 2 "" 48000 255 7 mono noloop x'
# A bank whose second sample is longer than a full disk can have.
LONG = f"""add-sample 0 "short" 44100 60 0 mono noloop x0100
add-sample 1 "long" 44100 60 0 mono noloop x{"0102" * 50_000}
add-sample 2 "last" 44100 60 0 mono noloop x0300
"""
# Names that mean something to a system, and long ones.
NAMES = (
    b"", b" ", b".", b"..", b"/", b"../x", b"/etc/passwd", b"con", b"CON", b"nul.txt", b"a/b\\c:d", b"*?<>|\"", b"-rf",
    b"~", b"$HOME", b"x.wav", b"trailing. ", b" leading", b"twenty bytes of name", b"#" * 20, b"\xff" * 20,
    "ÄÖÜ".encode(), b"a\nb\tc\rd",
)


# ---- changes


def put(path, data):
    """Writes a file, and the folders above it."""
    def change(place):
        (place / path).parent.mkdir(parents=True, exist_ok=True)
        (place / path).write_bytes(data)
    return change


def remove(*paths):
    return lambda place: [(place / it).unlink() for it in paths]


def make_folder(path):
    return lambda place: (place / path).mkdir(parents=True)


def move(path, other):
    return lambda place: (place / path).rename(place / other)


def link(path, to):
    return lambda place: (place / path).symlink_to(to)


def link_hard(path, to):
    return lambda place: (place / path).hardlink_to(place / to)


def line(number, text):
    """Writes another line of bank.txt."""
    def change(place):
        lines = (place / "it/bank.txt").read_text().split("\n")
        lines[number - 1] = text
        (place / "it/bank.txt").write_text("\n".join(lines))
    return change


def text(data):
    """Writes another bank.txt."""
    return put("it/bank.txt", data.encode())


def replace_text(old, new):
    def change(place):
        (place / "it/bank.txt").write_text((place / "it/bank.txt").read_text().replace(old, new))
    return change


def with_crs(place):
    file = place / "it/bank.txt"
    file.write_bytes(file.read_bytes().replace(b"\n", b"\r\n"))


# ---- runs that fail
# A title, changes, the words of the run, its status and its line. All files stay as they are.

PACK = ["pack", "it", "out.sf2"]
NONE, JUNK = (), put(KICK, b"MThd" + bytes(20))
FRAMES = bytes(range(8))


def misfit(title, path, number, file, fault):
    return title, [put(path, file)], PACK, 2, f"line {number}: {path}: wave fault {fault}"


FAULTS = [
    # Of bank.txt, before any of the output.
    ("no folder", NONE, ["pack", "none", "out.sf2"], 5, "file fault none/bank.txt"),
    ("no folder, with a blank", NONE, ["pack", "my bank", "out.sf2"], 5, "file fault my bank/bank.txt"),
    ("a bank as the folder", NONE, ["pack", "small.sf2", "out.sf2"], 5, "file fault small.sf2/bank.txt"),
    ("no bank.txt", [remove("it/bank.txt")], PACK, 5, "file fault it/bank.txt"),
    ("no bank.txt, and a bank as OUT", [remove("it/bank.txt")], ["pack", "it", "small.sf2"], 5,
     "output fault 65 HoldsBank small.sf2"),
    ("a folder as bank.txt", [remove("it/bank.txt"), make_folder("it/bank.txt")], PACK, 5, "file fault it/bank.txt"),
    # Of the output, before any of the script.
    ("bank.txt as OUT", NONE, ["pack", "it", "it/bank.txt"], 5, "output fault 64 SameFile it/bank.txt"),
    ("bank.txt as OUT, with --force", NONE, ["pack", "--force", "it", "it/bank.txt"], 5,
     "output fault 64 SameFile it/bank.txt"),
    ("bank.txt by another path", NONE, ["pack", "it", "./it/bank.txt"], 5, "output fault 64 SameFile ./it/bank.txt"),
    ("bank.txt by a link", [link("soft", "it/bank.txt")], ["pack", "it", "soft"], 5, "output fault 64 SameFile soft"),
    ("bank.txt by a hard link", [link_hard("hard", "it/bank.txt")], ["pack", "it", "hard"], 5,
     "output fault 64 SameFile hard"),
    ("bank.txt in a linked folder", [link("soft", "it")], ["pack", "soft", "it/bank.txt"], 5,
     "output fault 64 SameFile it/bank.txt"),
    ("a faulty bank.txt as OUT", [line(7, "frob")], ["pack", "it", "it/bank.txt"], 5,
     "output fault 64 SameFile it/bank.txt"),
    ("a WAVE file as OUT", NONE, ["pack", "it", KICK], 5, f"output fault 64 SameFile {KICK}"),
    ("a WAVE file as OUT, with --force", NONE, ["pack", "it", BARE, "--force"], 5, f"output fault 64 SameFile {BARE}"),
    ("a faulty WAVE file as OUT", [JUNK], ["pack", "it", KICK], 5, f"output fault 64 SameFile {KICK}"),
    ("a WAVE file by a link", [link("soft", SNARE)], ["pack", "it", "soft"], 5, "output fault 64 SameFile soft"),
    ("a bank as OUT", NONE, ["pack", "it", "small.sf2"], 5, "output fault 65 HoldsBank small.sf2"),
    ("a bank as OUT of a faulty script", [line(7, "frob")], ["pack", "it", "small.sf2"], 5,
     "output fault 65 HoldsBank small.sf2"),
    # Of the script, before any of its files.
    ("a wrong word on line 7", [line(7, "frob")], PACK, 3, "line 7: fault 41 Syntax"),
    ("a wrong number on line 7", [line(7, "set-kind 0 left 65536")], PACK, 3, "line 7: fault 42 Number"),
    ("a wrong text on line 3", [line(3, 'set-info INAM "Small')], PACK, 3, "line 3: fault 43 Literal"),
    ("a line without its x", [line(5, SNARE_LINE[:-2])], PACK, 3, "line 5: fault 41 Syntax"),
    ("a wrong word, and a lost file", [line(7, "frob"), remove(KICK)], PACK, 3, "line 7: fault 41 Syntax"),
    ("a bank as bank.txt", [lambda place: (place / "it/bank.txt").write_bytes((place / "small.sf2").read_bytes())],
     PACK, 3,
     "line 1: fault 41 Syntax"),
    # Files that can't be read, before any that doesn't fit.
    ("a lost file", [remove(SNARE)], PACK, 5, f"line 5: file fault {SNARE}"),
    ("two lost files", [remove(BARE, KICK)], PACK, 5, f"line 4: file fault {KICK}"),
    ("a lost file after a faulty one", [JUNK, remove(BARE)], PACK, 5, f"line 6: file fault {BARE}"),
    ("a folder as a file", [remove(SNARE), make_folder(SNARE)], PACK, 5, f"line 5: file fault {SNARE}"),
    ("no folder of samples", [move("it/samples", "samples")], PACK, 5, f"line 4: file fault {KICK}"),
    ("a sample with another name", [line(5, SNARE_LINE.replace("my snare", "rim"))], PACK, 5,
     "line 5: file fault it/samples/0001 rim.wav"),
    ("a file with another name", [move(SNARE, "it/samples/0001 My snare.wav")], PACK, 5, f"line 5: file fault {SNARE}"),
    ("a sample without its name", [line(4, KICK_LINE.replace("kick", ""))], PACK, 5,
     "line 4: file fault it/samples/0000.wav"),
    ("a sample with another number", [line(6, BARE_LINE.replace(" 2 ", " 3 "))], PACK, 5,
     "line 6: file fault it/samples/0003.wav"),
    ("a number of four digits", [line(6, BARE_LINE.replace(" 2 ", " 9999 "))], PACK, 5,
     "line 6: file fault it/samples/9999.wav"),
    ("a number of five digits", [line(6, BARE_LINE.replace(" 2 ", " 10000 "))], PACK, 5,
     "line 6: file fault it/samples/10000.wav"),
    ("the largest number", [line(6, BARE_LINE.replace(" 2 ", " 4294967295 "))], PACK, 5,
     "line 6: file fault it/samples/4294967295.wav"),
    ("a name with a slash", [line(5, SNARE_LINE.replace("my snare", "../a/b"))], PACK, 5,
     "line 5: file fault it/samples/0001 .._a_b.wav"),
    ("a name with other bytes", [line(5, SNARE_LINE.replace('"my snare"', "xc3a4225c7f0a7e"))], PACK, 5,
     "line 5: file fault it/samples/0001 ______~.wav"),
    # Files that don't fit, before any refused line: as a recording, then by channels, bits, rate and loop.
    misfit("a file that is no WAVE file", KICK, 4, b"MThd" + bytes(20), "53 NotWave"),
    misfit("an empty file", SNARE, 5, b"", "53 NotWave"),
    misfit("a bank as a file", SNARE, 5, b"RIFF\4\0\0\0sfbk", "53 NotWave"),
    misfit("a file that is cut off", SNARE, 5, wave_file(22_050, FRAMES)[:-1], "54 Truncated"),
    misfit("a file of 12 bits", SNARE, 5, wave_file(22_050, FRAMES).replace(b"\2\0\x10\0", b"\2\0\x0c\0"),
           "57 SampleBits"),
    misfit("a file of three channels", SNARE, 5, wave_file(22_050, bytes(12), 3), "58 ChannelCount"),
    misfit("a file whose data ends in a frame", SNARE, 5, wave_file(22_050, b"\1\2\3"), "60 HalfFrame"),
    misfit("a short sampler chunk", SNARE, 5, wave_file(22_050, FRAMES, chunks=chunk(b"smpl", bytes(35))),
           "61 ShortSampler"),
    misfit("a note above 127", SNARE, 5, wave_file(22_050, FRAMES, chunks=sampler(22_050, 12_800)), "62 UnityNote"),
    misfit("a loop of the file after its data", SNARE, 5, wave_file(22_050, FRAMES, chunks=sampler(22_050, 6000, (0,
           5))),
           "63 LoopOutside"),
    misfit("a stereo file", SNARE, 5, wave_file(22_050, FRAMES, 2), "72 TwoChannels"),
    misfit("a stereo file of 24 bits", SNARE, 5, wave_file(22_050, bytes(12), 2, 24), "72 TwoChannels"),
    misfit("a stereo file of another rate", SNARE, 5, wave_file(44_100, FRAMES, 2), "72 TwoChannels"),
    misfit("a file of 8 bits", SNARE, 5, wave_file(22_050, FRAMES, bits=8), "78 NotSixteenBits"),
    misfit("a file of 24 bits", SNARE, 5, wave_file(22_050, bytes(9), bits=24), "78 NotSixteenBits"),
    misfit("a file of 32 bits", SNARE, 5, wave_file(22_050, FRAMES, bits=32), "78 NotSixteenBits"),
    misfit("a file of 24 bits of another rate", SNARE, 5, wave_file(44_100, bytes(9), bits=24), "78 NotSixteenBits"),
    misfit("a file of another rate", SNARE, 5, wave_file(44_100, FRAMES), "79 OtherRate"),
    misfit("a file of almost the same rate", SNARE, 5, wave_file(22_051, FRAMES), "79 OtherRate"),
    misfit("a short file of another rate", KICK, 4, wave_file(48_000, FRAMES[:4]), "79 OtherRate"),
    misfit("a file that is short for its loop", KICK, 4, wave_file(44_100, FRAMES[:4]), "80 ShortForLoop"),
    misfit("a file without data for a loop", KICK, 4, wave_file(44_100, b""), "80 ShortForLoop"),
    ("another rate in the line", [line(5, SNARE_LINE.replace("22050", "22051"))], PACK, 2,
     f"line 5: {SNARE}: wave fault 79 OtherRate"),
    ("a longer loop in the line", [line(4, KICK_LINE.replace("1 3", "1 5"))], PACK, 2,
     f"line 4: {KICK}: wave fault 80 ShortForLoop"),
    ("two files that don't fit", [put(SNARE, b""), put(KICK, wave_file(44_100, FRAMES, 2))], PACK, 2,
     f"line 4: {KICK}: wave fault 72 TwoChannels"),
    ("a file that doesn't fit, and a refused line", [JUNK, line(7, "set-kind 0 left 3")], PACK, 2,
     f"line 4: {KICK}: wave fault 53 NotWave"),
    # Refused lines.
    ("a link to no sample", [line(7, "set-kind 0 left 3")], PACK, 4, "line 7: refused 22 NoSuchSample"),
    ("a loop of no length", [line(4, KICK_LINE.replace("1 3", "3 3"))], PACK, 4, "line 4: refused 35 BadLoop"),
    ("a sample in a group, which isn't filled", [line(4, f"group {{ {KICK_LINE} }}")], PACK, 4,
     "line 4: refused 48 GroupRefused 0 35 BadLoop"),
    ("a number after the end", [line(6, BARE_LINE.replace(" 2 ", " 7 ")), move(BARE, "it/samples/0007.wav")], PACK, 4,
     "line 6: refused 25 BadPlace"),
    # Outputs that can't be written.
    ("OUT in a lost folder", NONE, ["pack", "it", "none/out.sf2"], 5, "write fault none/out.sf2 after 0 bytes"),
    ("a folder as OUT", NONE, ["pack", "it", "it"], 5, "write fault it after 0 bytes"),
    # Of `unpack`.
    ("a folder that is there", NONE, ["unpack", "small.sf2", "it"], 5, "output fault 81 FolderThere it"),
    ("an empty folder that is there", [make_folder("new")], ["unpack", "small.sf2", "new"], 5,
     "output fault 81 FolderThere new"),
    ("a file as the folder", NONE, ["unpack", "small.sf2", "notes.txt"], 5, "output fault 81 FolderThere notes.txt"),
    ("the bank as the folder", NONE, ["unpack", "small.sf2", "small.sf2"], 5, "output fault 81 FolderThere small.sf2"),
    ("a link to a folder", [link("soft", "it")], ["unpack", "small.sf2", "soft"], 5,
     "output fault 81 FolderThere soft"),
    ("a link to nothing", [link("soft", "none")], ["unpack", "small.sf2", "soft"], 5, "write fault soft after 0 bytes"),
    ("a file as the folder, with --force", NONE, ["unpack", "--force", "small.sf2", "notes.txt"], 5,
     "write fault notes.txt after 0 bytes"),
    ("a folder in a lost one", NONE, ["unpack", "small.sf2", "none/new"], 5, "write fault none/new after 0 bytes"),
    ("a lost bank", NONE, ["unpack", "none.sf2", "new"], 5, "file fault none.sf2"),
    ("a bank that is cut off", NONE, ["unpack", "cut.sf2", "new"], 2, "read fault 3 Truncated"),
    ("a bank that is cut off, with --force", NONE, ["unpack", "--force", "cut.sf2", "it"], 2, "read fault 3 Truncated"),
    ("a WAVE file as the bank", NONE, ["unpack", "other.wav", "new"], 2, "read fault 2 NotSfbk"),
    ("a folder as the bank", NONE, ["unpack", "it", "new"], 5, "file fault it"),
]

# ---- folders that are packed
# A title, changes, the words of the run, and OUT.

DONE = [
    ("the folder as it is", NONE, PACK, "out.sf2"),
    ("a bank as OUT, with --force", NONE, ["pack", "it", "small.sf2", "--force"], "small.sf2"),
    ("OUT over another file", NONE, ["pack", "it", "notes.txt"], "notes.txt"),
    ("OUT in the folder", NONE, ["pack", "it", "it/out.sf2"], "it/out.sf2"),
    ("OUT in the folder of samples", NONE, ["pack", "it", "it/samples/out.sf2"], "it/samples/out.sf2"),
    ("OUT over a file that no line names", [put("it/samples/0009 old.wav", wave_file(44_100, b"\1\0"))],
     ["pack", "it", "it/samples/0009 old.wav"], "it/samples/0009 old.wav"),
    ("the standard output", NONE, ["pack", "it", "-"], "-"),
    ("a slash at the end", NONE, ["pack", "it/", "out.sf2"], "out.sf2"),
    ("a longer path", NONE, ["pack", "./it/../it", "out.sf2"], "out.sf2"),
    ("a linked folder", [link("soft", "it")], ["pack", "soft", "out.sf2"], "out.sf2"),
    ("a linked file", [move(KICK, "kick.wav"), link(KICK, "../../kick.wav")], PACK, "out.sf2"),
    ("a file that ends with the loop", [put(KICK, wave_file(44_100, FRAMES[:6]))], PACK, "out.sf2"),
    ("a file without data", [put(SNARE, wave_file(22_050, b""))], PACK, "out.sf2"),
    ("other chunks and another loop", [put(KICK, wave_file(44_100, FRAMES, chunks=sampler(44_100, 4250, (0,
     1)) + chunk(b"cue ", b"\0" * 5)))],
     PACK, "out.sf2"),
    ("lines with points", [line(4, KICK_LINE + "0100020003000400"), line(5, SNARE_LINE + "0500"), line(6,
     BARE_LINE + "0600"),
                           move("it/samples", "samples")], PACK, "out.sf2"),
    ("points in the line beside a file", [line(5, SNARE_LINE + "0500"), put(SNARE, b"")], PACK, "out.sf2"),
    ("blanks, comments and line ends", [line(5, f"\n# a snare\n \t{SNARE_LINE.replace(' mono', '   mono')}"), with_crs],
     PACK, "out.sf2"),
    ("a renamed sample, with its file", [line(5, SNARE_LINE.replace("my snare", "rim")), move(SNARE,
     "it/samples/0001 rim.wav")], PACK,
     "out.sf2"),
    ("a number with zeros", [line(5, SNARE_LINE.replace(" 1 ", " 0000001 "))], PACK, "out.sf2"),
    ("other edits", [line(10, 'rename-sample 1 "a longer name"\nset-info ICMT "edited"')], PACK, "out.sf2"),
    ("one file for two lines", [text(f"{BARE_LINE.replace(' 2 ', ' 0 ')}\n" * 2), move(BARE, "it/samples/0000.wav")],
     PACK, "out.sf2"),
    ("a sample in a group, without a loop", [text('group { add-sample 0 "none" 44100 60 0 mono noloop x }\n')], PACK,
     "out.sf2"),
    ("an empty text", [text("")], PACK, "out.sf2"),
]

# ---- the minor versions of folders, by the first line of bank.txt

MINORS = [
    ("# sfbank new --minor 0 without points", 0),
    ("# sfbank new --minor 1 without points", 1),
    ("# sfbank new --minor 3", 3),
    ("# sfbank new --minor 007", 7),
    ("# sfbank new --minor 2, by hand", 2),
    ("# sfbank new --minor 65535 without points", 65_535),
    ("# sfbank new --minor 65536 without points", 4),
    ("# sfbank new --minor 99999999999999999999999999 without points", 4),
    ("# sfbank new --minor", 4),
    ("# sfbank new --minor -1", 4),
    ("# sfbank new --minor x1", 4),
    ("# sfbank new  --minor 1", 4),
    (" # sfbank new --minor 1", 4),
    ("\n# sfbank new --minor 1", 4),
    ("# a bank of mine", 4),
    ("", 4),
]

# ---- the small bank, unpacked
# A title, changes, the words of the run, and the folder.

OLD = [put(it, b"old") for it in (KICK, "it/bank.txt", "it/samples/0009 old.wav", "it/notes/a.txt")]
UNPACKED = [
    ("a new folder", NONE, ["unpack", "small.sf2", "new"], "new"),
    ("a folder with a blank", NONE, ["unpack", "small.sf2", "my new bank"], "my new bank"),
    ("a new folder with a slash", NONE, ["unpack", "small.sf2", "new/"], "new"),
    ("a new folder in another", NONE, ["unpack", "small.sf2", "it/new"], "it/new"),
    ("a new folder with --force", NONE, ["unpack", "--force", "small.sf2", "new"], "new"),
    ("a folder that is there, with --force", OLD, ["unpack", "small.sf2", "it", "--force"], "it"),
    ("an empty folder, with --force", [make_folder("new")], ["unpack", "--force", "small.sf2", "new"], "new"),
    ("a linked folder, with --force", [link("soft", "it")], ["unpack", "--force", "small.sf2", "soft"], "it"),
    ("the current folder, with --force", NONE, ["unpack", "--force", "small.sf2", "."], "."),
    ("the standard input", NONE, ["unpack", "-", "new"], "new"),
    ("a folder named -", NONE, ["unpack", "small.sf2", "./-"], "./-"),
]

# ---- what another user may not read or write
# A title, a path with a mode, the words of the run, its status and its line.

UNWRITABLE = [
    ("a new folder where none may be made", ".", 0o555, ["unpack", "small.sf2", "new"], 5,
     "write fault new after 0 bytes"),
    ("a new file where none may be made", "it", 0o555, ["unpack", "--force", "small.sf2", "it"], 5,
     "write fault it after 0 bytes"),
    ("a bank that may not be read", "small.sf2", 0o200, ["unpack", "small.sf2", "new"], 5, "file fault small.sf2"),
    ("a bank.txt that may not be read", "it/bank.txt", 0o200, ["pack", "it", "out.sf2"], 5, "file fault it/bank.txt"),
    ("a file that may not be read", SNARE, 0o200, ["pack", "it", "out.sf2"], 5, f"line 5: file fault {SNARE}"),
    ("samples that may not be read", "it/samples", 0o600, ["pack", "it", "out.sf2"], 5, f"line 4: file fault {KICK}"),
    ("OUT where no file may be made", ".", 0o555, ["pack", "it", "out.sf2"], 5, "write fault out.sf2 after 0 bytes"),
]
