"""Runs of sfbank-keys for checks/keys: with files as its ends, and with a terminal."""
import os
import pty
import select
import shlex
import signal
import subprocess
import time
from pathlib import Path

HERE = Path(__file__).resolve().parent
TOP = HERE.parents[1]
SCRIPT = TOP / "scripts/sfbank-keys"
STAND_IN = HERE / "stand_in"
ORGAN = TOP / "examples/organ.sf2"
SECONDS = 60
# How often a test looks whether something has happened.
PAUSE = 0.01


def joined(lines):
    return "".join(f"{it}\n" for it in lines)


def wait_for(happened):
    """Waits until a test is true, and returns whether it is in time."""
    end = time.monotonic() + SECONDS
    while not happened() and time.monotonic() < end:
        time.sleep(PAUSE)
    return happened()


class Folder:
    """A folder with the files of one case: the log of the session's lines, the sound, and the MIDI input."""

    def __init__(self, path):
        self.path = path
        path.mkdir()
        self.lines = path / "lines"
        self.sound = path / "sound"
        self.port = path / "port"
        os.mkfifo(self.port)
        self.settings = {**os.environ, "LINES": str(self.lines)}

    def command(self, *words, program=STAND_IN, bank=ORGAN):
        """Returns the words of a run whose player writes the sound to a file."""
        player = f"sh -c {shlex.quote(f'exec cat > {shlex.quote(str(self.sound))}')}"
        return [SCRIPT, "--program", program, "--player", player, *words, bank]

    def sent(self):
        """Returns the session's lines but for its frames."""
        return self.lines.read_text(encoding="utf-8").splitlines() if self.lines.exists() else []

    def run(self, command, lines=b"", **settings):
        """Returns the status of a run, and the lines on standard output and on standard error; `lines` is its standard
        input, or None for one that does not end."""
        held = os.pipe() if lines is None else ()
        words = {"stdin": held[0]} if held else {"input": lines}
        env = {**self.settings, **settings}
        try:
            run = subprocess.run(
                command, **words, capture_output=True, env=env, cwd=self.path, timeout=SECONDS, check=False
            )
        finally:
            for it in held:
                os.close(it)
        return run.returncode, run.stdout.decode().splitlines(), run.stderr.decode().splitlines()


class Playing:
    """A run with a MIDI input that sends bytes. Its standard input stays open until `end`."""

    def __init__(self, folder, command, **settings):
        self.files = [open(folder.path / it, "w+b") for it in ("output", "errors")]
        self.process = subprocess.Popen(
            command,
            stdin=subprocess.PIPE,
            stdout=self.files[0],
            stderr=self.files[1],
            bufsize=0,
            env={**folder.settings, **settings},
            cwd=folder.path,
        )
        self.port = open(folder.port, "wb", buffering=0)

    def type(self, *lines):
        self.process.stdin.write(joined(lines).encode())

    def send(self, *parts):
        for number, part in enumerate(parts):
            time.sleep(PAUSE if number > 0 else 0)
            self.port.write(part)

    def end(self):
        """Waits for the end, and returns the status and the lines of output and of errors."""
        try:
            status = self.process.wait(SECONDS)
        except subprocess.TimeoutExpired:
            self.process.kill()
            status = None
        self.process.stdin.close()
        self.port.close()
        texts = []
        for it in self.files:
            it.seek(0)
            texts.append(it.read().decode().splitlines())
            it.close()
        return (status, *texts)


class Terminal:
    """A run on a terminal of its own, and what it has shown."""

    def __init__(self, folder, command):
        self.shown = ""
        self.process, self.descriptor = pty.fork()
        if self.process == 0:
            os.chdir(folder.path)
            os.execvpe(command[0], [str(it) for it in command], folder.settings)

    def read(self, seconds):
        """Reads what is shown for at most so long, and returns whether more may follow."""
        try:
            if select.select([self.descriptor], [], [], seconds)[0]:
                self.shown += os.read(self.descriptor, 4096).decode().replace("\r\n", "\n")
        except OSError:  # (the run has ended)
            return False
        return True

    def shows(self, text):
        """Waits until a text is shown, returns whether it is, and forgets what was shown up to it."""
        end = time.monotonic() + SECONDS
        while text not in self.shown and time.monotonic() < end and self.read(PAUSE):
            pass
        _, found, after = self.shown.partition(text)
        if found:
            self.shown = after
        return bool(found)

    def type(self, text):
        os.write(self.descriptor, text.encode())

    def end(self):
        """Waits for the end, and returns the exit status."""
        end = time.monotonic() + SECONDS
        while time.monotonic() < end and self.read(PAUSE):
            pass
        if time.monotonic() >= end:
            os.kill(self.process, signal.SIGKILL)
        status = os.waitstatus_to_exitcode(os.waitpid(self.process, 0)[1])
        os.close(self.descriptor)
        return status
