"""Stands in for the module rtmidi: an input whose bytes are those of the file that BYTES names, and which the system
lists while that file exists. Installed as rtmidi.py in a folder of PYTHONPATH."""
import os
import threading

NAMES = ["Midi Through:Midi Through Port-0 14:0", "Keystation 49:Keystation 49 MIDI 1 24:0"]


class MidiIn:
    """The client of the system's MIDI ports."""

    def __init__(self, name):
        self.name = name
        self.callback = None

    def get_ports(self):
        return NAMES if os.path.exists(os.environ["BYTES"]) else NAMES[:1]

    def set_callback(self, callback):
        self.callback = callback

    def open_port(self, index):
        if index != 1:
            raise SystemError("the wrong port")
        threading.Thread(target=self.play, daemon=True).start()

    def play(self):
        """Passes the messages on, which have three bytes each, and ends the input."""
        with open(os.environ["BYTES"], "rb") as file:
            while message := file.read(3):
                self.callback((list(message), 0.0), None)
        os.remove(os.environ["BYTES"])
