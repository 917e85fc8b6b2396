#!/usr/bin/env python3
"""Talks with a guest through a terminal, as a person would: each question is on the screen before the answer is typed.

usage: examples/prompt.py [EXTERM [GUEST]], where EXTERM is the program (./exterm) and GUEST the guest (examples/greet.elf)

The last line is 'N passed, M failed'."""
import os
import pty
import select
import sys
import time

here = os.path.dirname(os.path.abspath(__file__))
exterm = os.path.abspath(sys.argv[1]) if len(sys.argv) > 1 else os.path.join(here, "..", "exterm")
guest = os.path.abspath(sys.argv[2]) if len(sys.argv) > 2 else os.path.join(here, "greet.elf")
SECONDS = 60


class Terminal:
    """A program on a terminal of its own."""

    def __init__(self, *words):
        self.child, self.screen = pty.fork()
        if self.child == 0:
            os.execv(words[0], words)
        self.shown = b""

    def waits_for(self, text):
        """Whether the text comes next on the screen, with nothing behind it for a moment."""
        end = time.monotonic() + SECONDS
        while time.monotonic() < end:
            quiet = self.shown.endswith(text)
            ready, _, _ = select.select([self.screen], [], [], 0.2 if quiet else 1)
            if not ready and quiet:
                break
            if ready:
                try:
                    piece = os.read(self.screen, 4096)
                except OSError:  # the program has ended
                    piece = b""
                if not piece:
                    break
                self.shown += piece
        shown, self.shown = self.shown, b""
        return shown == text, shown

    def rest(self):
        """All that comes until the program ends."""
        while True:
            try:
                piece = os.read(self.screen, 4096)
            except OSError:
                piece = b""
            if not piece:
                shown, self.shown = self.shown, b""
                return shown
            self.shown += piece

    def types(self, text):
        os.write(self.screen, text)

    def status(self):
        return os.waitstatus_to_exitcode(os.waitpid(self.child, 0)[1])


passed = failed = 0


def check(name, right, seen):
    global passed, failed
    if right:
        passed += 1
    else:
        failed += 1
        print(f"prompt: {name}: {seen!r}")


# A terminal shows what is typed, and a line feed as two characters.
terminal = Terminal(exterm, "run", guest)
check("the first question", *terminal.waits_for(b"Name: "))
terminal.types(b"Ada\n")
check("the answer", *terminal.waits_for(b"Ada\r\nHello, Ada!\r\nName: "))
terminal.types(b"Grace Hopper\n")
check("the next answer", *terminal.waits_for(b"Grace Hopper\r\nHello, Grace Hopper!\r\nName: "))
terminal.types(b"\n")
shown = terminal.rest()
wanted = b"\r\nBye.\r\nexterm: heap allocations 0 frees 0 signals 0\r\nexterm: exit 0 after "
check("the end", shown.startswith(wanted), shown)
status = terminal.status()
check("the status", status == 0, status)

print(f"{passed} passed, {failed} failed")
sys.exit(failed > 0)
