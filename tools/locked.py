"""Takes the lock of the array that a call stores, and becomes the program. The program holds it as
long as it works, whatever way its text comes.

usage: tools/locked.py PROGRAM DIR COMMAND WORDS..
"""
from __future__ import annotations

import os
import signal
import sys

sys.path.insert(0, os.path.dirname(os.path.realpath(__file__)))
import locks  # locks.py, in this folder
import stdin_text
from said import Failed, usage_if_asked


def main(program: str, *words: str) -> int:
    # Python ignores a closed pipe and answers Ctrl-C: the program does as a shell starts it.
    signal.signal(signal.SIGPIPE, signal.SIG_DFL)
    if signal.getsignal(signal.SIGINT) is not signal.SIG_IGN:
        signal.signal(signal.SIGINT, signal.SIG_DFL)
    folder, command = words[0], words[1]
    text = stdin_text.taken() if command in stdin_text.TAKES_TEXT else None
    if os.path.isdir(folder):
        names = stdin_text.locks_of(command, text)
    else:
        # (nothing is made for what is refused)
        import fresh
        names = fresh.locks_of(list(words), text)
    try:
        for name, alone in names:
            file = locks.hold(folder, name, alone)
            if file is not None:
                os.set_inheritable(file.descriptor, True)
    except Failed as failed:
        print(f"cubed: {failed}", file=sys.stderr)
        return 1
    os.execv(program, [program, *words])


if __name__ == "__main__":
    usage_if_asked(__doc__, 1)
    sys.exit(main(*sys.argv[1:]))
