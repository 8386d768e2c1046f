#!/usr/bin/python3
"""A program between the command and the loader, which breaks at one command.

BROKEN_AT says at which command of a process, from 1 on, and BROKEN_HOW how:

- `die`: it ends by a signal before the loader sees the command;
- `late`: it ends by a signal once the loader has answered, and the answer is lost;
- `half`: half of the answer comes, and then the end;
- `nonsense`: an answer comes that no loader gives;
- `hang`: no answer comes;
- `memory`: it ends as a loader does that has no memory left.

It breaks as many times as BROKEN_TIMES says, counted by files in the directory BROKEN_STATE. All
else goes through to the loader that REAL_LOADER names.
"""

from __future__ import annotations

import os
import signal
import subprocess
import sys
import time

HOW, STATE = os.environ["BROKEN_HOW"], os.environ["BROKEN_STATE"]
AT, TIMES = int(os.environ["BROKEN_AT"]), int(os.environ["BROKEN_TIMES"])


def may_break() -> bool:
    """Tells whether it is to break again, and notes that it does."""
    done = len(os.listdir(STATE))
    if done >= TIMES:
        return False
    with open(os.path.join(STATE, str(done)), "w", encoding="ascii"):
        return True


def end_by_signal() -> None:
    """Ends this process as `kill -9` does."""
    os.kill(os.getpid(), signal.SIGKILL)


def main() -> None:
    """Passes lines on, and breaks where it is told to."""
    words = [os.environ["REAL_LOADER"], *sys.argv[1:]]
    loader = subprocess.Popen(words, stdin=subprocess.PIPE, stdout=subprocess.PIPE)
    assert loader.stdin and loader.stdout
    for number, line in enumerate(sys.stdin.buffer, 1):
        breaks = number == AT and may_break()
        if breaks and HOW == "die":
            end_by_signal()
        if breaks and HOW == "hang":
            time.sleep(600)
        if breaks and HOW == "memory":
            sys.stderr.write("stop: memory\n")
            sys.exit(3)
        loader.stdin.write(line)
        loader.stdin.flush()
        answer = loader.stdout.readline()
        if breaks and HOW == "late":
            end_by_signal()
        if breaks and HOW == "half":
            sys.stdout.buffer.write(answer[: len(answer) // 2])
            sys.stdout.buffer.flush()
            end_by_signal()
        if breaks and HOW == "nonsense":
            answer = b'{"nonsense":true}\n'
        sys.stdout.buffer.write(answer)
        sys.stdout.buffer.flush()
    loader.stdin.close()
    sys.exit(loader.wait())


if __name__ == "__main__":
    main()
