#!/usr/bin/env python3
"""Types at a program's console: console.py SECONDS [PROMPT LINE..] LAST -- PROGRAM [WORD..]

The program runs on a terminal of its own. Whenever it has shown the next prompt, the line behind that is typed. What
it shows goes out, as far as it is text. It is ended when it has shown the last text, or after so many seconds, which is
a failure."""
import os
import pty
import select
import signal
import sys
import time


def main(words):
    cut = words.index('--')
    end, said = time.monotonic() + float(words[0]), b''
    steps = list(zip(words[1:cut:2], words[2:cut:2])) + [(words[cut - 1], None)]
    child, terminal = pty.fork()
    if child == 0:
        os.execvp(words[cut + 1], words[cut + 1:])
    seen = 0
    while steps and time.monotonic() < end:
        if not select.select([terminal], [], [], 0.2)[0]:
            continue
        try:
            said += os.read(terminal, 4096)
        except OSError:
            break
        prompt, line = steps[0]
        place = said.find(prompt.encode(), seen)
        if place >= 0:
            seen = place + len(prompt)
            steps.pop(0)
            for key in (line + '\r' if line is not None else ''):
                os.write(terminal, key.encode())
                time.sleep(0.05)
    os.kill(child, signal.SIGKILL)
    os.waitpid(child, 0)
    print(''.join(it for it in said.decode('ascii', 'ignore') if it.isprintable() or it in '\n\t'))
    return 1 if steps else 0


if __name__ == '__main__':
    sys.exit(main(sys.argv[1:]))
