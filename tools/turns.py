#!/usr/bin/env python3
"""Runs the gates of two checkouts, each from nothing, in turns of half a minute. So both have the same machine to themselves.

usage: tools/turns.py OTHER [LOG]        this checkout's gate, and the gate of the folder OTHER; logs are LOG.this and LOG.other (default: gate)

What a check takes depends on what else the machine does, and that changes within minutes. So while one gate runs, each process
of the other one is held still (SIGSTOP). tools/gate.py counts what each takes. A line for each turn says how long the
processors were busy, idle, and taken away by the machine that this one is a part of (`steal` in /proc/stat).
"""

import os
import signal
import subprocess
import sys
import time

sys.dont_write_bytecode = True
import usage  # noqa: E402

HERE = os.path.dirname(os.path.dirname(os.path.realpath(__file__)))
TURN, TICKS = 30, os.sysconf("SC_CLK_TCK")


def processes():
    """Returns each process with its state, parent and session."""
    for process in filter(str.isdigit, os.listdir("/proc")):
        try:
            with open(f"/proc/{process}/stat") as it:
                state, parent, _, session = it.read().rpartition(")")[2].split()[:4]
            yield int(process), state, int(parent), int(session)
        except OSError:
            pass


def send(session, sign):
    """Holds each process of a session still, or lets it go on. What was made meanwhile is met by the next look."""
    while True:
        found = [(it, state, parent) for it, state, parent, its in processes() if its == session and state != "Z"]
        wanted = [(it, sign) for it, state, _ in found if (state == "T") == (sign == signal.SIGCONT)]
        if not wanted:
            return
        # what starts another process waits (D), and cannot be held, until that one runs
        starting = {it for it, state, _ in found if state == "D"}
        wanted += [(it, signal.SIGCONT) for it, state, parent in found if state == "T" and parent in starting]
        for process, its in wanted:
            try:
                os.kill(process, its)
            except ProcessLookupError:
                pass
        time.sleep(0.02)


def spent():
    """Returns the seconds that the processors were busy, idle and taken away since the machine began."""
    with open("/proc/stat") as it:
        user, nice, system, idle, waiting, _, _, stolen = map(int, it.readline().split()[1:9])
    return [it / TICKS for it in (user + nice + system, idle + waiting, stolen)]


class Gate:
    """A gate that runs in a session of its own, held still when it is not its turn."""

    def __init__(self, name, top, log):
        self.name, self.sums = name, [0.0] * 4
        command = [sys.executable, f"{HERE}/tools/gate.py", "-C", top, "rt", "ci", "--anew"]
        with open(log, "w", encoding="utf-8") as it:
            self.running = subprocess.Popen(command, stdin=subprocess.DEVNULL, stdout=it, stderr=subprocess.STDOUT)
        self.session = None
        while self.session is None:
            self.session = next((it for it, _, parent, _ in processes() if parent == self.running.pid), None)
        send(self.session, signal.SIGSTOP)

    def turn(self):
        before, started = spent(), time.time()
        send(self.session, signal.SIGCONT)
        while time.time() - started < TURN and self.running.poll() is None:
            time.sleep(0.2)
        if self.running.poll() is None:
            send(self.session, signal.SIGSTOP)
        new = [time.time() - started, *(after - it for after, it in zip(spent(), before))]
        self.sums = [a + b for a, b in zip(self.sums, new)]
        clock, busy, idle, stolen = self.sums
        print(f"{self.name}: {clock:.0f} s of the clock; busy {busy:.0f}, idle {idle:.0f}, taken away {stolen:.0f}", flush=True)


def main(other, log):
    gates = [Gate("other", other, f"{log}.other"), Gate("this", HERE, f"{log}.this")]
    while left := [it for it in gates if it.running.poll() is None]:
        for gate in left:
            gate.turn()
    return max(it.running.returncode for it in gates)


if __name__ == "__main__":
    parser = usage.Words(__doc__)
    parser.add_argument("other", metavar="OTHER")
    parser.add_argument("log", nargs="?", default="gate", metavar="LOG")
    given = parser.parse_args()
    if not os.path.isdir(given.other):
        parser.error(f"no folder {given.other}")
    sys.exit(main(given.other, given.log))
