#!/usr/bin/env python3
"""in_turns.py FOLDER FOLDER COMMAND ..: runs a command in each of two folders, and says how long it took there and its processor time. The two take
turns of 20 seconds, in which the other's processes are frozen: each has the machine to itself, and a host that grows slower or quicker does so for both.
A time is the sum of a command's own turns. What the commands say is in FOLDER.said. Ends with 1 where one of them failed.

Needs Linux with the freezer of cgroups of version 1, and the rights of root."""
import os
import signal
import subprocess
import sys
import time

FREEZER = "/sys/fs/cgroup/freezer"
TURN = 20


class Run:
    """A command in a folder, as a group of processes that is frozen but for its turns."""

    def __init__(self, number, folder, command):
        self.folder, self.group = folder, f"{FREEZER}/in_turns.{os.getpid()}.{number}"
        self.took, self.status, self.spent = 0, None, None
        os.mkdir(self.group)
        with open(f"{folder}.said", "wb") as said:
            how = {"cwd": folder, "stdin": subprocess.DEVNULL, "stdout": said, "stderr": said, "preexec_fn": self.enter}
            self.process = subprocess.Popen(command, **how)
        self.set("FROZEN")

    def enter(self):
        """Has the process that is just made stand in the group."""
        os.setsid()
        with open(f"{self.group}/cgroup.procs", "w", encoding="ascii") as members:
            members.write(str(os.getpid()))

    def set(self, state):
        """Freezes the group, or lets it go on, and waits until it does."""
        with open(f"{self.group}/freezer.state", "w", encoding="ascii") as file:
            file.write(state)
        while True:
            with open(f"{self.group}/freezer.state", encoding="ascii") as file:
                if file.read().strip() == state:
                    return
            time.sleep(0.002)

    def turn(self):
        """Lets the command go on for a turn, or until it ends."""
        self.set("THAWED")
        began = time.monotonic()
        while self.status is None and time.monotonic() < began + TURN:
            time.sleep(0.02)
            ended, status, spent = os.wait4(self.process.pid, os.WNOHANG)
            if ended:
                self.status, self.spent = os.waitstatus_to_exitcode(status), spent.ru_utime + spent.ru_stime
        self.took += time.monotonic() - began
        if self.status is None:
            self.set("FROZEN")
        else:
            print(f"{self.folder}: {int(self.took) // 60}:{int(self.took) % 60:02}, {self.spent / 60:.1f} minutes of processor time, status {self.status}", flush=True)
            os.rmdir(self.group)

    def stop(self):
        """Ends what has not ended, where the script is stopped: nothing stays frozen."""
        if self.status is None:
            self.set("THAWED")
            os.killpg(self.process.pid, signal.SIGTERM)


def main():
    if len(sys.argv) < 4:
        print(__doc__, file=sys.stderr)
        return 2
    runs = [Run(number, os.path.abspath(folder), sys.argv[3:]) for number, folder in enumerate(sys.argv[1:3])]
    try:
        while any(it.status is None for it in runs):
            for it in runs:
                if it.status is None:
                    it.turn()
    finally:
        for it in runs:
            it.stop()
    return int(any(it.status for it in runs))


if __name__ == "__main__":
    sys.exit(main())
