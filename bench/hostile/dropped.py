#!/usr/bin/env python3
"""Whether `crun_top` drops a host once where memory is refused. The proved test of crun_cli, as the gate built it, runs a table of command lines with a
host that counts its drops, and says `the host's drops` where there is not one behind a call. Here each request for memory of a run of that test is refused
in turn (../read_module/refuse.c): the calls end with status 5, or the test stops before one. Prints how many runs came to what, and ends with 1 where one
said that of the host, or was killed. Needs gcc and Linux; two minutes.

dropped.py [TESTS]: the test's program, crates/crun_cli/out/crun_cli_tests where it is left out."""
import collections
import os
import subprocess
import sys
import tempfile

HERE = os.path.dirname(os.path.abspath(__file__))
TEST = "tests::command_lines"
BAD, KILLED = "a host that was not dropped once", "killed"


def outcome(ran):
    """What a run of the test came to, in a word or two."""
    if "the host's drops" in ran.stdout:
        return BAD
    if ran.returncode == 0:
        return "as without"
    if "error: Memory" in ran.stdout:
        return "memory was wanting before a call"
    # The test aborts where a row comes out otherwise.
    return "a call with another status or other lines, and one drop" if "left: Some(" in ran.stdout else KILLED


def main():
    tests = os.path.abspath(sys.argv[1] if len(sys.argv) > 1 else f"{HERE}/../../crates/crun_cli/out/crun_cli_tests")
    came_to = collections.Counter()
    with tempfile.TemporaryDirectory() as work:
        library, mark = f"{work}/refuse.so", f"{work}/mark"
        subprocess.run(["gcc", "-O2", "-shared", "-fPIC", "-o", library, f"{HERE}/../read_module/refuse.c", "-ldl"], check=True)
        number = 0
        while True:
            number += 1
            env = os.environ | {"REFUSE": str(number), "MARK": mark, "LD_PRELOAD": library}
            ran = subprocess.run([tests, TEST], cwd=work, env=env, stdout=subprocess.PIPE, stderr=subprocess.STDOUT, text=True)
            if not os.path.exists(mark):
                break
            os.remove(mark)
            came_to[outcome(ran)] += 1
    print(*(f"{count} runs: {what}" for what, count in came_to.most_common()), f"{sum(came_to.values())} requests refused", sep="\n")
    sys.exit(1 if came_to[KILLED] or came_to[BAD] else 0)


if __name__ == "__main__":
    main()
