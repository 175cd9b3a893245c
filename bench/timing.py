"""What the scripts of this folder share: their words, runs of the program on a source, and a table
of kinds of sources.

Times are processor times of whole runs, the least of several. From them goes the time of a source
without what is timed.
"""
import argparse
import os
import re
import resource
import shutil
import signal
import subprocess
import sys
import tempfile
from dataclasses import dataclass

TOP = os.path.dirname(os.path.dirname(os.path.realpath(__file__)))
REPEATS = 3
SHARE = 50                       # of a size, where a script is only tried


def asked(doc):
    """The program that the words of a script name, ready to be timed; `doc` says what the script
    does.
    """
    parser = argparse.ArgumentParser(description=doc, formatter_class=argparse.RawDescriptionHelpFormatter)
    parser.add_argument("program", nargs="?", metavar="PROGRAM", help="what is timed; the program that ./gams25 runs if left out")
    parser.add_argument("--quick", action="store_true", help="small sizes, each run once: tries the script and gives no figures")
    words = parser.parse_args()
    return Program(os.path.abspath(words.program) if words.program else own_program(), words.quick)


def own_program():
    """The program that ./gams25 runs; where there is none, it is built."""
    said = subprocess.run([f"{TOP}/.ci/program"], stdout=subprocess.PIPE, check=True, text=True).stdout
    return os.path.join(TOP, said.rstrip("\n"))


def used_by(words, folder, ends=(0, 3), seconds=None):
    """Runs a command in a folder, and tells its processor time and its peak memory in megabytes. It
    has to end with one of these statuses; 3 is that of a run which a fault stops. The memory is
    never less than that of the script itself, from which the command was started. Where it may take
    n seconds of the processor, it is ended after them.
    """
    with open(f"{folder}/said", "w", encoding="utf-8") as said:
        running = subprocess.Popen(words, cwd=folder, stdout=said, stderr=subprocess.STDOUT)
        if seconds:
            resource.prlimit(running.pid, resource.RLIMIT_CPU, (seconds, seconds + 1))
        _, status, used = os.wait4(running.pid, 0)
    running.returncode = os.waitstatus_to_exitcode(status)
    is_over = seconds and running.returncode in (-signal.SIGXCPU, -signal.SIGKILL)
    if running.returncode not in ends and not is_over:
        sys.exit(f"{' '.join(words)} ended with status {running.returncode} and said {text_in(f'{folder}/said')!r}")
    return used.ru_utime + used.ru_stime, used.ru_maxrss / 1024


def timed(words, folder):
    """Runs a command in a folder, and tells its processor time."""
    return used_by(words, folder)[0]


def instructions_of(words, folder, ends=(0, 3)):
    """How many instructions a command itself takes in a folder, by valgrind: those of the C library
    do not count, so that figures of two machines can be compared.
    """
    if not shutil.which("valgrind"):
        sys.exit("valgrind is not installed, so nothing was counted")
    profile = f"{folder}/profile"
    ran = subprocess.run(["valgrind", "--tool=callgrind", f"--callgrind-out-file={profile}", *words], cwd=folder, capture_output=True)
    if ran.returncode not in ends:
        sys.exit(f"{' '.join(words)} ended with status {ran.returncode} and said {ran.stderr[-300:]!r}")
    return own_cost(text_in(profile), os.path.basename(words[0]))


def own_cost(profile, program):
    """The cost of a callgrind profile in the code of a program itself: of each line after its name
    that is not the cost of a call.
    """
    names, cost, is_own, is_call = {}, 0, False, False
    for line in profile.splitlines():
        named = re.fullmatch(r"c?ob=(\(\d+\))(?: (.*))?", line)
        if named:
            names.setdefault(named[1], os.path.basename(named[2] or ""))
            is_own = names[named[1]] == program if line.startswith("ob=") else is_own
        elif line.startswith("calls="):
            is_call = True
        elif re.match(r"[-+*\d]", line):
            cost += 0 if is_call or not is_own else int(line.split()[1])
            is_call = False
    return cost


def text_in(path):
    """The text of a file, and none where it is missing."""
    if not os.path.exists(path):
        return ""
    with open(path, encoding="ascii") as f:
        return f.read()


@dataclass(frozen=True)
class Program:
    """A program that is timed; with `quick` a script is only tried."""
    path: str
    quick: bool

    def size(self, count):
        """How many are to be timed where `count` are meant."""
        return count // SHARE if self.quick else count

    def once(self, source, due):
        """The processor time of a run, whose listing has to hold the text that is expected."""
        with tempfile.TemporaryDirectory() as folder:
            with open(f"{folder}/a.gms", "w", encoding="ascii") as f:
                f.write(source)
            time = timed([self.path, "a.gms"], folder)
            listing = text_in(f"{folder}/a.lst")
        if due not in listing:
            sys.exit(f"a source of {len(source)} bytes has to show {due!r}, and its listing ends with {listing[-200:]!r}")
        return time

    def least(self, source, due):
        """The least time of several runs."""
        return min(self.once(source, due) for _ in range(1 if self.quick else REPEATS))


def shows(number):
    """What a listing ends with that shows the scalar `a`."""
    return f" SCALAR a = {number}\nEND status 0 solves 0\n"


def beside(time, unit):
    """How many times as long as the unit a time is; no number where a difference of times came out
    below 0.
    """
    return time / unit if time > 0 and unit > 0 else float("nan")


def seconds(program, kind, count):
    """The seconds that what a kind of source counts takes, and the bytes of the source.

    A kind gives for a count the beginning of a source, what is timed after it, and the whole number
    that `a` has at its end.
    """
    front, work, value = kind(count)
    without = program.least(f"{front}display a;\n", shows("0.000"))
    whole = f"{front}{work}display a;\n"
    return program.least(whole, shows(f"{value}.000")) - without, len(whole)


def print_table(program, rows):
    """Prints a line for each kind of source at two sizes."""
    print("kind, how many at both sizes, bytes of the greater source, milliseconds of both, one of the greater beside one of the less")
    for kind, few, many in rows:
        few, many = program.size(few), program.size(many)
        less, _ = seconds(program, kind, few)
        greater, length = seconds(program, kind, many)
        ratio = beside(greater / many, less / few)
        print(f"{kind.__name__:12} {few:8} {many:8} {length:8} {1e3 * less:10.1f} {1e3 * greater:10.1f} {ratio:8.2f}", flush=True)
