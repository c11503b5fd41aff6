"""Runs of a program one instruction at a time, and the lists of values that these runs have."""
import collections, ctypes, os, re, struct, subprocess
from concurrent.futures import ThreadPoolExecutor

ADDRESSES_STAY = 0x0040000
HERE = os.path.dirname(os.path.abspath(__file__))
REGISTERS = "rax rbx rcx rdx rsi rdi rbp rsp r8 r9 r10 r11 r12 r13 r14 r15".split()
BYTES = {"BYTE": 1, "WORD": 2, "DWORD": 4, "QWORD": 8, "XMMWORD": 16}
NONE = 16
# An entry of the table: displacement, whether it is known, whether it uses vector registers, bytes, base, index, scale.
ENTRY = struct.Struct("<QBBBBBB2x")

# A list of values, one for each run: where it was first made, and the steps at which it was made.
Values = collections.namedtuple("Values", "place where steps values")

# All lists of a call, how many steps it takes, and how many lists aren't the same when a run is done again.
Seen = collections.namedtuple("Seen", "lists steps unsteady")


def operand(words):
    """The memory that an instruction names: bytes, base, index, scale and displacement, as the stepper reads them."""
    named = re.search(r"\b(XMMWORD|QWORD|DWORD|WORD|BYTE) PTR (?:([cdefgs]s):)?\[([^]]*)\]", words)
    if not named or "nop" in words or named[2] in ("fs", "gs"):
        return 0, NONE, NONE, 1, 0
    size, base, index, scale, displacement = BYTES[named[1]], NONE, NONE, 1, 0
    for sign, term in re.findall(r"([+-]?)([^+-]+)", named[3]):
        register, _, times = term.partition("*")
        if term.startswith("0x"):
            displacement += int(sign + term, 16)
        elif term == "rip":
            return size, NONE, NONE, 1, int(re.search(r"# ([0-9a-f]+)", words)[1], 16)
        elif register not in REGISTERS:
            return 0, NONE, NONE, 1, 0
        elif times:
            index, scale = REGISTERS.index(register), int(times)
        else:
            base = REGISTERS.index(register)
    return size, base, index, scale, displacement


def write_table(program, path):
    listing = subprocess.run(["objdump", "-d", "-M", "intel", "--no-show-raw-insn", program], capture_output=True, text=True, check=True).stdout
    found = {int(place, 16): words for place, words in re.findall(r"^\s*([0-9a-f]+):\t(.*)$", listing, re.M)}
    table = bytearray(ENTRY.size * (max(found) + 1))
    for place, words in found.items():
        *memory, displacement = operand(words)
        ENTRY.pack_into(table, ENTRY.size * place, displacement % 2**64, 1, "xmm" in words, *memory)
    with open(path, "wb") as file:
        file.write(table)


class Stepper:
    def __init__(self, folder):
        self.folder = folder
        compiler = os.environ.get("CC", "cc")
        subprocess.run([compiler, "-O2", "-mno-red-zone", "-shared", "-fPIC", "-o", f"{folder}/step.so", f"{HERE}/step.c"], check=True)
        subprocess.run([compiler, "-O2", "-o", f"{folder}/collect", f"{HERE}/collect.c"], check=True)
        self.tables = {}

    def table(self, program):
        if program not in self.tables:
            self.tables[program] = f"{self.folder}/table{len(self.tables)}"
            write_table(program, self.tables[program])
        return self.tables[program]

    def run(self, number, program, words, given, begin):
        """A run that is recorded under its number: what it prints. All runs of a call have names of the same length.

        Records begin with a write of the text `begin`, or with a read of as many bytes where it is a number.
        """
        environment = {
            "LD_BIND_NOW": "1",
            "LD_PRELOAD": f"{self.folder}/step.so",
            "MACHINE_READ": str(begin) if isinstance(begin, int) else "0",
            "MACHINE_WRITE": begin if isinstance(begin, str) else "",
            "MACHINE_OUT": f"{self.folder}/records{number:06}",
            "MACHINE_TABLE": self.table(program),
        }
        keep = lambda: ctypes.CDLL(None).personality(ADDRESSES_STAY)
        ran = subprocess.run([program, *words], input=given, capture_output=True, text=True, env=environment, preexec_fn=keep)
        if ran.returncode:
            raise SystemExit(f"machine: {program} ended with status {ran.returncode}: {ran.stderr}")
        return ran.stdout

    def run_all(self, program, jobs, begin):
        """Runs these words and inputs, the first one twice: what they print, and the lists of values."""
        self.table(program)
        numbered = list(enumerate([jobs[0], *jobs]))
        with ThreadPoolExecutor(len(os.sched_getaffinity(0))) as pool:
            printed = list(pool.map(lambda job: self.run(job[0], program, *job[1], begin), numbered))
        seen = self.collect(len(numbered))
        return printed[1:], seen

    def collect(self, count):
        """The lists of the records, without the value of the run that was done again."""
        paths = [f"{self.folder}/records{number:06}" for number in range(count)]
        with open(f"{self.folder}/paths", "w") as file:
            print("\n".join(paths), file=file)
        ran = subprocess.run([f"{self.folder}/collect", f"{self.folder}/paths"], capture_output=True, text=True)
        if ran.returncode:
            raise SystemExit(f"machine: {ran.stderr}")
        for path in paths:
            os.remove(path)
        first, *rest = ran.stdout.splitlines()
        lists, unsteady = [], 0
        for line in rest:
            steady, place, where, steps, _again, *values = line.split()
            if steady == "steady":
                lists.append(Values(int(place, 16), where, [int(step) for step in steps.split(",")], [int(v, 16) for v in values]))
            else:
                unsteady += 1
        return Seen(lists, int(first.split()[1]), unsteady)


def name_of(program, place):
    """The function that an instruction stands in."""
    symbols = subprocess.run(["nm", "-C", program], capture_output=True, text=True).stdout
    named = sorted((int(at, 16), name) for at, name in re.findall(r"^([0-9a-f]+) [tT] (.*)$", symbols, re.M))
    return next((name for at, name in reversed(named) if at <= place), "?")
