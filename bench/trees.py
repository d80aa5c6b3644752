"""What the benchmarks share: the trees that are scanned, the program, its peers, and how a run is timed."""
import os
import re
import shutil
import subprocess
import tempfile
import time

HERE = os.path.dirname(os.path.abspath(__file__))
PROGRAM = os.path.join(HERE, "..", "crates", "godoc", "out", "godoc")
NAME = "nobody_has_this_name"
GO_SOURCES = "/usr/share/go-1.19/src"
FILES, FORMS_A_FILE = 160, 6000
WORDS = "a buffer count err field index key length name next offset reader result size state value writer".split()
FORMS = [
    "func {0}{3}({1} int, {2} string) error {{\n\treturn {1}.{2}({3}) + {0}\n}}\n",
    "func {2}() (int, string) {{\n\tif {0} != nil && {1}.{2} <= {3} {{ return {0}, \"{1} of {2}\" }} // {3} of {0}\n\treturn 0, {1}\n}}\n",
    "func ({0} *{1}) {2}({3} []int) {{\n\tfor {0} := 0; {0} < len({1}); {0}++ {{ {2}[{0}] += {3} }}\n}}\n",
    "type {0}{2} struct {{\n\t{0}, {1} map[string]{2} `{3}`\n\t*{3} // {0} of {1}\n}}\n",
    "// {0} is the {1} of {2}, and {3} is none.\nvar {0}{3} = {1}({2}, 10)\n",
]


def make_tree(root, files=FILES):
    """Writes files of our own making, the same in every run."""
    state = 1
    for number in range(files):
        folder = os.path.join(root, "p%02d" % (number % 10))
        os.makedirs(folder, exist_ok=True)
        with open(os.path.join(folder, "f%03d.go" % number), "w") as out:
            out.write("package p%02d\n\n" % (number % 10))
            for _ in range(FORMS_A_FILE):
                chosen = []
                for _ in range(5):
                    state = (state * 1103515245 + 12345) % 2147483648
                    chosen.append(state >> 16)
                words = [WORDS[c % len(WORDS)] for c in chosen[1:]]
                out.write(FORMS[chosen[0] % len(FORMS)].format(*words))


def is_left_out(name):
    """Whether godoc enters no folder of this name."""
    return name.startswith((".", "_")) or name in ("vendor", "testdata")


def size_of(root):
    """The bytes of all Go files that godoc reads under a folder, and of the largest."""
    total = largest = 0
    for folder, folders, names in os.walk(root):
        folders[:] = [name for name in folders if not is_left_out(name)]
        for name in names:
            path = os.path.join(folder, name)
            if name.endswith(".go") and not name.startswith((".", "_")) and os.path.isfile(path):
                size = os.path.getsize(path)
                total, largest = total + size, max(largest, size)
    return total, largest


def build_peers(work):
    """Builds the program of Go's own scanner and parser in a folder: its path, or None where Go is missing."""
    if not shutil.which("go"):
        return None
    program = os.path.join(work, "gopeers")
    environment = dict(os.environ, GOCACHE=os.path.join(work, "cache"), GO111MODULE="off")
    sources = [os.path.join(HERE, "gopeers", name) for name in ("main.go", "parse.go", "scan.go")]
    return None if subprocess.call(["go", "build", "-o", program] + sources, env=environment) else program


def one_core():
    """An environment in which a Go program runs on one core."""
    return dict(os.environ, GOMAXPROCS="1")


def timed(words, out, environment=None):
    """The seconds that a run takes, with its output in a file."""
    began = time.monotonic()
    subprocess.call(words, stdout=out, stderr=subprocess.DEVNULL, stdin=subprocess.DEVNULL, env=environment)
    return time.monotonic() - began


def processor_seconds(words, environment=None):
    """The processor seconds, user and system, that a run takes. Other work on the machine hardly changes them."""
    with open(os.devnull, "w") as nothing:
        process = subprocess.Popen(words, stdout=nothing, stderr=nothing, stdin=subprocess.DEVNULL, env=environment)
    _, status, usage = os.wait4(process.pid, 0)
    process.returncode = status
    return usage.ru_utime + usage.ru_stime


def best(words, environment=None, runs=3):
    """The least time of some runs in seconds, and the lines written."""
    seconds, lines = float("inf"), 0
    for _ in range(runs):
        with tempfile.TemporaryFile() as out:
            seconds = min(seconds, timed(words, out, environment))
            out.seek(0)
            lines = sum(piece.count(b"\n") for piece in iter(lambda: out.read(1 << 16), b""))
    return seconds, lines


def instructions(root, function=None):
    """How many instructions the program takes for a tree, all or those of a function and what it calls; or None
    where valgrind is missing."""
    if not shutil.which("valgrind"):
        return None
    words = ["valgrind", "--tool=callgrind", "--callgrind-out-file=/dev/null"]
    words += ["--toggle-collect=" + function] if function else []
    told = subprocess.run(words + [PROGRAM, root, "find", NAME], stdin=subprocess.DEVNULL, capture_output=True, text=True).stderr
    found = re.search(r"refs:\s*([0-9,]+)", told)
    return int(found.group(1).replace(",", "")) if found else None


def peak_of(words, environment):
    """The peak memory of a run, as GNU time tells it, or "unknown" where that is missing."""
    if not os.path.exists("/usr/bin/time"):
        return "unknown"
    with tempfile.NamedTemporaryFile() as told:
        timed = ["/usr/bin/time", "-f", "%M", "-o", told.name] + words
        subprocess.call(timed, stdout=subprocess.DEVNULL, stderr=subprocess.DEVNULL, stdin=subprocess.DEVNULL, env=environment)
        return "%.1f MB" % (int(told.read().split()[-1]) * 1024 / 1e6)
