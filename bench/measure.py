"""What the scripts of this folder share: the programs, a folder for files, and calls that are measured.

PROGRAM and PLANNER in the environment name the programs under test, PLAIN a plain program that is built; without them
they are those that examples/run.sh builds, and bench/plain is built by cargo."""
import argparse, atexit, collections, json, os, re, shutil, signal, subprocess, sys, tempfile, time

TOP = os.path.dirname(os.path.dirname(os.path.abspath(__file__)))
sys.dont_write_bytecode = True

# A setting of the C library would count as the speed of a program.
os.environ.pop("GLIBC_TUNABLES", None)

# Seconds of processors, seconds by the clock, the peak of memory in kB (one below that of this script, some 14,000 kB,
# can't be told); the seconds of processors in the program and in the system, and the new pages of memory.
Figures = collections.namedtuple("Figures", "processor clock peak user system pages")
Ended = collections.namedtuple("Ended", "figures text errors status")


def named(variable, built):
    path = os.environ.get(variable) or os.path.join(TOP, built)
    if not os.access(path, os.X_OK) or os.path.isdir(path):
        sys.exit("no program at %s: build it by 'bash examples/run.sh', or name it by %s" % (path, variable))
    return os.path.realpath(path)


def program():
    return named("PROGRAM", "crates/ih_main/out/ih_main")


def planner():
    return named("PLANNER", "crates/ih_planner/out/ih_planner")


def plain():
    """The plain program, which is built if none is named."""
    if not os.environ.get("PLAIN"):
        wanted("cargo")
        done = subprocess.run([os.path.join(TOP, "bench/plain/build")], stdout=subprocess.PIPE, text=True)
        if done.returncode != 0:
            sys.exit("the plain program can't be built")
    return named("PLAIN", "bench/plain/out/release/peer")


def wanted(*tools):
    for tool in tools:
        if not shutil.which(tool):
            sys.exit("%s is wanted" % tool)


def words(doc, *more, options=()):
    """The words of a script: FOLDER, which takes the files (without it a new one, which is removed at the end), then
    those that are named here, each with its type and its usual value; options begin with two dashes."""
    parser = argparse.ArgumentParser(description=doc, formatter_class=argparse.RawDescriptionHelpFormatter)
    parser.add_argument("folder", nargs="?", help="takes the files; without it they are removed at the end")
    for name, kind, usual in more:
        parser.add_argument(name, nargs="?", type=kind, default=usual, help="%s" % (usual,))
    for name, kind, usual in options:
        parser.add_argument("--" + name, type=kind, default=usual, help="%s" % (usual,))
    given = parser.parse_args()
    signal.signal(signal.SIGTERM, lambda *_: sys.exit(143))
    if given.folder is None:
        given.folder = tempfile.mkdtemp(prefix="bench ")
        atexit.register(shutil.rmtree, given.folder, True)
    os.makedirs(given.folder, exist_ok=True)
    given.folder = os.path.realpath(given.folder)
    given.path = lambda name: os.path.join(given.folder, name)
    return given


def fresh(*paths):
    """Removes files of earlier calls, so that what is read is what the next call wrote."""
    for path in paths:
        if os.path.exists(path):
            os.remove(path)


def lay(path, make, *given, size=0):
    """Writes what a function makes as JSON, padded to a size, in a process of its own: else the memory that this takes
    would count as that of the calls that follow."""
    child = os.fork()
    if child == 0:
        try:
            with open(path, "w") as file:
                file.write(json.dumps(make(*given)).ljust(size))
            os._exit(0)
        finally:
            os._exit(1)
    if os.waitpid(child, 0)[1] != 0:
        sys.exit("cannot make %s" % path)


def call(line, allowed=(0,), folder=None, **environment):
    """Runs a call, whose exit status has to be one of these."""
    with tempfile.TemporaryFile() as errors, tempfile.TemporaryFile() as text:
        begun = time.monotonic()
        child = subprocess.Popen(line, stdout=text, stderr=errors, cwd=folder, env=dict(os.environ, **environment))
        try:
            _, status, used = os.wait4(child.pid, 0)
        except BaseException:
            child.kill()
            raise
        clock = time.monotonic() - begun
        child.returncode = status = os.waitstatus_to_exitcode(status)
        errors.seek(0), text.seek(0)
        said, complaints = text.read().decode(), errors.read().decode()
    if status not in allowed:
        sys.exit("status %d of: %s\n%s%s" % (status, " ".join(line), said[-300:], complaints[-300:]))
    user, system = used.ru_utime, used.ru_stime
    figures = Figures(user + system, clock, used.ru_maxrss, user, system, used.ru_minflt)
    return Ended(figures, said, complaints, status)


def least(*calls, times=3):
    """Runs these calls in turn, so many times over: of each the least of each figure. A call is a list of words, or a
    function that gives figures."""
    def once(one):
        return one() if callable(one) else call(one, (0, 5)).figures
    runs = [[once(one) for one in calls] for _ in range(times)]
    return [Figures(*map(min, zip(*column))) for column in zip(*runs)]


def less(long, short):
    return Figures(*(a - b for a, b in zip(long, short)))


def instructions(line, folder=None, **environment):
    """How many instructions a call takes, by callgrind."""
    tool = ["valgrind", "--tool=callgrind", "--callgrind-out-file=/dev/null"]
    said = call(tool + line, (0, 5), folder, **environment).errors
    return int(re.search(r"Collected : (\d+)", said).group(1))


def same(one, other):
    """Two files that were just written have the same bytes."""
    with open(one, "rb") as first, open(other, "rb") as second:
        return "equal" if first.read() == second.read() else "DIFFER"


def mark(holds):
    return "holds" if holds else "MISSED"
