"""Runs our programs, those that read chart.dat and bars.dat in a folder of its own, and the reference."""
import os, re, shutil, struct, subprocess, tempfile, threading, time

root = os.path.join(os.path.dirname(os.path.abspath(__file__)), "..")
NAMES = ["chart.dat", "bars.dat"]

def program(name):
    """a program of ours: from the folder that the environment's PROGRAMS names, if it is set, and else where `rt run` in its crate leaves it"""
    return os.path.join(os.path.abspath(os.environ.get("PROGRAMS", os.path.join(root, "crates", name, "out"))), name)

def printed(command, data=b"", folder=None):
    """what a command prints; where it does not end within 20 seconds or ends otherwise than with 0, that too"""
    try:
        run = subprocess.run(command, input=data, capture_output=True, timeout=20, cwd=folder)
    except subprocess.TimeoutExpired:
        return b"no end\n"
    return run.stdout + (b"ended with %d\n" % run.returncode if run.returncode else b"")

def behind_lengths(files):
    """many files in one: each its length (u32) and its bytes"""
    return b"".join(struct.pack("<I", len(f)) + f for f in files)

def reference(pairs, sections):
    """for each of many pairs of files, what the reference gives in these sections, as oracle/main.rs prints them"""
    command = [os.path.join(root, "oracle/out/oracle"), "many", *sections]
    out = subprocess.run(command, input=behind_lengths(f for pair in pairs for f in pair), capture_output=True, check=True).stdout
    return re.split(rb"^CHART \d+\n", out, flags=re.M)[1:]

# ---- how a program finds a file. It must take each for empty, but a plain one and a pipe

PLAIN = "plain", "plain"
WAYS = ["plain", "missing", "a folder", "a link to itself", "not permitted", "a pipe", "read 1 fails", "read 2 fails"]

def readable(file, way): return file if way in ("plain", "a pipe") else b""

def write(path, file):
    with open(path, "wb") as f:
        f.write(file)

def pour(path, file):
    """into a pipe, in pieces"""
    try:
        with open(path, "wb", buffering=0) as f:
            for piece in (file[:1], file[1:20], file[20:1000], file[1000:]):
                f.write(piece)
                time.sleep(0.002)
    except BrokenPipeError:
        pass

def released(path, thread):
    """ends the wait of a thread that pours, where the program has not opened its pipe"""
    if thread.is_alive():
        os.close(os.open(path, os.O_RDONLY | os.O_NONBLOCK))
    thread.join()

class Folder:
    """a folder of its own, in which programs are run"""
    def __init__(self):
        self.kept = tempfile.TemporaryDirectory()  # until the script ends
        self.path = self.kept.name
        os.makedirs(self.at("elsewhere"))
        self.pipes, self.plain = [], True

    def at(self, name): return os.path.join(self.path, name)

    def clear(self):
        for path in map(self.at, NAMES):
            if os.path.isdir(path):
                os.rmdir(path)
            elif os.path.lexists(path):
                os.unlink(path)

    def put(self, name, file, way):
        path = self.at(name)
        if way == "a folder":
            os.mkdir(path)
        elif way == "a link to itself":
            os.symlink(name, path)
        elif way in ("a pipe", "nobody's pipe"):
            os.mkfifo(path)
            if way == "a pipe":
                self.pipes.append((path, threading.Thread(target=pour, args=(path, file))))
        elif way != "missing":
            write(path, file)
            if way == "not permitted":
                os.chmod(path, 0)

    def run(self, name, pair, ways=PLAIN):
        """what a program prints of two files, which it finds in these ways"""
        if not (ways == PLAIN and self.plain):
            self.clear()
        self.plain, self.pipes = ways == PLAIN, []
        for file, data, way in zip(NAMES, pair, ways):
            self.put(file, data, way)
        for _, thread in self.pipes:
            thread.start()
        failing = [(file, way.split(" ")[1]) for file, way in zip(NAMES, ways) if way.startswith("read")]
        faults = [word for file, n in failing for word in ("-P", file, "-e", f"inject=read:error=EIO:when={n}")]
        out = printed((["strace", "-qq", "-o", os.devnull] + faults if faults else []) + [program(name)], folder=self.path)
        for path, thread in self.pipes:
            released(path, thread)
        return out

    def named(self, name, pair):
        """the same of two files that are arguments, run elsewhere"""
        names = [os.path.join("..", f"a {file}") for file in NAMES]
        for file, data in zip(names, pair):
            write(os.path.join(self.at("elsewhere"), file), data)
        return printed([program(name), *names], folder=self.at("elsewhere"))

    def ways(self):
        """those that work here: strace is there, and this user is kept from a file"""
        self.clear()
        self.put(NAMES[0], b"x", "not permitted")
        kept = not os.access(self.at(NAMES[0]), os.R_OK)
        self.clear()
        return [w for w in WAYS if (kept or w != "not permitted") and (shutil.which("strace") or not w.startswith("read"))]
