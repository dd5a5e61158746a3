"""Runs of rt side by side, for tools/build and tools/edits.

rt lets one run at a time work in a crate and in the crates below it. So each run here gets a room: a repository of its own with
that crate and the crates below it, whose libraries are hard links to the ones of this repository, or copies where links fail.
"""
import fcntl, functools, hashlib, os, shutil, signal, subprocess, sys, tempfile, time

TOP = os.path.dirname(os.path.dirname(os.path.abspath(__file__)))
# The memory in bytes that has to be free before a second run starts.
NEED = 4_000_000_000


@functools.cache
def cache():
    """The user's cache folder for this repository: in $XDG_CACHE_HOME or ~/.cache, or in the temporary folder where that cannot be
    written. The rooms stand there, outside the tree: rt refuses a crate below its own repository, and a source archive has no .git
    to hide them in."""
    name = hashlib.sha256(TOP.encode()).hexdigest()[:16]
    for base in (os.environ.get("XDG_CACHE_HOME") or os.path.expanduser("~/.cache"), f"{tempfile.gettempdir()}/cache-{os.geteuid()}"):
        try:
            os.makedirs(f"{base}/zxtt/{name}", mode=0o700, exist_ok=True)
        except OSError:
            continue
        if os.access(f"{base}/zxtt/{name}", os.W_OK):
            return f"{base}/zxtt/{name}"
    sys.exit(f"no cache folder can be written: set XDG_CACHE_HOME to one outside {TOP}")


def room_of(name):
    """The path of a crate's room."""
    return f"{cache()}/rooms/{name}"


def claim():
    """Waits until no other run uses the rooms, and returns the lock, which is held until it is closed. From then on SIGTERM and
    SIGHUP end this run as an exit does, so that what it started is ended too."""
    for ending in (signal.SIGTERM, signal.SIGHUP):
        signal.signal(ending, lambda *_: sys.exit(1))
    held = open(f"{cache()}/rooms.lock", "w")
    fcntl.flock(held, fcntl.LOCK_EX)
    return held


def graph():
    """The crates of crates.txt, each with those of this repository that it uses."""
    found = {}
    with open(f"{TOP}/crates.txt") as lines:
        for line in lines:
            if line.strip() and not line.startswith("#"):
                name, _, on = line.partition(":")
                found[name.split()[0]] = on.split()
    return {name: [it for it in on if it in found] for name, on in found.items()}


def below(names, on):
    """The named crates and all that they use, lowest first."""
    found = []
    for name in names:
        if name not in on:
            sys.exit(f"crates.txt has no crate {name}")
        found += [it for it in [*below(on[name], on), name] if it not in found]
    return found


def is_program(name):
    return os.path.isfile(f"{TOP}/crates/{name}/src/main.rt")


def size(name):
    """The lines that a check of the crate reads, as a measure of how long it takes."""
    count = 0
    for part in ("src", "specs", "proofs"):
        for at, _, files in os.walk(f"{TOP}/crates/{name}/{part}"):
            for file in files:
                with open(f"{at}/{file}", "rb") as text:
                    count += text.read().count(b"\n")
    return count


def available():
    """The memory that is free, in bytes."""
    with open("/proc/meminfo") as lines:
        return next(1024 * int(it.split()[1]) for it in lines if it.startswith("MemAvailable:"))


def link_or_copy(one, other):
    """Gives a file a second name, or copies it where that fails, as between two file systems."""
    try:
        os.link(one, other)
    except OSError:
        shutil.copy2(one, other)


def enter(name, on):
    """Makes the room of a crate that uses these others, and returns its path. The crate has no folder out/ there."""
    room = room_of(name)
    shutil.rmtree(room, ignore_errors=True)
    os.makedirs(f"{room}/crates")
    shutil.copy(f"{TOP}/HANDLES", room)
    with open(f"{TOP}/crates.txt") as lines, open(f"{room}/crates.txt", "w") as mine:
        mine.writelines(it for it in lines if it.split(":")[0].split()[:1] in [[of] for of in (name, *on)])
    leave_out = shutil.ignore_patterns("out", "edits")
    for crate in (name, *on):
        shutil.copytree(f"{TOP}/crates/{crate}", f"{room}/crates/{crate}", ignore=leave_out)
    for crate in on:
        shutil.copytree(f"{TOP}/crates/{crate}/out/rlib", f"{room}/crates/{crate}/out/rlib", copy_function=link_or_copy)
    return room


def leave(name):
    shutil.rmtree(room_of(name), ignore_errors=True)


def start(words, folder, log):
    """Starts a command in a process group of its own, with its output in a file."""
    with open(log, "w") as said:
        how = {"cwd": folder, "stdin": subprocess.DEVNULL, "stdout": said, "stderr": subprocess.STDOUT}
        return subprocess.Popen(words, start_new_session=True, **how)


def end_group(process):
    """Kills a command that `start` started, with all that it started itself."""
    try:
        os.killpg(process.pid, signal.SIGKILL)
    except ProcessLookupError:
        pass
    process.wait()


class SideBySide:
    """Runs of commands, one for each of some names, as many at once as there are lanes and memory allows.

    `begin(name, lanes)` starts the run of a name, which may use so many processors, and returns its process; `poll(name,
    process)` gives its status once it has ended; `end(name, status)` is called then, and says whether it went well. A name waits
    for those of `waits[name]`, and is left out where one of them did not go well."""

    def __init__(self, names, waits, lanes, begin, end, poll=lambda _name, process: process.poll()):
        self.left, self.waits, self.lanes, self.begin, self.end, self.poll = [*names], waits, lanes, begin, end, poll
        self.running, self.done, self.lost = {}, [], []

    def start(self):
        """Starts what can start now, in the order of the names. The first gets the lanes that no other one waits for."""
        ready = [it for it in self.left if all(on in self.done for on in self.waits[it])]
        for at, name in enumerate(ready):
            idle = self.lanes - sum(lanes for _, lanes in self.running.values())
            if idle < 1 or self.running and available() < NEED:
                return
            lanes = max(1, idle - (len(ready) - at - 1))
            self.left.remove(name)
            self.running[name] = self.begin(name, lanes), lanes

    def finish(self):
        """Takes in the runs that have ended, and leaves out what waits for one that did not go well."""
        for name, (process, _) in [*self.running.items()]:
            status = self.poll(name, process)
            if status is not None:
                del self.running[name]
                (self.done if self.end(name, status) else self.lost).append(name)
        for name in self.left[:]:
            if any(on in self.lost for on in self.waits[name]):
                self.left.remove(name)
                self.lost.append(name)

    def stop(self):
        """Ends the runs that have not ended, and returns their names."""
        for process, _ in self.running.values():
            end_group(process)
        return [*self.running]

    def run(self):
        """Runs all, and returns the names that did not go well or were left out. Nothing runs any more then."""
        try:
            while self.left or self.running:
                self.start()
                time.sleep(0.1)
                self.finish()
            return self.lost
        finally:
            for name in self.stop():
                leave(name)


def lanes_of(words):
    """The number of lanes and the other words of a command line that may begin with --jobs N."""
    if words[:1] == ["--jobs"] and words[1:] and words[1].isdigit() and int(words[1]) > 0:
        return int(words[1]), words[2:]
    return len(os.sched_getaffinity(0)), words
