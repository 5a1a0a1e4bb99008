"""The crates of this repository as crates.txt lists them, the gate and the program, for the other scripts."""

import hashlib
import os
import re
import shutil
import subprocess
import sys
import time

TOP = os.path.dirname(os.path.dirname(os.path.abspath(__file__)))

# What a prover takes of the memory at most, in bytes: that of the tests of tests_store took 4.1 GB.
MOST = 4_500_000_000

# The proved program, and the checksum of what it was built from.
PROGRAM = f"{TOP}/bin/leveled"
SUM = f"{TOP}/bin/leveled.sum"


def listed():
    """Returns the lines of crates.txt by crate, lowest first."""
    lines = {}
    with open(f"{TOP}/crates.txt", encoding="utf-8") as file:
        for line in file:
            name = line.split("#")[0].split(":")[0].split()
            if name:
                lines[name[0]] = line
    return lines


def needs(lines):
    """Returns the crates of the repository on which each of these crates depends."""
    return {name: [it for it in line.split(":")[1].split() if it in lines] for name, line in lines.items()}


def is_program(name):
    """Returns whether the crate is a program."""
    return os.path.isfile(f"{TOP}/crates/{name}/src/main.rt")


def has_tests(name):
    """Returns whether the crate has tests."""
    for at, _, files in os.walk(f"{TOP}/crates/{name}/src"):
        for it in files:
            with open(f"{at}/{it}", encoding="utf-8") as file:
                if re.search(r"^\s*#\[test\]", file.read(), re.MULTILINE):
                    return True
    return False


def product(lines):
    """Returns the lines of the program `leveled` and of all crates on which it depends."""
    below, wanted, left = needs(lines), set(), ["leveled"]
    while left:
        name = left.pop()
        if name not in wanted:
            wanted.add(name)
            left += below[name]
    return {name: line for name, line in lines.items() if name in wanted}


def knows_anew():
    """Returns whether the kit keeps what a run has passed, so that `rt ci` takes the option --anew."""
    ran = subprocess.run(["rt", "help"], stdout=subprocess.PIPE, stderr=subprocess.STDOUT, text=True, check=False)
    return "--anew" in ran.stdout


def copy(lines, to, *left_out):
    """Makes a repository of these crates alone in the folder `to`; the folders `left_out` of each crate aren't copied."""
    os.makedirs(f"{to}/crates")
    for name in lines:
        ignored = shutil.ignore_patterns("out", *left_out)
        shutil.copytree(f"{TOP}/crates/{name}", f"{to}/crates/{name}", ignore=ignored)
    with open(f"{to}/crates.txt", "w", encoding="utf-8") as file:
        file.writelines(lines.values())
    shutil.copy(f"{TOP}/HANDLES", f"{to}/HANDLES")
    subprocess.run(["git", "init", "-q", to], check=True)


def sum_of(lines):
    """Returns a checksum of everything that the program is built from."""
    found = hashlib.sha256(subprocess.run(["rt", "version"], stdout=subprocess.PIPE, check=True).stdout)
    for name, line in lines.items():
        found.update(line.encode())
        for part in ("src", "specs", "proofs", "stdin", "stdout", "args"):
            for at, folders, files in os.walk(f"{TOP}/crates/{name}/{part}"):
                folders.sort()
                for it in sorted(files):
                    with open(f"{at}/{it}", "rb") as file:
                        found.update(f"{os.path.relpath(at, TOP)}/{it} ".encode() + file.read())
    return found.hexdigest()


def is_built(whole):
    """Returns whether bin/leveled was built from what has this checksum."""
    try:
        with open(SUM, encoding="utf-8") as file:
            return file.read() == whole and os.path.isfile(PROGRAM)
    except OSError:
        return False


def holder_of(path):
    """Returns another process that has the file at the path open, if there is one."""
    for it in os.listdir("/proc"):
        try:
            if it.isdigit() and int(it) != os.getpid() and path in (os.readlink(f"/proc/{it}/fd/{n}") for n in os.listdir(f"/proc/{it}/fd")):
                return it
        except OSError:
            # the process has ended, or another user runs it
            continue
    return None


def tried(folder):
    """Compiles the program into this folder, unproved, with every access and sum checked, and returns the words that run it.

    `rt try` keeps no program. So the program is given a pipe to read, and copied while it waits there.
    """
    pipe, copied = os.path.realpath(f"{folder}/pipe"), f"{folder}/leveled"
    os.mkfifo(pipe)
    words = ["rt", "try", "--seconds", "300", "--", "inspect", pipe]
    how = {"stdin": subprocess.DEVNULL, "stdout": subprocess.PIPE, "stderr": subprocess.STDOUT, "text": True, "errors": "replace"}
    with subprocess.Popen(words, cwd=f"{TOP}/crates/leveled", **how) as run:
        end = process = None
        while not process:
            if run.poll() is not None:
                sys.exit(f"the program does not compile:\n{run.stdout.read()[-3000:]}")
            time.sleep(0.1)
            try:
                # this is refused as long as nobody reads the pipe
                end = end or os.open(pipe, os.O_WRONLY | os.O_NONBLOCK)
                process = holder_of(pipe)
            except OSError:
                continue
        with open(f"/proc/{process}/cmdline", encoding="utf-8") as file:
            *loader, program, _, _ = file.read().rstrip("\0").split("\0")
        shutil.copyfile(os.path.join(os.readlink(f"/proc/{process}/cwd"), program), copied)
        os.chmod(copied, 0o755)
        os.close(end)
        run.communicate()
    os.remove(pipe)
    return [*loader, copied]


def processes():
    """Returns for each process its parent, when it began, and the processor ticks of it and of its ended children."""
    found = {}
    for name in os.listdir("/proc"):
        if name.isdigit():
            try:
                with open(f"/proc/{name}/stat", encoding="ascii", errors="replace") as file:
                    told = file.read().rpartition(")")[2].split()
            except OSError:
                continue
            found[int(name)] = int(told[1]), int(told[19]), sum(map(int, told[11:15]))
    return found


def words_of(process):
    """Returns the arguments of the process."""
    try:
        with open(f"/proc/{process}/cmdline", encoding="utf-8", errors="replace") as file:
            return file.read().split("\0")
    except OSError:
        return [""]


def below(process, children):
    """Yields the descendants of the process, if `children` holds those of each."""
    for it in children.get(process, ()):
        yield it
        yield from below(it, children)


def provers(above):
    """Yields for each prover below the process its number, when it began, its arguments, and its processor ticks so far."""
    found, children = processes(), {}
    for process, (parent, _, _) in found.items():
        children.setdefault(parent, []).append(process)
    is_prover = lambda process: os.path.basename(words_of(process)[0]) == "rattle"
    for process in below(above, children):
        parent, began, used = found[process]
        # a prover's child processes count with it
        if is_prover(process) and not is_prover(parent):
            yield process, began, words_of(process), used + sum(found[it][2] for it in below(process, children))


def took(began):
    """Returns the time since then, as MM:SS."""
    seconds = int(time.monotonic() - began)
    return f"{seconds // 60:02}:{seconds % 60:02}"


def tell(lines, proved, began):
    """Prints how far the gate is over these crates: what is under way or comes next, and what is left."""
    below = needs(lines)
    now = [name for name in lines if name not in proved and all(it in proved for it in below[name])]
    left = [name for name in lines if name not in proved and name not in now]
    parts = [f"{took(began)} {len(proved)} of {len(lines)} crates are proved", f"now: {' '.join(now) or 'the tests and the program are run'}"]
    parts += [f"left: {' '.join(left)}"] if left else []
    print("; ".join(parts), flush=True)


def lanes():
    """Returns how many provers may run side by side: one a processor, as many as the free memory holds."""
    with open("/proc/meminfo", encoding="ascii") as file:
        free = 1024 * int(re.search(r"MemAvailable:\s+(\d+)", file.read())[1])
    return max(1, min(len(os.sched_getaffinity(0)), free // MOST))


def run_gate(words, lines, folder=TOP, is_told=True, watch=None):
    """Runs `rt ci` with these options in a folder, prints how far it is over these crates, and returns its status and lines.

    If `is_told`, prints each of its lines too. Calls `watch` with the process, and with the crates that are proved, a set that
    grows. Unless RT_JOBS says how many provers run side by side, `lanes` does: `rt ci` plans with several times the memory that
    they take here.
    """
    began, proved, said = time.monotonic(), set(), []
    tell(lines, proved, began)
    env = {"RT_JOBS": str(lanes()), **os.environ}
    with subprocess.Popen(["rt", "ci", *words], cwd=folder, env=env, stdout=subprocess.PIPE, text=True, errors="replace") as gate:
        if watch:
            watch(gate, proved)
        for line in gate.stdout:
            said.append(line)
            if is_told:
                print(line, end="", flush=True)
            done = re.match(r"rt: (\w+)(?: proved$| is kept:)", line)
            if done and done[1] in lines:
                proved.add(done[1])
                tell(lines, proved, began)
    return gate.returncode, said
