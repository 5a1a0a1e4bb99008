"""Tries the wrong bodies of crates. Each is an edit in must-fail/, and the function that its line `clause:` names must refuse it.

A function is proved from the contracts of the others alone, so edits of different functions don't disturb each other. They
are written into one copy of the crate, and there only the edited functions are checked: of the others the copy has the
contracts, no bodies, and holes for proofs. An edit whose function isn't refused there for a reason of its own is tried as
`rt ci` does it: alone, with a proof of the whole crate.
"""

import concurrent.futures
import functools
import importlib.machinery
import importlib.util
import json
import os
import re
import shutil
import subprocess
import tempfile
import time

import crates

# What is said of a proof if a name is missing that the edit took away, which says little of the contract.
LOST_NAME = re.compile(r"has no field|is not in scope|has no `")

# The first line of a function's text: the blanks before it, and its name.
HEAD = re.compile(r"( *)(?:pub(?:\([\w: ]+\))? )?(?:unsafe )?fn (\w+)")


@functools.cache
def kit():
    """Returns the program `rt` of the kit as a module."""
    loader = importlib.machinery.SourceFileLoader("rt", os.path.realpath(shutil.which("rt")))
    made = importlib.util.module_from_spec(importlib.util.spec_from_loader("rt", loader))
    loader.exec_module(made)
    return made


def fits_kit():
    """Returns whether this kit has what is used here of its program."""
    try:
        found, library = kit(), kit().rtlib
    except (OSError, SyntaxError, AttributeError, TypeError):
        return False
    names = ("crates_below", "guarded", "RATTLE", "PARTS")
    own = ("must_fail", "REFUSED", "AT_LIMIT")
    return all(hasattr(found, it) for it in own) and all(hasattr(library, it) for it in names) and hasattr(library.Crate, "words")


class WrongBody:
    """An edit: its crate, its name, the function that must refuse it, and what it changes as (file, old text, new text)."""

    def __init__(self, crate, path):
        self.crate, self.path, self.name = crate, path, os.path.basename(path).removesuffix(".edit")
        self.function, self.changes = "", []
        changed = old = ""
        with open(path, encoding="utf-8") as file:
            for line in file:
                word, _, rest = line.rstrip("\n").partition(": ")
                if word == "clause":
                    self.function = re.match(r"[\w:]*", rest)[0]
                elif word == "file":
                    changed = rest
                elif word == "old":
                    old = rest
                elif word.rstrip(":") == "new":
                    self.changes.append((changed, old, rest))

    def is_within_function(self, folder):
        """Returns whether all that the edit changes in a copy of its crate stands in the function that must refuse it."""
        heads = []
        for path, old, _ in self.changes:
            with open(f"{folder}/{path}", encoding="utf-8") as file:
                front, found, _ = file.read().partition(old)
            heads.append(re.findall(r"\bfn (\w+)", front + found)[-1:])
        return heads == [self.function.split("::")[-1:]] * len(self.changes)

    def texts(self, folder):
        """Returns the texts of the files that the edit changes in a copy of its crate, or None if an old text doesn't stand there once."""
        texts = {}
        for path, old, new in self.changes:
            if path not in texts and os.path.isfile(f"{folder}/{path}"):
                with open(f"{folder}/{path}", encoding="utf-8") as file:
                    texts[path] = file.read()
            if texts.get(path, "").count(old) != 1:
                return None
            texts[path] = texts[path].replace(old, new)
        return texts or None

    def write(self, folder):
        """Writes the edit into a copy of its crate, and returns whether it fits there."""
        texts = self.texts(folder) or {}
        for path, text in texts.items():
            with open(f"{folder}/{path}", "w", encoding="utf-8") as file:
                file.write(text)
        return bool(texts)


def wrong_bodies_of(name):
    """Returns the wrong bodies of a crate."""
    at = f"{crates.TOP}/crates/{name}/must-fail"
    files = sorted(os.listdir(at)) if os.path.isdir(at) else []
    return [WrongBody(name, f"{at}/{it}") for it in files if it.endswith(".edit")]


def rounds_of(bodies, folder):
    """Divides wrong bodies that change no more than a function of the crate into those of different functions."""
    rounds = []
    for body in bodies:
        if body.texts(folder) and body.is_within_function(folder):
            members = next((it for it in rounds if body.function not in [other.function for other in it]), None)
            if members is None:
                rounds.append(members := [])
            members.append(body)
    return rounds


def texts_in(value):
    """Yields each text that a value read from JSON holds."""
    if isinstance(value, str):
        yield value
    elif isinstance(value, (list, dict)):
        for it in value.values() if isinstance(value, dict) else value:
            yield from texts_in(it)


def functions_of(crate):
    """Returns the names of a built crate's functions, each with whether it leads back to itself: such ones have one proof."""
    with open(f"{crate.rlib}/toolchain/mir.json", encoding="utf-8") as file:
        bodies = {name: rest for name, *rest in json.load(file)}
    calls, found = {name: bodies.keys() & set(texts_in(body)) for name, body in bodies.items()}, {}
    for name in bodies:
        reached, left = set(), [name]
        while left:
            new = calls[left.pop()] - reached
            reached |= new
            left += new
        if re.fullmatch(rf"{crate.name}(::\w+)+", name):
            found[name] = name in reached
    return found


def without_bodies(text, names):
    """Returns a text of a source file, in the layout of `rt fmt`, with no way to the end of each function of these names."""
    lines, made, at = text.split("\n"), [], 0
    while at < len(lines):
        head = HEAD.match(lines[at])
        if head and head[2] in names:
            inside = lambda n: n < len(lines) and (lines[n].startswith(f"{head[1]} ") or not lines[n])
            is_next = lambda n: n > at and HEAD.match(lines[n])
            # the body begins at the first line with a brace at its end that stands as far in as the function
            ends_head = lambda n: is_next(n) or not inside(n) and lines[n].endswith(("{", "}"))
            begins = next((n for n in range(at, len(lines)) if ends_head(n)), at)
            ends = next((n for n in range(begins + 1, len(lines)) if not inside(n)), at)
            # a function on one line, or one that a trait declares, has none
            if not is_next(begins) and lines[begins].endswith("{") and lines[ends] == f"{head[1]}}}":
                made += [*lines[at : begins + 1], f"{head[1]}    unreachable!()"]
                at = ends
        made.append(lines[at])
        at += 1
    return "\n".join(made)


def leave_out(functions, edited, crate, room):
    """Takes bodies and proofs away in a copy of a crate, but those of the edited functions and of what leads back to itself.

    A hole is the proof of a function without a body, which a check then takes as it takes a proof.
    """
    is_edited = lambda name: any(name.endswith(f"::{it}") for it in edited)
    out = [name for name, is_cyclic in functions.items() if not is_cyclic and not is_edited(name)]
    last = lambda name: name.rpartition("::")[2]
    names = {last(it) for it in out} - {last(it) for it in functions if it not in out}
    for at, _, files in os.walk(f"{room}/src"):
        for it in files:
            with open(f"{at}/{it}", encoding="utf-8") as file:
                text = without_bodies(file.read(), names)
            with open(f"{at}/{it}", "w", encoding="utf-8") as file:
                file.write(text)
    for name in out:
        path = name.split("::")[1:]
        folder = f"{room}/proofs/{'/'.join(path)}"
        os.makedirs(folder, exist_ok=True)
        for it in ("Invariants.antt", "Answers.antt"):
            if os.path.isfile(f"{folder}/{it}"):
                os.remove(f"{folder}/{it}")
        with open(f"{folder}/Proof.antt", "w", encoding="utf-8") as file:
            file.write(f"use Rattle.{crate.name}.proofs.{'.'.join(path)}.Statement.{{statement}}\n\n")
            file.write(f"pub {path[-1]}_spec : {{M : Type 1}} → statement M\n{path[-1]}_spec = ?\n")


def own_reasons(said, function):
    """Returns what a check said against the function itself, if it was refused: nothing if only a function that it calls was.

    That something else was not admitted is no reason of its own.
    """
    ended = [n for n, it in enumerate(said) if re.match(rf"fn (\S+::)?{re.escape(function)}: (not proved|no proof)", it)]
    if len(ended) != 1:
        return []
    *modules, last = re.match(r"fn (\S+): ", said[ended[0]])[1].split("::")[1:]
    # (functions that call one another have their proof below one with a plus)
    folder = "".join(f"{re.escape(it)}/" for it in modules) + rf"\+?{re.escape(last)}"
    reasons = [it for it in said if re.match(rf"(\./)?proofs/{folder}/\w+\.antt:\d+:\d+: error(?!.*was not admitted)", it)]
    # what the tactics didn't prove of a function stands above its line, below that of the function before it
    begins = max((n for n in range(ended[0]) if said[n].startswith("fn ")), default=-1)
    return reasons + [it for it in said[begins + 1 : ended[0]] if it.startswith("note: src/") and "it is not proved that" in it]


def told(body, reasons):
    """Returns the line that says of a wrong body that it was refused, and the first reason, one of its contract if there is one."""
    first = next((it for it in reasons if not LOST_NAME.search(it)), "")
    only = "" if first else " (only because a proof names what the body took away, so this says little of the contract)"
    return f"{body.crate}/{body.name}: refused by {body.function}{only}: {(first or reasons[0])[:160]}"


def said_of(crate, members, functions, kept=None, is_edited=True):
    """Returns what a check says of the functions that the wrong bodies of a round turn, in a copy with these or, unless `is_edited`, as they are."""
    with tempfile.TemporaryDirectory(prefix="wrong-") as room:
        for part in kit().rtlib.PARTS:
            if os.path.isdir(f"{crate.folder}/{part}"):
                shutil.copytree(f"{crate.folder}/{part}", f"{room}/{part}")
        if is_edited and not all([it.write(room) for it in members]):
            return []
        leave_out(functions, [it.function for it in members], crate, room)
        words = [*kit().rtlib.guarded(), kit().rtlib.RATTLE, "check", *crate.words(["--jobs", "1"], keeps=False), "--allow-holes"]
        words += ["--incremental", kept] if kept else []
        for body in members:
            words += ["--only", body.function]
        how = {"cwd": room, "stdin": subprocess.DEVNULL, "stdout": subprocess.PIPE, "stderr": subprocess.STDOUT}
        said = subprocess.run(words, text=True, errors="replace", check=False, **how).stdout.splitlines()
    return said if said and re.match(r"only=\d+ holes=\d+", said[-1]) else []


def try_crate(crate, bodies):
    """Tries the wrong bodies of a crate, and returns for each whether it was refused, and what to say."""
    found, functions, rounds = {}, functions_of(crate), rounds_of(bodies, crate.folder)
    with tempfile.TemporaryDirectory(prefix="wrong-kept-") as kept:
        for members in rounds:
            said = said_of(crate, members, functions, kept if len(rounds) > 1 else None)
            found.update({body: told(body, reasons) for body in members if (reasons := own_reasons(said, body.function))})
    result = [(True, found[body]) for body in bodies if body in found]
    for body in bodies:
        if body not in found:
            kind, text = kit().must_fail(crate, body.path, ["--jobs", "1"])
            result.append((kind in (kit().REFUSED, kit().AT_LIMIT), f"{body.crate}/{body.name}: tried alone: {text}"))
    return result


def unproved(crate, bodies):
    """Returns the functions that wrong bodies turn and that aren't proved in the same way as they are: there should be none."""
    functions, found = functions_of(crate), []
    for members in rounds_of(bodies, crate.folder):
        said = said_of(crate, members, functions, is_edited=False)
        is_proved = lambda name: any(re.match(rf"fn (\S+::)?{re.escape(name)}: (no holes|depends on a hole)", it) for it in said)
        found += [it.function for it in members if not is_proved(it.function)]
    return found


def build(names):
    """Proves and builds these crates and what they stand on, as far as that has changed, and returns whether all is proved."""
    kit().rtlib.guarded()
    found = [it for it in kit().rtlib.crates_below(crates.TOP) if it.name in names and wrong_bodies_of(it.name)]
    return not any(each.build_rlib(["--jobs", "1"], anew=False) for it in found for each in [*it.below(), it])


def try_all(names, root, turn=lambda running: True):
    """Tries the wrong bodies of these crates side by side, over what stands built below `root`, and prints how far it is.

    Asks `turn` whether those of one more crate may begin beside `running` others: None ends it. Returns how many were refused
    and how many were not.
    """
    began, results = time.monotonic(), []
    bodies = {name: found for name in names if (found := wrong_bodies_of(name))}
    crate_of = {it.name: it for it in kit().rtlib.crates_below(root)}
    left, now = sorted(bodies, key=lambda it: -len(bodies[it])), {}

    def tell():
        counted = lambda names: " ".join(f"{name} ({len(bodies[name])})" for name in names)
        parts = [f"{len(results)} of {sum(map(len, bodies.values()))} wrong bodies are tried"]
        parts += [f"now: {counted(now.values())}"] if now else []
        parts += [f"left: {counted(left)}"] if left else []
        print(f"{crates.took(began)} {'; '.join(parts)}", flush=True)

    # (the first call of `guarded` sets a signal's handler, which only the main thread may)
    kit().rtlib.guarded()
    with concurrent.futures.ThreadPoolExecutor(crates.lanes()) as pool:
        while left or now:
            may = turn(len(now)) if left and len(now) < crates.lanes() else False
            if may is None:
                left.clear()
            elif may:
                name = left.pop(0)
                now[pool.submit(try_crate, crate_of[name], bodies[name])] = name
            if not now:
                time.sleep(1)
            for it in concurrent.futures.wait(now, timeout=0 if may else 1, return_when=concurrent.futures.FIRST_COMPLETED).done:
                del now[it]
                results.extend(it.result())
                for refused, text in it.result():
                    print(text if refused else f"NOT REFUSED: {text}", flush=True)
                tell()
    refused = sum(it[0] for it in results)
    return refused, len(results) - refused
