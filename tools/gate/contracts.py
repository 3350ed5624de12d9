"""Lays out a crate over the contracts alone of what it calls.

A function is proved from the clauses of its callees, whatever their bodies are. So in a copy of the sources each body but those in
question becomes `unreachable!()`, and its proof files go: what is left of the other functions, in the crate and in those below it,
is what they promise. The libraries below are passed as sources, so that none of them needs a proof before.
"""
import hashlib
import importlib.machinery
import importlib.util
import os
import re
import shutil
import subprocess
import sys
import tempfile

TOP = os.path.dirname(os.path.dirname(os.path.dirname(os.path.abspath(__file__))))
sys.path.insert(0, os.path.dirname(os.path.abspath(__file__)))

import sources  # noqa: E402

# (line numbers stay as they are)
CLAIMED = "{{ unreachable!() {}}}"


def room_for(crate):
    """Returns the folder in which a crate of this tree is laid out. `rt` refuses a repository inside another one."""
    tree = hashlib.sha256(TOP.encode()).hexdigest()[:8]
    return f"{tempfile.gettempdir()}/over-contracts-{os.getuid()}-{tree}/{crate}"


def rt_as_module():
    """Loads the program `rt`, which knows the words of a check."""
    loader = importlib.machinery.SourceFileLoader("rt", os.path.realpath(shutil.which("rt")))
    made = importlib.util.module_from_spec(importlib.util.spec_from_loader("rt", loader))
    loader.exec_module(made)
    made.Crate.allowed = made.handles_of(TOP)
    made.rtlib.Crate = made.Crate
    return made


def lines_of_crates():
    """Reads crates.txt: what each crate stands on."""
    with open(f"{TOP}/crates.txt", encoding="utf-8") as it:
        rows = dict(line.split("#")[0].split(":", 1) for line in it if ":" in line.split("#")[0])
    return {name.split()[0]: words for name, words in rows.items()}


def below(crate):
    """Lists a crate and the crates that it stands on, as crates.txt tells."""
    rows, found, left = lines_of_crates(), set(), [crate]
    while left:
        name = left.pop()
        if name not in found:
            found.add(name)
            left += [it for it in rows[name].split() if it in rows]
    return found


def strangers(crate):
    """Lists what a crate's sources name of libraries that are not in its line of crates.txt: the file and the library. Where the
    libraries are passed as sources they are found, and `rt` refuses them."""
    known = {crate, "std", "Prim", *lines_of_crates()[crate].split()}
    found = set()
    for at, _, names in os.walk(f"{TOP}/crates/{crate}"):
        for name in [it for it in names if it.endswith((".rt", ".antt")) and "/out/" not in f"{at}/"]:
            with open(f"{at}/{name}", encoding="utf-8") as it:
                found |= {(os.path.relpath(f"{at}/{name}", TOP), word) for word in re.findall(r"\bRattle\.(\w+)", it.read()) if word not in known}
    return sorted(found)


def module_of(file):
    """Returns the module that a file of `src` holds, as its parts."""
    return [it for it in file[len("src/") : -len(".rt")].split("/") if it not in ("lib", "main", "mod")]


def read_sources(crate):
    """Reads the files of a crate's `src`, by their paths in its folder."""
    found, folder = {}, f"{TOP}/crates/{crate}"
    for at, _, names in os.walk(f"{folder}/src"):
        for name in names:
            with open(f"{at}/{name}", encoding="utf-8") as it:
                found[os.path.relpath(f"{at}/{name}", folder)] = it.read()
    return found


def types_in(texts):
    """Finds the module that declares each type of a crate."""
    word = re.compile(r"^\s*(?:pub(?:\([^)]*\))? )?(?:struct|enum|union)\s+(\w+)", re.M)
    return {name: module_of(file) for file, text in texts.items() if file.endswith(".rt") for name in word.findall(text)}


def functions_in(crate):
    """Names the functions of a crate that have a body, as the checker does: the name, its file, and where its body stands."""
    texts, found = read_sources(crate), []
    types = types_in(texts)
    for file, text in sorted(texts.items()):
        for name, start, end, around, _ in sources.bodies(text) if file.endswith(".rt") else ():
            module = module_of(file) + [it[1] for it in around if it[0] == "mod"]
            kind, head = around[-1] if around and around[-1][0] != "mod" else ("", "")
            owner = []
            if kind == "impl" and " for " in sources.without_parameters(head):
                of_trait, of_type = sources.without_parameters(head).split(" for ", 1)
                argument = re.search(r"<(?:'\w+, *)*([^'].*)>", of_trait)
                own = re.findall(r"\w+", head[: len(head) - len(sources.without_parameters(head))])
                is_named = argument and any(it.strip() not in own for it in argument[1].split(","))
                owner = [sources.word_of(of_type) + sources.word_of(of_trait) + (sources.word_of(argument[1]) if is_named else "")]
            elif kind:
                bare = sources.without_parameters(head)
                owner = [sources.word_of(bare.split(":")[0] if kind == "trait" else bare)]
                argument = re.search(r"<([A-Za-z]\w*)>", bare) if kind == "impl" else None
                if argument and argument[1] not in head[: len(head) - len(bare)]:
                    owner = [f"{owner[0]}+{argument[1]}"]
                elif kind == "impl":
                    # (another module may declare a type of this name too)
                    module = types_in({file: text}).get(owner[0]) or types.get(owner[0], module)
            found.append(("::".join([crate, *module, *owner, name]), file, start, end))
    return found


def claimed(text, kept):
    """Returns a file's text with the bodies that are not kept as claims that control never comes there."""
    parts, at = [], 0
    for name, start, end, _, begin in sources.bodies(text):
        before = text[max(0, begin - 20) : begin]
        if start in kept or re.search(r"\bconst\s+$", before) or re.search(r"->\s*impl\b", text[begin:start]):
            continue
        parts += [text[at:start], CLAIMED.format("\n" * text.count("\n", start, end))]
        at = end
    return "".join([*parts, text[at:]])


def without_cycles(text):
    """Leaves out the names of cycles of calls, which are none without bodies."""
    return re.sub(r"#\[cycle\([^\]]*\)\]", "", text)


def put(path, text):
    """Writes a file, unless it stands so already."""
    os.makedirs(os.path.dirname(path), exist_ok=True)
    if os.path.isfile(path):
        with open(path, encoding="utf-8") as it:
            if it.read() == text:
                return
    with open(path, "w", encoding="utf-8") as it:
        it.write(text)


def texts_for(crate, names):
    """Returns the files of a crate in which only the functions of these names keep their bodies and proof files; None keeps all."""
    texts = read_sources(crate)
    functions = functions_in(crate)
    for file in [it for it in texts if it.endswith(".rt") and names is not None]:
        kept = {start for name, at, start, _ in functions if at == file and name in names}
        texts[file] = without_cycles(claimed(texts[file], kept))
    folder = f"{TOP}/crates/{crate}"
    for part in ("specs", "proofs"):
        for at, _, files in os.walk(f"{folder}/{part}"):
            steps = os.path.relpath(at, f"{folder}/{part}").split("/")
            for file in files:
                if part == "proofs" and file in ("Answers.antt", "Invariants.antt") and names is not None:
                    mine = "::".join([crate, *steps])
                    if not any(mine == it or mine.startswith(f"{it.rsplit('::', 1)[0]}::fn::{it.rsplit('::', 1)[1]}::") for it in names):
                        continue
                with open(f"{at}/{file}", encoding="utf-8") as it:
                    texts[os.path.relpath(f"{at}/{file}", folder)] = it.read()
    return texts


def lay(room, crate, names):
    """Writes a repository of a crate and those below it, where these functions of the crate alone keep their bodies; None keeps all."""
    every = below(crate)
    with open(f"{TOP}/crates.txt", encoding="utf-8") as it:
        rows = [line for line in it if line.split("#")[0].split(":")[0].split()[:1] and line.split(":")[0].split()[0] in every]
    put(f"{room}/crates.txt", "".join(rows))
    with open(f"{TOP}/HANDLES", encoding="utf-8") as it:
        put(f"{room}/HANDLES", it.read())
    for each in sorted(every):
        texts, folder = texts_for(each, names if each == crate else set()), f"{room}/crates/{each}"
        for at, _, files in os.walk(folder):
            for file in files:
                path = os.path.relpath(f"{at}/{file}", folder)
                if path not in texts and not path.startswith("out/"):
                    os.remove(f"{at}/{file}")
        for path, text in texts.items():
            put(f"{folder}/{path}", text)


def words_for(rt, room, crate):
    """Returns the words of a check of the crate in such a repository."""
    crates = {it.name: it for it in rt.rtlib.crates_below(room)}
    return crates[crate].words(["--jobs", "1"], keeps=False, as_source=True)


def check_words(rt, room, words, asked):
    """Returns the command of a check of these functions or modules, over what earlier ones kept."""
    kept = f"{room}/kept"
    os.makedirs(kept, exist_ok=True)
    only = [word for it in asked for word in ("--only", it)]
    return [rt.rtlib.RATTLE, "check", *words, "--allow-holes", "--incremental", kept, *only]


def said_by(words, folder):
    """Runs a check in a crate's folder and returns what it said."""
    how = {"stdout": subprocess.PIPE, "stderr": subprocess.STDOUT, "stdin": subprocess.DEVNULL}
    return subprocess.run(words, cwd=folder, text=True, errors="replace", **how).stdout


def untried_in(text):
    """Names the functions whose goals the search left alone, since they call another that was checked and isn't proved."""
    return set(re.findall(r"`search` has not tried the goals of `([^`]*)`", text))
