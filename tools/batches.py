#!/usr/bin/env python3
"""Tries the edits of one crate, several at a time, and prints a line for each that the prover refuses.

    tools/batches.py ROOM CRATE FOLDER JOBS

tools/edits calls this. ROOM is a copy of the repository with the edits in the crate's must-fail/ and the libraries below the crate
in their out/rlib. FOLDER keeps what was refused for later runs, and a check uses JOBS processors. With EDITS_LOG=FILE, all that the
prover says goes to that file too.

Loading the libraries takes most of what an edit costs, so a batch of edits shares one check. It is a check of the changed functions
and of what they call. What is proved of the others is kept for the next check. Edits share a batch only if

- each changes only lines within the bodies of functions,
- they change different functions, and
- the name of none of these functions occurs in the text or in the proof files of one that another edit changes.

An edit is refused if the prover does not prove a function that this edit alone changes, and points at that function's own lines or
proof files. An edit of other lines has a batch of its own, a check of the functions that name what is declared there. If a check
says nothing of functions, since it stops at a parse or type error or at a limit, the edits of its batch are tried one at a time.

An edit that no batch shows refused is tried as `rt` tries it, in a check of the whole crate. Nothing is printed of one that is not
refused there either. tools/edits has `rt ci` try it, from nothing, and that alone can say that it is NOT REFUSED or a BAD EDIT.
"""
import hashlib, importlib.machinery, importlib.util, os, re, shutil, sys, tempfile
from collections import namedtuple

sys.dont_write_bytecode = True
from rooms import TOP

# The most edits of a batch.
MOST = 12
# A function's path below its crate, its file, the numbers of its first line (an attribute's, if it has one), of the line that opens
# its body and of its last line, from 1, and the folder of its proof files.
Function = namedtuple("Function", "path file first opens last proofs")
# An edit's file name, the texts of the files that it changes, by path, the numbers of the changed lines, by path, the functions that
# its check is of, and whether all changed lines are within their bodies.
Edit = namedtuple("Edit", "name texts lines functions is_inside")
HEAD = re.compile(r"( *)(?:pub(?:\(\w+\))? )?(?:(?:const|unsafe|final) )*fn (\w+)")
# A line about a goal that is not proved, or about a proof that does not fit.
GOAL = re.compile(r"(?:note: )?(?:\./)?([^\s:]+):(\d+):\d+: (?:it is not proved that|`search` found no proof|error: )")
# An error of a proof file that shows nothing of the function: it names what an edit took away.
NAMES = re.compile(r"has no field|is not in scope|has no `|was not admitted")


def kit():
    """The kit's command `rt`, as a module."""
    loader = importlib.machinery.SourceFileLoader("rt", os.path.realpath(shutil.which("rt")))
    sys.modules["rt"] = made = importlib.util.module_from_spec(importlib.util.spec_from_loader("rt", loader))
    loader.exec_module(made)
    return made


def crates_in(room, rt):
    """The crates of a copy of the repository, by name, lowest first."""
    rt.Crate.allowed = rt.handles_of(room)
    crates = rt.crates_of(room) if has_kept(rt) else sorted(rt.rtlib.crates_below(room), key=lambda it: len(it.below()))
    return {it.name: it for it in crates}


def has_kept(rt):
    """Whether the kit keeps the libraries that it proved on this machine, as those do whose `rt ci` takes names of crates."""
    return hasattr(rt, "Kept")


def kit_and_crate(crate, rt):
    """Sums of the kit, and of all that a crate's library is made from."""
    if has_kept(rt):
        return rt.kit_sum(), rt.stamp_of(crate, {})
    return rt.rtlib.text_of(f"{rt.KIT}/KIT-ID"), crate.stamp()


def take_libraries(room, names):
    """Gives the named crates and those below them, in the copy, the libraries that `rt ci` kept, and returns those that it kept."""
    rt = kit()
    crates = crates_in(room, rt)
    kept, there = rt.Kept([*crates.values()]), []
    for crate in crates.values():
        is_wanted = crate.name in names or any(crate in crates[it].below() for it in names)
        if is_wanted and all(it in there for it in crate.below()) and kept.give(crate, False, kept.key(crate)):
            kept.is_built(crate)
            there.append(crate)
    return [it.name for it in there if it.name in names]


def impl_name(head):
    """The name under which the prover has the methods of an impl, as Items, or ItemsPartialEq for those of a trait."""
    head, shorter = None, head.replace("->", "").partition(" where ")[0].rstrip("{ ")
    while head != shorter:
        head, shorter = shorter, re.sub(r"<[^<>]*>", "", shorter)
    names = [it.rpartition("::")[2] for it in head.split() if it not in ("unsafe", "impl", "for", "&", "&mut")]
    return "".join(reversed(names))


def files_of(crate, rt):
    """The texts of a crate's source files, by their path in it."""
    paths = sorted(f"{at}/{file}" for at, _, files in os.walk(f"{crate.folder}/src") for file in files)
    return {os.path.relpath(it, crate.folder): rt.rtlib.text_of(it) for it in paths}


def module_of(file):
    """The path of a source file's module below its crate, as a list."""
    return [it for it in file.removeprefix("src/").removesuffix(".rt").split("/") if it not in ("lib", "main", "mod")]


def functions_of(file, texts):
    """The functions of a source file, those within others left out. The prover has the methods of a type in the module that declares
    the type. rt fmt has laid the file out, so a body ends with a brace as far in as its function begins."""
    lines, found, impl, at = texts[file].split("\n"), [], [], 0
    while at < len(lines):
        if re.match(r"(unsafe )?impl\b", lines[at]):
            ends = next(it for it in range(at, len(lines)) if lines[it].endswith(("{", "}")))
            name = impl_name(" ".join(lines[at : ends + 1]))
            declares = re.compile(rf"^(pub(\(\w+\))? )?(struct|enum) {re.escape(name)}\b", re.M)
            home = next((it for it in (file, *texts) if declares.search(texts[it])), file)
            impl = [*module_of(home), name]
        elif lines[at] == "}":
            impl = []
        head = HEAD.match(lines[at])
        if head and len(head[1]) == (4 if impl else 0):
            opens, last = body_of(lines, at, head[1])
            if last:
                path = [*(impl or module_of(file)), head[2]]
                first = next(it for it in range(at, -1, -1) if not lines[it - 1].startswith(f"{head[1]}#["))
                found.append(Function("::".join(path), file, first + 1, opens + 1, last + 1, f"proofs/{'/'.join(path)}/"))
                at = last
        at += 1
    return found


def body_of(lines, first, indent):
    """The places of the lines that open and close the body of a function; nothing where it has none, or one on a single line."""
    opens = None
    for at in range(first, len(lines)):
        is_outer = lines[at].startswith(indent) and not lines[at].startswith(f"{indent} ")
        if opens is None and is_outer and lines[at].endswith("{"):
            opens = at
        elif opens is None and is_outer and lines[at].endswith((";", "}")):
            break
        elif opens is not None and lines[at] == f"{indent}}}":
            return opens, at
    return None, None


def read_edit(crate, path, rt):
    """An edit; nothing where it cannot be applied. Of a line outside the bodies of functions, its functions are those that name what
    is declared there."""
    texts = rt.read_edit(path, crate.folder)[0]
    if texts is None:
        return None
    sources = files_of(crate, rt)
    changed, functions, is_inside = {}, [], True
    for file, text in texts.items():
        lines = rt.rtlib.text_of(f"{crate.folder}/{file}").split("\n")
        changed[file] = [at for at, (one, other) in enumerate(zip(lines, text.split("\n")), 1) if one != other]
        there = functions_of(file, sources) if file in sources else []
        for at in changed[file]:
            of = [it for it in there if it.opens < at < it.last]
            functions += of or naming(declared_at(lines, at), sources)
            is_inside = is_inside and bool(of)
    return Edit(os.path.basename(path), texts, changed, [*dict.fromkeys(functions)], is_inside)


def declared_at(lines, at):
    """The name of the constant or function in whose declaration a line is."""
    found = (re.match(r" *(?:pub(?:\(\w+\))? )?(?:const|static|fn) (\w+)", line) for line in reversed(lines[:at]))
    return next((it[1] for it in found if it), "")


def naming(name, sources):
    """The functions of a crate whose text has a name."""
    every = [(it, text.split("\n")) for file, text in sources.items() for it in functions_of(file, sources)]
    return [it for it, lines in every if name in re.findall(r"\w+", "\n".join(lines[it.first - 1 : it.last]))]


def text_of(edit, crate, rt):
    """The text of the functions that an edit changes, as it changes them, with that of their proof files."""
    found = []
    for it in edit.functions:
        text = edit.texts.get(it.file) or rt.rtlib.text_of(f"{crate.folder}/{it.file}")
        found += text.split("\n")[it.first - 1 : it.last]
        found += [rt.rtlib.text_of(f"{at}/{file}") for at, _, files in os.walk(f"{crate.folder}/{it.proofs}") for file in files]
    return "\n".join(found)


def can_share(one, other, words):
    """Whether two edits can share a batch. `words` are those of each edit's functions, by its name."""
    names = lambda edit: {it.path.rpartition("::")[2] for it in edit.functions}
    are_apart = names(one).isdisjoint(words[other.name]) and names(other).isdisjoint(words[one.name])
    return one.is_inside and other.is_inside and are_apart


def batches_of(edits, crate, rt):
    """The edits in batches: each in the first one that it fits in, those that fit with the fewest others first."""
    words = {it.name: {*re.findall(r"\w+", text_of(it, crate, rt))} for it in edits}
    fitting = {it.name: sum(can_share(it, other, words) for other in edits) for it in edits}
    batches = []
    for edit in sorted(edits, key=lambda it: fitting[it.name]):
        fits = (it for it in batches if len(it) < MOST and all(can_share(edit, other, words) for other in it))
        batch = next(fits, None)
        if batch is None:
            batches.append(batch := [])
        batch.append(edit)
    return batches


def texts_of(batch, crate, rt):
    """The texts of the files that the edits change, with all of them made."""
    found = {}
    for edit in batch:
        for file, lines in edit.lines.items():
            mine = found.setdefault(file, rt.rtlib.text_of(f"{crate.folder}/{file}").split("\n"))
            for line in lines:
                mine[line - 1] = edit.texts[file].split("\n")[line - 1]
    return {file: "\n".join(lines) for file, lines in found.items()}


def complaint(function, said):
    """The first line of those that the prover said that shows the function itself refused; nothing where there is none."""
    for line in said:
        at = GOAL.match(line)
        if at and at[1] == function.file and function.first <= int(at[2]) <= function.last:
            return line
        if at and at[1].startswith(function.proofs) and not NAMES.search(line):
            return line
    return None


def refused(edit, crate, said):
    """The line with which the prover refuses one of the functions that the edit changes; nothing where it refuses none."""
    for it in edit.functions:
        verdict = f"fn {crate.name}::{it.path}: "
        if any(line.startswith((f"{verdict}not proved", f"{verdict}no proof")) for line in said):
            line = complaint(it, said)
            if line:
                return line
    return None


def check(batch, crate, work, jobs, rt):
    """What the prover says of the functions that the edits of a batch change, in lines; nothing where it gives no verdict on them.
    `work` is the folder of what it keeps between checks."""
    only = dict.fromkeys(it.path for edit in batch for it in edit.functions)
    texts = texts_of(batch, crate, rt)
    ran = rt.checked(crate, texts, ["--jobs", jobs, *[word for it in only for word in ("--only", it)]], work)
    log(f"{crate.name}: {' '.join(it.name for it in batch)}: status {ran.returncode}\n{ran.stdout}")
    said = ran.stdout.rstrip("\n").split("\n")
    has_verdict = ran.returncode == 1 and said[-1].startswith("only=") and not any(rt.unread(it, texts) for it in said)
    return said if has_verdict else []


def refused_alone(edit, crate, work, jobs, rt):
    """What `rt` says of an edit that it tries alone, if it is refused."""
    kind, text = rt.must_fail(crate, f"{crate.folder}/must-fail/{edit.name}", ["--jobs", jobs], work)
    log(f"{crate.name}: {edit.name}, alone: {kind}: {text}")
    return text.partition(f"{edit.name}: ")[2] if kind == getattr(rt, "REFUSED", True) else None


def log(text):
    """Appends to the file that EDITS_LOG names, if it names one."""
    if os.environ.get("EDITS_LOG"):
        with open(os.environ["EDITS_LOG"], "a", encoding="utf-8") as file:
            file.write(f"== {text}\n")


class Told:
    """What was said of the edits that are refused, by name. It is printed at once, and kept in a folder under sums of all that the
    verdict on an edit stands on."""

    def __init__(self, edits, crate, folder, rt):
        self.crate, self.folder, self.said = crate, folder, {}
        stamp = *kit_and_crate(crate, rt), rt.rtlib.text_of(__file__)
        self.sums = {it.name: hashlib.sha256(repr((stamp, it.name, it.texts)).encode()).hexdigest() for it in edits}
        os.makedirs(folder, exist_ok=True)
        for edit in edits:
            self.tell(edit, rt.rtlib.text_of(f"{folder}/{self.sums[edit.name]}"))

    def tell(self, edit, how):
        """Says what was said of an edit, if anything was, and keeps it."""
        if how:
            self.said[edit.name] = how
            with tempfile.NamedTemporaryFile("w", dir=self.folder, delete=False, encoding="utf-8") as file:
                file.write(how)
            os.replace(file.name, f"{self.folder}/{self.sums[edit.name]}")
            print(f"rt: must-fail {self.crate.name}/{edit.name}: {how}", flush=True)

    def lacks(self, edits):
        return [it for it in edits if it.name not in self.said]


def take_work(crate, work):
    """Begins with what tools/build kept of the crate's own check, if it kept anything. It spares the first batch the whole crate. What
    has changed since is checked anew."""
    kept = f"{TOP}/crates/{crate.name}/out/incremental"
    if os.path.isdir(kept):
        shutil.copytree(kept, work, dirs_exist_ok=True)


def try_edits(crate, folder, jobs, rt):
    """Tries the edits of the crate's folder must-fail/."""
    edits = [it for it in (read_edit(crate, path, rt) for path in rt.edits_of(crate)[0]) if it]
    told = Told(edits, crate, folder, rt)
    left = batches_of([it for it in told.lacks(edits) if it.functions], crate, rt)
    with tempfile.TemporaryDirectory() as work:
        take_work(crate, work)
        while left:
            batch = left.pop(0)
            said = check(batch, crate, work, jobs, rt)
            if not said and len(batch) > 1:
                left = [[it] for it in batch] + left
            for edit in batch:
                line = refused(edit, crate, said)
                told.tell(edit, line and f"refused, as it must be: {line[:160]}")
        for edit in told.lacks(edits):
            told.tell(edit, refused_alone(edit, crate, work, jobs, rt))


def main(room, name, folder, jobs):
    rt = kit()
    rt.rtlib.guarded()
    try_edits(crates_in(room, rt)[name], folder, jobs, rt)


if __name__ == "__main__":
    main(*sys.argv[1:])
