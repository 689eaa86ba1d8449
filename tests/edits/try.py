#!/usr/bin/env python3
"""Tries the must-fail edits of the crates, which the prover must refuse, many in one check.

  python3 tests/edits/try.py [NAME..]     tries the edits of these crates, or of all
  python3 tests/edits/try.py --whole ..   does so in whole copies: each has to be refused by the same goals
  python3 tests/edits/try.py --as-proved FOLDER   tries those of FOLDER/crates/*/must-fail of each crate that standard
                                          input names, a line each, as soon as it is named
  python3 tests/edits/try.py --selftest   holds this script to edits of its own

It runs at the top of the repository, over what `rt check` and `rt lib` left there, or `rt ci`.

An edit has the form that `rt` reads (`rt doc`). It changes the body of one function, or a definition
of specs/ that a law pins, and counts as refused only where a goal of this function is not proved. A
check goes on past a refused function and holds its callers to its contract, so edits of different
functions are tried in one copy of the crate. There the bodies of all other functions are cut (but
where a developer's own checks have kept them), since a goal rests on the contract of what is called
and never on its body. Of several edits of one function the first changes it, and each other one a
twin of it: a function beside it with another name, the same contract and the same proof. An edit
that such a check says nothing of is tried alone, in a whole copy. Two lines more can stand in it:

  fn: PATH       the function, where the edit changes text outside of bodies, as a definition (such an
                 edit is tried alone), or where the prover names the function otherwise than its
                 place does
  clause: WHICH  the clause that the edit breaks. The edit then counts as refused only where a goal of
                 this clause is not proved, and not by another goal, as that of a loop's invariant or of
                 the range of a sum, which is of the proof and of no contract

WHICH is one of these:

  NAME           the clause `ensures NAME` of the function, or that of its trait: the goals whose names
                 begin with `returns` and have `-clause-NAME`, or no `-clause-` where it is the only one
  returns        the one clause of the function, where it has no name: the goals whose names begin with
                 `returns` and have no `-clause-`
  requires-NAME  the clause `requires NAME` of a function that it calls: the goals whose names have
                 `-requires` and behind it `-clause-NAME`
  requires       the one `requires` of a function that it calls: the goals whose names have `-requires`
                 and no `-clause-`

The last line is 'N passed, M failed'. The status is 0 only if none failed and one was tried.
"""
import argparse
import collections
import os
import re
import shutil
import signal
import subprocess
import sys
import tempfile
import threading
import types
from concurrent.futures import ThreadPoolExecutor

sys.dont_write_bytecode = True
sys.path.append(os.path.join(os.path.dirname(os.path.abspath(__file__)), "..", "..", "crates"))
from beside import load_rt

MEMORY_OF_CHECK = 3_000_000_000
EDITS_OF_JOB = 40  # a check of more gets a second job of the prover, and so on, so that no core waits for a last long one
HOUSE = "mc_filter"  # the crate whose functions the edits of the selftest change
ROOM = tempfile.TemporaryDirectory(prefix="try-", ignore_cleanup_errors=True)


rt = load_rt()  # it reads edits, and knows the words of a check


def text_of(file):
    with open(file, encoding="utf-8") as opened:
        return opened.read()


# --- Which function an edit changes, by the layout that `rt fmt` gives ---

HEAD = re.compile(r"^( *)(?:pub(?:\([^)]*\))? )?(?:const )?fn (\w+)", re.M)
OWNER = re.compile(r"^( *)(?:impl|(?:pub(?:\([^)]*\))? )?trait)\b(.*)", re.M)


def owner_name(head):
    """Returns the prover's name for an impl: <R: Input> Input for &mut R is RefMutInput."""
    head = re.sub(r"^<(?:[^<>]|<[^<>]*>)*>", "", head.rstrip(" {"))
    head = re.sub(r"'\w+|\w+::", "", head)
    trait, _, owner = head.rpartition(" for ")
    kind = "RefMut" if owner.startswith("&mut") else re.search(r"\w+", owner)[0]
    return kind + "".join(re.findall(r"\w+", trait))


def functions_of(path, text):
    """Returns the functions of a file, but none inside another.

    Of each its name as the prover says it, its head, and where its body stands."""
    found, end = [], 0
    heads = list(HEAD.finditer(text))
    for head, before in zip(heads, [*(it.start() for it in heads[1:]), len(text)]):
        depth = head[1]
        opening = re.compile(rf"^{depth}(?:\S.*)?{{$", re.M).search(text, head.start(), before)
        if not opening or head.start() < end:
            continue
        names = [it for it in path[4:-3].split("/") if it not in ("lib", "main")]
        if owner := owner_of(text, head):
            names.append(owner_name(owner[2]))
        end = text.find(f"\n{depth}}}", opening.end())
        found.append(("::".join([*names, head[2]]), head, (opening.end(), end)))
    return found


def owner_of(text, head):
    """Returns the head of the impl or the trait that a function stands in, or None."""
    owners = [it for it in OWNER.finditer(text, 0, head.start()) if len(it[1]) < len(head[1])]
    return owners[-1] if owners else None


def function_around(path, text, first, last):
    """Returns the function in whose body all of a part of a file stands, or None."""
    found = functions_of(path, text)
    around = [name for name, _, body in found if body[0] <= first and last <= body[1]]
    return around[-1] if around else None


def clauses_of(folder, function):
    """Returns the names of a function's clauses, "" for one that has none, but no clause that its trait has."""
    for file in (it for it in files_of(folder) if it.startswith(f"{folder}/src/")):
        text = text_of(file)
        if found := standing(os.path.relpath(file, folder), text, function):
            head, body = found
            return re.findall(r"^ *ensures(?: (\w+))? {", text[head.start():body[0]], re.M)
    return []


def changed_functions(folder, texts):
    """Returns the functions that an edit changes, with None where it changes other text."""
    found = set()
    for path, new in texts.items():
        old = text_of(f"{folder}/{path}")
        if old != new:
            same = len(os.path.commonprefix([old, new]))
            after = len(os.path.commonprefix([old[same:][::-1], new[same:][::-1]]))
            found.add(function_around(path, old, same, len(old) - after))
    return found


# --- The functions that no edit of a check changes ---

BESIDE_CUT = " (beside cut bodies)"
TACTICS = re.compile(r"\n *#\[tactic\((?:[^()]|\([^()]*\))*\)\]\n\Z")


def cut_others(folder, edited):
    """Cuts the bodies of a copy's functions that are not edited, and takes their proofs away.

    What calls such a function is judged by its contract alone, as it is beside a whole one, so its body
    and its proof, which is the dear part, needn't be read. Left whole are those in whose proofs another
    text looks, and those that the compiler may run."""
    texts = {file: text_of(file) for file in files_of(folder)}
    for file in (it for it in texts if it.startswith(f"{folder}/src/")):
        text = texts[file]
        for name, head, body in reversed(functions_of(os.path.relpath(file, folder), text)):
            own = f"{folder}/proofs/{name.replace('::', '/')}/"
            if name not in edited and can_be_cut(text, head, body) and not is_cited(name, own, texts):
                text = cut_body(text, head, body)
                if not any(it.startswith(f"{name}::") for it in edited):
                    shutil.rmtree(own, ignore_errors=True)
        with open(file, "w", encoding="utf-8") as opened:
            opened.write(text)


def files_of(folder):
    """Returns a crate's files of code, definitions and proofs."""
    found = []
    for base, _, names in os.walk(folder):
        if not f"{base}/".startswith(f"{folder}/out/"):
            found += [f"{base}/{it}" for it in names if it.endswith((".rt", ".antt"))]
    return found


def is_cited(name, own, texts):
    """Returns whether a text outside of a function's proofs names them."""
    cited = f"proofs.{name.replace('::', '.')}.", f"proofs::{name}::"
    return any(not at.startswith(own) and any(it in text for it in cited) for at, text in texts.items())


def can_be_cut(text, head, body):
    """Returns whether a function has a body that the compiler doesn't run and no trait hands on."""
    owner = owner_of(text, head)
    is_of_trait = owner and not owner[0].lstrip().startswith("impl")
    return bool(text[body[0]:body[1]].strip()) and "const fn" not in head[0] and not is_of_trait


def cut_body(text, head, body):
    before = TACTICS.sub("\n", text[:head.start()])
    kept = text[head.start():body[0]]
    return f"{before}{head[1]}#[tactic(none)]\n{kept}\n{head[1]}    unreachable!(){text[body[1]:]}"


# --- Twins: a function once more, under another name ---

def can_have_twins(folder, path, function):
    """Returns whether a function's twin is proved as the function is.

    A method of a trait has none, nor has a function whose proof another text names."""
    text = text_of(f"{folder}/{path}")
    owner = owner_of(text, standing(path, text, function)[0])
    own = f"{folder}/proofs/{function.replace('::', '/')}/"
    above, name = os.path.split(own[:-1])
    is_of_trait = owner and (" for " in owner[0] or not owner[0].lstrip().startswith("impl"))
    has_closures = os.path.exists(f"{above}/fn/{name}")
    texts = {file: text_of(file) for file in files_of(folder)}
    return not (is_of_trait or has_closures or is_cited(function, own, texts))


def standing(path, text, function):
    """Returns the head of a function in a file's text, and where its body stands, if it stands there."""
    return next(((head, body) for name, head, body in functions_of(path, text) if name == function), None)


def add_twin(folder, path, function, text, end):
    """Adds a function, as it stands in a text of its file, and its proof to a copy of a crate.

    The names of both get this end."""
    head, body = standing(path, text, function)
    before = TACTICS.search(text[:head.start()])
    closing = f"\n{head[1]}}}"
    twin = (before[0].strip("\n") if before else "") + "\n" + text[head.start():head.end()] + end
    twin += text[head.end():body[1]] + closing
    whole = text_of(f"{folder}/{path}")
    behind = standing(path, whole, function)[1][1] + len(closing)
    with open(f"{folder}/{path}", "w", encoding="utf-8") as opened:
        opened.write(f"{whole[:behind]}\n\n{twin}{whole[behind:]}")
    own, cited = f"{folder}/proofs/{function.replace('::', '/')}", f"proofs.{function.replace('::', '.')}"
    for name in os.listdir(own) if os.path.isdir(own) else ():
        os.makedirs(own + end, exist_ok=True)
        with open(f"{own}{end}/{name}", "w", encoding="utf-8") as opened:
            opened.write(text_of(f"{own}/{name}").replace(f"{cited}.", f"{cited}{end}."))


class Edit:
    """An edit of a crate, and what is asked of it."""

    def __init__(self, crate, file):
        self.file, self.name = file, os.path.basename(file)
        texts, self.fault = rt.read_edit(file, crate.folder)
        lines = [it.partition(": ") for it in text_of(file).split("\n")]
        said = {key: value.strip() for key, _, value in lines if key in ("fn", "clause")}
        hit = changed_functions(crate.folder, texts) if texts else {""}
        self.clause, self.is_alone = said.get("clause"), None in hit or len(hit) > 1
        self.asked = [self.clause] if self.clause else []  # whose goals refuse it
        self.function, self.places = f"{crate.name}::{said.get('fn') or next(iter(hit), None)}", hit
        self.twin = ""  # how the name ends of the twin that it changes, if it changes one
        self.may_be_twin = not self.is_alone and "fn" not in said and len(texts or ()) == 1
        self.path = next(iter(texts or ()), None)
        if not hit:
            self.fault = "it changes nothing"
        elif any(not path.startswith(("src/", "specs/")) for path in texts or ()):
            self.fault = "it changes a file outside of src/ and specs/"
        elif self.is_alone and "fn" not in said:
            self.fault = "it changes not one body alone: name the function in a line 'fn: PATH'"
        elif self.clause:
            self.ask_of(clauses_of(crate.folder, self.function.partition("::")[2]))

    def ask_of(self, clauses):
        """Sees whose goals refuse it, of a function with these clauses: the goals of the only one have no name."""
        names = [it for it in clauses if it]
        if self.clause == "returns" and names:
            self.fault = f"its function has clauses with names: {', '.join(names)}"
        elif [self.clause] == clauses:
            self.asked.append("returns")

    def tried(self):
        """Returns the prover's name for the function that a check tries it on."""
        return self.function + self.twin


# --- What a check says ---

# A text that names what is no longer there shows nothing of a contract.
GONE = re.compile(r"is not in scope|has no (?:field|`)|is no name|was not (?:admitted|checked)")
ERROR = re.compile(r"(?:\./)?(proofs/\S+):\d+:\d+: error(?:\[[\w-]+\])?: `([^`]*)`: (.*)")


ANY_ERROR = re.compile(r"(?:\./)?((?:proofs|specs|src)/\S+?):\d+:\d+: error")


class Said:
    """What a check said of the functions that its edits change."""

    def __init__(self, status, text):
        lines = text.rstrip("\n").split("\n")
        self.is_proved = status == 0 and lines[-1].startswith(("logic=proved ", "only="))
        is_refused = status == 1 and lines[-1].startswith(("logic=not-proved", "only="))
        self.reached_prover = self.is_proved or is_refused
        self.strange = {found[1] for found in map(ANY_ERROR.match, lines) if found}
        self.first_fault = next((it for it in lines if "error" in it), lines[-1])[:200]
        self.functions = dict(re.findall(r"^fn (\S+): (.*)", text, re.M))
        self.notes = goals_of_notes(lines)
        # a long error goes on in the next line
        self.errors = [
            (found[1], found[2], found[3] + (after if after.startswith("  ") else ""))
            for found, after in zip(map(ERROR.match, lines), [*lines[1:], ""])
            if found
        ]

    def refused_goals(self, function, clauses=()):
        """Returns the goals of a function, or of a closure in it, that were not proved.

        Given clauses, returns only those of these clauses, none of them in a closure."""
        goals, has_gone = [], False
        is_asked = (lambda name: name == function) if clauses else (lambda name: is_within(name, function))
        for path, goal, why in self.errors:
            if is_asked("::".join([function.partition("::")[0], *path.split("/")[1:-1]])):
                is_gone = GONE.search(re.sub(r"`[^`]*`", "``", why))
                has_gone = has_gone or bool(is_gone)
                goals += [] if is_gone else [goal]
        for name, said in self.functions.items():
            if is_asked(name):
                found = re.search(r"`search` did not prove ([^;]*)", said)
                goals += re.findall(r"`([^`]*)`", found[1]) if found else []
                # (where an answer names what is gone, another goal may be open for that alone)
                goals += [] if has_gone else self.notes[name]
        return [it for it in dict.fromkeys(goals) if not clauses or any(is_of_clause(it, which) for which in clauses)]

    def has_stray_errors(self, edits):
        """Returns whether an error stands elsewhere than in the proofs of the functions that edits change."""
        paths = [it.tried().partition("::")[2].replace("::", "/") for it in edits]
        own = tuple(f"proofs/{it}/" for it in paths)
        return any(not it.startswith(own) for it in self.strange)

    def refusal(self, edit):
        """Returns the goals that refuse an edit as it asks, in a few words, or nothing."""
        return ", ".join(self.refused_goals(edit.tried(), edit.asked))[:150]

    def why_not(self, edit):
        """Says why an edit that was tried alone is not refused."""
        own = [said for name, said in self.functions.items() if is_within(name, edit.function)]
        if self.is_proved:
            return f"IT PROVES: {edit.function} is proved with it"
        if goals := self.refused_goals(edit.function):
            return f"ANOTHER CLAUSE REFUSES IT than {edit.clause}: {', '.join(goals)[:150]}"
        if any(it.startswith("no") for it in own):
            return "NO GOAL REFUSES IT, only a proof script that names what is gone"
        return f"THE CHECK SAYS NOTHING of {edit.function}"


def goals_of_notes(lines):
    """Returns the open goals that a check's notes say of each function; they stand before its line."""
    found, goals = collections.defaultdict(list), []
    for line in lines:
        if note := re.match(r"note: .*: it is not proved .*\(`([^`]*)`\)", line):
            goals.append(note[1])
        elif function := re.match(r"fn (\S+): (.*)", line):
            if not function[2].startswith("proved"):
                found[function[1]] += goals
            goals = []
    return found


def is_of_clause(goal, which):
    """Returns whether a goal is one of the clause that an edit names by its line `clause:`."""
    place, _, clause = goal.partition("-clause-")
    words = place.split("-")
    asks, _, name = which.partition("-")
    if asks == "requires":
        # (a condition of `prove!` and `unreachable!` is no clause of a function that is called)
        is_of_kind = "requires" in words[1:] and words[0] not in ("prove", "unreachable")
    else:
        is_of_kind, name = words[0] == "returns", "" if which == "returns" else which
    return is_of_kind and re.match(rf"{name}(?!\w)", clause) is not None and bool(name) == bool(clause)


def is_within(name, function):
    """Returns whether a name is a function's, or that of a closure in it: m::fn::f::map in m::f."""
    whole = name.replace("::fn::", "::")
    inside = (f"{function}+",) if whole == name else (f"{function}+", f"{function}::")
    return whole == function or whole.startswith(inside)


# --- Checks ---

class Crate:
    """A crate with the edits to try on it, and the work that its checks keep."""

    def __init__(self, made, home, room, is_whole):
        self.made, self.name, self.folder = made, made.name, made.folder
        self.kept, self.cost = f"{room}/{made.name}", 0.0
        self.has_kept = os.path.isdir(f"{made.folder}/out/incremental")
        # (where whole bodies are kept, they cost less than cut ones)
        self.is_whole = is_whole or self.has_kept
        files, strange = rt.edits_of(types.SimpleNamespace(folder=home))
        self.edits = [Edit(made, it) for it in files]
        self.strange = [os.path.basename(it) for it in strange]

    def prepare(self):
        """Takes over kept work, and returns why the crate's edits can't be tried, if they can't."""
        if self.has_kept:
            shutil.copytree(f"{self.folder}/out/incremental", self.kept)
        os.makedirs(self.kept, exist_ok=True)
        for below in self.made.below():
            if not is_proved(below):
                return f"there is no library {below.name} of its text: run rt lib there, or rt ci"
        if not is_proved(self.made) and not self.check([]).is_proved:
            return "the crate itself is not proved"
        return None

    def check(self, edits, is_cut=False):
        """Checks a copy of the crate with these edits over a copy of what is kept; cut, with no other body."""
        with tempfile.TemporaryDirectory(dir=os.path.dirname(self.kept)) as room:
            shutil.copytree(self.kept, f"{room}/out")
            for part in rt.rtlib.PARTS:
                if os.path.isdir(f"{self.folder}/{part}"):
                    shutil.copytree(f"{self.folder}/{part}", f"{room}/{part}")
            if is_cut:
                names = [[*it.places, it.function.partition("::")[2]] for it in edits]
                cut_others(room, {name for its in names for name in its})
            for edit in (it for it in edits if not it.twin):
                # (one that doesn't fit beside the others is then tried alone)
                for path, text in (rt.read_edit(edit.file, room)[0] or {}).items():
                    with open(f"{room}/{path}", "w", encoding="utf-8") as opened:
                        opened.write(text)
            for edit in (it for it in edits if it.twin):
                for path, text in rt.read_edit(edit.file, self.folder)[0].items():
                    add_twin(room, path, *edit.places, text, edit.twin)
            functions = sorted(it.tried() for it in edits)
            said = self.run(room, [it for name in functions for it in ("--only", name)])
            self.keep(f"{room}/out", functions)
        return said

    def run(self, room, words):
        """Runs the prover, and counts its processor time."""
        jobs = max(1, min(1 + len(words) // 2 // EDITS_OF_JOB, rt.processors(), rt.free() // MEMORY_OF_CHECK))
        own = self.made.words(["--jobs", str(jobs), "--incremental", f"{room}/out"], keeps=False)
        whole = [*rt.rtlib.guarded(), rt.rtlib.RATTLE, "check", *own, *words]
        with tempfile.TemporaryFile("w+", errors="replace") as out:
            how = {"stdin": subprocess.DEVNULL, "stdout": out, "stderr": subprocess.STDOUT}
            ran = subprocess.Popen(whole, cwd=room, **how)
            _, status, used = os.wait4(ran.pid, 0)
            ran.returncode = os.waitstatus_to_exitcode(status)
            out.seek(0)
            text = out.read()
        cost = used.ru_utime + used.ru_stime
        self.cost += cost
        print(f"{self.name}: {len(words) // 2} functions in a check, {cost:.0f} s", flush=True)
        return Said(ran.returncode, text)

    def keep(self, made, functions):
        """Keeps what a check made, but not of the functions that its edits changed."""
        paths = [".".join(it.split("::")[1:]) for it in functions]
        edited = tuple(f"Rattle-{self.name}-proofs.{it}{end}" for it in paths for end in ".+")
        for folder, _, names in os.walk(made):
            to = self.kept + folder[len(made):]
            os.makedirs(to, exist_ok=True)
            for name in names:
                is_edited = name.replace(".fn.", ".").startswith(edited)
                if not is_edited and not os.path.exists(f"{to}/{name}"):
                    os.rename(f"{folder}/{name}", f"{to}/{name}")

    def judge_cut(self, edits):
        """Tries edits in one check, all other bodies cut. What that doesn't refuse is tried alone, beside whole ones."""
        said = self.check(edits, is_cut=True)
        if not said.reached_prover and len(edits) > 1:
            half = len(edits) // 2
            return self.judge_cut(edits[:half]) + self.judge_cut(edits[half:])
        if not said.reached_prover or said.has_stray_errors(edits):
            return self.judge_by_turns(edits)
        tried = [(it, said.refusal(it)) for it in edits]
        found = [(edit, True, goals + BESIDE_CUT) for edit, goals in tried if goals]
        for edit in (it for it, goals in tried if not goals):
            edit.twin = ""
            found += self.judge([edit])
        return found

    def judge_by_turns(self, edits):
        """Tries edits beside whole bodies, those of one function in a check each."""
        for edit in edits:
            edit.twin = ""
        return [found for group in groups_of(edits) for found in self.judge(group)]

    def judge(self, edits):
        """Tries edits in one check. Returns each with whether it is refused, and by what."""
        said = self.check(edits)
        if not said.reached_prover:
            if len(edits) == 1:
                return [(edits[0], False, f"IT DID NOT REACH THE PROVER: {said.first_fault}")]
            half = len(edits) // 2
            return self.judge(edits[:half]) + self.judge(edits[half:])
        found = []
        for edit in edits:
            if goals := said.refusal(edit):
                found.append((edit, True, goals))
            elif len(edits) > 1:
                found += self.judge([edit])
            else:
                found.append((edit, False, said.why_not(edit)))
        return found

    def try_edits(self):
        """Tries all edits. Returns a line for each: its name, whether it is refused, and why."""
        found = [(it, False, "its name doesn't end in .edit") for it in self.strange]
        found += [(it.name, False, f"BAD EDIT: {it.fault}") for it in self.edits if it.fault]
        good = [it for it in self.edits if not it.fault]
        if good and (why := self.prepare()):
            return [*found, *((it.name, False, f"NOT TRIED: {why}") for it in good)]
        for group in groups_of(good, self.folder if not self.is_whole else None):
            judge = self.judge if self.is_whole or group[0].is_alone else self.judge_cut
            found += [(edit.name, refused, why) for edit, refused, why in judge(group)]
        shutil.rmtree(self.kept, ignore_errors=True)
        return found


def is_proved(made):
    """Returns whether `rt` built a crate, which it does of a proved one, since its text changed."""
    if os.path.isfile(f"{made.folder}/out/rlib/stamp"):
        return made.is_built()
    built = f"{made.folder}/out/{made.name}" if made.is_program else made.rlib
    files = [file for it in [made, *made.below()] for file in rt.rtlib.files_of(it.folder)]
    return os.path.exists(built) and os.path.getmtime(built) >= max(map(os.path.getmtime, files))


def groups_of(edits, folder=None):
    """Returns edits in groups, in each of which no two change the same function.

    Given the crate's folder, those that can change a twin of it stand in one group."""
    groups = collections.defaultdict(list)
    met = collections.Counter()
    for edit in edits:
        if edit.is_alone:
            groups[edit.name].append(edit)
            continue
        before = met[edit.function]
        met[edit.function] += 1
        if before and folder and edit.may_be_twin and can_have_twins(folder, edit.path, *edit.places):
            edit.twin, before = f"_twin{before}", 0
        groups[before].append(edit)
    return list(groups.values())


# --- The whole ---

def try_all(names, jobs, home=None, is_whole=False):
    """Tries the edits of crates, several crates beside each other, the longest first."""
    made = [it for it in rt.rtlib.crates_below(os.getcwd()) if not names or it.name in names]
    if unknown := {*names} - {it.name for it in made}:
        sys.exit(f"try.py: there is no crate {min(unknown)}")
    made.sort(key=lambda it: -it.count(rb"\n"))
    with ROOM, ThreadPoolExecutor(jobs) as pool:
        crates = [Crate(it, home or it.folder, ROOM.name, is_whole) for it in made]
        found = list(zip(crates, pool.map(Crate.try_edits, crates)))
    return lines_of(found)


def try_as_proved(names, jobs, homes):
    """Tries the edits of each crate as soon as its name comes, those of a folder of this name under `homes`, and once no
    more come, since the proofs have ended, those of as many crates at once as there are processors and memory for."""
    made = {it.name: it for it in rt.rtlib.crates_below(os.getcwd())}
    turns = threading.Semaphore(jobs)

    def try_in_turn(crate):
        with turns:
            return crate.try_edits()

    with ROOM, ThreadPoolExecutor(max(jobs, rt.processors())) as pool:
        tried = []
        for name in (it.strip() for it in names):
            crate = Crate(made[name], f"{homes}/{name}", ROOM.name, False)
            tried.append((crate, pool.submit(try_in_turn, crate)))
        for _ in range(jobs, jobs_at_once()):
            turns.release()
        found = [(crate, its.result()) for crate, its in tried]
    return lines_of(found)


def jobs_at_once():
    """How many checks may run at once: one a processor and as many as memory holds, but one in any case."""
    return max(1, min(rt.processors(), rt.free() // MEMORY_OF_CHECK))


def lines_of(found):
    """Says what each crate's edits took, and returns the lines of all of them."""
    crates = [crate for crate, _ in found]
    for crate in crates:
        if crate.edits:
            print(f"{crate.name}: {len(crate.edits)} edits, {crate.cost:.0f} s of a processor")
    print(f"{sum(it.cost for it in crates):.0f} s of a processor")
    return [(f"{crate.name}/{name}", *rest) for crate, tried in found for name, *rest in tried]


# Edits that this script must judge rightly, each with what it must say of it.
SAMPLES = """
== callee_wrong: refused (beside cut bodies)
file: src/filter.rt
old:             mode: Mode::Include,
new:             mode: Mode::Exclude,
== caller_unharmed: IT PROVES
file: src/filter_builder.rt
old: filter: Filter::none(alloc),
new: filter: { Filter::none(alloc) },
== callee_wrong_twin_right: IT PROVES
file: src/filter.rt
old:             sources: Vec::new(alloc),
new:             sources: { Vec::new(alloc) },
== changed_type: IT DID NOT REACH THE PROVER
file: src/filter.rt
old:         self.mode
new:         self.sources
== clause_of_another: ANOTHER CLAUSE REFUSES IT
clause: ascending
file: src/filter.rt
old:         &self.sources
new:         &self.sources[..0]
== clause_without_name: refused (beside cut bodies)
clause: returns
file: src/filter.rt
old:         self.mode
new:         Mode::Include
== bounds_and_no_clause: ANOTHER CLAUSE REFUSES IT
clause: returns
file: src/filter.rt
old:         self.mode
new:         { let _first = &self.sources[0]; self.mode }
== returns_beside_names: BAD EDIT: its function has clauses with names: value, ascending
clause: returns
file: src/filter.rt
old:         &self.sources
new:         &self.sources[..0]
== requires_of_call: refused (beside cut bodies)
clause: requires-others_ascending
file: src/filter.rt
old:                 remove_common(&mut self.sources, &listed);
new:                 listed.reverse(); remove_common(&mut self.sources, &listed);
== requires_of_another_name: ANOTHER CLAUSE REFUSES IT
clause: requires-ascending
file: src/filter.rt
old:                 remove_common(&mut self.sources, &listed);
new:                 listed.reverse(); remove_common(&mut self.sources, &listed);
== requires_alone: refused (beside cut bodies)
clause: requires
file: src/filter.rt
old: is_listed(&self.sources, source);
new: is_listed(&[source, source], source);
== returns_and_no_requires: ANOTHER CLAUSE REFUSES IT
clause: requires
file: src/filter.rt
old:         self.mode
new:         Mode::Exclude
== local_renamed: NO GOAL REFUSES IT
file: src/addresses.rt
old: for source in sources.iter() {
new: for one in sources.iter() {
old: addresses.push(source)?;
new: addresses.push(one)?;
== nothing_changed: BAD EDIT: it changes nothing
file: src/filter.rt
old:         self.mode
new:         self.mode
== text_gone: BAD EDIT: an 'old:' text is in src/filter.rt 0 times
file: src/filter.rt
old: no_such_text
new: another
== no_body_changed: BAD EDIT: it changes not one body alone
file: src/filter.rt
old: use mc_text::{Addr, Memory};
new: use mc_text::{Memory, Addr};
"""


def selftest(jobs):
    """Tries the samples, and returns 0 if each is judged as it must be."""
    with tempfile.TemporaryDirectory() as home:
        os.mkdir(f"{home}/must-fail")
        wanted = {}
        for sample in SAMPLES.split("\n== ")[1:]:
            head, _, text = sample.partition("\n")
            name, _, what = head.partition(": ")
            wanted[f"{HOUSE}/{name}.edit"] = what
            with open(f"{home}/must-fail/{name}.edit", "w", encoding="utf-8") as opened:
                opened.write(text)
        found = try_all([HOUSE], jobs, home)
    right = 0
    for name, refused, why in found:
        told = f"refused{BESIDE_CUT if why.endswith(BESIDE_CUT) else ''}" if refused else why
        is_right = told.startswith(wanted[name])
        print(f"{'judged rightly' if is_right else 'WRONGLY JUDGED'}: {name}: {why}")
        right += is_right
    print(f"{right} passed, {len(wanted) - right} failed")
    return 0 if right == len(wanted) else 1


def main():
    how = argparse.RawDescriptionHelpFormatter
    words = argparse.ArgumentParser(description=__doc__, formatter_class=how)
    words.add_argument("names", nargs="*", metavar="NAME")
    words.add_argument("--selftest", action="store_true")
    words.add_argument("--whole", action="store_true")
    words.add_argument("--as-proved", metavar="FOLDER")
    words.add_argument("--jobs", type=int)
    given = words.parse_args()
    rt.rtlib.guarded()  # (from here on all that is started ends with this script)
    for number in (signal.SIGTERM, signal.SIGHUP, signal.SIGINT):
        signal.signal(number, ended)
    jobs = given.jobs or jobs_at_once()
    if given.selftest:
        return selftest(jobs)
    if given.as_proved:
        found = try_as_proved(sys.stdin, jobs, f"{given.as_proved}/crates")
    else:
        found = try_all(given.names, jobs, is_whole=given.whole)
    for name, refused, why in found:
        print(f"{'refused' if refused else 'ERROR'} {name}: {why}")
    failed = sum(not it[1] for it in found)
    print(f"{len(found) - failed} passed, {failed} failed")
    return 1 if failed or not found else 0


def ended(number, _):
    """Leaves no copies behind where the script is stopped."""
    ROOM.cleanup()
    os._exit(128 + number)


if __name__ == "__main__":
    sys.exit(main())
