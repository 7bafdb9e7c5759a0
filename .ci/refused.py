"""How the log of a wrong program is read: whether it was refused at a fact.

A complaint is a fact only if its words are one of FORMS: the prover held what the code gives against what is promised, and they
are not the same. HOLLOW words speak of the proof's own text, or of another refusal. Words that stand in no list are `look`: they
fail too. No log tells that a changed program is wrong in truth, since a right one that is written another way is refused in the
same words. So an edit keeps the code's branches, calls and names, and its reader must see what is wrong.

The words are those of the toolchains VERSIONS, collected from the logs of all wrong programs. Another toolchain may say it otherwise:
then the words are unknown and fail, and other_toolchain says in a line that the lists must be looked at again. The logs in .ci/logs
are the test of the lists: each says first how it must be judged, and each entry of the lists has one at least. Where a function has
no answer of its own to a goal, the prover tries it by itself: what it says then is a note at the function's place in src/.
"""
import pathlib
import re
import subprocess
from collections import namedtuple

LOGS = pathlib.Path(__file__).resolve().parent / "logs"
VERSIONS = ("rattle-kit-13f logic dac8208d650f15bf",)
Complaint = namedtuple("Complaint", "file row need said")

# What is said is read with § for each quoted term, and §place for the name of a need or of a place in the code.
QUOTED = re.compile(r"`(?:(goal\.[^`\s]*|[^`\s]*\.(?:Goals|Tie|Lts)\.[^`\s]*)|[^`]*)`")
DIFFER = (
    r"the two (?:types|values|sides) (?:first differ|differ only) where one has § \((?:expected|found|left)\)"
    r"(?:, (?:right after §|at the start),?)? and the other has § \((?:found|required|right)\)"
)
PRINTED = rf"as printed, {DIFFER}(?:, (?:the one|both) beneath the binder §(?:, the other beneath (?:the binder )?§)?)? "
UNSEEN = r"what the two (?:types|values) compute to is not shown, because [^(]*\([^)]*\)"
TYPES = r"expected type §,? but this has type §"
FOLDED = r"§(?:, §)*(?: \(of §\))? do(?:es)? not unfold here: "
FORMS = {
    # What the proof shows and what is asked were computed, and a part is not the same.
    "computed": rf"(?:{PRINTED}|{TYPES} )?computed as far as they go, {DIFFER}",
    # The same, with both shown whole: `refl` at `false ≡ true`, of a table of cases.
    "whole": rf"(?:{PRINTED}|{TYPES} )?computed as far as they go, the two (?:types|values) are § \((?:expected|found)\) and § \((?:found|required)\)",
    # They are not the same, and are shown as they are written: an argument is open, or they are too long to compute.
    "written": rf"{PRINTED}(?:{UNSEEN} )?(?:{FOLDED}.*)?{TYPES}|{TYPES}(?: {UNSEEN}(?: {FOLDED}.*)?)?$",
    # The same, where one of the two is shown computed, or both.
    "shown": rf"{TYPES} (?:.* )?(?:(?:one side \((?:expected|found)\) is|both types are) shown computed, as a hole's goal is"
    r"|computed as far as it goes, the (?:expected|found) one begins §)",
    # The same, where what is computed is too long to be shown: its start is the same, and a part of it is not.
    "by parts": rf"{PRINTED}computed as far as they go, the first \d+ bytes of the two types are identical .*{TYPES} "
    r"compared part by part, the two types first differ at ",
    # Two terms had to be the same and are not, once what was open in them was known.
    "turned out": r"(?:(?:computed as|as printed).* )?§ ≟ §:? does not hold \(this comparison, made at this position, had to wait for a metavariable; it turned out false ",
    # A path is given as a λ, and one of its ends is not what is asked.
    "end": rf"(?:{PRINTED}(?:{UNSEEN} )?)?on the face § this λ's body is §,? but the extension \(path\) type requires § there(?: {UNSEEN})?$",
    # `simp` or `rw` has put in all that is known, and the two sides are not the same.
    "left over": r"give a proof of that as the last argument, § \(§ shows it as a hole's goal\), or add what is missing to the list "
    r"§ has no last argument, so what it leaves must be a path whose two ends are equal, and § is none$",
    # `omega` or `grind` names values at which all that is known holds and the goal does not.
    "numbers": r"§: the goal does not follow(?: from what it read\. All of that holds, and the goal fails, at §|\. The hypotheses hold, and the goal fails at §)",
    # `search` in an answer found no proof, within its own bounds; where the call broke off it says so, and that is no fact.
    "search": r"§: no proof of § was found\. ",
    # The checker's own search, at a goal with no answer: it found values at which all that is known holds and the goal does not.
    "values": r"it is not proved that .*? \(§\); the facts known there allow values at which this goal is false$",
    # The same, with no values: every way was tried.
    "own search": r"it is not proved that .*? \(§\)$",
    # The same, within the search's own bounds, in which it proves that goal of the right program.
    "within bounds": r"it is not proved that .*? \(§\)(?:; § gave up at one of its limits)+$",
}
HOLLOW = {
    # The code has other places or needs: whatever else is said of the function may come from that.
    "shape": r"has no field|can be named from here|expected type §place",
    # It holds, and the proof only wants a longer `unfolding` line.
    "admitted": r"trial run of this declaration was admitted",
    # A step of rewriting does not fit; what the goal comes to is not said.
    "no instance": r"no occurrence of|no equation of the list has an instance",
    # An argument cannot be found.
    "blank": r"was not determined|is not admitted: unsolved",
    # The two are not told apart. (Where only the start is shown, and is the same, a form above must say where they part.)
    "identical": r"(?<!bytes of )the two types are identical",
    # It stands on something that was refused before.
    "follows": r"§, which was (?:not admitted|rejected), (?:was|were) not checked|§ was not admitted",
}
# Of two sides the starts are the same, and the rest is not shown.
CUT = re.compile(r"the first \d+ bytes of the two types are identical")
# A return or a loop: what a function promises, and what a loop keeps, and that it ends.
NEED = re.compile(r"(?:returns|loop-\w+-(?:init|preserved|smaller)|decreases)(?:-.*)?")
HEAD = re.compile(r"(?:note: (?=\S+:\d+:\d+: ))?(?:(?:\./)?([^\s:]+):(\d+):\d+: (?!note: )|(?=error))(.*)")
# The files of a function's proof, by its name; those of a recursive one stand in a folder with a plus.
OF_A_FUNCTION = re.compile(r"proofs/(.*/)?\+?([^/+]+)/(?:Answers|Invariants|Proof)\.antt")


def complaints(text):
    """What a log complains of, in its order: whatever it says of a place, but for notes."""
    found = []
    for block in re.split(r"\n(?!  )", text):
        block = re.sub(r"\s+", " ", block).strip()
        head = HEAD.match(block)
        if head:
            file, row, what = head.groups()
            need = re.match(r"error: `([^`]+)`: ", what) or re.search(r"\(`([^`]+)`\)(?:;|$)", what) or re.search(r"`([^`]+)`", what)
            said = QUOTED.sub(lambda m: "§place" if m.group(1) else "§", what).removeprefix("error: §: ")
            found.append(Complaint(file or "", int(row or 0), need.group(1) if need else "?", said))
        elif found and re.search(HOLLOW["admitted"], block):
            more = QUOTED.sub("§", block.removeprefix("note: "))
            found[-1] = found[-1]._replace(said=f"{found[-1].said} {more}")
    return found


def whose(complaint):
    """The name of the function whose proof a complaint stands in, if it stands in one."""
    found = OF_A_FUNCTION.fullmatch(complaint.file)
    return (found.group(1) or "") + found.group(2) if found else ""


def hollow(said):
    """The kind by which a complaint is no fact, if it is known."""
    return next((kind for kind, words in HOLLOW.items() if re.search(words, said)), None)


def form(said):
    """The known form by which a complaint is a fact, if it is one."""
    return None if hollow(said) else next((name for name, words in FORMS.items() if re.match(words, said)), None)


def judged(text, own=None, files=()):
    """How a wrong program was refused, by a log: fact, hollow or look, and why.

    Of a function (its file, first line, last line, name) its own first complaint counts, unless one of its own tells that the code
    has another shape. Of a definition the first counts that is no function's, whose code gives what the definition was; it must be
    in a law, and is passed over where its two sides are too long to be told apart and more is said. A law of each of the files must
    be among what is refused at a fact.
    """
    said = complaints(text)
    mine = [c for c in said if not whose(c) and not c.file.startswith("src/")]
    if own:
        at, a, b, name = own
        mine = [c for c in said if whose(c) == name or c.file == f"src/{at}" and a <= c.row <= b]
    if not mine:
        return "look", "no complaint of its own"
    told = [c for c in mine if own or form(c.said) or not CUT.search(c.said)] or mine
    first = next((c for c in told if own and hollow(c.said) == "shape"), told[0])
    shown = f"{first.file} {first.need}"
    if hollow(first.said):
        return "hollow", f"{shown}, {hollow(first.said)}"
    if not form(first.said) or not (NEED.fullmatch(first.need) if own else first.file.startswith("proofs/")):
        return "look", shown
    for file in files:
        if not any(c.file == file and form(c.said) for c in said):
            return "look", f"{shown}, not in {file}"
    return "fact", f"{shown}, {form(first.said)}"


def other_toolchain():
    """A line where another toolchain runs than those whose words are in the lists, or nothing."""
    try:
        runs = subprocess.run(["rt", "version"], capture_output=True, text=True, check=False).stdout.strip()
    except OSError:
        runs = ""
    if runs in VERSIONS:
        return ""
    return f"the words of a refusal are known for {' and '.join(VERSIONS)}, but what runs is {runs or 'no rt'}: look at the lists in .ci/refused.py again"


def self_test():
    """What is wrong with the lists: a log that is judged otherwise than it says, and an entry that no log shows.

    A log's head is how it must be `judged`, with the form or kind; what it is `of`, a definition or a function's file, first line,
    last line and name; and a file that it must be `refused in`, if any. An empty line ends the head.
    """
    wrong, shown = [], set()
    for log in sorted(LOGS.glob("*.log")):
        head, _, text = log.read_text(encoding="utf-8").partition("\n\n")
        says = dict(line.split(": ", 1) for line in head.splitlines())
        at = says["of"].split()
        own = None if says["of"] == "a definition" else (at[0], int(at[1]), int(at[2]), at[3])
        verdict, why = judged(text, own, says.get("refused in", "").split())
        must, _, kind = says["judged"].partition(", ")
        shown.add(kind)
        if verdict != must or kind and not why.endswith(f", {kind}"):
            wrong.append(f"{log.name}: {verdict}, {why}; it must be {says['judged']}")
    return wrong + [f"no log in .ci/logs shows {name}" for name in [*FORMS, *HOLLOW] if name not in shown]
