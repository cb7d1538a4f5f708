"""Trials of tests/wrong_bodies/run, in a repository of their own with a made-up rt."""

from .room import copy, fails, passes, run, write, write_script

SOURCE = """pub fn first() -> u8 {
    1
}

pub fn second() -> u8 {
    2
}
"""
ANSWERS = """use one.proofs.Lemmas.{lemma}

pub returns : goal.returns
unfolding lemma
returns c = (
  lemma,
)

pub other : goal.other
other c = lemma
"""
OF_THE_GATE = "file: src/lib.rt\nold:     1\nnew:     3\n"
EDITS = {
    "one": (("A", "1", "4"), ("B", "2", "5")),
    "two": (("A", "2", "6"),),
    "renamed": (("A", "2", "7"),),
}
COMMIT = ["-c", "user.name=trial", "-c", "user.email=trial@localhost", "-c", "commit.gpgsign=false", "commit", "-qm."]
GOAL = 'open "\\`returns\\`"; refuse "not proved"'
FALSE_GOAL = 'open "\\`returns\\`" "; the facts known there allow values at which this goal is false"; refuse "not proved"'
OF_NO_LINE = 'refuse "no proof: \\`search\\` did not prove \\`invariant_of-self\\`"'
THROUGH = 'refuse "no holes"'
HAS_ANSWER = "grep -q '^returns' proofs/first/Answers.antt"
OTHER_ALONE = "! grep -q '^unfolding' proofs/first/Answers.antt && grep -q '^other c = lemma' proofs/first/Answers.antt"
UNFIT = "echo './proofs/first/Answers.antt:4:3: error: `returns`: no'; refuse 'not proved'"
AT_AN_ANSWER = f"if {HAS_ANSWER}; then {UNFIT}; else {OTHER_ALONE} && {GOAL}; fi"
AT_A_USE = (
    "if [ -e proofs/first/Answers.antt ]; "
    f"then echo './proofs/first/Answers.antt:1:5: error: no such lemma'; refuse 'not proved'; else {GOAL}; fi"
)
NO_PROGRAM = "echo src/lib.rt:$line:5: error: no; exit 1"
WAITS = 'refuse "no proof: it calls \\`one::second\\`, which is not proved"'
UNPROVED = 'echo "fn one::first: not proved"'


def trials(room):
    def tried(*crates, first=GOAL, second=GOAL, sound="true"):
        """How the script ends where rt says this of a wrong body of each function, and this of the crate as it stands."""
        script = (
            "mkdir -p out/incremental",
            'open() { echo "note: src/lib.rt:$line:5: it is not proved that what the function ensures holds ($1)$2"; }',
            'refuse() { echo "fn one::$name: $1"; }',
            f"line=2 name=first; if ! grep -q '^    1$' src/lib.rt; then {first}",
            f"elif grep -q '^    2$' src/lib.rt; then {sound}; fi",
            f"line=6 name=second; if ! grep -q '^    2$' src/lib.rt; then {second}; fi",
            "echo holes=0",
        )
        write_script(f"{room}/bin/rt", *script)
        return run(room, "tests/wrong_bodies/run", *crates)

    def open_without(goal):
        """That the sound crate leaves a goal open where the answer of its first function is taken away."""
        return f"""{HAS_ANSWER} || open '`{goal}`'"""

    copy("tests/wrong_bodies/run", room)
    copy("tests/lib/edits.py", room)
    for crate in "one", "two", "without":
        write(f"{room}/crates/{crate}/src/lib.rt", SOURCE)
        write(f"{room}/crates/{crate}/proofs/first/Answers.antt", ANSWERS)
    write(f"{room}/crates/one/must-fail/of_the_gate.edit", OF_THE_GATE)
    for crate, edits in EDITS.items():
        texts = [f"{name}\nfile: src/lib.rt\n-    {old}\n+    {new}\n" for name, old, new in edits]
        write(f"{room}/tests/wrong_bodies/{crate}.edits", "\n".join(texts))
    for words in (["init", "-q"], ["add", "tests", "crates"], COMMIT):
        run(room, "git", *words)
    yield passes("wrong bodies refused at goals", tried("one", "two"), "\n4 passed, 0 failed\n")
    yield passes("one alone", tried("one:B"), "\n1 passed, 0 failed\n")
    yield passes("one of the gate alone", tried("one:Of the gate"), "\n1 passed, 0 failed\n")
    yield fails("an unknown one", tried("one:C"), "one: C: there is no wrong body of that name\n")
    ran = tried("one", first=AT_AN_ANSWER)
    yield passes("one refused at an answer, and then at a goal", ran, "(the answers written for it taken away): at the goal")
    ran = tried("one:A", first=AT_A_USE)
    yield passes("one refused at what answers use, and then at a goal", ran, "taken away): at the goal `returns`")
    for goal in "returns", "returns-then-is_one", "returns-clause-a":
        ran = tried("one:A", first=AT_AN_ANSWER, sound=open_without(goal))
        yield fails(f"one refused where the real body leaves {goal} open too", ran, "refused where the real body stays open too")
    ran = tried("one:A", first=AT_AN_ANSWER, sound=open_without("of-requires"))
    yield passes("one refused where the real body leaves another goal open", ran, "taken away): at the goal `returns`")
    ran = tried("one:A", first=AT_AN_ANSWER.replace(GOAL, FALSE_GOAL), sound=open_without("returns"))
    yield passes("one refused at a goal that is false", ran, "taken away): at the goal `returns` (src/lib.rt:2), which is false")
    of_clause = [goal.replace("returns", "returns-then-is_one-clause-a") for goal in (GOAL, FALSE_GOAL)]
    ran = tried("one:A", first=AT_AN_ANSWER.replace(GOAL, of_clause[0]), sound=open_without("returns-in_err-b-clause-a-2"))
    yield fails("one refused at a clause that the real body leaves open on another way", ran, "stays open too")
    ran = tried("one:A", first=AT_AN_ANSWER.replace(GOAL, of_clause[0]), sound=open_without("returns-clause-b"))
    yield passes("one refused at another clause than the real body leaves open", ran, "at the goal `returns-then-is_one-clause-a`")
    ran = tried("one:A", first=OF_NO_LINE)
    yield passes("one refused at a goal that is told of no line", ran, "at the goal `invariant_of-self` (one::first)")
    yield fails("all, and some of no crate", tried(), "renamed: there is no crate of that name\n")
    yield fails("all, and what passed counts", tried(), "\n4 passed, 1 failed\n")
    yield fails("an unknown crate", tried("two", "none"), "none: there is no crate of that name\n1 passed, 1 failed\n")
    yield fails("a crate without any", tried("without"), "without: there are no wrong bodies of it\n0 passed, 1 failed\n")
    yield fails("one let through", tried("one", second=THROUGH), "one: B: NOT REFUSED: its function is proved")
    ran = tried("one", first=f"if {HAS_ANSWER}; then {AT_AN_ANSWER}; else {THROUGH}; fi")
    yield fails("one refused at an answer, and let through without it", ran, "NOT REFUSED (the answers written for it taken")
    yield fails("one that is no program", tried("one", first=NO_PROGRAM), "one: A: NOT TRIED: its text is no program")
    yield fails("one that is never judged", tried("one", first=WAITS), "one: A: not judged beside others:")
    ran = tried("two", sound=UNPROVED)
    yield fails("a crate that is not proved", ran, "two: it is not proved as it stands")
    write(f"{room}/crates/two/src/lib.rt", SOURCE + SOURCE[SOURCE.index("pub fn second") :])
    run(room, "git", *COMMIT[:-1], "-qam.")
    yield fails("one that cannot be planted", tried("two"), "two: A: NOT TRIED: its old text stands 2 times: 2\n")
