"""Trials of `tests/parts/cases documents`, with a made-up program."""

from .room import fails, part, passes, write, write_script

SHOWN = "A page.\n\n    $ ./desk tell 1\n    told 1\n\n    at once\n    $ ./desk tell 3 | tr 3 4\n    told 4\n\n    at once\n"
WHOLE = "| Where | Number |\n|---|---|\n| here | 1 to 2 |\n| there | 7, 60 |\n\n"
ORDER = "| Of | Refused with the first |\n|---|---|\n| this | 2 |\n| that | 7, 1 |\n"
OTHER = "\nA paragraph:\n\n    $ ls\n    any\n\n- an item\n    $ ./desk tell 5\n"


def trials(room):
    def documents(text):
        write(f"{room}/page.md", text)
        return part(room, "cases documents", f"{room}/program", f"{room}/page.md")

    tell = "tell) printf 'told %s\\r\\n\\nat once\\n' \"$2\" ;;"
    explain = "explain) printf '%s: why\\n    what to do\\n' 'refused 1' 'refused 2' 'refused 7' 'fault 60' ;;"
    write_script(f"{room}/program", 'case "$1" in', tell, "refuse) echo refused; exit 1 ;;", explain, "*) exit 2 ;;", "esac")
    write(f"{room}/file", "first\n  second\n    third\nlast")
    cited = f"From `{room}/file`, where it stands deeper:\n\n    second\n      third\n"

    yield passes("a sound document", documents(SHOWN), "2 passed, 0 failed\n")
    yield passes("a command that is refused", documents("    $ ./desk refuse\n    refused\n"), "1 passed, 0 failed\n")
    yield passes("a block that stands in a file", documents(cited), "1 passed, 0 failed\n")
    yield passes("blocks that show no command for ./desk", documents(SHOWN + OTHER), "2 passed, 0 failed\n")
    why = "page.md:3: ./desk tell 1: line 1 of what it prints is 'told 1'\n"
    yield fails("another output", documents(SHOWN.replace("told 1", "told 2")), why, "1 passed, 1 failed")
    why = "page.md:7: ./desk tell 3 | tr 3 4: it prints 3 lines, and 1 are wanted\n"
    yield fails("an output that is cut off", documents(SHOWN.replace("told 4\n\n    at once\n", "told 4\n")), why, "1 passed, 1 failed")
    why = "page.md:1: ./desk refuse: it prints 1 lines, and 2 are wanted\n"
    yield fails("an output that is too long", documents("    $ ./desk refuse\n    refused\n    so\n"), why, "0 passed, 1 failed")
    yield passes("tables of refusals", documents(WHOLE + ORDER), "2 passed, 0 failed\n")
    yield passes("a table of something else", documents(SHOWN + WHOLE.replace("Number", "Count")), "2 passed, 0 failed\n")
    why = "page.md:1: 7 stands there 0 times\n"
    yield fails("a table that lacks a refusal", documents(WHOLE.replace("7, 60", "60")), why, "0 passed, 1 failed")
    why = "page.md:1: 2 stands there 2 times\n"
    yield fails("a table that has one twice", documents(WHOLE.replace("7, 60", "2, 7, 60")), why, "0 passed, 1 failed")
    why = "page.md:1: explain does not tell 3\n"
    yield fails("a table of a refusal that there is not", documents(WHOLE.replace("1 to 2", "1 to 3")), why, "0 passed, 1 failed")
    why = "page.md:1: explain does not tell 6\n"
    yield fails("an order with one that there is not", documents(ORDER.replace("7, 1", "7, 6")), why, "0 passed, 1 failed")
    why = "page.md:1: 'all' has no numbers\n"
    yield fails("a table without its numbers", documents(WHOLE.replace("7, 60", "all")), why, "0 passed, 1 failed")
    why = "page.md:1: ./desk refuse: nothing is shown behind it\n"
    yield fails("a command without its output", documents("    $ ./desk refuse\n"), why, "0 passed, 1 failed")
    why = "page.md:1: ./desk other: status 2\n"
    yield fails("a command of no subcommand", documents("    $ ./desk other\n    usage\n"), why, "0 passed, 1 failed")
    why = "page.md:1: ./desk refuse < none: it prints 0 lines, and 1 are wanted\n"
    yield fails("a command of no file", documents("    $ ./desk refuse < none\n    refused\n"), why, "0 passed, 1 failed")
    why = f"page.md:3: it does not stand in {room}/file\n"
    yield fails("a block that stands in no file", documents(cited.replace("third", "fourth")), why, "0 passed, 1 failed")
    why = f"page.md:3: there is no {room}/none\n"
    yield fails("a block of no file", documents(cited.replace("/file", "/none")), why, "0 passed, 1 failed")
    why = "page.md: the link none.md leads nowhere\n"
    yield fails("a link to no file", documents(f"{SHOWN}\nSee [it](none.md) and [this](page.md).\n"), why, "2 passed, 1 failed")
    linked = f"{SHOWN}\n## The `first`\n\n[it](#the-first), [it](page.md#the-first)\n"
    yield passes("links to a heading", documents(linked), "2 passed, 0 failed\n")
    why = "page.md: the link #the-first leads nowhere\n"
    yield fails("a link to no heading", documents(f"{SHOWN}\n## The second\n\n[it](#the-first)\n"), why, "2 passed, 1 failed")
    yield fails("nothing shown", documents("A page.\n"), "nothing is tried\n", "0 passed, 1 failed")
    no_page = part(room, "cases documents", f"{room}/program", f"{room}/none.md")
    yield fails("no document", no_page, "No such file")
    write(f"{room}/page.md", SHOWN)
    no_program = part(room, "cases documents", f"{room}/none", f"{room}/page.md")
    yield fails("no program", no_program, "page.md:3: ./desk tell 1: status 127\n", "0 passed, 2 failed")
    yield fails("no word", part(room, "cases documents"), "the words are PROGRAM PATHS..\n")
