"""Trials of `tests/parts/cases helps`, with a made-up program."""

from .room import fails, part, passes, write_script

HELP = "Usage: desk [COMMAND]\n\nCommands:\n  one   The first\n  help  The helps\n\nExample:\n  ./desk one 1"
HELP_OF_ONE = "The first\n\nExample:\n  ./desk one 2 < examples/morning.script"


def trials(room):
    def helps(help_of_all=HELP, help_of_one=HELP_OF_ONE, one="echo printed"):
        cases = []
        for words, told in (("help ", help_of_all), ("help one", help_of_one)):
            cases += [f"'{words}') cat <<'TOLD'", told, "TOLD", ";;"]
        write_script(f"{room}/program", 'case "$1 ${2-}" in', *cases, f"'one '*) {one} ;;", "*) exit 2 ;;", "esac")
        return part(room, "cases helps", f"{room}/program")

    yield passes("sound helps", helps(), "2 passed, 0 failed\n")
    serving = HELP_OF_ONE.replace("one 2", "serve --port 8000")
    yield passes("an example that waits", helps(help_of_one=serving), "2 passed, 0 failed\n")
    made = '[ "$2" = 2 ] || echo >made.db; cat made.db && echo printed'
    yield passes("an example that needs the file of the one before it", helps(one=made), "2 passed, 0 failed\n")
    written = HELP_OF_ONE.replace("one 2 < examples/morning.script", "one 3")
    answered = '[ "$2" != 3 ] && echo printed || >answers/3.json.out'
    yield passes("an example that answers in a folder", helps(help_of_one=written, one=answered), "2 passed, 0 failed\n")
    why = "help one: it ends with no example\n"
    yield fails("a help without an example", helps(help_of_one="The first"), why, "1 passed, 1 failed")
    why = "help: it ends with no example\n"
    yield fails("text behind the example", helps(help_of_all=f"{HELP}\nand more"), why, "1 passed, 1 failed")
    why = "help one: its example ends with status 2 or prints nothing:   ./desk two\n"
    yield fails("an example of no subcommand", helps(help_of_one="  ./desk two"), why, "1 passed, 1 failed")
    yield fails("an example that is refused", helps(one="echo refused; exit 1"), "\n0 passed, 2 failed\n")
    yield fails("an example that prints nothing", helps(one=":"), "\n0 passed, 2 failed\n")
    why = "help one: its example ends with status 1 or prints nothing:   ./desk one < examples/none\n"
    yield fails("an example of no file", helps(help_of_one="  ./desk one < examples/none"), why)
    why = "help: it tells of no subcommand\n"
    yield fails("a help of no subcommand", helps(help_of_all="  ./desk one 1"), why, "1 passed, 1 failed")
    yield fails("no program", part(room, "cases helps", f"{room}/none"), "No such file")
    yield fails("no word", part(room, "cases helps"), "the words are PROGRAM\n")
