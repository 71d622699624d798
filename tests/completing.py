"""Completes command lines in bash, zsh and fish, and compares what each offers.

A row of ROWS is the words of a command line, of which the last is not complete,
and the words that a shell has to offer for it. Of a word with `=` or `,` these are
what comes after the last of them. The shells run in a folder with the files of
FILES and the folder of FOLDER. zsh runs in a terminal of its own, because its
completion needs one.
"""

import os
import pty
import re
import select
import shutil
import subprocess
import tempfile
import time

from manual import commands_of_help, helps, options_of_help
from tally import difference

TOP = os.path.dirname(os.path.dirname(os.path.abspath(__file__)))
COMPLETIONS = os.path.join(TOP, "completions")
SECONDS = 60

FILES = ("policy", "web team", "a file with blanks")
FOLDER = "sub"
COMMANDS = ("adapt", "apply", "check", "convert", "diff", "edit", "help", "list", "place", "plan", "show", "what", "who", "why")
WITH_OPTIONS = tuple(name for name in COMMANDS if name != "help")
OPTIONS_OF_ADAPT = ("--error-status", "--explain", "-h", "--help", "--plain", "--root")
OPTIONS_OF_APPLY = (
    *("--after", "--allow-undefined", "--also", "--before", "--dry-run", "--even-denials", "--even-includes", "--explain", "-h", "--help"),
    *("--plain", "--root", "--undo-file", "--wish"),
)
OPTIONS_OF_PLAN = (
    *("--after", "--also", "--before", "--check", "--even-denials", "--even-includes", "--explain", "-h", "--help"),
    *("--plain", "--root"),
)
OPTIONS_OF_LIST = (
    *("-U", "--other-user", "-u", "--user", "-g", "--group", "--passwd", "--group-file"),
    *("--host", "--moment", "--interfaces", "--root", "--why", "-h", "--help", "--error-status", "--explain", "--plain"),
    *("--dialect", "--same", "--usr-merge"),
)
OPTIONS_OF_CHECK = (
    *("-h", "--help", "-q", "-s", "--root", "--skipped", "--installed", "--dialect", "--for", "--all", "--json"),
    *("--error-status", "--explain", "--lint", "--overruled", "--plain"),
)
OPTIONS_OF_DIFF = (
    *("--dialect", "--explain", "--granted", "-h", "--help", "--new-root", "--old-root", "--plain"),
    *("--passwd", "--group-file", "--host", "--moment", "--interfaces", "--json"),
)
OPTIONS_OF_SHOW = ("--dialect", "--error-status", "--explain", "-h", "--help", "--json", "--members", "--plain", "--root")
OPTIONS_OF_MACHINE = (
    *("--dialect", "--policy", "--passwd", "--group-file", "--host", "--moment", "--interfaces", "--json"),
    *("--root", "--explain", "--plain", "-h", "--help"),
)
OPTIONS_OF_TARGET = ("-u", "--user", "-g", "--group")
OPTIONS_OF_FOLDERS = ("--same", "--usr-merge", "--no-same")
ALL_FILES = (*FILES, FOLDER)
FORMS = ("json", "sudoers")
KEYS = ("group=", "host=", "user=")
WISHES = ("has ", "has-line ", "lacks ", "lacks-line ", "no-user ")

ROWS = (
    (("",), COMMANDS),
    (("a",), ("adapt", "apply")),
    (("ad",), ("adapt",)),
    (("adapt", ""), ALL_FILES),
    (("adapt", "w"), ("web team",)),
    (("adapt", "-"), OPTIONS_OF_ADAPT),
    (("adapt", "--root", ""), (FOLDER,)),
    (("adapt", "--root=sub", "p"), ("policy",)),
    (("adapt", "--error-status", "p"), ()),
    (("adapt", "policy", "w"), ()),
    (("c",), ("check", "convert")),
    (("ch",), ("check",)),
    (("sho",), ("show",)),
    (("x",), ()),
    (("-",), ("-h", "--help", "-V", "--version")),
    (("--",), ("--help", "--version")),
    (("--v",), ("--version",)),
    (("check", ""), ALL_FILES),
    (("check", "w"), ("web team",)),
    (("check", "p"), ("policy",)),
    (("check", "x"), ()),
    (("check", "-"), OPTIONS_OF_CHECK),
    (("check", "--e"), ("--error-status", "--explain")),
    (("check", "--p"), ("--plain",)),
    (("check", "--error-status", ""), ()),
    (("check", "--error-status", "2", "p"), ("policy",)),
    (("check", "--explain", "--plain", "w"), ("web team",)),
    (("check", "--s"), ("--skipped",)),
    (("check", "--j"), ("--json",)),
    (("check", "--i"), ("--installed",)),
    (("check", "--installed", "w"), ("web team",)),
    (("check", "--f"), ("--for",)),
    (("check", "--for", ""), ("sudo", "sudo-rs")),
    (("check", "--for", "w"), ()),
    (("check", "--for=s"), ("sudo", "sudo-rs")),
    (("check", "--for", "sudo", "w"), ("web team",)),
    (("check", "--for=sudo", "-s", "w"), ("web team",)),
    (("check", "--d"), ("--dialect",)),
    (("check", "--dialect", ""), ("sudo",)),
    (("check", "--dialect=s"), ("sudo",)),
    (("check", "--dialect", "w"), ()),
    (("check", "--dialect", "sudo", "w"), ("web team",)),
    (("show", "--dialect", "sudo", "w"), ("web team",)),
    (("convert", "--dialect", "sudo", "w"), ("web team",)),
    (("list", "--dialect", "sudo", "w"), ("web team",)),
    (("why", "--dialect", ""), ("sudo",)),
    (("who", "--dialect", "sudo", "w"), ("web team",)),
    (("check", "--json", "w"), ("web team",)),
    (("show", "--j"), ("--json",)),
    (("check", "--o"), ("--overruled",)),
    (("check", "--overruled", "w"), ("web team",)),
    (("check", "--l"), ("--lint",)),
    (("check", "--lint", "w"), ("web team",)),
    (("check", "--r"), ("--root",)),
    (("check", "--root", ""), (FOLDER,)),
    (("check", "--root", "p"), ()),
    (("check", "--root=s"), (FOLDER,)),
    (("check", "--root", "sub", "p"), ("policy",)),
    (("check", "-q", "--root=sub", "w"), ("web team",)),
    (("check", "-q", ""), ALL_FILES),
    (("check", "-q", "-s", "a"), ("a file with blanks",)),
    (("check", "policy", ""), ALL_FILES),
    (("co",), ("convert",)),
    (
        ("convert", "-"),
        (
            *("-e", "--expand-aliases", "-f", "--form", "-h", "--help", "-m", "--match", "-p", "--prune-matches", "--root"),
            *("--for", "--dialect", "--error-status", "--explain", "--plain"),
        ),
    ),
    (("convert", "--ex"), ("--expand-aliases", "--explain")),
    (("convert", "--error-status", "p"), ()),
    (("convert", "--f"), ("--for", "--form")),
    (("convert", "--for", ""), ("sudo",)),
    (("convert", "--for=s"), ("sudo",)),
    (("convert", "--for", "sudo", "w"), ("web team",)),
    (("convert", "--m"), ("--match",)),
    (("convert", "--root", "s"), (FOLDER,)),
    (("convert", "-f", "json", "--root", "sub", ""), ALL_FILES),
    (("convert", "-e", "--p"), ("--plain", "--prune-matches")),
    (("convert", "-f", ""), FORMS),
    (("convert", "-f", "j"), ("json",)),
    (("convert", "-f", "s"), ("sudoers",)),
    (("convert", "-f", "x"), ()),
    (("convert", "-f", "sudoers", ""), ALL_FILES),
    (("convert", "-f", "json", ""), ALL_FILES),
    (("convert", "--form", ""), FORMS),
    (("convert", "--form", "sudoers", "w"), ("web team",)),
    (("convert", "--form="), FORMS),
    (("convert", "--form=s"), ("sudoers",)),
    (("convert", "--form=w"), ()),
    (("convert", "--form=json", "w"), ("web team",)),
    (("convert", ""), ALL_FILES),
    (("convert", "-e", "w"), ("web team",)),
    (("convert", "-m", ""), KEYS),
    (("convert", "-m", "g"), ("group=",)),
    (("convert", "-m", "x"), ()),
    (("convert", "-m", "user=roo"), ("root",)),
    (("convert", "-m", "host=p"), ()),
    (("convert", "-m", "user=bob,"), KEYS),
    (("convert", "-m", "user=bob,host=h1,group=roo"), ("root",)),
    (("convert", "--match", "h"), ("host=",)),
    (("convert", "--match="), KEYS),
    (("convert", "--match=u"), ("user=",)),
    (("convert", "-m", "user=bob", "p"), ("policy",)),
    (("convert", "-f", "json", "-m", "user=bob", "-p", ""), ALL_FILES),
    (("convert", "-f", "sudoers", "policy", ""), ()),
    (("d",), ("diff",)),
    (("diff", ""), ALL_FILES),
    (("diff", "w"), ("web team",)),
    (("diff", "-"), OPTIONS_OF_DIFF),
    (("diff", "--d"), ("--dialect",)),
    (("diff", "--j"), ("--json",)),
    (("diff", "--json", "w"), ("web team",)),
    (("diff", "--dialect", ""), ("sudo",)),
    (("diff", "--dialect", "sudo", "w"), ("web team",)),
    (("diff", "--o"), ("--old-root",)),
    (("diff", "--n"), ("--new-root",)),
    (("diff", "--old-root", ""), (FOLDER,)),
    (("diff", "--new-root", "p"), ()),
    (("diff", "--new-root=s"), (FOLDER,)),
    (("diff", "--old-root", "sub", "--new-root=sub", "p"), ("policy",)),
    (("diff", "policy", ""), ALL_FILES),
    (("diff", "policy", "w"), ("web team",)),
    (("diff", "-", "p"), ("policy",)),
    (("diff", "policy", "--pl"), ("--plain",)),
    (("diff", "policy", "policy", "roo"), ("root",)),
    (("diff", "policy", "policy", "root", "roo"), ("root",)),
    (("diff", "--passwd", "p"), ("policy",)),
    (("diff", "--group-file", "w"), ("web team",)),
    (("diff", "--host", "h", "p"), ("policy",)),
    (("diff", "--moment", "2026", "--interfaces", "10.0.0.1/8", "policy", "w"), ("web team",)),
    (("l",), ("list",)),
    (("list", "-"), OPTIONS_OF_LIST),
    (("list", "--o"), ("--other-user",)),
    (("list", "--group-"), ("--group-file",)),
    (("list", "-U", "bob", "--p"), ("--passwd", "--plain")),
    (("list", "--e"), ("--error-status", "--explain")),
    (("list", "--error-status", ""), ()),
    (("list", "--error-status=7", "p"), ("policy",)),
    (("list", "--passwd", ""), ALL_FILES),
    (("list", "--passwd", "w"), ("web team",)),
    (("list", "--group-file", "p"), ("policy",)),
    (("list", "--host", ""), ()),
    (("list", "--moment", "p"), ()),
    (("list", "--interfaces", ""), ()),
    (("list", "--root", ""), (FOLDER,)),
    (("list", "--root=s"), (FOLDER,)),
    (("list", "--root", "sub", "p"), ("policy",)),
    (("list", "-U", "roo"), ("root",)),
    (("list", "--user", "roo"), ("root",)),
    (("list", "-g", "roo"), ("root",)),
    (("list", ""), ALL_FILES),
    (("list", "-U", "bob", "--host", "h1", "--moment", "2026010100Z", "p"), ("policy",)),
    (("list", "--why", "w"), ("web team",)),
    (("list", "--passwd=w"), ("web team",)),
    (("list", "--other-user=roo"), ("root",)),
    (("list", "policy", ""), ALL_FILES),
    (("list", "policy", "w"), ("web team",)),
    (("list", "policy", "--wh"), ("--why",)),
    (("list", "policy", "-U", "roo"), ("root",)),
    (("list", "--same", "/bin=/usr/bin", "p"), ("policy",)),
    (("list", "--same", "p"), ()),
    (("list", "--usr-merge", "w"), ("web team",)),
    (("list", "policy", "--", "w"), ("web team",)),
    (("list", "policy", "/bin/ls", ""), ALL_FILES),
    (("list", "policy", "/bin/ls", "-l", "p"), ("policy",)),
    (("list", "policy", "/bin/ls", "-"), ()),
    (("show", ""), ALL_FILES),
    (("show", "s"), ("sub",)),
    (("show", "-"), OPTIONS_OF_SHOW),
    (("show", "--m"), ("--members",)),
    (("show", "--members", "w"), ("web team",)),
    (("show", "--error-status", "p"), ()),
    (("show", "--plain", "p"), ("policy",)),
    (("show", "--root", "s"), (FOLDER,)),
    (("show", "--root", "sub", "s"), (FOLDER,)),
    (("show", "policy", "w"), ()),
    (("edit", ""), ALL_FILES),
    (("edit", "-"), ("--also", "--error-status", "--explain", "--files", "-h", "--help", "--plain", "--redo", "--root", "--undo")),
    (("edit", "--e"), ("--error-status", "--explain")),
    (("edit", "--p"), ("--plain",)),
    (("edit", "--error-status", ""), ()),
    (("edit", "--error-status", "7", "p"), ("policy",)),
    (("edit", "--a"), ("--also",)),
    (("edit", "--also", ""), ALL_FILES),
    (("edit", "--also=w"), ("web team",)),
    (("edit", "--files", "policy", "--also", "p"), ("policy",)),
    (("edit", "--also", "policy", "--al"), ("--also",)),
    (("edit", "--root", ""), (FOLDER,)),
    (("edit", "--root=s"), (FOLDER,)),
    (("edit", "--files", "policy", "--root", "sub", "--also", "policy", "w"), ("web team",)),
    (("edit", "--f"), ("--files",)),
    (("edit", "--files", ""), ALL_FILES),
    (("edit", "--files", "p"), ("policy",)),
    (("edit", "--files=w"), ("web team",)),
    (("edit", "--files", "policy", ""), ALL_FILES),
    (("edit", "--files", "policy", "policy", "w"), ()),
    (("edit", "--r"), ("--redo", "--root")),
    (("edit", "--undo", ""), ()),
    (("edit", "--undo", "1", "--re"), ("--redo",)),
    (("p",), ("place", "plan")),
    (("pla",), ("place", "plan")),
    (("plac",), ("place",)),
    (("place", ""), ALL_FILES),
    (("place", "w"), ("web team",)),
    (("place", "-"), ("--explain", "-h", "--help", "--plain", "--root", "--undo")),
    (("place", "--e"), ("--explain",)),
    (("place", "--p"), ("--plain",)),
    (("place", "--u"), ("--undo",)),
    (("place", "--undo", ""), ALL_FILES),
    (("place", "--undo", "--plain", "w"), ("web team",)),
    (("place", "--root", ""), (FOLDER,)),
    (("place", "--root=s"), (FOLDER,)),
    (("place", "--root", "p"), ()),
    (("place", "--undo", "--root", "sub", "p"), ("policy",)),
    (("place", "policy", "w"), ()),
    (("place", "policy", "--u"), ("--undo",)),
    (("plan",), ("plan",)),
    (("plan", ""), ALL_FILES),
    (("plan", "w"), ("web team",)),
    (("plan", "-"), OPTIONS_OF_PLAN),
    (("plan", "--a"), ("--after", "--also")),
    (("plan", "--b"), ("--before",)),
    (("plan", "--c"), ("--check",)),
    (("plan", "--e"), ("--even-denials", "--even-includes", "--explain")),
    (("plan", "--even-d"), ("--even-denials",)),
    (("plan", "--p"), ("--plain",)),
    (("plan", "--also", ""), ALL_FILES),
    (("plan", "--also=w"), ("web team",)),
    (("plan", "--also", "policy", "--also", "p"), ("policy",)),
    (("plan", "--root", ""), (FOLDER,)),
    (("plan", "--root=s"), (FOLDER,)),
    (("plan", "--root", "p"), ()),
    (("plan", "--after", "p"), ()),
    (("plan", "--before", "p"), ()),
    (("plan", "--after", "x", "p"), ("policy",)),
    (("plan", "--before=x", "--check", "w"), ("web team",)),
    (("plan", "--root", "sub", "--even-includes", "p"), ("policy",)),
    (("plan", "policy", ""), WISHES),
    (("plan", "policy", "p"), ()),
    (("plan", "policy", "h"), ("has ", "has-line ")),
    (("plan", "policy", "lacks-"), ("lacks-line ",)),
    (("plan", "policy", "'"), WISHES),
    (("plan", "policy", "'l"), ("lacks ", "lacks-line ")),
    (("plan", "policy", "'n"), ("no-user ",)),
    (("plan", "policy", "'has user A"), ()),
    (("plan", "policy", '"has-'), ("has-line ",)),
    (("plan", "policy", "'has user A bob'", "'h"), ("has ", "has-line ")),
    (("plan", "policy", "'has-line policy a b=c'", ""), WISHES),
    (("plan", "policy", "'has user A bob'", "--c"), ("--check",)),
    (("plan", "policy", "--after", "x", "'l"), ("lacks ", "lacks-line ")),
    (("plan", "policy", "-", "h"), ("has ", "has-line ")),
    (("plan", "--", "policy", "h"), ("has ", "has-line ")),
    (("apply", ""), ALL_FILES),
    (("apply", "w"), ("web team",)),
    (("apply", "-"), OPTIONS_OF_APPLY),
    (("apply", "--a"), ("--after", "--allow-undefined", "--also")),
    (("apply", "--b"), ("--before",)),
    (("apply", "--d"), ("--dry-run",)),
    (("apply", "--e"), ("--even-denials", "--even-includes", "--explain")),
    (("apply", "--p"), ("--plain",)),
    (("apply", "--u"), ("--undo-file",)),
    (("apply", "--undo-file", ""), ALL_FILES),
    (("apply", "--undo-file=w"), ("web team",)),
    (("apply", "--undo-file", "new", "p"), ("policy",)),
    (("apply", "--also", ""), ALL_FILES),
    (("apply", "--also=w"), ("web team",)),
    (("apply", "--also", "policy", "--also", "p"), ("policy",)),
    (("apply", "--also", "policy", "--al"), ("--allow-undefined", "--also")),
    (("apply", "--root", ""), (FOLDER,)),
    (("apply", "--root=s"), (FOLDER,)),
    (("apply", "--root", "p"), ()),
    (("apply", "--dry-run", "--root", "sub", "w"), ("web team",)),
    (("apply", "policy", ""), ALL_FILES),
    (("apply", "policy", "--allow-undefined", "w"), ("web team",)),
    (("apply", "--undo-file", "new", "policy", "--also=sub", "p"), ("policy",)),
    (("apply", "-", "p"), ("policy",)),
    (("apply", "policy", "policy", "w"), ()),
    (("apply", "policy", "policy", "--dr"), ("--dry-run",)),
    (("apply", "--w"), ("--wish",)),
    (("apply", "--wish", ""), WISHES),
    (("apply", "--wish", "'h"), ("has ", "has-line ")),
    (("apply", "--wish="), WISHES),
    (("apply", "--wish='lacks-"), ("lacks-line ",)),
    (("apply", "--wish", "p"), ()),
    (("apply", "--wish", "'has user A bob'", "p"), ("policy",)),
    (("apply", "--wish='has user A bob'", "p"), ("policy",)),
    (("apply", "--wish", "'has user A bob'", "--wish", "'l"), ("lacks ", "lacks-line ")),
    (("apply", "--wish", "'has user A bob'", "--w"), ("--wish",)),
    (("apply", "--wish", "'has user A bob'", "policy", "p"), ()),
    (("apply", "policy", "--wish", "'has user A bob'", "p"), ()),
    (("apply", "--after", "p"), ()),
    (("apply", "--before", "x", "--even-includes", "w"), ("web team",)),
    (("apply", "--even-denials", "--wish", "'no"), ("no-user ",)),
    (("wh",), ("what", "who", "why")),
    (("who",), ("who",)),
    (("who", ""), ALL_FILES),
    (("who", "-"), (*OPTIONS_OF_MACHINE, *OPTIONS_OF_TARGET, *OPTIONS_OF_FOLDERS, "--denied")),
    (("who", "--d"), ("--denied", "--dialect")),
    (("who", "--j"), ("--json",)),
    (("what", "--json", "--j"), ("--json",)),
    (("who", "--p"), ("--passwd", "--plain", "--policy")),
    (("who", "--policy", "w"), ("web team",)),
    (("who", "--policy=p"), ("policy",)),
    (("who", "--passwd", ""), ALL_FILES),
    (("who", "--group-file=w"), ("web team",)),
    (("who", "--host", ""), ()),
    (("who", "--s"), ("--same",)),
    (("who", "--same", ""), ()),
    (("who", "--same", "/bin=/usr/bin", "w"), ("web team",)),
    (("who", "--no-same", "w"), ("web team",)),
    (("who", "--moment", "p"), ()),
    (("who", "--interfaces", ""), ()),
    (("who", "--root", ""), (FOLDER,)),
    (("who", "--root=s"), (FOLDER,)),
    (("who", "-u", "roo"), ("root",)),
    (("who", "--group", "roo"), ("root",)),
    (("who", "--policy", "policy", "--denied", "w"), ("web team",)),
    (("who", "/bin/ls", "p"), ("policy",)),
    (("who", "/bin/ls", "-"), ()),
    (("who", "--", "p"), ("policy",)),
    (("what", "-"), (*OPTIONS_OF_MACHINE, "-e", "--expand-aliases")),
    (("what", "roo"), ("root",)),
    (("what", "-e", "roo"), ("root",)),
    (("what", "--policy", "p"), ("policy",)),
    (("what", "--policy=policy", "roo"), ("root",)),
    (("what", "--ex"), ("--expand-aliases", "--explain")),
    (("what", "root", "--pl"), ("--plain",)),
    (("what", "root", "p"), ()),
    (("why", "-"), (*OPTIONS_OF_MACHINE, *OPTIONS_OF_TARGET, *OPTIONS_OF_FOLDERS)),
    (("why", "roo"), ("root",)),
    (("why", "-u", "roo"), ("root",)),
    (("why", "--group=roo"), ("root",)),
    (("why", "--root", "s"), (FOLDER,)),
    (("why", "root", ""), ALL_FILES),
    (("why", "root", "--us"), ("--user", "--usr-merge")),
    (("why", "--n"), ("--no-same",)),
    (("why", "--same", "p"), ()),
    (("why", "--same", "/bin=/usr/bin", "roo"), ("root",)),
    (("why", "--usr-merge", "roo"), ("root",)),
    (("why", "root", "w"), ("web team",)),
    (("why", "root", "/bin/ls", "p"), ("policy",)),
    (("why", "root", "/bin/ls", "-"), ()),
    (("help", ""), WITH_OPTIONS),
    (("help", "a"), ("adapt", "apply")),
    (("help", "d"), ("diff",)),
    (("help", "wh"), ("what", "who", "why")),
    (("help", "p"), ("place", "plan")),
    (("help", "s"), ("show",)),
    (("help", "show", ""), ()),
)

# zsh offers the options if there is nothing else to offer, and no option a second time.
ZSH_ROWS = {
    ("convert", "-f", "sudoers", "policy", ""): (
        *("-e", "--expand-aliases", "--for", "-h", "--help"),
        *("-m", "--match", "-p", "--prune-matches", "--root", "--dialect", "--error-status", "--explain", "--plain"),
    ),
    ("what", "--json", "--j"): (),
}


def ending(offer, begun):
    """Returns an offer without what it has of the begun word, up to the last `=` or `,`."""
    return offer.removeprefix(begun[: max(begun.rfind("="), begun.rfind(",")) + 1])


def run(words, folder):
    """Runs a shell without files of the user, and returns its output."""
    done = subprocess.run(
        words,
        stdin=subprocess.DEVNULL,
        stdout=subprocess.PIPE,
        stderr=subprocess.STDOUT,
        cwd=folder,
        env={"PATH": os.environ["PATH"], "HOME": os.path.dirname(folder), "LC_ALL": "C"},
        timeout=SECONDS,
        check=False,
    )
    return done.stdout.decode()


# ---- bash

BASH = """
source "$1"
shift
COMP_WORDS=(sudoers_tool "$@")
COMP_CWORD=$#
COMPREPLY=(before)
_sudoers_tool sudoers_tool "${COMP_WORDS[COMP_CWORD]}"
for reply in "${COMPREPLY[@]}"; do
  printf '%s\\n' "$reply"
done
"""


def as_readline(words):
    """Returns the words as readline parts them: each `=` is a word of its own."""
    return [part for word in words for part in ([part for part in re.split("(=)", word) if part] or [""])]


def by_bash(words, folder):
    """Returns what bash offers for the last of the words, without the package bash-completion."""
    source = os.path.join(COMPLETIONS, "bash/sudoers_tool")
    parts = as_readline(words)
    output = run(["bash", "--norc", "--noprofile", "-c", BASH, "bash", source, *parts], folder)
    return [ending(offer, parts[-1]) for offer in output.splitlines()]


# ---- fish


def by_fish(words, folder):
    """Returns what fish offers for the last of the words."""
    line = " ".join(["sudoers_tool", *words])
    source = os.path.join(COMPLETIONS, "fish/sudoers_tool.fish")
    output = run(["fish", "--no-config", "-c", "source $argv[1]; complete -C $argv[2]", source, line], folder)
    return [ending(offer.split("\t")[0].rstrip("/"), words[-1]) for offer in output.splitlines()]


# ---- zsh

# A Tab writes the offers to a file, renames it to `offers.N` and empties the line.
ZSH = """
fpath=('%s' $fpath)
autoload -U compinit
compinit -u -D
compadd() {
  local -a offers
  [[ -n ${argv[(r)-[OAD]]} ]] || builtin compadd -O offers "$@"
  (( $#offers )) && print -rl -- $offers >> ../offers
  builtin compadd "$@"
}
answer() {
  : > ../offers
  zle complete-word
  (( answers++ ))
  mv ../offers ../offers.$answers
  zle kill-whole-line
}
zle -N answer
bindkey -e
bindkey '^I' answer
PS1=
setopt no_beep
print ready > ../offers.0
"""


class Terminal:
    """A zsh in a terminal."""

    def __init__(self, folder):
        self.above = os.path.dirname(folder)
        with open(os.path.join(self.above, "setup"), "w", encoding="utf-8") as file:
            file.write(ZSH % os.path.join(COMPLETIONS, "zsh"))
        self.child, self.device = pty.fork()
        if self.child == 0:
            os.chdir(folder)
            variables = {"PATH": os.environ["PATH"], "HOME": self.above, "LC_ALL": "C", "TERM": "dumb"}
            os.execvpe("zsh", ["zsh", "-f", "-i"], variables)
        self.asked = -1
        self.answer(" source ../setup\n")

    def answer(self, typed):
        """Types a text, and returns the lines of the next answer, or None if none comes in time."""
        self.asked += 1
        path = os.path.join(self.above, f"offers.{self.asked}")
        end = time.monotonic() + SECONDS
        try:
            os.write(self.device, typed.encode())
            while not os.path.exists(path) and time.monotonic() < end:
                if select.select([self.device], [], [], 0.02)[0]:
                    os.read(self.device, 65536)
            with open(path, encoding="utf-8") as file:
                return file.read().splitlines()
        except OSError:  # the zsh has ended, or there is no answer
            return None

    def close(self):
        """Ends the zsh."""
        os.close(self.device)
        os.waitpid(self.child, 0)


def by_zsh(terminal):
    """Returns a function that returns what this zsh offers for the last of the words."""

    def offers(words, _):
        lines = terminal.answer(" ".join(["sudoers_tool", *words]) + "\t")
        return None if lines is None else {re.sub(r"\\(.)", r"\1", line) for line in lines}

    return offers


# ---- the rows


def run_rows(shell, offers, folder, tally):
    """Completes each row in a shell, up to one that it does not answer."""
    for words, wanted in ROWS:
        if shell == "zsh":
            wanted = ZSH_ROWS.get(words, wanted)
        came = offers(words, folder)
        if came is None:
            tally.note(f"{shell} completes {words}", ["no answer"])
            return
        tally.note(f"{shell} completes {words}", difference("offers", sorted(wanted), sorted(came)))


def listed_options(text):
    """Returns the options that a help text lists, without those of other commands that it names."""
    lines = [line.strip() for line in text.partition("\nOptions:\n")[2].splitlines() if line.startswith(" ")]
    return options_of_help("\n".join(line.partition("  ")[0] for line in lines))


def run_lists(program, tally):
    """The rows have the commands and the options of the help texts."""
    whole, each = helps(program)
    tally.note("completed commands", difference("commands", commands_of_help(whole), set(COMMANDS)))
    options = dict(ROWS)
    wanted = {name: set(options[name, "-"]) for name in WITH_OPTIONS}
    tally.note("completed options", difference("options", listed_options(whole), set(options[("-",)])))
    for name, text in each.items():
        tally.note(f"completed options of {name}", difference("options", listed_options(text), wanted.get(name)))


def make_files(folder):
    """Makes the files and the folder that the rows complete."""
    os.makedirs(os.path.join(folder, FOLDER))
    for name in FILES:
        with open(os.path.join(folder, name), "wb"):
            pass


def run_all(program, tally):
    """Completes the rows in each shell that is installed."""
    run_lists(program, tally)
    for shell, offers in (("bash", by_bash), ("fish", by_fish), ("zsh", None)):
        if shutil.which(shell) is None:
            tally.skip(f"completions of {shell}", f"{shell} is missing")
            continue
        with tempfile.TemporaryDirectory() as scratch:
            folder = os.path.join(scratch, "room")
            make_files(folder)
            terminal = Terminal(folder) if shell == "zsh" else None
            run_rows(shell, offers or by_zsh(terminal), folder, tally)
            if terminal is not None:
                terminal.close()
