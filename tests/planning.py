"""Plans wishes with `plan`, and puts what they want in place with `apply --wish`, in folders made here.

A case has wishes, and the script that makes them true. After the script the same wishes want nothing. A refusal names the wish, and
leaves each file as it was. Random policies and wishes are compared with a model, which knows lists of names alone.
"""

import os
import random
import shutil
import subprocess

from cases import Case
from placing import Site, refusal, state
from preload import with_library
from program import Wanted
from stand import Closed, Stand
from tally import difference

PART = "planning"
RANDOM_POLICIES = 150

MAIN = "User_Alias OPS = bob, carol : DEV = dave\nHost_Alias WEB = www1, \\\n    www2 # two\nOPS ALL = ALL\n@includedir d\n# end\n# end\n"
WEB = 'Cmnd_Alias RUN = /bin/systemctl restart nginx, !/bin/sh\nUser_Alias TWICE = eve, "eve", bob, e\\x76e\nDEV WEB = RUN'
SITE = {"main": Closed(MAIN, 0o440), "d/web": Closed(WEB, 0o440), "d/x.y": "no policy\n"}

# Wishes, and the script that they want.
PLANS = (
    (["has user OPS eve"], "add user OPS 3\n>, eve\n"),
    (["has user DEV bob"], "add user DEV 2\n>, bob\n"),
    (["has host WEB www3"], "add host WEB 3\n>, www3\n"),
    (["has user OPS !bob"], "add user OPS 3\n>, !bob\n"),
    (["has user OPS %%"], 'add user OPS 3\n>, "%%"\n'),
    (["has user OPS !%%"], 'add user OPS 3\n>, !"%%"\n'),
    (["has cmnd RUN /bin/systemctl stop nginx"], "add cmnd RUN 3\n>, /bin/systemctl stop nginx\n"),
    (["has user OPS bob"], ""),
    (['has user OPS "bob"'], ""),
    (["has user OPS b\\x6fb"], ""),
    (["has cmnd RUN /bin/systemctl restart nginx"], ""),
    (["lacks user OPS eve"], ""),
    (["lacks user OPS !bob"], ""),
    (["lacks user OPS bob"], "drop user OPS 1\n"),
    (['lacks user OPS "carol"'], "drop user OPS 2\n"),
    (["lacks cmnd RUN !/bin/sh"], "drop cmnd RUN 2\n"),
    (["lacks user TWICE eve"], "drop user TWICE 4\ndrop user TWICE 2\ndrop user TWICE 1\n"),
    (["has user OPS eve", "lacks user OPS bob"], "add user OPS 3\n>, eve\ndrop user OPS 1\n"),
    (["lacks user OPS bob", "has user OPS eve"], "drop user OPS 1\nadd user OPS 2\n>, eve\n"),
    (["has user OPS eve", "has user OPS eve"], "add user OPS 3\n>, eve\n"),
    (["has-line main OPS ALL = ALL"], ""),
    (["has-line main Host_Alias WEB = www1, \\\n    www2 # two"], ""),
    (["has-line d/web DEV WEB = RUN"], ""),
    (["has-line main OPS  ALL = ALL"], "insert 7\n|OPS  ALL = ALL\n"),
    (["has-line main # new"], "insert 7\n|# new\n"),
    (["has-line main "], "insert 7\n|\n"),
    (["has-line d/web # new"], "file 2\nendline\ninsert 4\n|# new\n"),
    (["has-line d/web # new", "has-line d/web # other"], "file 2\nendline\ninsert 4\n|# new\ninsert 5\n|# other\n"),
    (["lacks-line main # new"], ""),
    (["lacks-line main OPS ALL = ALL"], "delete 3\n"),
    (["lacks-line main # end"], "delete 6\ndelete 5\n"),
    (["lacks-line d/web DEV WEB = RUN"], "file 2\ndelete 3\n"),
    (["has-line main eve ALL = ALL", "lacks-line main OPS ALL = ALL"], "insert 7\n|eve ALL = ALL\ndelete 3\n"),
    (["--after", "OPS ALL = ALL", "has-line main # new"], "insert 4\n|# new\n"),
    (["--before", "OPS ALL = ALL", "has-line main # new"], "insert 3\n|# new\n"),
    (["--after", "DEV WEB = RUN", "has-line d/web # new"], "file 2\nendline\ninsert 4\n|# new\n"),
    (["--after", "nothing like it", "has-line main # end"], ""),
    (["--even-includes", "lacks-line main @includedir d"], "delete 4\n"),
    (["--even-includes", "has-line main # new", "lacks-line main # end"], "insert 7\n|# new\ndelete 6\ndelete 5\n"),
    (["no-user carol"], "drop user OPS 2\n"),
    (["--even-denials", "no-user eve"], "drop user TWICE 4\ndrop user TWICE 2\ndrop user TWICE 1\n"),
    (["no-user bob", "has user OPS eve"], "drop user TWICE 3\ndrop user OPS 1\nadd user OPS 2\n>, eve\n"),
)

# Wishes that are refused, the number of the wish that the error names, from 0, the error and what explains it.
REFUSED = (
    (["has user ADMNS bob"], 0, "NoAlias", "no User_Alias ADMNS"),
    (["has user OSP bob"], 0, "NoAlias", "no User_Alias OSP; did you mean OPS?"),
    (["lacks user WEB bob"], 0, "NoAlias", "no User_Alias WEB, but a Host_Alias WEB"),
    (["has user OPS a, b"], 0, "BadMember", "'a, b' is not one member of a User_Alias"),
    (["lacks host WEB www1 # no"], 0, "BadMember", "'www1 # no' is not one member of a Host_Alias"),
    (["has-line nothing # x"], 0, "NoFile", "no file of the policy is named nothing; files: main, d/web"),
    (["has-line d/x.y # x"], 0, "NoFile", "no file of the policy is named d/x.y; files: main, d/web"),
    (["has-line main a\nb"], 0, "BadLine", "the text is not one logical line"),
    (["lacks-line main a\\"], 0, "BadLine", "the text is not one logical line"),
    (["lacks-line main @includedir d"], 0, "IncludeLine", "an include line is removed only with --even-includes"),
    (["--after", "OPS", "has-line main # new"], 0, "NoAnchor", "no line of main is 'OPS'"),
    (["--before", "# end", "has-line main # new"], 0, "SeveralAnchors", "2 lines of main are '# end'"),
    (["lacks user DEV dave"], 0, "OnlyOne", "dave is the only member of DEV; a list is never empty"),
    (["has user OPS eve", "lacks user DEV dave"], 1, "OnlyOne", "dave is the only member of DEV; a list is never empty"),
    (["has user OPS eve", "lacks user OPS eve"], 0, "NotMet", "another wish of the call undoes it"),
    (["lacks user OPS bob", "has user OPS bob"], 0, "NotMet", "another wish of the call undoes it"),
)

# Words that are no wish.
NO_WISHES = ("", "has", "has user", "has user OPS", "has person OPS bob", "hasline main # x", "has-line main", "lacks-line", "no-user", "no-user ", "no-users bob")

# Options that no wish of the call uses, the wishes, and the option that the error names.
UNUSED = (
    (["--after", "OPS ALL = ALL"], ["has user OPS bob"], "--after: no wish of the call is has-line"),
    (["--after", "OPS ALL = ALL"], ["lacks-line main # x"], "--after: no wish of the call is has-line"),
    (["--before", "OPS ALL = ALL"], ["no-user bob", "lacks user OPS eve"], "--before: no wish of the call is has-line"),
    (["--even-includes"], ["has-line main # x"], "--even-includes: no wish of the call is lacks-line"),
    (["--even-includes", "--even-denials"], ["lacks-line main # x"], "--even-denials: no wish of the call is no-user"),
    (["--even-denials"], ["has user OPS bob"], "--even-denials: no wish of the call is no-user"),
    (["--even-denials", "--after", "x"], ["no-user eve"], "--after: no wish of the call is has-line"),
)


def wishes_of(words):
    """The wishes among the words, without the options before them."""
    rest = list(words)
    while rest and rest[0].startswith("--"):
        rest = rest[1:] if rest[0].startswith("--even-") else rest[2:]
    return rest


def plan_words(words):
    """The words of `plan` for the policy `main`, with wishes and the options before them."""
    wishes = wishes_of(words)
    return ["plan", *words[: len(words) - len(wishes)], "main", *wishes]


def apply_words(words):
    """The words of `apply` for the same."""
    wishes = wishes_of(words)
    named = [word for wish in wishes for word in ("--wish", wish)]
    return ["apply", "--undo-file", "undo", *words[: len(words) - len(wishes)], *named, "main"]


def run_plans(stand):
    """Each plan is the script of its case. After it the same wishes want nothing. `apply` places what `edit` makes of the script."""
    for words, script in PLANS:
        with Site(stand, SITE, script=script) as site:
            site.note("a plan", plan_words(words), Wanted(script.encode()), site.before)
            site.note("a plan is checked", ["plan", "--check", *plan_words(words)[1:]], Wanted(script.encode(), status=1 if script else 0), site.before)
            came = stand.run(apply_words(words), site.folder)
            made = stand.run(["place", "output"], site.folder)
            problems = difference("status", 0, came.status) + difference("standard error", b"", came.stderr)
            problems += difference("status of place", 0, made.status)
            problems += difference("files that stand as wanted", b"", made.stdout)
            stand.tally.note(f"{PART}: apply {words}", problems)
            again = stand.run(plan_words(words), site.folder)
            stand.tally.note(f"{PART}: again {words}", difference("script", (b"", b"", 0), (again.stdout, again.stderr, again.status)))


def run_refused(stand):
    """Each refusal names its wish and says why. Nothing is touched."""
    for words, number, fault, why in REFUSED:
        with Site(stand, SITE, script="") as site:
            wish = wishes_of(words)[number]
            wanted = refusal(f"{wish}: {fault}: {why}")
            if "\n" not in wish:
                site.note("a refusal", plan_words(words), wanted, site.before)
                site.note("a refusal", apply_words(words), wanted, site.before)
            came = stand.run(plan_words(words), site.folder)
            problems = difference("status", 3, came.status) + difference("standard output", b"", came.stdout)
            problems += [] if f"{fault}: {why}".encode() in came.stderr else [f"its error is {came.stderr}"]
            stand.tally.note(f"{PART}: {words}", problems)
    with Site(stand, SITE, script="") as site:
        for wish in NO_WISHES:
            for words in (["plan", "main", wish], ["apply", "--wish", wish, "main"]):
                came = stand.run(words, site.folder)
                problems = difference("status", 2, came.status) + difference("standard output", b"", came.stdout)
                problems += [] if came.stderr.startswith(b"error: ") else [f"its error is {came.stderr}"]
                stand.tally.note(f"{PART}: {words}", problems)


def note_usage_error(stand, folder, words, why, stdin=b""):
    """The words are a wrong command line, for this reason, and nothing is printed on standard output."""
    came = stand.run(words, folder, stdin)
    problems = difference("status", 2, came.status) + difference("standard output", b"", came.stdout)
    problems += difference("first line", f"error: {why}", came.stderr.decode().split("\n")[0])
    stand.tally.note(f"{PART}: {words}, {stdin}", problems)


def run_unused(stand):
    """An option that no wish of the call uses is a usage error, of wishes on standard input too. Nothing is touched."""
    with Site(stand, SITE, script="") as site:
        for options, wishes, why in UNUSED:
            note_usage_error(stand, site.folder, ["plan", *options, "main", *wishes], why)
            named = [word for wish in wishes for word in ("--wish", wish)]
            note_usage_error(stand, site.folder, ["apply", *options, *named, "main"], why)
            note_usage_error(stand, site.folder, ["plan", *options, "main", "-"], why, "\n".join(wishes).encode())
        note_usage_error(stand, site.folder, ["plan", "--even-denials", "main", "-"], "--even-denials: no wish of the call is no-user")
        site.note("an option for a wish on standard input", ["plan", "--even-includes", "main", "-"], Wanted(), site.before, stdin=b"lacks-line main # x\n")
        site.note("an option for one of two wishes", ["plan", "--after", "# end", "main", "-", "has-line main # end"], Wanted(), site.before, stdin=b"has user OPS bob\n")
        stand.tally.note(f"{PART}: unused options touch nothing", difference("files", site.before, state(site.folder)))


def run_standard_input(stand):
    """`-` stands for wishes on standard input, one a line."""
    with Site(stand, SITE, script="") as site:
        wishes = b"has user OPS eve\n\nlacks user OPS bob\n"
        script = Wanted(b"add user OPS 3\n>, eve\ndrop user OPS 1\n")
        site.note("wishes on standard input", ["plan", "main", "-"], script, site.before, stdin=wishes)
        site.note("the last one without LF", ["plan", "main", "-"], script, site.before, stdin=wishes[:-1])
        site.note("no wish on standard input", ["plan", "main", "-"], Wanted(), site.before, stdin=b"")


class Model:
    """Lists of names, each under the name of an alias."""

    def __init__(self, draw):
        self.lists = {name: [draw.choice("abcd") for _ in range(draw.randint(1, 4))] for name in draw.sample(["ONE", "TWO", "THREE"], 2)}

    def text(self):
        """The policy with these lists."""
        return "".join(f"User_Alias {name} = {', '.join(names)}\n" for name, names in self.lists.items()) + "ONE, TWO, THREE ALL = ALL\n"

    def script_of(self, wishes):
        """The script that makes the wishes true, or None where one is refused or not met at the end."""
        script = ""
        for word, alias, name in wishes:
            names = self.lists.get(alias)
            if names is None:
                return None
            if word == "has" and name not in names:
                script += f"add user {alias} {len(names) + 1}\n>, {name}\n"
                names.append(name)
            while word == "lacks" and name in names:
                if len(names) == 1:
                    return None
                at = max(at for at, one in enumerate(names) if one == name)
                script += f"drop user {alias} {at + 1}\n"
                del names[at]
        met = all((name in self.lists[alias]) == (word == "has") for word, alias, name in wishes)
        return script if met else None


def run_random(stand):
    """Random wishes of random lists are planned as the model plans them."""
    draw = random.Random(7)
    for number in range(RANDOM_POLICIES):
        model = Model(draw)
        text = model.text()
        wishes = [(draw.choice(["has", "lacks"]), draw.choice(["ONE", "TWO", "THREE"]), draw.choice("abcde")) for _ in range(draw.randint(1, 4))]
        script = model.script_of(wishes)
        with Site(stand, {"main": text}, script="") as site:
            came = stand.run(["plan", "main", *(f"{word} user {alias} {name}" for word, alias, name in wishes)], site.folder)
            wanted = (b"", 3) if script is None else (script.encode(), 0)
            stand.tally.note(f"{PART}: random policy {number}, {wishes}", difference("script", wanted, (came.stdout, came.status)))


def run_visudo(stand):
    """What `apply` puts in place for wishes passes `visudo -c`."""
    visudo = shutil.which("visudo", path="/usr/sbin:/sbin:/usr/bin:/bin")
    if visudo is None or os.geteuid() != 0:
        stand.tally.skip(f"{PART}: visudo -c", "visudo is missing, or this is not root")
        return
    for words, script in PLANS:
        if script:
            with Site(stand, SITE, script=script) as site:
                stand.run(apply_words(words), site.folder)
                done = subprocess.run([visudo, "-c", "-f", "main"], cwd=site.folder, capture_output=True, check=False)
                stand.tally.note(f"{PART}: visudo -c after {words}", [] if done.returncode == 0 else [f"{done.stdout} {done.stderr}"])


def run_growths(stand):
    """If a growth of memory is refused, the answer is as with ample memory, or the error says so and nothing else is printed."""
    words = (
        ["plan", "main", "has user OPS eve", "lacks user TWICE eve", "has-line d/web # new"],
        ["plan", "main", "lacks user OPS bob", "has user ADMNS bob"],
        ["plan", "--after", "# end", "main", "has-line main # new"],
        ["plan", "main", "has nothing"],
    )

    def check(library):
        with Site(stand, SITE, script="") as site:
            for asked in words:
                ample = stand.run(asked, site.folder)
                for refusal in ("refuse_growth", "refuse_from"):
                    number, met = 0, True
                    while met:
                        number += 1
                        case = Case("plan", tuple(asked), b"", None, folder=site.folder)
                        came, report = library.run(stand.program, case, **{refusal: number})
                        met = report.met
                        told = (came.stdout, came.stderr, came.status)
                        allowed = [(ample.stdout, ample.stderr, ample.status)]
                        allowed += [(b"", text, status) for text in (b"sudoers_tool: NoMemory\n", b"") for status in (1, 3)]
                        problems = [] if told in allowed else [f"{told}"]
                        stand.tally.note(f"{PART}: {asked}, {refusal} {number}", problems)

    with_library(stand.tally, check)


def run_all(program, tally):
    """Runs all of it."""
    stand = Stand(PART, program, tally)
    for run in (run_plans, run_refused, run_unused, run_standard_input, run_random, run_visudo, run_growths):
        run(stand)
