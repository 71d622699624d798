"""Each error of a policy, as `show`, `check`, `list` and `edit` print it: of their input, and of the result of an edit.

The text of an error begins with FILE: the word given to `show`, `check` or `list`, and `policy` in `edit`. `check` prints an
error of the policy on standard output.
"""

from program import Wanted, fault, run

MARK = b"%%\n"

# A listing and a question, and the files that they read besides.
LIST = ("list", "--passwd", "passwd", "--group-file", "group", "-U", "bob", "--host", "h", "--moment", "2026010100Z", "-")
FILES = (("passwd", b"bob:x:1:5:::\n"), ("group", b""))

# A logical line with a syntax error, without its line end; the physical line and the column of the error, from 1; and
# the cause.
SYNTAX = (
    (b"bob \rALL=ALL", 1, 5, "UnexpectedByte"),
    (b'bob ALL=/b \\\n"x,y"', 2, 3, "UnexpectedByte"),
    (b"Defaults x.y", 1, 11, "UnexpectedByte"),
    (b"bob ALL=ALL, #1", 1, 14, "UnexpectedToken"),
    (b"bob ALL=ALL : \\\n\\\n\th1 h2=ALL", 3, 5, "UnexpectedToken"),
    (b"User_Alias a = x", 1, 12, "UnexpectedToken"),
    (b"bob ALL", 1, 8, "EndOfLine"),
    (b"bob ALL\\\n=", 2, 2, "EndOfLine"),
    (b"Cmnd_Alias A = /a, # b", 1, 20, "EndOfLine"),
    (b'"bob ALL=ALL', 1, 1, "OpenQuote"),
    (b"bob ALL=ALL,\\\n \"/b", 2, 2, "OpenQuote"),
    (b'bob ALL=ALL, ""', 1, 14, "EmptyName"),
    (b"%,\\\nbob ALL=ALL", 1, 1, "EmptyName"),
    (b"bob,\\\n#4294967296 ALL=ALL", 2, 1, "BadId"),
    (b"bob 10.1.0.0/33=ALL", 1, 5, "BadAddress"),
    (b"Host_Alias A = h,\\\n  1/2", 2, 3, "BadAddress"),
    (b"bob ALL=NOTAFTER=20300101Z ALL", 1, 18, "BadStamp"),
    (b'bob ALL=NOTBEFORE=\\\n"" ALL', 2, 1, "BadStamp"),
    (b"bob ALL=ALL,\\\n^/bin/x$", 2, 1, "Regex"),
    (b"bob ALL=/bin/x ^-l$", 1, 16, "Regex"),
)

# A line, a second line that may not be added to it, and the text of the error after FILE.
NAMES = (
    (b"User_Alias A = x\n", b"User_Alias A = y\n", "User_Alias A defined twice"),
    (b"Runas_Alias A = x\n", b"Runas_Alias B = x : A = y\n", "Runas_Alias A defined twice"),
    (b"Host_Alias B = x\n", b"Host_Alias A_1 = x :\\\nA_1 = y\n", "Host_Alias A_1 defined twice"),
    (b"Cmnd_Alias A = /x\n", b"Cmnd_Alias A = /y\n", "Cmnd_Alias A defined twice"),
    (b"Cmnd_Alias A = /x\n", b"Cmd_Alias A = /y\n", "Cmnd_Alias A defined twice"),
    (b"# a\n", b"User_Alias ALL = x\n", "User_Alias ALL reserved"),
    (b"# a\n", b"Runas_Alias A = x : CWD = y\n", "Runas_Alias CWD reserved"),
    (b"# a\n", b"Host_Alias LOG_INPUT = x\n", "Host_Alias LOG_INPUT reserved"),
    (b"# a\n", b"Cmnd_Alias A = /a :\\\n NOPASSWD = /x\n", "Cmnd_Alias NOPASSWD reserved"),
    (b"# a\n", b"Cmd_Alias EXEC = /x\n", "Cmnd_Alias EXEC reserved"),
)

# Texts that are not cut into lines, and the text of the error after FILE.
TEXTS = (
    (b"bob ALL=ALL \\\n", ": OpenContinuation"),
    (b"bob\\", ": OpenContinuation"),
    (b"# a\nbob ALL=ALL\\\r\n", ": OpenContinuation"),
    (b"\0", ": NUL at byte 0"),
    (b"# a\nbob \\\n\0=ALL\n", ": NUL at byte 10"),
    (b"bob\n# \0", ": NUL at byte 6"),
)


def syntax(line, column, why):
    """The text of a syntax error after FILE."""
    return f":{line}:{column}: syntax error: {why}"


def payload(line):
    """The lines of a script that spell a line that ends in LF."""
    return b"".join(b"|" + piece + b"\n" for piece in line[:-1].split(b"\n"))


class Stand:
    """The program and the count of cases."""

    def __init__(self, program, tally):
        self.program = program
        self.tally = tally

    def answers(self, wanted, text, words, stdin):
        """A run that has to answer so because of the error with this text."""
        problems = wanted.problems(run(self.program, words, stdin, files=FILES))
        self.tally.note(f"{text} of {' '.join(words) or 'no words'}, {stdin!r}", problems)

    def ends_in(self, text, words, stdin):
        """A run that has to end in the error with this text."""
        self.answers(fault(text), text, words, stdin)

    def is_checked(self, policy, text):
        """`check` prints the error of a policy on standard output. With `-q` it only sets the exit status."""
        printed = Wanted(f"-{text}\n".encode(), status=1)
        self.answers(printed, "-" + text, ("check", "-"), policy)
        self.answers(printed, "-" + text, ("check", "-s", "-"), policy)
        self.answers(Wanted(status=1), "-" + text, ("check", "-q", "-"), policy)

    def refuses(self, policy, text):
        """`show`, `check`, `list` and `edit` print the error of a policy."""
        self.ends_in("-" + text, ("show", "-"), policy)
        self.ends_in("-" + text, LIST, policy)
        self.ends_in("-" + text, (*LIST, "/bin/ls"), policy)
        self.is_checked(policy, text)
        self.ends_in("policy" + text, (), MARK + policy)
        self.ends_in("policy" + text, ("edit",), b"delete 1\n" + MARK + policy)

    def refuses_to_insert(self, at, line, policy, text):
        """An edit that would insert the line is refused with the error of its result."""
        script = b"insert %d\n" % at + payload(line)
        self.ends_in("edit 1: NotPolicy: policy" + text, (), script + MARK + policy)


def run_syntax(stand):
    """A line with a syntax error: alone, between lines without one, and inserted before and after them."""
    for line, row, column, why in SYNTAX:
        stand.refuses(line, syntax(row, column, why))
        line += b"\n"
        stand.refuses(line, syntax(row, column, why))
        stand.refuses(b"# a\nann \\\nALL=ALL\n" + line + b"bob\n", syntax(3 + row, column, why))
        stand.refuses_to_insert(1, line, b"# a\n", syntax(row, column, why))
        stand.refuses_to_insert(3, line, b"# a\nann \\\nALL=ALL\n", syntax(3 + row, column, why))


def run_names(stand):
    """A definition that may not be added: in the policy, and inserted."""
    for first, second, text in NAMES:
        stand.refuses(first + second, ": " + text)
        stand.refuses(first + b"\nbob ALL=ALL\n" + second + b"bob\n", ": " + text)
        stand.refuses_to_insert(2, second, first, ": " + text)


def run_texts(stand):
    """A text that is not cut has this error, whatever its lines are."""
    for policy, text in TEXTS:
        stand.refuses(policy, text)


def run_all(program, tally):
    """Runs each table."""
    stand = Stand(program, tally)
    run_syntax(stand)
    run_names(stand)
    run_texts(stand)
