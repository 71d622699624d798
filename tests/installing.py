"""Installs the program into a folder, removes it again, and makes the Debian package.

The lists of files, their modes and what the installed program prints are
compared. A file that is installed is a row of INSTALLED, and a file that only
the package has is named in `packaged`. The links of its pages have to lead to
files of it. A script stands for rt where scripts/build is run, to see which
version and which commit it names.
"""

import glob
import gzip
import os
import re
import shutil
import subprocess
import tempfile
import time

import documents
from program import Wanted, run
from tally import difference

TOP = os.path.dirname(os.path.dirname(os.path.abspath(__file__)))
SECONDS = 60

# Each installed file under PREFIX, its mode, and its source; None is the program.
INSTALLED = (
    ("bin/sudoers_tool", 0o755, None),
    ("share/man/man8/sudoers_tool.8", 0o644, "man/sudoers_tool.8"),
    ("share/bash-completion/completions/sudoers_tool", 0o644, "completions/bash/sudoers_tool"),
    ("share/zsh/site-functions/_sudoers_tool", 0o644, "completions/zsh/_sudoers_tool"),
    ("share/fish/vendor_completions.d/sudoers_tool.fish", 0o644, "completions/fish/sudoers_tool.fish"),
)
SITE_FUNCTIONS = "share/zsh/site-functions/"
VENDOR_COMPLETIONS = "share/zsh/vendor-completions/"
DOCUMENTS = "usr/share/doc/sudoers-tool/"
PAGES = ("README.md", "CHANGELOG.md", "CONTRIBUTING.md", "SECURITY.md", "LICENSE")
PAGES += ("tests/README.md", "bench/README.md", "crates/README.md")
CHANGELOG = """\
sudoers-tool ({version}) unstable; urgency=medium

  * Sources: {commit}.
  * CHANGELOG.md in this folder says what is new in each version.

 -- {maintainer}  {date}
"""
NO_COMMIT = "commit not known"

# What pages link to and the package does not have: the tables of tests are for those who have the sources.
NOT_PACKAGED = (os.path.join(TOP, "tests/tables"),)
POLICY = b"User_Alias A = ann\nbob ALL = ALL\n"


def script(name, words=(), folder=TOP, top=TOP, **variables):
    """Runs a script of scripts/ in a folder, and returns its output and its exit status. `top` has the sources."""
    done = subprocess.run(
        [os.path.join(top, "scripts", name), *words],
        stdout=subprocess.PIPE,
        stderr=subprocess.STDOUT,
        cwd=folder,
        env={"PATH": os.environ["PATH"], **variables},
        timeout=SECONDS,
        check=False,
    )
    return done.stdout, done.returncode


def read(path):
    """Returns the bytes of a file."""
    with open(path, "rb") as file:
        return file.read()


def modes_under(folder):
    """Returns the path and the mode of each file under a folder, and the modes of the folders in it."""
    files, folders = {}, set()
    for parent, below, names in os.walk(folder):
        for name in names:
            path = os.path.join(parent, name)
            files[os.path.relpath(path, folder)] = oct(os.lstat(path).st_mode & 0o7777)
        folders |= {oct(os.lstat(os.path.join(parent, name)).st_mode & 0o7777) for name in below}
    return files, folders


def wanted_files(prefix):
    """Returns the path and the mode of each installed file, for a prefix without its first slash."""
    functions = VENDOR_COMPLETIONS if prefix == "usr" else SITE_FUNCTIONS
    return {f"{prefix}/{place.replace(SITE_FUNCTIONS, functions)}": oct(mode) for place, mode, _ in INSTALLED}


def run_problems(program, installed):
    """The installed program answers as the built one does."""
    problems = []
    for words in (("--version",), ("--help",), ("check", "-")):
        answer = run(program, words, POLICY)
        wanted = Wanted(answer.stdout, answer.stderr, answer.status)
        problems += wanted.problems(run(installed, words, POLICY))
    return problems


def install_problems(program, folder, prefix):
    """Installs into a folder under a prefix, and compares the files."""
    output, status = script("install", ("/" + prefix,), DESTDIR=folder, PROGRAM=program)
    files, folders = modes_under(folder)
    wanted = wanted_files(prefix)
    paths = sorted(f"{folder}/{path}" for path in wanted)
    return (
        difference("status", 0, status)
        + difference("files", wanted, files)
        + difference("modes of folders", {oct(0o755)}, folders)
        + difference("printed paths", paths, sorted(output.decode().splitlines()))
    )


def run_install(program, tally):
    """Installs twice, under a folder and a prefix with blanks in their names, and removes all of it."""
    with tempfile.TemporaryDirectory() as scratch:
        folder, prefix = os.path.join(scratch, "a folder"), "opt/our tools"
        os.mkdir(folder)
        tally.note("install", install_problems(program, folder, prefix))
        tally.note("install again", install_problems(program, folder, prefix))
        installed = os.path.join(folder, prefix)
        for place, _, source in INSTALLED:
            path, wanted = os.path.join(installed, place), read(os.path.join(TOP, source or program))
            came = read(path) if os.path.exists(path) else None
            tally.note(f"installed {place}", difference("bytes", wanted, came))
        tally.note("run the installed program", run_problems(program, os.path.join(installed, "bin/sudoers_tool")))

        foreign = {f"{prefix}/bin/other": oct(0o644), f"{prefix}/share/man/man8/other.8": oct(0o644)}
        for path, mode in foreign.items():
            os.makedirs(os.path.dirname(os.path.join(folder, path)), exist_ok=True)
            with open(os.path.join(folder, path), "wb"):
                os.chmod(os.path.join(folder, path), int(mode, 8))
        for name in ("uninstall", "uninstall again"):
            answer = script("uninstall", ("/" + prefix,), DESTDIR=folder)
            problems = difference("answer", (b"", 0), answer) + difference("files", foreign, modes_under(folder)[0])
            tally.note(name, problems)

    with tempfile.TemporaryDirectory() as folder:
        tally.note("install under /usr", install_problems(program, folder, "usr"))
        script("uninstall", ("/usr",), DESTDIR=folder)
        tally.note("uninstall from /usr", difference("files", {}, modes_under(folder)[0]))
    with tempfile.TemporaryDirectory() as folder:
        script("install", DESTDIR=folder, PROGRAM=program)
        tally.note("install without a prefix", difference("files", wanted_files("usr/local"), modes_under(folder)[0]))


def run_words(program, tally):
    """The scripts print their help, and refuse a wrong command line and a missing program."""
    for name in ("install", "uninstall", "package"):
        for word, status in (("-h", 0), ("--help", 0), ("-x", 2)):
            output, came = script(name, (word,), PROGRAM=program, DESTDIR="/dev/null")
            problems = difference("status", status, came)
            if f"scripts/{name} [".encode() not in output:
                problems += difference("usage", f"scripts/{name}", output)
            tally.note(f"{name} {word}", problems)
        with tempfile.TemporaryDirectory() as folder:
            output, came = script(name, (folder, folder), PROGRAM=program, DESTDIR=folder)
            files = modes_under(folder)[0]
        tally.note(f"{name} with two words", difference("status", 2, came) + difference("files", {}, files))
    for name in ("install", "uninstall"):
        status = script(name, ("relative",), PROGRAM=program, DESTDIR="/dev/null")[1]
        tally.note(f"{name} with a relative prefix", difference("status", 2, status))
    for name in ("install", "package"):
        with tempfile.TemporaryDirectory() as folder:
            missing = os.path.join(folder, "missing")
            answer = script(name, (folder,), PROGRAM=missing, DESTDIR=folder)
            wanted = f"{missing} is missing. Build it first: bash scripts/build\n".encode(), 1
            problems = difference("answer", wanted, answer) + difference("files", {}, modes_under(folder)[0])
        tally.note(f"{name} without a program", problems)


def packaged():
    """Returns the path and the mode of each file of the package."""
    files = wanted_files("usr")
    del files["usr/share/man/man8/sudoers_tool.8"]
    names = ["usr/share/man/man8/sudoers_tool.8.gz"]
    names += [DOCUMENTS + name for name in (*PAGES, "changelog.gz", "copyright")]
    names += [DOCUMENTS + os.path.relpath(page, TOP) for page in glob.glob(os.path.join(TOP, "crates/*/README.md"))]
    for folder in ("docs", "examples", "bench/results"):
        names += [f"{DOCUMENTS}{folder}/{path}" for path in modes_under(os.path.join(TOP, folder))[0]]
    return {**files, **{name: oct(0o644) for name in names}}


def fields_of(package):
    """Returns the control fields of a package."""
    done = subprocess.run(["dpkg-deb", "--field", package], stdout=subprocess.PIPE, timeout=SECONDS, check=False)
    text = re.sub(r"\n ", "\0", done.stdout.decode())
    return dict(line.split(": ", 1) for line in text.splitlines())


def field_problems(fields, version, size):
    """The fields of the package are those that dpkg needs, with the right values."""
    wanted = {
        "Package": "sudoers-tool",
        "Version": version,
        "Architecture": "amd64",
        "Section": "admin",
        "Priority": "optional",
        "Installed-Size": str(size),
    }
    problems = difference("fields", wanted, {name: fields.get(name) for name in wanted})
    for name, form in (
        ("Maintainer", r".+ <.+@.+>"),
        ("Depends", r"libc6 \(>= 2\.\d+\)"),
        ("Description", r"(?s)[a-z][^\0]{1,79}[^.]\0.+"),
    ):
        if not re.fullmatch(form, fields.get(name, "")):
            problems += difference(name, form, fields.get(name))
    return problems


def depends_problems(program, depends):
    """The package needs the newest C library whose symbols the program uses, and no other library."""
    symbols = subprocess.run(["objdump", "-T", program], stdout=subprocess.PIPE, timeout=SECONDS, check=False).stdout
    versions = [tuple(map(int, found.split(b"."))) for found in re.findall(rb"GLIBC_([0-9.]+)", symbols)]
    newest = ".".join(map(str, max(versions)))
    headers = subprocess.run(["objdump", "-p", program], stdout=subprocess.PIPE, timeout=SECONDS, check=False).stdout
    libraries = set(re.findall(r"NEEDED +(\S+)", headers.decode()))
    of_libc6 = {name for name in libraries if re.match(r"(lib(c|m|dl|pthread|rt)|ld-linux.*)\.so", name)}
    return difference("Depends", f"libc6 (>= {newest})", depends) + difference("libraries", of_libc6, libraries)


def changelog_problems(program, folder, fields):
    """The changelog has one entry in the form of Debian, with the version and the commit, and no time of its own."""
    packed = read(os.path.join(folder, DOCUMENTS, "changelog.gz"))
    moment = time.gmtime(int(os.stat(program).st_mtime))
    wanted = CHANGELOG.format(
        version=fields.get("Version"),
        commit=script("commit")[0].decode().rstrip("\n"),
        maintainer=fields.get("Maintainer"),
        date=time.strftime("%a, %d %b %Y %H:%M:%S +0000", moment),
    )
    problems = difference("changelog", wanted.encode(), gzip.decompress(packed))
    return problems + difference("flags and time of the changelog", bytes(5), packed[3:8])


def link_problems(folder):
    """Each link of a page of the unpacked package leads to a file there, and the package says its licence."""
    top, problems = os.path.join(folder, DOCUMENTS), []
    for page in glob.glob(os.path.join(top, "**", "*.md"), recursive=True):
        name = os.path.relpath(page, top)
        for number, link in documents.read_document(page).links:
            source = os.path.normpath(os.path.join(TOP, os.path.dirname(name), link))
            if not os.path.exists(os.path.join(os.path.dirname(page), link)) and source not in NOT_PACKAGED:
                problems.append(f"{name}:{number}: {link}")
    if b"Licence: Apache License 2.0." not in read(os.path.join(top, "copyright")):
        problems.append("copyright does not name the licence")
    return problems


def unpacked_problems(program, folder):
    """The unpacked package has the files of the list, and its program runs."""
    files, folders = modes_under(folder)
    problems = difference("files", packaged(), files) + difference("modes of folders", {oct(0o755)}, folders)
    if problems:
        return problems
    problems += run_problems(program, os.path.join(folder, "usr/bin/sudoers_tool"))
    page = read(os.path.join(folder, "usr/share/man/man8/sudoers_tool.8.gz"))
    problems += difference("page", read(os.path.join(TOP, "man/sudoers_tool.8")), gzip.decompress(page))
    problems += difference("flags and time of the page", bytes(5), page[3:8])
    for name in files:
        source = os.path.join(TOP, name.removeprefix(DOCUMENTS))
        if name.startswith(DOCUMENTS) and os.path.exists(source):
            problems += difference(name, read(source), read(os.path.join(folder, name)))
    return problems


def sum_problems(folder, control):
    """The sums of the package are those of its files."""
    sums = read(os.path.join(control, "md5sums")).decode().splitlines()
    names = sorted(line.split("  ", 1)[1] for line in sums)
    problems = difference("names", sorted(modes_under(folder)[0]), names)
    done = subprocess.run(
        ["md5sum", "--quiet", "-c", os.path.join(control, "md5sums")],
        stdout=subprocess.PIPE,
        stderr=subprocess.STDOUT,
        cwd=folder,
        timeout=SECONDS,
        check=False,
    )
    return problems + difference("md5sum", (b"", 0), (done.stdout, done.returncode))


def run_package(program, tally):
    """Makes the package twice, unpacks it, and compares its files and its fields."""
    missing = [name for name in ("dpkg-deb", "objdump", "gzip") if shutil.which(name) is None]
    if missing:
        tally.skip("package", f"missing: {', '.join(missing)}")
        return
    version = run(program, ("--version",)).stdout.decode().split()[-1]
    name = f"sudoers-tool_{version}_amd64.deb"
    with tempfile.TemporaryDirectory() as scratch:
        folder = os.path.join(scratch, "a folder")
        os.mkdir(folder)
        package = os.path.join(folder, name)
        answer = script("package", (folder,), PROGRAM=program)
        tally.note("package", difference("answer", (f"{package}\n".encode(), 0), answer))
        if answer[1] != 0:
            return
        again = script("package", (), scratch, PROGRAM=program)
        problems = difference("answer", (f"./{name}\n".encode(), 0), again)
        tally.note("package again", problems or difference("bytes", read(package), read(os.path.join(scratch, name))))

        files, control = os.path.join(scratch, "files"), os.path.join(scratch, "control")
        subprocess.run(["dpkg-deb", "-x", package, files], timeout=SECONDS, check=True)
        subprocess.run(["dpkg-deb", "-e", package, control], timeout=SECONDS, check=True)
        tally.note("unpacked package", unpacked_problems(program, files))
        tally.note("sums of the package", sum_problems(files, control))
        sizes = [os.path.getsize(os.path.join(files, path)) for path in modes_under(files)[0]]
        fields = fields_of(package)
        tally.note("changelog of the package", changelog_problems(program, files, fields))
        tally.note("links of the package", link_problems(files))
        tally.note("fields of the package", field_problems(fields, version, sum(-(-size // 1024) for size in sizes)))
        tally.note("libraries of the package", depends_problems(program, fields.get("Depends")))
        listed = subprocess.run(["dpkg-deb", "-c", package], stdout=subprocess.PIPE, timeout=SECONDS, check=True).stdout
        owners = {line.split()[1] for line in listed.splitlines()}
        tally.note("owners of the package", difference("owners", {b"root/root"}, owners))


def git(folder, *words):
    """Runs git in a folder, without variables that could lead it to another one, and returns what it prints."""
    who = ("-c", "user.name=a", "-c", "user.email=a@example.com")
    variables = {"PATH": os.environ["PATH"], "HOME": folder}
    words = ["git", *who, *words]
    done = subprocess.run(words, cwd=folder, env=variables, capture_output=True, timeout=SECONDS, check=True)
    return done.stdout.decode().rstrip("\n")


def make_checkout(folder):
    """Makes a folder a checkout of all that is in it, and returns the short name of its commit."""
    git(folder, "init", "-q")
    git(folder, "add", "-A")
    git(folder, "commit", "-q", "-m", "all", "--allow-empty")
    return git(folder, "rev-parse", "--short=12", "HEAD")


def copy_sources(program, top):
    """Makes a folder with what scripts/build reads, and puts the program where it builds it."""
    for name in ("scripts", "examples"):
        shutil.copytree(os.path.join(TOP, name), os.path.join(top, name))
    shutil.copy(os.path.join(TOP, "crates.txt"), top)
    with open(os.path.join(top, "crates.txt"), encoding="utf-8") as file:
        crates = [line.split(":")[0] for line in file.read().splitlines()]
    for crate in crates:
        os.makedirs(os.path.join(top, "crates", crate))
    tool = os.path.join(top, "crates/sudoers_tool")
    shutil.copy(os.path.join(TOP, "crates/sudoers_tool/stdin"), tool)
    os.mkdir(os.path.join(tool, "out"))
    os.symlink(program, os.path.join(tool, "out/sudoers_tool"))


def run_build(program, tally):
    """scripts/build ends with the version and the commit, and scripts/commit knows a commit only of its own checkout."""
    if shutil.which("git") is None:
        tally.skip("scripts/commit", "git is missing")
        return
    version = run(program, ("--version",)).stdout.decode().rstrip("\n")
    with tempfile.TemporaryDirectory() as outer:
        top, bin_folder = os.path.join(outer, "the sources"), os.path.join(outer, "bin")
        copy_sources(program, top)
        os.mkdir(bin_folder)
        with open(os.path.join(bin_folder, "rt"), "w", encoding="utf-8") as file:
            file.write("#!/bin/sh\necho checked\n")
        os.chmod(os.path.join(bin_folder, "rt"), 0o755)

        def note(name, commit):
            tally.note(f"scripts/commit, {name}", difference("answer", (commit.encode() + b"\n", 0), script("commit", top=top)))

        note("no checkout", NO_COMMIT)
        make_checkout(outer)
        note("a folder of another checkout", NO_COMMIT)
        commit = "commit " + make_checkout(top)
        note("a checkout", commit)
        output, status = script("build", top=top, PATH=f"{bin_folder}:{os.environ['PATH']}")
        wanted = (f"{version}, {commit}", 0)
        tally.note("scripts/build, last line", difference("answer", wanted, (output.decode().splitlines()[-1], status)))
        with open(os.path.join(top, "new"), "w", encoding="utf-8"):
            note("a new file", commit)
        with open(os.path.join(top, "crates.txt"), "a", encoding="utf-8") as file:
            file.write("#\n")
        note("a changed file", commit + " with changes")


def run_all(program, tally):
    """Runs the scripts."""
    run_install(program, tally)
    run_words(program, tally)
    run_package(program, tally)
    run_build(program, tally)
