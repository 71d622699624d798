"""The examples: each policy passes `check -s`, and its script leads to the stored texts and back. One has several files.

`visudo -c` has to accept the policies too, where it is installed. scripts/demo and scripts/try show what they have to.
"""

import os
import shutil
import subprocess
import tempfile

import documents
import way_back
from bundles import bundle
from program import Answer, Wanted, run

FOLDER = os.path.join(os.path.dirname(os.path.dirname(os.path.abspath(__file__))), "examples")
MARK = b"%%\n"

# The policy of several files, which has no script.
SITE = "site"


def read(name, file):
    """Returns the bytes of a file of an example."""
    with open(os.path.join(FOLDER, name, file), "rb") as opened:
        return opened.read()


def run_edit(program, tally, name):
    """The script leads from `policy` to `edited`, and `undo` leads back."""
    stdin = read(name, "script") + MARK + read(name, "policy")
    stdout = read(name, "undo") + MARK + read(name, "edited")
    tally.note(f"example {name}, edit", Wanted(stdout).problems(run(program, (), stdin)))
    tally.note(f"example {name}, undo", way_back.problems(program, (), stdin, stdout, whole=False))


def run_checks(program, tally, name, visudo):
    """`check -s` and `visudo -c` accept the policy before and after the edits."""
    for file in ("policy", "edited"):
        words = ("check", "-q", "-s", file)
        tally.note(f"example {name}, check of {file}", Wanted().problems(run(program, words, folder=os.path.join(FOLDER, name))))
        if visudo is None:
            tally.skip(f"example {name}, visudo on {file}", "visudo is not installed")
            continue
        with tempfile.TemporaryDirectory() as folder:
            shutil.copy(os.path.join(FOLDER, name, file), os.path.join(folder, "policy"))
            done = subprocess.run([visudo, "-q", "-c", "-f", os.path.join(folder, "policy")], check=False, capture_output=True)
        tally.note(f"example {name}, visudo on {file}", [] if done.returncode == 0 else [f"visudo: {done.stderr!r}"])


def run_site(program, tally, visudo):
    """`check -s` accepts the policy of several files and notes the one unused alias, and `visudo -c` accepts it."""
    folder = os.path.join(FOLDER, SITE)
    noted = Wanted(b"sudoers.d/web:4:12: unused User_Alias INTERNS\nsudoers: parsed OK\n")
    tally.note(f"example {SITE}, check", noted.problems(run(program, ("check", "-s", "sudoers"), folder=folder)))
    if visudo is None:
        tally.skip(f"example {SITE}, visudo", "visudo is not installed")
        return
    with tempfile.TemporaryDirectory() as scratch:
        copy = shutil.copytree(folder, os.path.join(scratch, SITE))
        done = subprocess.run([visudo, "-q", "-c", "-f", os.path.join(copy, "sudoers")], check=False, capture_output=True)
    tally.note(f"example {SITE}, visudo", [] if done.returncode == 0 else [f"visudo: {done.stderr!r}"])


def run_demo(program, tally):
    """`scripts/demo` shows the policy, its lines, the edited policy behind the line with its name, and the way back."""
    demo = os.path.join(os.path.dirname(FOLDER), "scripts", "demo")
    done = subprocess.run(["bash", demo, program], check=False, capture_output=True)
    edited = read("web", "undo") + bundle([(b"policy", read("web", "edited"))])
    shown = (read("web", "policy"), b"\nsudoers_tool edit --files script policy\n\n" + edited, b"gave the policy back, byte for byte")
    problems = Wanted(None, stdout_has=shown).problems(Answer(done.stdout, done.stderr, done.returncode))
    tally.note("scripts/demo", problems)


def first_words():
    """Returns the words of the program in the first example of README.md, with the path of its policy."""
    blocks = [block.text for block in documents.read_document("README.md").blocks if block.kind == "sh"]
    line = next(line for line in blocks[0].split("\n") if line.startswith("sudoers_tool "))
    *words, policy = line.split(" ")[1:]
    return [*words, f"examples/{SITE}/{policy}"]


def run_try(tally):
    """`scripts/try` has `rt try` run the first example of README.md, and shows its error. Here a script stands for rt."""
    top = os.path.dirname(FOLDER)
    asked = "\n".join([os.path.join(top, "crates", "sudoers_tool"), "try", "--", *first_words(), ""]).encode()
    for status, has in ((0, (asked, b"Nothing is proved by this")), (1, (b"no memory\n", b"The program did not run."))):
        with tempfile.TemporaryDirectory() as scratch:
            rt = os.path.join(scratch, "rt")
            with open(rt, "w", encoding="utf-8") as file:
                file.write(f'#!/bin/sh\nprintf "%s\\n" "$PWD" "$@"\necho no memory >&2\nexit {status}\n')
            os.chmod(rt, 0o755)
            words, path = ["bash", os.path.join(top, "scripts", "try")], {"PATH": scratch + ":" + os.environ["PATH"]}
            done = subprocess.run(words, check=False, capture_output=True, env=path)
        wanted = Wanted(None, status=status, stdout_has=has)
        tally.note(f"scripts/try, rt with status {status}", wanted.problems(Answer(done.stdout, done.stderr, done.returncode)))


def words_of_task(line):
    """The words of a line `argv: [WORD, ..]`, without quotes."""
    return [word.strip('"') for word in line.partition("[")[2].rstrip("]").split(", ")]


def run_tasks(program, tally):
    """The tasks of Ansible find something to do, make it true, have nothing to do then, and put the old files back."""
    with open(os.path.join(FOLDER, "ansible-tasks.yml"), encoding="utf-8") as file:
        tasks = [words_of_task(line.strip()) for line in file if line.strip().startswith("argv:")]
    plan, apply, seen, back = tasks
    with tempfile.TemporaryDirectory() as folder:
        shutil.copytree(os.path.join(FOLDER, SITE), os.path.join(folder, "etc"))

        def done(words):
            words = [os.path.join(folder, "undo") if word == "{{ undo }}" else word for word in words[1:]]
            return run(program, [*words[:1], "--root", folder, *words[1:]], folder=folder)

        script = b"add user ADMINS 3\n>, eve\ndrop user ADMINS 2\n"
        tally.note("ansible-tasks.yml, something to do", Wanted(script, status=1).problems(done(plan)))
        tally.note("ansible-tasks.yml, made so", Wanted(b"/etc/sudoers\n").problems(done(apply)))
        tally.note("ansible-tasks.yml, nothing to do", Wanted().problems(done(plan)))
        tally.note("ansible-tasks.yml, back", Wanted(b"/etc/sudoers\n").problems(done(back)))
        tally.note("ansible-tasks.yml, something to do again", Wanted(script, status=1).problems(done(plan)))
    tally.note("ansible-tasks.yml, visudo", [] if seen == ["visudo", "-c"] else [f"it calls {seen}"])


def commands_of_jobs():
    """Returns the commands of each job of ci-job.yml but those that install the program, by the name of the job."""
    jobs = {}
    with open(os.path.join(FOLDER, "ci-job.yml"), encoding="utf-8") as file:
        for line in file:
            if line.startswith("  ") and not line.startswith("   "):
                commands = jobs.setdefault(line.strip().rstrip(":"), [])
            command = line.partition(" run: ")[2].strip()
            if command and not command.startswith("sudo "):
                commands.append(command)
    return jobs


def statuses_of(commands, folder, program, more=()):
    """Runs the commands in the folder, and returns their exit statuses."""
    tools = os.path.join(folder, "tools")
    os.makedirs(tools, exist_ok=True)
    if not os.path.lexists(os.path.join(tools, "sudoers_tool")):
        os.symlink(program, os.path.join(tools, "sudoers_tool"))
    env = {"PATH": tools + ":" + os.environ["PATH"], **dict(more)}
    return [subprocess.run(["sh", "-c", line], cwd=folder, env=env, check=False, capture_output=True).returncode for line in commands]


def run_job(program, tally):
    """The commands of the first job accept a policy that is as it should be, and no other."""
    lines = commands_of_jobs()["sudoers"]
    with tempfile.TemporaryDirectory() as folder:
        shutil.copytree(os.path.join(FOLDER, SITE), os.path.join(folder, "image", "etc"))
        for wishes, statuses in (("has user ADMINS ann\n", [0, 0]), ("lacks user ADMINS ann\n", [0, 1]), ("has user NONE ann\n", [0, 3])):
            with open(os.path.join(folder, "wishes"), "w", encoding="utf-8") as file:
                file.write(wishes)
            came = statuses_of(lines, folder, program)
            tally.note(f"ci-job.yml, {wishes!r}", [] if came == statuses else [f"wanted {statuses}, came {came}"])


def run_grants(program, tally):
    """The commands of the second job refuse a commit that may grant something, and accept others."""
    lines = commands_of_jobs()["grants"]
    changes = (
        ("a comment", "# nothing\n", 0),
        ("a rule", "eve ALL = ALL\n", 1),
        ("a denial", "bob ALL = !/usr/bin/su\n", 0),
        ("another target", "Defaults:bob runas_default = oper\n", 1),
        ("an error", "eve ALL\n", 3),
    )
    git = ["git", "-c", "user.name=x", "-c", "user.email=x@localhost", "-c", "init.defaultBranch=main"]
    for name, text, status in changes:
        with tempfile.TemporaryDirectory() as top:
            folder = os.path.join(top, "checkout")
            shutil.copytree(os.path.join(FOLDER, SITE), os.path.join(folder, "image", "etc"))
            for words in (["init", "-q"], ["add", "image"], ["commit", "-q", "-m", "before"], ["update-ref", "refs/remotes/origin/main", "HEAD"]):
                subprocess.run([*git, *words], cwd=folder, check=True, capture_output=True)
            with open(os.path.join(folder, "image", "etc", "sudoers"), "a", encoding="utf-8") as file:
                file.write(text)
            came = statuses_of(lines, folder, program, {"GITHUB_BASE_REF": "main"}.items())
            tally.note(f"ci-job.yml, {name}", [] if came == [0, status] else [f"wanted {[0, status]}, came {came}"])


def run_all(program, tally):
    """Runs each example, the demonstration and the trial."""
    run_tasks(program, tally)
    run_job(program, tally)
    run_grants(program, tally)
    run_demo(program, tally)
    run_try(tally)
    visudo = shutil.which("visudo", path=os.environ.get("PATH", "") + ":/usr/sbin")
    run_site(program, tally, visudo)
    for name in sorted(os.listdir(FOLDER)):
        if os.path.isdir(os.path.join(FOLDER, name)) and name != SITE:
            run_edit(program, tally, name)
            run_checks(program, tally, name, visudo)
