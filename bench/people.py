"""Files of users and groups, and what `list` is asked of an ordinary policy: for a member of its first team, on a host of it."""

import policies

ROWS = 1_000
HOST = ("--host", "web1.example", "--interfaces", "10.1.2.3/24", "--moment", "20260101000000Z")


def passwd(user):
    """Users in as many rows, the last of whom is `user`."""
    others = "".join(f"user{n}:x:{n}:{n}::/home/user{n}:/bin/sh\n" for n in range(1, ROWS - 1))
    return f"root:x:0:0::/root:/bin/sh\n{others}{user}:x:{ROWS}:{ROWS}::/home/{user}:/bin/sh\n".encode()


def group(user):
    """Groups in as many rows; `user` is in every hundredth."""
    rows = (f"group{n}:x:{n}:user{n},user{n % 7}{',' + user if n % 100 == 0 else ''}\n" for n in range(ROWS))
    return "".join(rows).encode()


def command_of(lines):
    """The first command of the first team, as words that it matches."""
    team = next(line for line in lines if line.startswith(b"Cmnd_Alias TOOLS1 "))
    path, *arguments = team.split(b" = ")[1].split(b",")[0].decode().split()
    return [path, *("x" if argument == "*" else argument for argument in arguments if argument != '""')]


def questions(lines):
    """What is asked of a policy: its words before FILE and after it, by how its reaches name it."""
    user = ("-U", policies.member_of_a_team(lines), *HOST)
    command = ("--", *command_of(lines))
    return {
        "list": (user, ()),
        "list COMMAND": ((*user, "-u", "root"), command),
        "list --why COMMAND": ((*user, "-u", "root", "--why"), command),
    }
