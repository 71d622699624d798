"""A policy of several files: the lines of an ordinary policy, in the files of an included folder."""

import os

import policies

# edits of the bundle of these files, by their names
EDITS = (
    ("a rename", b"rename user TEAM1 CREW1\n"),
    ("a line inserted in one", b"file 100\ninsert 2\n|# edited\n"),
    ("an include line turned", b"move 1 2\n"),
    ("a prune of nothing", b"prune\n"),
)


def parts(lines, count):
    """`lines` in `count` parts of about the same number of bytes, with whole lines."""
    share = sum(map(len, lines)) / count
    parted = [b""] * count
    before = 0
    for line in lines:
        parted[min(int(before / share), count - 1)] += line
        before += len(line)
    return parted


def write_tree(folder, size, count):
    """Writes a file that includes a folder of `count` files, with `size` bytes together, and returns its path."""
    included = os.path.join(folder, "sudoers.d")
    os.mkdir(included, 0o755)
    for number, part in enumerate(parts(policies.policy(size), count)):
        write_policy(os.path.join(included, f"{number:03}"), part)
    root = os.path.join(folder, "sudoers")
    write_policy(root, f"@includedir {included}\n".encode())
    return root


def write_passed_over(folder, count):
    """Writes a file that includes a folder of `count` files, which an include passes over, and returns its path."""
    included = os.path.join(folder, "passed-over")
    os.mkdir(included, 0o755)
    for number in range(count):
        write_policy(os.path.join(included, f"x{number}.conf"), b"")
    root = os.path.join(folder, "passing-over")
    write_policy(root, f"bob ALL = ALL\n@includedir {included}\n".encode())
    return root


def bundle(size, count):
    """The same files as a bundle: each behind a line with the number of its bytes and its name."""
    files = [(b"sudoers", b"# a root\n@includedir d\n")]
    files += [(b"d/%03d" % number, part) for number, part in enumerate(parts(policies.policy(size), count))]
    return b"".join(b"%%%% %d %s\n%s" % (len(text), name, text) for name, text in files)


def write_policy(path, text):
    """Writes a file with the mode that `visudo` asks for."""
    with open(path, "wb") as file:
        file.write(text)
    os.chmod(path, 0o440)
