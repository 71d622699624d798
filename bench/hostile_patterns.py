"""Hostile questions whose patterns cost much if a part of them is tried again and again."""

NEEDLE = 32_000
TEXT = 65_000
SET = 30_000


def argument_pattern(pattern):
    """A rule whose arguments are a pattern."""
    return b"u ALL=/b *" + pattern + b"\n"


def needle(end):
    """A long text of one byte, which ends in another one, between two stars, and the end of its line."""
    return b"*" + b"a" * NEEDLE + b"b*" + end


def commands(ground):
    """The hostile commands."""
    closed, unclosed = argument_pattern(b"[" + b"a" * 60_000 + b"]"), argument_pattern(b"[" * 30_000)
    brackets = argument_pattern(b"[-" * 32_000 + b"\\]*")
    two_sets = argument_pattern(b"[" + b"a" * SET + b"][" + b"b" * SET + b"]*")
    one_needle = b"u ALL=/b " + needle(b"\n")
    text = ("/b", "a" * TEXT)
    yield ground.listing("`list COMMAND`, `*` and a set of 60,000 bytes", closed, (), ("/b", "b" * 60_000), status=1)
    yield ground.listing("`list COMMAND`, `*` and 30,000 `[`", unclosed, (), ("/b", "[" * 60_000))
    what = "`list COMMAND`, 32,000 `[-` of which none begins a set"
    yield ground.listing(what, brackets, (), ("/b", "[-" * 30_000), status=1)
    yield ground.listing("`list COMMAND`, two sets of 30,000 bytes in turn between stars", two_sets, (), text, status=1)
    yield ground.listing("`list COMMAND`, 32,000 `a` and `b` between stars, against 65,000 `a`", one_needle, (), text, status=1)
    what = "`list COMMAND`, 16 lines of 32,000 `a` and `b` between stars, against 65,000 `a`"
    yield ground.listing(what, one_needle * 16, (), text, status=1)
    what = "`convert -m host=`, 32,000 `a` and `b` between stars, against 65,000 `a`"
    hosts = b"u " + needle(b" = ALL\n")
    yield ground.filtering(what, hosts, f"host={'a' * TEXT}", "host=h")
