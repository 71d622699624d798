"""Runs the program with a stack of 512 KiB: by a script that sets the limit, and then becomes the program."""

import contextlib
import os
import tempfile

KIB = 512
SCRIPT = "#!/bin/sh\nulimit -s %d && exec '%s' \"$@\"\n"


@contextlib.contextmanager
def on_small_stack(program):
    """Gives the path of a script that runs the program so."""
    with tempfile.TemporaryDirectory(prefix="sudoers_tool_tests_") as folder:
        path = os.path.join(folder, "sudoers_tool")
        with open(path, "w", encoding="utf-8") as script:
            script.write(SCRIPT % (KIB, program.replace("'", "'\\''")))
        os.chmod(path, 0o755)
        yield path
