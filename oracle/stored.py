"""The stored cases, crates/replay/stdin: parts, each of which begins with a remark that says by what it is made and ends where the next one begins."""
import os
import re
import subprocess

STDIN, STDOUT = "crates/replay/stdin", "crates/replay/stdout"


def store(first, lines):
    """Puts a part in the place of the one that begins with the same remark, or at the end, and writes crates/replay/stdout anew."""
    os.chdir(os.path.join(os.path.dirname(os.path.abspath(__file__)), ".."))
    parts = re.split(r"(?m)^(?=# .* made by ')", open(STDIN).read())
    new = "\n".join([first, *lines]) + "\n"
    at = [i for i, part in enumerate(parts) if part.startswith(first + "\n")]
    if at:
        parts[at[0]] = new
    else:
        parts.append(new)
    with open(STDIN, "w") as f:
        f.write("".join(parts))
    with open(STDOUT, "w") as f:
        subprocess.run(["oracle/expected", STDIN], stdout=f, check=True)
