"""Counts a program's instructions by valgrind's callgrind, for texts that grow, and measures its stack by valgrind's massif."""
import re
import subprocess
import sys
import tempfile


def under(tool, program, text, status, last_line):
    """What valgrind says of the program, which must answer so to the text, and what the tool wrote."""
    with tempfile.NamedTemporaryFile() as out:
        ran = subprocess.run(["valgrind", *(word.format(out.name) for word in tool), program], input=text.encode(), capture_output=True)
        wrote = out.read()
    if ran.returncode != status or not ran.stdout.endswith(last_line.encode() + b"\n"):
        sys.exit(f"status {ran.returncode}, wrote {ran.stdout[-200:]!r}: {ran.stderr[-400:].decode()}")
    return ran.stderr, wrote


def instructions(program, text, status, last_line):
    """The instructions that the program takes for the text."""
    said, _ = under(["--tool=callgrind", "--callgrind-out-file={}"], program, text, status, last_line)
    return int(re.search(rb"Collected : (\d+)", said).group(1))


def stack(program, text, status, last_line):
    """The most bytes of stack that the program has in use for the text."""
    massif = ["--tool=massif", "--stacks=yes", "--heap=no", "--peak-inaccuracy=0.0", "--massif-out-file={}"]
    _, wrote = under(massif, program, text, status, last_line)
    return max(map(int, re.findall(rb"mem_stacks_B=(\d+)", wrote)))


def row(program, what, sizes, text_of, status, last_line):
    """Prints a line for each size, with the ratio to the line before, and answers the greatest ratio."""
    before, worst = None, 0
    for size in sizes:
        text = text_of(size)
        count = instructions(program, text, status, last_line)
        ratio = count / before if before else 0
        print(f"{size:8} {what} {len(text):8} bytes {count:12} instructions {count / len(text):7.1f} a byte"
              + (f"   ratio {ratio:.3f}" if before else ""))
        before, worst = count, max(worst, ratio)
    return worst
