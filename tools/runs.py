"""Runs of the built program, for the tools beside this file.

The first word of each tool is the built program, `crates/rooms_program/out/rooms_program`.
"""
import subprocess

# how long a run may take before it counts as one that hangs, in seconds
LONGEST = 120


def ran(program, words, data, **options):
    """The status, the output and the note of one run; the status is `hangs` where it does not end."""
    try:
        it = subprocess.run([program, *words], input=data, capture_output=True, check=False, timeout=LONGEST, **options)
    except subprocess.TimeoutExpired:
        return "hangs", b"", b""
    return it.returncode, it.stdout, it.stderr


def told(answer):
    """An answer in print, with the beginning of what it wrote."""
    status, output, note = answer
    return f"status {status}, {len(output)} bytes {output[:60]!r}, note {note[:60]!r}"
