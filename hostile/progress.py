#!/usr/bin/env python3
"""The line that says how far a settling is, on the built program's standard error.

    hostile/progress.py [PROGRAM]

A soup of Conway's Life is settled, which takes some seconds, where standard error is a pipe, a
terminal, closed or broken. The replies have to be those without progress. Each case is a line, and
the last line counts them.
"""
import os
import pty
import re
import select
import subprocess
import sys
import tempfile
import time

from life import soup, start

ROOT = os.path.dirname(os.path.dirname(os.path.realpath(__file__)))
PROGRAM = os.path.realpath(sys.argv[1] if len(sys.argv) > 1 else f"{ROOT}/crates/desk/out/desk")

SHORT = "mark 0 counts\nsettle\nquit\n"
# A settling of the soup takes so many seconds at least; a larger soup is taken where it doesn't.
LEAST_SECONDS, SIDES = 3.5, (128, 256, 512, 768, 1024, 1536, 2048, 3072)
SECONDS = 120
TRIES = 3
# So long a program is left alone behind a reply. A line would come back within a second.
SECONDS_ALONE = 3
# A program whose end waited for its viewer's second would take longer than this each time.
SECONDS_TO_END, ENDS = 0.4, 8

LINE = re.compile(rb"\rrevision (\d+): (\d+) of (\d+) bookmarks are current, (\d+) s\x1b\[K")
CLEARED = b"\r\x1b[K"


class Wrong(Exception):
    """What a case found."""


def need(holds, found):
    if not holds:
        raise Wrong(found)


def edits(side):
    """A script of a soup of so many rows, which is looked at at eight generations."""
    return start(soup(side)) + "".join(f"mark {128 * k} counts\n" for k in range(1, 9))


def run(script, *words, **devices):
    """The replies, what standard error was given, the status and how long it took."""
    pipe, begun = subprocess.PIPE, time.monotonic()
    devices = {"stdout": pipe, "stderr": pipe, **devices}
    with subprocess.Popen([PROGRAM, "--workers", "1", *words], stdin=pipe, **devices) as process:
        out, err = process.communicate(script.encode(), timeout=SECONDS)
    return out, err, process.returncode, time.monotonic() - begun


def on_terminal(script, *words, both=False):
    """The same where standard error, or the replies too, are a terminal."""
    ours, theirs = pty.openpty()
    pipe, shown = subprocess.PIPE, b""
    out = theirs if both else pipe
    with subprocess.Popen([PROGRAM, "--workers", "1", *words], stdin=pipe, stdout=out, stderr=theirs) as process:
        os.close(theirs)
        process.stdin.write(script.encode())
        process.stdin.close()
        begun = time.monotonic()
        while time.monotonic() - begun < SECONDS:
            if not select.select([ours], [], [], 0.1)[0]:
                continue
            try:
                more = os.read(ours, 1 << 16)
            except OSError:
                break
            if not more:
                break
            shown += more
        replies = b"" if both else process.stdout.read()
        process.wait(SECONDS)
    os.close(ours)
    return replies, shown, process.returncode


def check_lines(shown, took):
    """Lines that come once a second, never fall, and are cleared."""
    need(shown.endswith(CLEARED), f"it ends with {shown[-80:]!r}")
    lines = [tuple(map(int, line)) for line in LINE.findall(shown)]
    need(LINE.sub(b"", shown) == CLEARED, f"beside its lines it has {LINE.sub(b'', shown)!r}")
    need(len(lines) >= 2, f"in {took:.1f} s there are the lines {lines}")
    need(len(lines) <= took, f"in {took:.1f} s there are the lines {lines}")
    need(all(all_of == 8 for _, _, all_of, _ in lines), lines)
    need(len({revision for revision, *_ in lines}) == 1, lines)
    need(all(a[1] <= b[1] and a[3] < b[3] for a, b in zip(lines, lines[1:])), lines)
    need(lines[-1][3] <= took, f"in {took:.1f} s there are the lines {lines}")
    return lines


SOUP = {}


def long_soup():
    """A script that settles a soup that takes long enough, and the replies to it without progress."""
    if not SOUP:
        for side in SIDES:
            script = f"{edits(side)}settle\nshow 8\nquit\n"
            out, err, status, took = run(script)
            need((status, err) == (0, b""), (status, err))
            SOUP.update(script=script, out=out, side=side)
            if took >= LEAST_SECONDS:
                break
    return SOUP["script"], SOUP["out"]


def a_pipe_gets_lines_with_the_option():
    script, wanted = long_soup()
    out, err, status, took = run(script, "--progress")
    need((out, status) == (wanted, 0), "other replies")
    lines = check_lines(err, took)
    need(lines[0][1] < lines[-1][1], f"no bookmark became current from line to line: {lines}")


def a_terminal_gets_them_without_it():
    script, wanted = long_soup()
    begun = time.monotonic()
    out, shown, status = on_terminal(script)
    need((out, status) == (wanted, 0), "other replies")
    check_lines(shown, time.monotonic() - begun)


def the_line_is_cleared_before_the_reply():
    script, wanted = long_soup()
    _, shown, status = on_terminal(script, both=True)
    need(status == 0, status)
    need(LINE.search(shown), "no line")
    need(b"s\x1b[K" + CLEARED + b"settled\r\n" in shown, f"the reply isn't behind a cleared line: {shown[-200:]!r}")
    replies = LINE.sub(b"", shown).replace(CLEARED, b"").replace(b"\r\n", b"\n")
    need(replies == wanted, "other replies")


def nothing_comes_behind(command, reply):
    """What a command shows is cleared before its reply, and the line stays away while the program is left alone."""
    long_soup()
    with tempfile.TemporaryFile() as errors, subprocess.Popen(
            [PROGRAM, "--workers", "1", "--progress"], stdin=subprocess.PIPE, stdout=subprocess.PIPE,
            stderr=errors) as process:
        process.stdin.write(f"{edits(SOUP['side'])}{command}\n".encode())
        process.stdin.flush()
        for line in process.stdout:
            if line.startswith(reply):
                break
        shown = [written_to(errors)]
        time.sleep(SECONDS_ALONE)
        shown.append(written_to(errors))
        process.communicate(timeout=SECONDS)
    need(LINE.search(shown[0]), f"no line was shown: {shown[0]!r}")
    need(shown[0].endswith(CLEARED), f"at the reply there stands {shown[0][-80:]!r}")
    need(shown[1] == shown[0], f"behind the reply comes {shown[1][len(shown[0]):]!r}")


def written_to(file):
    """All that was written to a file so far."""
    return os.pread(file.fileno(), os.fstat(file.fileno()).st_size, 0)


def no_line_comes_behind_settled():
    nothing_comes_behind("settle", b"settled")


def no_line_comes_behind_what_is_shown():
    nothing_comes_behind("show 8", b"bookmark 8 current")


def a_short_settling_shows_nothing():
    out, err, status, _ = run(SHORT, "--progress")
    need((out, err, status) == (b"ok 1 bookmark 1\nsettled\nbye\n", b"", 0), (out, err, status))
    out, shown, status = on_terminal(SHORT)
    need((out, shown, status) == (b"ok 1 bookmark 1\nsettled\nbye\n", b"", 0), (out, shown, status))


def the_end_is_not_held_up():
    took = min(run(SHORT, "--progress")[3] for _ in range(ENDS))
    need(took < SECONDS_TO_END, f"the quickest of {ENDS} runs took {took:.2f} s")


def a_closed_standard_error_changes_nothing():
    script, wanted = long_soup()
    out, _, status, _ = run(script, "--progress", stderr=None, preexec_fn=lambda: os.close(2))
    need((out, status) == (wanted, 0), "other replies")


def a_broken_standard_error_changes_nothing():
    script, wanted = long_soup()
    ours, theirs = os.pipe()
    os.close(ours)
    out, _, status, _ = run(script, "--progress", stderr=theirs)
    os.close(theirs)
    need((out, status) == (wanted, 0), "other replies")


CASES = [
    a_pipe_gets_lines_with_the_option, a_terminal_gets_them_without_it, the_line_is_cleared_before_the_reply,
    no_line_comes_behind_settled, no_line_comes_behind_what_is_shown,
    a_short_settling_shows_nothing, the_end_is_not_held_up, a_closed_standard_error_changes_nothing,
    a_broken_standard_error_changes_nothing,
]


def fault_of(case):
    """What a case finds wrong each time that it is tried, or nothing. Each time a soup is sought anew, since one that
    took long enough on a busy machine may not do so later.
    """
    found = ""
    for _ in range(TRIES):
        try:
            case()
            return ""
        except (Wrong, OSError, subprocess.TimeoutExpired) as error:
            found = str(error)
            SOUP.clear()
    return found


def main():
    passed = 0
    for case in CASES:
        name, fault = case.__name__.replace("_", " "), fault_of(case)
        print(f"{name}: FAILED, {fault}" if fault else f"{name}: passed", flush=True)
        passed += not fault
    print(f"progress: {passed} passed, {len(CASES) - passed} failed")
    return 0 if passed == len(CASES) else 1


if __name__ == "__main__":
    sys.exit(main())
