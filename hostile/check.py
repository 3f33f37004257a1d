#!/usr/bin/env python3
"""Hostile use of the built program: signals, terminals, devices that fail, little memory, huge scripts.

    hostile/check.py [PROGRAM]

Each case is a line, and the last line counts them. The gate runs this on the program that it built.
No case takes its wanted answer from the program: each is worked out here, or written out. All of it
ends within a minute, and a run of the program that takes a third of one is a failure.
"""
import contextlib
import os
import pty
import resource
import signal
import socket
import subprocess
import sys
import time

ROOT = os.path.dirname(os.path.dirname(os.path.realpath(__file__)))
PROGRAM = os.path.realpath(sys.argv[1] if len(sys.argv) > 1 else f"{ROOT}/crates/desk/out/desk")
SECONDS, SECONDS_IN_ALL = 20, 60
MB = 1 << 20

# A cell is live next where one of its two neighbours is and the other isn't. From one cell there are
# after t generations as many as 2 to the number of the ones among the binary digits of t.
RULE_X = (b"rule\n@RULE X\n@TABLE\nn_states:2\nneighborhood:oneDimensional\nsymmetries:none\n"
          b"0,1,0,1\n0,0,1,1\n1,0,0,0\n1,1,1,0\nend\n")
FIRST = RULE_X + b"set 0 0 1\nmark 2 counts\nsettle\nshow 1\nquit\n"
FIRST_REPLIES = b"ok 1\nok 2\nok 3 bookmark 1\nsettled\nbookmark 1 current 4\n1 2\nbye\n"

READING, WRITING = b"desk: reading failed\n", b"desk: writing failed\n"
NO_MEMORY, NO_WORKER = b"desk: no memory\n", b"desk: no worker\n"


class Wrong(Exception):
    """What a case found."""


def need(holds, found):
    if not holds:
        raise Wrong(found)


def shortened(found):
    text = repr(found)
    return text if len(text) < 300 else f"{text[:140]} .. {text[-140:]}"


@contextlib.contextmanager
def started(*words, limit=None, closed=None, **devices):
    """The program while a case looks at it, and no longer. Devices are as Popen names them; a limit is one
    of the address space, in bytes; closed is the number of a descriptor that it begins without."""
    def before():
        if limit is not None:
            resource.setrlimit(resource.RLIMIT_AS, (limit, limit))
        if closed is not None:
            os.close(closed)

    ends = {"stdin": subprocess.PIPE, "stdout": subprocess.PIPE, "stderr": subprocess.PIPE}
    with subprocess.Popen([PROGRAM, *words], preexec_fn=before, **{**ends, **devices}) as process:
        try:
            yield process
        finally:
            process.kill()


def run(script, *words, **how):
    """The status of the program on this script, and what it writes."""
    with started(*words, **how) as process:
        out, err = process.communicate(script)
    return process.returncode, out, err


def expect(found, status, out=b"", err=b""):
    need(found == (status, out, err), f"{shortened(found)}, not {shortened((status, out, err))}")


# Signals

# The rule 30: a cell is live next where either its western neighbour is live, or it or its eastern one
# is. Little of what it makes of one cell repeats, so that a million generations take minutes, and the
# program is always killed in the middle.
ENDLESS = (b"rule\n@RULE Thirty\n@TABLE\nn_states:2\nneighborhood:oneDimensional\nsymmetries:none\n"
           b"0,1,0,1\n0,0,1,1\n1,1,0,0\n1,1,1,0\nend\nset 0 0 1\nmark 0 counts\nshow 1\n"
           b"mark 1000000 counts\nwork\nsettle\nshow 2\n")
BEFORE_THE_KILL = (b"ok 1\nok 2\nok 3 bookmark 1\nbookmark 1 current 4\n1 1\nok 4 bookmark 2\n"
                   b"working\n")


def killed(by):
    def case():
        with started() as process:
            process.stdin.write(ENDLESS)
            process.stdin.flush()
            out = b"".join(process.stdout.readline() for _ in BEFORE_THE_KILL.splitlines())
            time.sleep(0.2)
            process.send_signal(by)
            rest, err = process.communicate(timeout=SECONDS)
        expect((process.returncode, out + rest, err), -by, BEFORE_THE_KILL)
    return case


# Polls

LOOK = b"poll\npeek 2\nlist\n"
LOOKED = (b"polled 1\nbookmark 2 pending\nbookmark 1 on 0 at 0 counts current\n"
          b"bookmark 2 on 0 at 1000000 counts pending\nlisted 2\n")
LOOKS, AT_A_TIME = 20000, 100
# A program that quits waits for no worker. It takes some milliseconds, and may be put off on a busy machine.
SECONDS_TO_QUIT = 3


def quits_among_polls():
    before, told = ENDLESS.replace(b"settle\nshow 2\n", b""), BEFORE_THE_KILL
    for workers in ("1", "2", "8"):
        with started("--workers", workers) as process:
            process.stdin.write(before)
            process.stdin.flush()
            need(process.stdout.read(len(told)) == told, "other replies before the polls")
            for _ in range(LOOKS // AT_A_TIME):
                process.stdin.write(LOOK * AT_A_TIME)
                process.stdin.flush()
                found = process.stdout.read(len(LOOKED) * AT_A_TIME)
                need(found == LOOKED * AT_A_TIME, shortened(found))
            begun = time.monotonic()
            out, err = process.communicate(LOOK + b"quit\n", timeout=SECONDS)
            took = time.monotonic() - begun
        expect((process.returncode, out, err), 0, LOOKED + b"bye\n")
        need(took < SECONDS_TO_QUIT, f"with {workers} workers it took {took:.1f} s to quit")


# Terminals

GREETING = b"desk: waiting for a script; most begin with `rule`, and `help` lists the commands\n"
LISTS = b"desk: `help` lists the commands\n"
ENDS = b"desk: this line belongs to the text, which ends at a line that is just `end`\n"
# Lines with what is said of each on standard error where they are typed.
TYPED = (
    (b"paint 3\n", LISTS), (b"show 1\n", b""), (b"rule\n", b""), (b"@RULE X\n", b""), (b"settle\n", ENDS),
    (b"End\n", ENDS), (b"edn\n", ENDS), (b"start rle\n", ENDS), (b"end\n", b""), (b"settle\n", b""),
    (b"help me\n", LISTS), (b"quit\n", b""),
)
TYPED_REPLIES = (b"refused 80 BadCommand 1\nrefused 44 NoSuchBookmark\nrefused 2 NoTable\nsettled\n"
                 b"refused 80 BadCommand 11\nbye\n")


def typed():
    terminal, end = pty.openpty()
    try:
        with started(stdin=end) as process:
            said = process.stderr.readline()
            need(said == GREETING, repr(said))
            for line, wanted in TYPED:
                os.write(terminal, line)
                said = process.stderr.readline() if wanted else b""
                need(said == wanted, f"{line!r}: {said!r}")
            out, err = process.communicate(timeout=SECONDS)
        expect((process.returncode, out, err), 0, TYPED_REPLIES)
    finally:
        os.close(terminal)
        os.close(end)


def not_typed():
    expect(run(b"".join(line for line, _ in TYPED)), 0, TYPED_REPLIES)


# Devices

def input_is_closed():
    expect(run(None, closed=0, stdin=None), 1, err=READING)


def output_is_closed():
    expect(run(FIRST, closed=1, stdout=None), 1, None, WRITING)
    expect(run(b"", "--help", closed=1, stdout=None), 1, None, WRITING)


def errors_are_closed():
    expect(run(FIRST, closed=2, stderr=None), 0, FIRST_REPLIES, None)
    expect(run(b"", "work", closed=2, stderr=None), 2, b"", None)


def device_is_full():
    with open("/dev/full", "wb") as full:
        expect(run(FIRST, stdout=full), 1, None, WRITING)
        expect(run(b"", "--help", stdout=full), 1, None, WRITING)
        expect(run(FIRST, stdout=full, stderr=full), 1, None, None)
        expect(run(b"", "work", stderr=full), 2, b"", None)


def folder_is_read():
    folder = os.open("/", os.O_RDONLY)
    try:
        expect(run(None, stdin=folder), 1, err=READING)
    finally:
        os.close(folder)


def read_fails_behind(script, replies):
    """A socket whose other end goes away with a byte unread gives what it has, and then an error."""
    def case():
        ours, theirs = socket.socketpair()
        with theirs:
            theirs.send(b".")
            ours.sendall(script)
            ours.close()
            expect(run(None, stdin=theirs), 1, replies, READING)
    return case


def reader_leaves():
    with started() as process:
        process.stdin.write(b"mark 0 counts\n")
        process.stdin.flush()
        need(process.stdout.readline() == b"ok 1 bookmark 1\n", "another first reply")
        process.stdout.close()
        process.stdin.write(b"show 1\nquit\n")
        process.stdin.close()
        status, err = process.wait(), process.stderr.read()
    expect((status, None, err), 1, None, WRITING)


def input_ends_within_a_line():
    expect(run(b"set 0 0 1\nmark 0 counts\nshow 1"), 0,
           b"ok 1\nok 2 bookmark 1\nbookmark 1 current 4\n1 1\n")
    expect(run(b""), 0)
    expect(run(b"\0\xff"), 0, b"refused 80 BadCommand 1\n")


# Words

def words_are_refused():
    for words in (["--workers", "0"], ["--workers=9"], ["--facts", "0"], ["--facts=4097"],
                  ["--squares", "63"], ["--squares=16777217"], ["--facts"], ["--squares", "1e3"],
                  ["--facts", "1", "--facts", "1"], [b"\xff"], [""], ["x" * 100000]):
        status, out, err = run(FIRST, *words)
        need((status, out) == (2, b"") and err.startswith(b"error: "),
             f"{shortened(words)}: {status}, {shortened(out)}, {shortened(err)}")


def options_change_no_reply():
    for words in (["--workers", "1"], ["--workers", "8"], ["--facts", "1"], ["--facts", "4096"],
                  ["--squares", "64"], ["--squares", "16777216"]):
        expect(run(FIRST, *words), 0, FIRST_REPLIES)


# Large scripts

def line_of_50_mb():
    cells = b" 0 0 1" * (50 * MB // 6)
    expect(run(b"set" + cells + b"\nset 0 0 1\nquit\n"), 0, b"refused 47 TooManyCells\nok 1\nbye\n")
    expect(run(b"set" + cells + b" 0\nset 0 0 1\n"), 0, b"refused 80 BadCommand 1\nok 1\n")


def word_of_50_mb():
    word = b"7" * (50 * MB)
    expect(run(word + b"\nset 0 0 1\n"), 0, b"refused 80 BadCommand 1\nok 1\n")
    expect(run(b"mark " + word + b" counts\nset 0 0 1\n"), 0, b"refused 40 GenerationTooFar\nok 1\n")


def text_of_50_mb_without_end():
    lines = (b"x" * 79 + b"\n") * (50 * MB // 80)
    expect(run(b"set 0 0 1\nstart rle\n" + lines), 0, b"ok 1\nrefused 81 NoEnd 2\n")
    expect(run(b"rule\n@RULE X\n" + b"#" * (50 * MB)), 0, b"refused 81 NoEnd 1\n")


# Branches

MOST_BRANCHES = 64


def chain_of_branches():
    """Each branch leaves the one before a generation later, and sets a cell there that none of the others feels
    before generation 255: then the cell that was set at generation g has become as many as from one cell after
    255 - g generations."""
    edits, replies = [RULE_X, b"set 0 0 1\n"], [b"ok 1\n", b"ok 2\n"]
    for k in range(1, MOST_BRANCHES + 1):
        edits.append(b"branch %d %d\non %d at %d set %d 0 1\non %d mark 255 counts\n" % (
            k - 1, k, k, k, 10000 * k, k))
        replies.append(b"ok %d branch %d\nok %d intervention %d\nok %d bookmark %d\n" % (
            3 * k, k, 3 * k + 1, k, 3 * k + 2, k))
    edits += [b"branch 64 1000\n" * 100000, b"unbranch 64\n", b"on 64 at 63 set 0 0 1\n", b"settle\n"]
    replies += [b"refused 53 TooManyBranches\n" * 100000, b"refused 52 BranchInUse\n", b"refused 51 BeforeFork\n",
                b"settled\n"]
    cells = 1 << bin(255).count("1")
    for k in range(1, MOST_BRANCHES + 1):
        cells += 1 << bin(255 - k).count("1")
        text = b"1 %d\n" % cells
        edits.append(b"show %d\n" % k)
        replies.append(b"bookmark %d current %d\n" % (k, len(text)) + text)
    for workers in ("1", "8"):
        expect(run(b"".join(edits) + b"quit\n", "--workers", workers), 0, b"".join(replies) + b"bye\n")


# Little room

def too_few_squares():
    script = RULE_X + (b"set 0 0 1\nmark 1152921504606846976 counts\nsettle\nshow 1\nset 5 0 1\n")
    replies = b"ok 1\nok 2\nok 3 bookmark 1\nunsettled 1 71\nbookmark 1 pending\nok 4\n"
    for workers in ("1", "2", "8"):
        expect(run(script, "--squares", "64", "--workers", workers), 0, replies)


# Little memory

class Replies:
    """What the program wrote, reply by reply, where any command may have found no memory."""

    def __init__(self, out):
        self.out, self.at, self.revision = out, 0, 0

    def line(self):
        end = self.out.find(b"\n", self.at)
        need(end >= 0, f"the replies end with {shortened(self.out[self.at:])}")
        line, self.at = self.out[self.at:end], end + 1
        return line

    def edited(self, behind=b""):
        """Whether an edit was accepted."""
        line = self.line()
        if line == b"refused 70 NoMemory":
            return False
        self.revision += 1
        need(line == b"ok %d%s" % (self.revision, behind), f"{line!r} at revision {self.revision}")
        return True

    def settled(self, bookmarks):
        line = self.line()
        if line != b"settled":
            words = line.split()
            need(len(words) == 3 and words[0] == b"unsettled" and words[1].isdigit()
                 and 1 <= int(words[1]) <= bookmarks and words[2] in (b"70", b"71"), repr(line))

    def shown(self, bookmark, text):
        line = self.line()
        if line in (b"refused 70 NoMemory", b"bookmark %d pending" % bookmark):
            return
        need(line == b"bookmark %d current %d" % (bookmark, len(text)), repr(line))
        found, self.at = self.out[self.at:self.at + len(text)], self.at + len(text)
        need(found == text, f"the text of bookmark {bookmark} is {shortened(found)}")

    def end(self):
        need(self.line() == b"bye" and self.at == len(self.out), "the end is another")


GENERATION = (1 << 17) - 1
FAR = RULE_X + b"set 0 0 1\nmark %d counts\nmark %d rle\nwork\nsettle\nshow 1\nshow 2\nquit\n" % (
    GENERATION, GENERATION)


def far_texts(is_x, is_set):
    """The texts at the generation, where each second cell is live if rule and cell were accepted."""
    name, body, cells = b"X" if is_x else b"still", b"!", 0
    if is_set:
        cells = GENERATION + 1 if is_x else 1
        body = b"ob" * (cells - 1) + b"o!"
    width, left = max(2 * cells - 1, 0), -GENERATION if is_x and is_set else 0
    lines = b"".join(body[at:at + 70] + b"\n" for at in range(0, len(body), 70))
    rle = b"#CXRLE Pos=%d,0 Gen=%d\nx = %d, y = %d, rule = %s\n" % (
        left, GENERATION, width, 1 if is_set else 0, name) + lines
    return (b"1 %d\n" % cells if cells else b"empty\n"), rle


def far_replies(replies):
    is_x = replies.edited()
    is_set = replies.edited()
    counts, rle = far_texts(is_x, is_set)
    known = {}
    for text in (counts, rle):
        if replies.edited(b" bookmark %d" % (len(known) + 1)):
            known[len(known) + 1] = text
    need(replies.line() == b"working", "another reply than `working`")
    replies.settled(len(known)) if known else need(replies.line() == b"settled", "not settled")
    for bookmark in (1, 2):
        if bookmark in known:
            replies.shown(bookmark, known[bookmark])
        else:
            need(replies.line() in (b"refused 44 NoSuchBookmark", b"refused 70 NoMemory"), "shown")


BLOCK = (b"start rle\nx = 1000, y = 1000\n" + b"1000o$\n" * 1000 + b"!\nend\n"
         b"mark 0 counts\nmark 0 window 0 0 256 256\nshow 1\nshow 2\nquit\n")


def block_replies(replies):
    line = replies.line()
    cells = 1000000 if line == b"ok 1 gen 0" else 0
    replies.revision = 1 if cells else 0
    need(cells or line == b"refused 70 NoMemory", repr(line))
    window = (b" ".join([b"1" if cells else b"0"] * 256) + b"\n") * 256
    counts = b"1 1000000\n" if cells else b"empty\n"
    known = {}
    for text in (counts, window):
        if replies.edited(b" bookmark %d" % (len(known) + 1)):
            known[len(known) + 1] = text
    for bookmark in (1, 2):
        if bookmark in known:
            replies.shown(bookmark, known[bookmark])
        else:
            need(replies.line() in (b"refused 44 NoSuchBookmark", b"refused 70 NoMemory"), "shown")


# Cells so far apart that none feels another before generation 1023, where each has become 1024.
EDITS = 60
GROWING = RULE_X + b"mark 1023 counts\nmark 1023 rle\n" + b"".join(
    b"set %d %d 1\nsettle\nshow 1\n" % (5000 * (k % 20), 7 * k) for k in range(EDITS)) + b"quit\n"


def growing_replies(replies):
    is_x = replies.edited()
    known = [number for number in (1, 2) if replies.edited(b" bookmark %d" % number)]
    need(1 in known, "there was no memory for a bookmark")
    cells = 0
    for _ in range(EDITS):
        cells += replies.edited()
        replies.settled(len(known))
        replies.shown(1, b"1 %d\n" % (cells * (1024 if is_x else 1)) if cells else b"empty\n")


def limited(script, judge, megabytes):
    """A run with little address space: it doesn't begin, says why it doesn't, or answers rightly or by
    refusals."""
    def case():
        status, out, err = run(script, limit=int(megabytes * MB))
        if status == 127 and out == b"" and b"libraries" in err:
            return
        if status == 3:
            need(out == b"" and err in (NO_MEMORY, NO_WORKER), f"{shortened(out)}, {err!r}")
            return
        need((status, err) == (0, b""), f"{status}, {shortened(out)}, {err!r}")
        replies = Replies(out)
        judge(replies)
        replies.end()
    return case


CASES = {
    "SIGTERM in the middle": killed(signal.SIGTERM),
    "SIGKILL in the middle": killed(signal.SIGKILL),
    "it quits among 20,000 polls": quits_among_polls,
    "what is typed at a terminal": typed,
    "the same from a pipe": not_typed,
    "standard input is closed": input_is_closed,
    "standard output is closed": output_is_closed,
    "standard error is closed": errors_are_closed,
    "a full device": device_is_full,
    "a folder as standard input": folder_is_read,
    "a read fails behind two commands": read_fails_behind(
        b"set 0 0 1\nmark 0 counts\nshow ", b"ok 1\nok 2 bookmark 1\n"),
    "a read fails within a text": read_fails_behind(b"set 0 0 1\nstart rle\nx = 1, y = 1\n", b"ok 1\n"),
    "the reader of the replies leaves": reader_leaves,
    "the input ends within a line": input_ends_within_a_line,
    "words are refused": words_are_refused,
    "options change no reply": options_change_no_reply,
    "a line of 50 MB": line_of_50_mb,
    "a word of 50 MB": word_of_50_mb,
    "a text of 50 MB without its end": text_of_50_mb_without_end,
    "a chain of 64 branches": chain_of_branches,
    "64 squares": too_few_squares,
    **{f"a far generation in {size} MB": limited(FAR, far_replies, size)
       for size in (2, 3, 4, 8, 16, 18, 19, 20, 21, 22, 24, 26, 28, 32, 40, 48, 64, 96, 256)},
    **{f"a million cells in {size} MB": limited(BLOCK, block_replies, size)
       for size in (18, 19, 20, 24, 32, 40, 48, 64, 80, 96, 128, 192, 256, 512)},
    **{f"many edits in {size} MB": limited(GROWING, growing_replies, size)
       for size in (20, 22, 26, 32, 64)},
}


def too_slow(_number, _frame):
    raise Wrong(f"it had not ended after {SECONDS} seconds")


def main():
    begun, passed = time.monotonic(), 0
    signal.signal(signal.SIGALRM, too_slow)
    for name, case in CASES.items():
        try:
            need(time.monotonic() - begun < SECONDS_IN_ALL - SECONDS, "no time was left")
            signal.alarm(SECONDS)
            case()
        except (Wrong, OSError) as error:
            print(f"{name}: FAILED, {error}", flush=True)
        else:
            print(f"{name}: passed", flush=True)
            passed += 1
        signal.alarm(0)
    print(f"hostile use: {passed} passed, {len(CASES) - passed} failed")
    return 0 if passed == len(CASES) else 1


if __name__ == "__main__":
    sys.exit(main())
