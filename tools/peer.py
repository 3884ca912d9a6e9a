"""Says what `trials` must print, found by other means.

python3 tools/peer.py < crates/trials/stdin | cmp - crates/trials/stdout   says nothing if both agree

Written from docs/FORMATS.md and docs/RULES.md, it shares nothing with the proved programs. Lines are split, and fields
matched by regular expressions. A greatest flow comes from shortest paths over dictionaries that say how much is left
between two junctions. The near side is what the pump reaches then, the far side what does not reach the outlet. A pipe
governs if another greatest flow, with one litre more on that pipe's limit, has a greater value. Where a network is small,
all its cuts are listed, and must say the same.
"""

import re
import sys
from collections import defaultdict, deque, namedtuple
from itertools import combinations

CASE = re.compile(rb"^#(.) ([^\n]*)\n(.*?)(?=^#|\Z)", re.MULTILINE | re.DOTALL)
NUMBER = re.compile(rb" *(0|[1-9][0-9]*)")
SMALL = 8  # the most junctions of a network whose cuts are listed

Network = namedtuple("Network", "junctions pump outlet pipes open")  # open: for each pipe, whether its valve is open
Pipe = namedtuple("Pipe", "start end limit")


class Refused(Exception):
    def __init__(self, number, line=0):
        super().__init__(number, line)
        self.line = b"FAIL%5d%5d" % (number, line)


# Texts


def whole_lines(text):
    """The lines that end in a line feed, without it."""
    return text.split(b"\n")[:-1]


def line_due(lines, number, kind, length):
    if len(lines) < number or len(lines[number - 1]) != length:
        raise Refused(1, number)
    if lines[number - 1][:4] != kind:
        raise Refused(2, number)
    return lines[number - 1]


def number_in(line, number, first, low, high):
    """The number in the five columns from the first one on."""
    match = NUMBER.fullmatch(line[first - 1:first + 4])
    if not match:
        raise Refused(3, number)
    if not low <= int(match[1]) <= high:
        raise Refused(4, number)
    return int(match[1])


def read_pipe(lines, number, junctions):
    line = line_due(lines, number, b"PIPE", 24)
    start = number_in(line, number, 5, 0, junctions - 1)
    end = number_in(line, number, 10, 0, junctions - 1)
    limit = number_in(line, number, 15, 1, 60000)
    if line[19:23] != b"    ":
        raise Refused(3, number)
    if line[23:] not in (b"O", b"C"):
        raise Refused(5, number)
    if start == end:
        raise Refused(6, number)
    return Pipe(start, end, limit), line[23:] == b"O"


def read_sheet(lines):
    line = line_due(lines, 1, b"NETW", 24)
    junctions = number_in(line, 1, 5, 2, 64)
    count = number_in(line, 1, 10, 0, 512)
    pump = number_in(line, 1, 15, 0, junctions - 1)
    outlet = number_in(line, 1, 20, 0, junctions - 1)
    if pump == outlet:
        raise Refused(6, 1)
    rows = [read_pipe(lines, number, junctions) for number in range(2, 2 + count)]
    return Network(junctions, pump, outlet, [pipe for pipe, _ in rows], [is_open for _, is_open in rows])


def read_step(lines, number, pipes):
    line = line_due(lines, number, b"STEP", 9 + pipes)
    minutes = number_in(line, number, 5, 1, 1440)
    if not re.fullmatch(rb"[OC=]*", line[9:]):
        raise Refused(5, number)
    return minutes, line[9:]


def read_text(text):
    """The network and the steps of a text: for each its minutes and pattern."""
    lines = whole_lines(text)
    network = read_sheet(lines)
    pipes = len(network.pipes)
    line = line_due(lines, 2 + pipes, b"SCHD", 9)
    last = 2 + pipes + number_in(line, 2 + pipes, 5, 1, 100)
    steps = [read_step(lines, number, pipes) for number in range(3 + pipes, 1 + last)]
    if text.split(b"\n", last)[last]:
        raise Refused(7, last + 1)
    return network, steps


# Networks


def open_pipes(network):
    return [pipe for pipe, is_open in zip(network.pipes, network.open) if is_open]


def reached_from(start, left):
    """The junctions reached, each with the one before it on a shortest path."""
    before = {start: start}
    waiting = deque([start])
    while waiting:
        here = waiting.popleft()
        for there, amount in left[here].items():
            if amount and there not in before:
                before[there] = here
                waiting.append(there)
    return before


def greatest_flow(network):
    """The greatest value, and how much more could then flow from each junction to each other one."""
    left = defaultdict(lambda: defaultdict(int))
    for start, end, limit in open_pipes(network):
        left[start][end] += limit
        left[end][start] += 0
    value = 0
    while True:
        before = reached_from(network.pump, left)
        if network.outlet not in before:
            return value, left
        path = [network.outlet]
        while path[-1] != network.pump:
            path.append(before[path[-1]])
        steps = list(zip(path[1:], path))
        amount = min(left[here][there] for here, there in steps)
        for here, there in steps:
            left[here][there] -= amount
            left[there][here] += amount
        value += amount


def report_by_flow(network):
    value, left = greatest_flow(network)
    back = defaultdict(dict)
    for here, row in left.items():
        for there, amount in row.items():
            back[there][here] = amount
    near = set(reached_from(network.pump, left))
    far = set(range(network.junctions)) - set(reached_from(network.outlet, back))
    return value, near, far


def report_by_cuts(network):
    others = set(range(network.junctions)) - {network.pump, network.outlet}
    pipes = open_pipes(network)
    cuts = defaultdict(list)
    for size in range(1 + len(others)):
        for some in combinations(others, size):
            inside = {network.pump, *some}
            capacity = sum(pipe.limit for pipe in pipes if pipe.start in inside and pipe.end not in inside)
            cuts[capacity].append(inside)
    least = min(cuts)
    return least, set.intersection(*cuts[least]), set.union(*cuts[least])


def report_of(network):
    report = report_by_flow(network)
    if network.junctions <= SMALL and report != report_by_cuts(network):
        sys.exit(f"flow and cuts disagree: {network}")
    return report


def governs(network, number, value):
    if not network.open[number]:
        return False
    pipes = list(network.pipes)
    pipes[number] = pipes[number]._replace(limit=pipes[number].limit + 1)
    return greatest_flow(network._replace(pipes=pipes))[0] > value


# Pages and cases


def page_of(text):
    """The lines of the rating page."""
    network, steps = read_text(text)
    lines, total = [], 0
    for number, (minutes, pattern) in enumerate(steps, 1):
        letters = pattern.decode()
        network = network._replace(open=[{"O": True, "C": False, "=": was}[letter]
                                         for letter, was in zip(letters, network.open)])
        value, near, far = report_of(network)
        sides = ["N" if j in near else "B" if j in far else "D" for j in range(network.junctions)]
        marks = ["G" if governs(network, k, value) else "." for k in range(len(network.pipes))]
        lines.append(b"RATE%5d%9d%s" % (number, value, "".join(sides).encode()))
        lines.append(b"GOVN%5d%s" % (number, "".join(marks).encode()))
        total += value * minutes
    return lines + [b"TOTL%14d" % total]


def sheet_alone(text, refused):
    """What reading the sheet alone says, if that is something else than the refusal of the text."""
    lines = whole_lines(text)
    try:
        count = 1 + len(read_sheet(lines).pipes)
    except Refused as other:
        return b"" if other.line == refused.line else b", sheet " + other.line
    return b", sheet of %d bytes" % sum(len(line) + 1 for line in lines[:count])


def answer_to(mark, text):
    """Of the marks, w gives one workspace place too few, < a space one byte too short, = one as long as the page, and + asks
    for the whole page. That - leaves out the last byte is done before."""
    try:
        if mark == b"w":
            raise Refused(9)
        page = page_of(text)
        if mark == b"<":
            raise Refused(9)
    except Refused as refused:
        return refused.line + sheet_alone(text, refused)
    if mark == b"+":
        return b"\n" + b"\n".join(page)
    return b"%d bytes, %s" % (sum(len(line) + 1 for line in page), page[-1])


for mark, name, text in CASE.findall(sys.stdin.buffer.read()):
    answer = answer_to(mark, text[:-1] if mark == b"-" else text)
    sys.stdout.buffer.write(name + b": " + answer + b"\n")
