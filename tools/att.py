"""Reads AT&T text for scripts: docs/FORMATS.md says what it is."""
import re

STATE = re.compile(r'0|[1-9][0-9]*')
MOST_STATE = 2 ** 64 - 1
NOTHING = '@0@'


def is_state(field):
    return STATE.fullmatch(field) is not None and int(field) <= MOST_STATE


def read(text):
    """The arcs of a text, each with the states that it leaves and enters and its upper and lower symbol, which is None for nothing; its final states, in
    order; and the first line that is neither an arc nor a final state, None where there is none."""
    arcs, finals = [], {}
    lines = text.replace('\r\n', '\n').split('\n')
    # behind the last newline stands no line
    for number, line in enumerate(lines[:-1] if lines[-1] == '' else lines, 1):
        fields = line.split('\t')
        if len(fields) == 1 and is_state(line):
            finals[line] = None
        elif len(fields) in (3, 4) and is_state(fields[0]) and is_state(fields[1]) and all(fields[2:]):
            up, low = fields[2], fields[-1]
            arcs.append((fields[0], fields[1], None if up == NOTHING else up, None if low == NOTHING else low))
        else:
            return arcs, list(finals), number
    return arcs, list(finals), None
