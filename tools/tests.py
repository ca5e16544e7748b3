"""Files of tests: words with the answers that are wanted of them. docs/CHECKING.md says how they are written."""
import unicodedata

import program
import sources

OTHERS = '...'


class Word:
    """A word with how it is looked up, where it stands first, the answers that it must have and those that it mustn't, each with its line,
    and whether it may have others, must have one at least, or must have none."""

    def __init__(self, look, word, line):
        self.look, self.word, self.line = look, word, line
        self.wanted, self.barred, self.others, self.none = {}, {}, None, None


def read(path):
    """The words of a file of tests, and its first fault, as the line and what is wrong; None where there is no fault."""
    found, look = {}, None
    for number, line in enumerate(sources.text_of(path).split('\n'), 1):
        if '\t' not in line and (not line.strip(' ') or line.startswith('#')):
            continue
        if '\t' not in line and line.split(' ')[0] in ('up', 'down') and len(line.split()) == 2:
            look = ' '.join(line.split())
            continue
        if look is None:
            return [], (number, 'a line "up NET" or "down NET" stands first')
        is_barred = line.startswith('!')
        word, tab, answer = (line[1:] if line[:1] in ('!', '%') else line).partition('\t')
        if not tab and not is_barred or '\t' in answer:
            return [], (number, 'a line is "up NET", "down NET", WORD tab ANSWER, !WORD, or !WORD tab ANSWER')
        it = found.setdefault((look, word), Word(look, word, number))
        if not tab:
            it.none = number
        elif is_barred:
            it.barred[answer] = number
        elif answer == OTHERS:
            it.others = number
        else:
            it.wanted[answer] = number
    return list(found.values()), None


def differences(it, kind, texts):
    """What differs in a word's answer from what is wanted: the line, and what is said of it."""
    if kind in ('net', 'long', 'line', 'memory'):
        return [(it.line, 'no-answer', kind)]
    has = set() if kind in ('0', 'symbol') else set(texts) if kind.isdigit() else {kind}
    if it.none:
        return [(it.none, 'unexpected', text) for text in sorted(has)]
    if not kind.isdigit() and kind != 'symbol':
        if it.others and not it.wanted and not it.barred:
            return []
        return [(it.line, 'no-answer', kind)]
    said = [(line, 'missing', text) for text, line in it.wanted.items() if text not in has]
    said += [(line, 'unexpected', text) for text, line in it.barred.items() if text in has]
    if it.others and not has:
        said.append((it.others, 'missing', OTHERS))
    if it.wanted and not it.others:
        said += [(it.line, 'unexpected', text) for text in sorted(has - set(it.wanted) - set(it.barred))]
    return sorted(said)


def lines_of(words):
    """The lines of `serve` that look the words up."""
    return ['%s %s' % (it.look, it.word) for it in words]


def judged(words, said):
    """What differs of words that were answered so: the line, what differs, the word, and the answer, by their lines."""
    found = []
    for it, (kind, texts) in zip(words, said):
        found += [(line, what, it, text) for line, what, text in differences(it, kind, texts)]
    return sorted(found, key=lambda each: each[0])
