"""Cases, running a program on them, comparing answers, and naming the mistakes that explain the differences."""

import json
import os
import subprocess
import threading
from itertools import combinations

from model.answers import answer, exact_value
from model.mistakes import MISTAKES, Code

HERE = os.path.dirname(os.path.abspath(__file__))
COMMANDS = ['contract', 'overlap', 'expect', 'mpo']
UNSUPPORTED = 77                # the exit status of a program that does not support what the document needs
HYPOTHESES = [(one,) for one in MISTAKES] + list(combinations(MISTAKES, 2))


class Case:
    """A document with the answer of a command. Its keys `shows`, `why` and `needs` are about the case: `needs` lists
    `exact` (numbers that floating point does not hold), `limit` (a sum passes) and `twist` (twisted labels)."""

    def __init__(self, folder, topic, name, command):
        self.key = '%s/%s' % (topic, name)
        self.topic, self.command = topic, command
        self.path = os.path.join(folder, topic, name)
        with open(self.path + '.json', encoding='utf-8') as file:
            self.text = file.read()
        with open('%s.%s' % (self.path, command), encoding='utf-8') as file:
            self.answer = file.read()
        self.document = json.loads(self.text)
        self.shows = self.document['shows']
        self.needs = self.document.get('needs', [])


def load_cases(folder=os.path.join(HERE, 'cases')):
    cases = []
    for topic in sorted(os.listdir(folder)):
        for file in sorted(os.listdir(os.path.join(folder, topic))):
            name, command = os.path.splitext(file)
            if command[1:] in COMMANDS:
                cases.append(Case(folder, topic, name, command[1:]))
    return cases


class Tensor:
    """A tensor that was written: its group, legs and flux, and its entries other than 0."""

    def __init__(self, text):
        document = json.loads(text)
        self.shape = [document['group'], document['legs'], document['flux']]
        self.entries = {(tuple(sectors), offset): (number(entry[0]), number(entry[1]))
                        for sectors, data in document['blocks'] for offset, entry in enumerate(data)}
        self.entries = {place: entry for place, entry in self.entries.items() if entry != (0, 0)}

    def agrees(self, wanted, relative):
        """Whether this is the wanted tensor: exactly, or with errors of at most `relative` times its largest part."""
        if self.shape != wanted.shape or not relative:
            return self.shape == wanted.shape and self.entries == wanted.entries
        scale = max([1] + [abs(part) for entry in wanted.entries.values() for part in entry])
        return all(abs(mine - other) <= relative * scale
                   for place in set(self.entries) | set(wanted.entries)
                   for mine, other in zip(self.entries.get(place, (0, 0)), wanted.entries.get(place, (0, 0))))


def number(part):
    """A part of an entry: a number, or a text with one."""
    if isinstance(part, str):
        try:
            return int(part)
        except ValueError:
            return float(part)
    return part


def agree(got, wanted, relative=None):
    """Whether two lines, each a tensor's text or another answer, say the same."""
    if got == wanted:
        return True
    try:
        return Tensor(got).agrees(Tensor(wanted), relative)
    except (ValueError, KeyError, TypeError, IndexError, OverflowError):
        return False


def shown(line, length=60):
    """A line in short: a scalar as a number, a tensor as its flux and its blocks."""
    try:
        document = json.loads(line)
        blocks = [[sectors, [complex_text(*entry) for entry in data]] for sectors, data in document['blocks']]
        if document['legs'] == []:
            line = blocks[0][1][0] if blocks else '0'
            line += ' of flux %s' % document['flux'] if any(document['flux']) else ''
        else:
            line = ' '.join('%s: %s' % (sectors, ', '.join(data)) for sectors, data in blocks) or '0'
            line += ' of flux %s' % document['flux'] if any(document['flux']) else ''
    except (ValueError, KeyError, TypeError, IndexError):
        pass
    return line if len(line) <= length else line[:length - 3] + '...'


def complex_text(re, im):
    re, im = str(re), str(im)
    if im in ('0', '0.0'):
        return re
    return (re if re not in ('0', '0.0') else '') + ('+' if re not in ('0', '0.0') and im[0] != '-' else '') + im + 'i'


def run_program(command, name, text, seconds=60):
    """What a program writes, where its last argument is the name of a command of qntn: the line of its answer, or that
    in which it says that a sum passes, or a line `no answer: ..`. None where it does not support the document. What mpo
    writes is contracted."""
    try:
        ran = subprocess.run(command + [name], input=text.encode(), stdout=subprocess.PIPE, stderr=subprocess.PIPE,
                             timeout=seconds)
    except subprocess.TimeoutExpired:
        return 'no answer: it took more than %d seconds' % seconds
    if ran.returncode == UNSUPPORTED:
        return None
    if ran.returncode:
        lines = ran.stderr.decode('utf-8', 'replace').strip().split('\n')
        return lines[-1] if 'passed' in lines[-1] else 'no answer: exit status %d %s' % (ran.returncode, lines[-1])
    out = ran.stdout.decode('utf-8', 'replace')
    return contracted(out) if name == 'mpo' else out[:-1] if out.endswith('\n') else out


class Lines:
    """A program that is started once, with `lines` as its last argument. It reads lines, each the name of a command, a
    blank and a document, and writes for each one line: the answer, or `unsupported`."""

    def __init__(self, command):
        self.program = subprocess.Popen(command + ['lines'], stdin=subprocess.PIPE, stdout=subprocess.PIPE,
                                        stderr=subprocess.DEVNULL)

    def run(self, name, document, seconds=60):
        watch = threading.Timer(seconds, self.program.kill)
        watch.start()
        try:
            self.program.stdin.write(('%s %s\n' % (name, json.dumps(document))).encode())
            self.program.stdin.flush()
            line = self.program.stdout.readline().decode('utf-8', 'replace')
        except BrokenPipeError:
            line = ''
        watch.cancel()
        if not line.endswith('\n'):
            return 'no answer: the program has ended'
        line = line.rstrip('\r\n')
        return None if line == 'unsupported' else contracted(line) if name == 'mpo' else line

    def close(self):
        self.program.stdin.close()
        self.program.wait()


def contracted(text):
    """The tensor that a network is worth, by the model; a tensor is its own worth."""
    try:
        document = json.loads(text)
        return answer('contract', document) if 'tensors' in document else text.rstrip('\n')
    except (ValueError, KeyError, TypeError, IndexError):
        return 'no answer: not a network: ' + text[:60]


class Verdict:
    """What a program's answers come to."""

    def __init__(self, cases, answers, wanted, same, table):
        self.judged = [case for case in cases if answers[case.key] is not None]
        self.unsupported = [case for case in cases if answers[case.key] is None]
        self.differing = [case for case in self.judged if not same(answers[case.key], wanted(case))]
        self.answers = answers
        self.answered = [case for case in self.judged if not answers[case.key].startswith('no answer')]
        self.unanswered = [case for case in self.judged if case not in self.answered]
        self.fits = {}          # for each case and each answer in the table: whether the program gave that answer
        for case in self.judged:
            others = [rebuilt(case, each) for each, _ in table.get(case.key, [])]
            self.fits[case.key] = [case not in self.differing] + [same(answers[case.key], each) for each in others]
        self.places = {case.key: places(table.get(case.key, [])) for case in self.judged}

    def explains(self, hypothesis, cases):
        """How many of the cases a code with these mistakes would answer as the program did."""
        return sum(self.fits[case.key][self.places[case.key].get(hypothesis, 0)] for case in cases)

    def explanations(self, cases=None):
        """The mistakes that explain all answers to the cases; where none does, the pairs of mistakes."""
        cases = self.answered if cases is None else cases
        for size in (1, 2):
            found = [h for h in HYPOTHESES if len(h) == size and self.explains(h, cases) == len(cases)]
            if found:
                return found
        return []

    def nearest(self):
        """The mistake or pair that explains most answers, and how many of the differing ones it explains."""
        best = max(HYPOTHESES, key=lambda h: (self.explains(h, self.answered), -len(h)))
        return best, self.explains(best, self.differing), self.explains(best, self.answered)


def places(rows):
    """For each mistake or pair of mistakes that changes an answer, the number of the answer that it gives."""
    return {HYPOTHESES[h]: number for number, (_, numbers) in enumerate(rows, 1) for h in numbers}


def rebuilt(case, row):
    """An answer of the table as a line: what it does not have is as in the right answer."""
    return row if isinstance(row, str) else json.dumps(dict(json.loads(case.answer), **row), separators=(',', ':'),
                                                       sort_keys=True)


def load_table():
    """For each case the answers that codes with mistakes give where they differ from the right one, each with the
    numbers of the mistakes and pairs of mistakes, in the order of HYPOTHESES, that give it."""
    with open(os.path.join(HERE, 'mistakes.json'), encoding='utf-8') as file:
        return json.load(file)


def mistaken(case, mistakes):
    """The answer of a code with mistakes, and which mistakes played a part in it."""
    code = Code(mistakes)
    return answer(case.command, case.document, code), code.asked


def unlimited(case):
    """The answer of a code whose numbers have no limit."""
    return exact_value(case.command, case.document) if 'limit' in case.needs else case.answer.rstrip('\n')
