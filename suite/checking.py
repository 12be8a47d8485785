"""checking.py PROGRAM: the check of the suite itself and of the engine (see check)."""

import os
import sys
from itertools import combinations
from multiprocessing import Pool

from judging import MISTAKES, Verdict, agree, load_cases, load_table, mistaken, places, rebuilt, run_program


def answers_of(case):
    """The model's answer, and those of codes with one mistake each; one that plays no part changes nothing."""
    right, asked = mistaken(case, ())
    return right, {one: mistaken(case, [one])[0] if one in asked else right for one in MISTAKES}


def wrong_answers(cases, program):
    """The cases on which the program writes another text than the answer."""
    for case in cases:
        got, wanted = run_program([program], case.command, case.text), case.answer.rstrip('\n')
        if got != wanted:
            yield '%s: the program writes %s' % (case.key, got)


def wrong_table(cases, made, table):
    """What is not as the answer files and mistakes.json say; suite/remake writes them."""
    for case, (right, singles) in zip(cases, made):
        if case.answer != right + '\n':
            yield '%s: the model answers %s' % (case.key, right)
        rows = table.get(case.key, [])
        at = places(rows)
        for one, line in singles.items():
            number = at.get((one,), 0)
            if not agree(rebuilt(case, rows[number - 1][0]) if number else right, line):
                yield '%s: mistakes.json has another answer for %s' % (case.key, one)


def wrong_names(cases, made, table):
    """The mistakes that are shown by fewer than four cases, not told from another one, or not named by the judge."""
    shows = {one: {case.key: singles[one] for case, (right, singles) in zip(cases, made) if singles[one] != right}
             for one in MISTAKES}
    for one, lines in shows.items():
        if len(lines) < 4:
            yield '%s is shown by %d cases' % (one, len(lines))
    for one, other in combinations(MISTAKES, 2):
        if shows[one] == shows[other]:
            yield '%s and %s are not told apart' % (one, other)
    for one in MISTAKES:
        answers = {case.key: singles[one] for case, (_, singles) in zip(cases, made)}
        verdict = Verdict(cases, answers, lambda case: case.answer.rstrip('\n'), agree, table)
        if verdict.explanations() != [(one,)]:
            yield '%s is taken for %s' % (one, verdict.explanations())


def main():
    if len(sys.argv) != 2:
        print('usage: check PROGRAM')
        return 2
    cases, table = load_cases(), load_table()
    with Pool() as pool:
        made = pool.map(answers_of, cases, 4)
    wrong = list(wrong_table(cases, made, table)) + list(wrong_names(cases, made, table))
    wrong += wrong_answers(cases, os.path.abspath(sys.argv[1]))
    if len(cases) < 150:
        wrong.append('there are %d cases' % len(cases))
    for line in wrong[:20] + (['%d more' % (len(wrong) - 20)] if len(wrong) > 20 else []):
        print('suite: ' + line)
    if not wrong:
        print('suite: %d cases agree; %d mistakes named' % (len(cases), len(MISTAKES)))
    return 1 if wrong else 0


if __name__ == '__main__':
    sys.exit(main())
