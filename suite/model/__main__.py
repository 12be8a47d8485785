"""python3 -m model COMMAND [MISTAKE..] < DOCUMENT: the model as a program, from the folder suite."""

import json
import sys

from .answers import answer, plan
from .mistakes import Code


def main():
    command, mistakes = sys.argv[1], sys.argv[2:]
    document = json.load(sys.stdin)
    line = plan(document) if command == 'plan' else answer(command, document, Code(mistakes))
    passed = line.startswith('qntn: ')
    print(line, file=sys.stderr if passed else sys.stdout)
    return 4 if passed else 0


if __name__ == '__main__':
    sys.exit(main())
