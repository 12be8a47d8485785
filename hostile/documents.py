"""The documents that `run` runs the program on: small ones of all commands, and hostile ones up to the limit."""
import json
import random
from pathlib import Path

TOP = Path(__file__).resolve().parent.parent
LIMIT = 67108864
FERMION = [{'kind': 'u1', 'fermion': True}]
BOSON = [{'kind': 'u1', 'fermion': False}]
TWO = [[[0], 1], [[1], 1]]


def small(folder, short=False):
    """(name, words, path, bytes) of small documents: the examples under all their commands, and generated ones."""
    cases = []
    for path in sorted((TOP / 'examples').glob('*/*.json')):
        for command in ('contract', 'plan', 'mpo', 'overlap', 'expect'):
            if path.with_suffix('.' + command).exists():
                cases.append((path.stem, [command], path))
    kept = set('supertrace combiner fuse_and_split past_the_limit one_hop two_basis_states'.split())
    cases = [case for case in cases if not short or case[0] in kept]
    for name, words, document in made(short):
        path = Path(folder) / (name + '.json')
        path.write_bytes(document if isinstance(document, bytes) else json.dumps(document).encode())
        cases.append((name, words, path))
    if not short:
        plaquette = TOP / 'examples/peps/plaquette_norm.json'
        ring = TOP / 'examples/fermions/tv_ring.json'
        cases += [('plaquette_norm', ['contract', '--workers', '4'], plaquette),
                  ('tv_ring', ['expect', '--workers', '3'], ring), ('tv_ring', ['overlap', '--workers', '64'], ring)]
    return [(name, words, str(path), path.read_bytes()) for name, words, path in cases]


def made(short):
    """Small generated documents: entries as texts, repeated keys, faults, words that don't fit, a generated chain."""
    texts = [[str(3 ** k), str(-5 ** k)] for k in range(40)]
    square = {'legs': [leg('out', [[[0], 40]])], 'flux': [0], 'blocks': [[[0], texts]], 'labels': [-1]}
    one = '{"group":[],"x\\u00e9\\ud83d\\ude00":[{"a":{"b":[null,true,1.5e3]}}],"group":[],"tensors":%s}'
    scalar = '[{"legs":[],"flux":[],"blocks":[[[],["-7"]]],"labels":[],"labels":[]}]'
    wrong = {'group': BOSON, 'tensors': [{'legs': [leg('out', TWO)], 'flux': [0], 'blocks': [[[1], [1]]],
                                          'labels': [-1]}]}
    table = [[0, 1, 0], [0, 0, [0, 2]], [0, 0, 0]]
    own = {'kind': 'own', 'sectors': [[[0], 1], [[1], 1], [[2], 1]], 'ops': {'b': {'charge': [-1], 'table': table}}}
    sums = {'group': BOSON, 'sites': [own, own], 'terms': [{'coef': [1, '-2'], 'ops': [[1, 'b']]},
                                                            {'coef': 3, 'ops': [[2, 'b']]}]}
    yield 'entries_as_texts', ['contract'], {'group': BOSON, 'tensors': [square]}
    yield 'keys_twice', ['contract'], (one % scalar).encode()
    yield 'not_admissible', ['contract'], wrong
    yield 'own_sites', ['mpo'], sums
    yield 'no_json', ['contract'], b'{"group":[}'
    yield 'no_command', ['solve'], b'{}'
    yield 'nothing_twice', ['contract', '--workers', '2', '--workers'], b'{}'
    if not short:
        yield 'generated', ['gen', '25'], b''
        yield 'generated_by_two', ['gen', '25', '--workers', '2'], b''


def leg(arrow, sectors):
    return {'dir': arrow, 'sectors': sectors}


def filled(head, unit, tail, size=LIMIT):
    """A text of exactly `size` bytes: head, the unit as often as it fits, tail, blanks."""
    often = (size - len(head) - len(tail)) // len(unit)
    yield head
    piece, left = unit * (65536 // len(unit) + 1), often
    while left > 0:
        now = min(left, len(piece) // len(unit))
        yield piece[:now * len(unit)]
        left -= now
    yield tail + b' ' * (size - len(head) - len(tail) - often * len(unit))


def distinct_keys(size, step):
    """Keys that are multiples of an odd number below 2^32, so all different: ascending for 1, scattered for others."""
    yield b'{"k":0'
    often = (size - 100) // len(b',"00000000":0')
    for first in range(0, often, 5000):
        keys = range(first, min(first + 5000, often))
        yield b''.join(b',"%08x":0' % (key * step % 2 ** 32) for key in keys)
    yield b'}'


SCALAR = b'{"group":[],"tensors":[{"legs":[],"flux":[],"blocks":[[[],[7]]],"labels":[]}]'


def hostile(short=False):
    """(name, words, pieces, what is wanted) of hostile documents. `done` or `passed` or the fault's code is wanted."""
    size = LIMIT // 16 if short else LIMIT

    def long(head, unit, tail=b''):
        return filled(head, unit, tail, size)

    yield 'brackets', ['contract'], long(b'', b'['), 'F2'
    yield 'closing brackets', ['contract'], long(b'', b']'), 'F2'
    yield 'braces', ['mpo'], long(b'', b'{"a":'), 'F2'
    yield 'brackets and braces', ['expect'], long(b'', b'[{"a":'), 'F2'
    yield 'digits', ['contract'], long(b'', b'9'), 'F2'
    yield 'digits behind a point', ['contract'], long(b'0.', b'0'), 'F3'
    yield 'other digits behind a point', ['contract'], long(b'0.', b'12345678'), 'F3'
    yield 'zeros in an exponent', ['contract'], long(b'1e', b'0', b'1'), 'F3'
    yield 'an exponent', ['contract'], long(b'1e', b'9'), 'F2'
    yield 'a negative exponent', ['contract'], long(b'1e-', b'9'), 'F3'
    yield 'signs', ['contract'], long(b'', b'-'), 'F2'
    yield 'one string', ['contract'], long(b'"', b'a', b'"'), 'F3'
    yield 'one string without end', ['contract'], long(b'"', b'a'), 'F2'
    yield 'one string of escapes', ['contract'], long(b'"', b'\\u0000', b'"'), 'F3'
    yield 'one string of pairs of surrogates', ['contract'], long(b'"', b'\\ud83d\\ude00', b'"'), 'F3'
    yield 'one string of characters of 4 bytes', ['contract'], long(b'"', '\U0001f600'.encode(), b'"'), 'F3'
    yield 'bytes 255', ['contract'], long(b'', b'\xff'), 'F2'
    yield 'bytes 0', ['contract'], long(b'', b'\0'), 'F2'
    yield 'one key', ['contract'], long(b'{"', b'a', b'":0}'), 'F3'
    yield 'keys in order', ['contract'], distinct_keys(size, 1), 'F3'
    yield 'keys in no order', ['contract'], distinct_keys(size, 2654435769), 'F3'
    yield 'repeated keys', ['contract'], long(b'{"b":0', b',"a":0', b'}'), 'F3'
    yield 'repeated groups', ['contract'], long(b'{"group":[]', b',"group":[]', b'}'), 'F3'
    yield 'repeated keys in a document', ['contract'], long(SCALAR, b',"flux":[]', b'}'), 'done'
    yield 'blanks', ['contract'], long(b'', b' '), 'F2'
    yield 'blanks, then a document', ['contract'], long(b'', b'\n', SCALAR + b'}'), 'done'
    yield 'a document, then blanks', ['contract'], long(SCALAR + b'}', b'\t'), 'done'
    yield 'zeros', ['contract'], long(b'[0', b',0', b']'), 'F3'
    yield 'empty lists', ['contract'], long(b'[0', b',[]', b']'), 'F3'
    yield 'empty objects', ['contract'], long(b'[0', b',{}', b']'), 'F3'
    yield 'empty strings', ['contract'], long(b'[0', b',""', b']'), 'F3'
    yield 'lists of lists', ['contract'], long(b'[0', b',[[0]]', b']'), 'F3'
    yield 'objects', ['contract'], long(b'[0', b',{"a":0}', b']'), 'F3'
    yield 'zeros under a key that is passed over', ['contract'], long(SCALAR + b',"x":[0', b',0', b']}'), 'done'
    yield 'lists under a key that is passed over', ['contract'], long(SCALAR + b',"x":[0', b',[]', b']}'), 'done'
    if not short:
        yield 'one byte more, blanks', ['contract'], filled(b'', b' ', b'', LIMIT + 1), 'F1'
        yield 'one byte more, a document', ['contract'], filled(SCALAR + b'}', b' ', b'', LIMIT + 1), 'F1'
        yield 'twice as many', ['contract'], filled(b'', b'[', b'', 2 * LIMIT), 'F1'
    yield from counts(long, size)
    yield from nested()
    yield from numbers()
    yield from wide()
    yield from sums(short)
    if not short:
        yield from greatest()


def counts(long, size):
    """Lists far above their limits."""
    tensor = b'{"group":[],"tensors":[{"legs":[%s],"flux":[],"blocks":[%s],"labels":[%s'
    tail = b']}]}'
    yield 'factors', ['contract'], long(b'{"tensors":[],"group":[{"kind":"u1","fermion":true}',
                                        b',{"kind":"u1","fermion":true}', b']}'), 'F4'
    yield 'tensors', ['contract'], long(b'{"group":[],"tensors":[{"legs":[],"flux":[],"blocks":[],"labels":[]}',
                                        b',{"legs":[],"flux":[],"blocks":[],"labels":[]}', b']}'), 'F7'
    yield 'legs', ['plan'], long(b'{"group":[],"tensors":[{"labels":[],"flux":[],"blocks":[],"legs":['
                                 b'{"dir":"in","sectors":[]}', b',{"dir":"in","sectors":[]}', tail), 'F8'
    yield ('sectors', ['plan'], long(b'{"group":[],"tensors":[{"labels":[],"flux":[],"blocks":[],"legs":['
                                    b'{"dir":"in","sectors":[[[],1]', b',[[],1]', b']}' + tail),
           'F10' if size > 9 * 2 ** 20 else 'F11')
    yield 'labels', ['plan'], long(tensor % (b'', b'', b'1'), b',1', tail), 'F20'
    yield 'blocks', ['plan'], long(b'{"group":[],"tensors":[{"legs":[],"flux":[],"labels":[],"blocks":[[[],[1]]',
                                   b',[[],[1]]', tail), 'F17'
    yield 'data', ['plan'], long(b'{"group":[],"tensors":[{"legs":[],"flux":[],"labels":[],"blocks":[[[],[1',
                                 b',1', b']]' + tail), 'F18'
    yield 'a tuple', ['plan'], long(b'{"group":[],"tensors":[{"legs":[],"flux":[],"labels":[],"blocks":[[[0',
                                    b',0', b'],[]]' + tail), 'F15'
    yield 'an order', ['plan'], long(SCALAR + b',"order":[1', b',1', b']}'), 'F26'
    yield 'sites', ['mpo'], long(b'{"group":[],"terms":[],"sites":[{"kind":"x"}', b',{"kind":"x"}', b']}'), 'F28'
    site = b'{"group":[],"sites":[{"kind":"own","sectors":[[[],1]],"ops":{'
    yield 'terms', ['mpo'], long(site + b'}}],"terms":[{"coef":1,"ops":[]}', b',{"coef":1,"ops":[]}', b']}'), 'F29'
    yield 'operators of a term', ['mpo'], long(site + b'}}],"terms":[{"coef":1,"ops":[[1,"I"]', b',[1,"I"]',
                                               b']}]}'), 'F30'
    yield 'operators of a site', ['mpo'], operators(site, size), 'F32'
    yield 'an operator again and again', ['mpo'], long(site + b'"a":0', b',"a":{"charge":[],"table":[[1]]}',
                                                      b'}}],"terms":[{"coef":1,"ops":[]}]}'), 'done'
    yield 'a table', ['mpo'], long(site + b'"a":{"charge":[],"table":[[1]', b',[1]',
                                   b']}}}],"terms":[{"coef":1,"ops":[]}]}'), 'F18'
    yield 'a charge', ['mpo'], long(b'{"group":[],"sites":[],"terms":[],"sites":[{"kind":"own","ops":{},"sectors":'
                                    b'[[[0', b',0', b'],1]]}]}'), 'F3'


def operators(site, size):
    yield site + b'"a":{"charge":[],"table":[[1]]}'
    length, number = 1000, 0
    while length < size - 250000:
        piece = b''.join(b',"a%d":{"charge":[],"table":[[1]]}' % k for k in range(number, number + 5000))
        number, length = number + 5000, length + len(piece)
        yield piece
    yield b'}}],"terms":[{"coef":1,"ops":[]}]}'


def nested():
    """Nesting at and past the limit of 127, in lists, objects and both, alone and under a key that is passed over."""
    forms = {'lists': (b'[', b']'), 'objects': (b'{"a":', b'}'), 'both': (b'[{"a":', b'}]')}
    for kind, (opened, closed) in forms.items():
        for depth in (100, 126, 127, 128, 129, 200, 100000):
            often = depth // 2 if kind == 'both' else depth
            if kind == 'both' and depth % 2:
                continue
            text = opened * often + b'0' * (kind != 'lists') + closed * often
            yield 'nested %d deep, %s' % (depth, kind), ['contract'], [text], 'F2' if depth > 127 else 'F3'
            yield ('nested %d deep under a key, %s' % (depth, kind), ['contract'],
                   [SCALAR + b',"x":' + text + b'}'], 'F2' if depth > 126 else 'done')


def numbers():
    """Long numbers and texts where a dimension, a charge, a label or an entry is wanted."""
    head = b'{"group":[{"kind":"u1","fermion":false}],"tensors":[{"legs":[{"dir":"in","sectors":[[[%s],%s]]}],'
    rest = b'"flux":[0],"blocks":[[[0],[%s]]],"labels":[%s]}]}'
    million = b'7' * 1000000
    for name, number, wanted in (
            ('a million digits', million, 'F2'), ('400 digits', b'7' * 400, 'F2'), ('300 digits', b'7' * 300, 'F3'),
            ('a million digits behind a point', b'0.' + million, 'F3'), ('1.0', b'1.0', 'F3'), ('1e2', b'1e2', 'F3'),
            ('-0', b'-0', 'F3'), ('2^63', b'9223372036854775808', 'F3'), ('2^63-1', b'9223372036854775807', 'F10'),
            ('-2^63', b'-9223372036854775808', 'F10')):
        yield 'a dimension of ' + name, ['contract'], [head % (b'0', number) + rest % (b'1', b'-1')], wanted
        other = 'F9' if wanted == 'F10' else wanted
        yield 'a charge of ' + name, ['contract'], [head % (number, b'1') + rest % (b'1', b'-1')], other
        other = 'F21' if wanted == 'F10' else wanted
        yield 'a label of ' + name, ['contract'], [head % (b'0', b'1') + rest % (b'1', number)], other
    for name, text in (('digits', million), ('zeros', b'0' * 1000000), ('signs', b'-' * 1000000),
                       ('digits with a sign', b'-' + million)):
        texts = b','.join([b'"' + text + b'"'] * 60)
        yield '60 entries that are texts of a million ' + name, ['contract'], [
            head % (b'0', b'60') + rest % (texts, b'-1')], 'F19'
    entry = b'"170141183460469231731687303715884105727"'
    yield 'an entry at the limit', ['contract'], [head % (b'0', b'1') + rest % (entry, b'-1')], 'done'
    yield 'an entry past it', ['contract'], [head % (b'0', b'1') + rest % (entry[:-2] + b'8"', b'-1')], 'F19'


def wide():
    """Many legs, sectors, combiners and tensors."""
    sectors = [[[k], 1] for k in range(64)]

    def network(members, **more):
        return [json.dumps({'group': BOSON, 'tensors': members, **more}).encode()]

    def tensor(legs, labels):
        return {'legs': legs, 'flux': [0], 'blocks': [], 'labels': labels}

    def combiner(legs, labels, mode='fuse', arrow='out'):
        return {'combine': {'dir': arrow, 'legs': legs, 'mode': mode}, 'labels': labels}

    yield '64 legs of 64 sectors', ['contract'], network([tensor([leg('out', sectors)] * 64, [1] * 64)]), 'F8'
    yield '32 legs of 64 sectors', ['contract'], network([tensor([leg('out', sectors)] * 32, [1] * 32)]), 'F13'
    for mode in ('fuse', 'split'):
        yield ('a combiner of 31 legs of 64 sectors, ' + mode, ['contract'],
               network([combiner([leg('out', sectors)] * 31, [1] * 32, mode)]), 'F11')
        same = [[[0], 1]] * 64
        yield ('a combiner of 31 legs of 64 equal sectors, ' + mode, ['contract'],
               network([combiner([leg('out', same)] * 31, [1] * 32, mode)]), 'F11')
        yield ('a combiner of 31 legs of 1 sector, ' + mode, ['contract'],
               network([combiner([leg('out', [[[0], 1]])] * 31, [-k for k in range(1, 33)], mode)]), 'done')
        chain = [combiner([leg('out', TWO)], [k + 1 or -1, k or -2], mode) for k in range(1000)]
        yield 'a thousand combiners, ' + mode, ['contract'], network(chain), 'F7'
        chain = [combiner([leg('out', TWO)], [k + 1 if k < 255 else -1, k or -2], mode) for k in range(256)]
        if mode == 'split':
            chain = [combiner([leg('out', TWO)], [k or -2, k + 1 if k < 255 else -1], mode) for k in range(256)]
        yield '256 combiners in a chain, ' + mode, ['contract'], network(chain), 'done'
        yield 'the plan of 256 combiners in a chain, ' + mode, ['plan'], network(chain), 'done'
    ones = [leg('out', [[[0], 1]])]
    half = [tensor(ones * 32, [-k for k in range(s, s + 32)]) for s in (1, 33)]
    yield 'a result of 64 legs', ['contract'], network(half), 'done'
    yield 'a result of 65 legs', ['contract'], network(half + [tensor(ones, [-65])]), 'F27'
    yield '256 tensors that share nothing', ['contract'], network([tensor([], [])] * 256), 'done'
    yield '1024 labels at both ends', ['contract'], network([
        tensor(ones * 16 + [leg('in', [[[0], 1]])] * 16, [k for k in range(16 * s + 1, 16 * s + 17)] * 2)
        for s in range(64)]), 'done'


def sums(short):
    """Operator sums of 2,000 terms of 32 operators on 64 sites."""
    draw, sites = random.Random(1), [{'kind': 'fermion'}] * 64

    def document(terms, **more):
        return [json.dumps({'group': FERMION, 'sites': sites, 'terms': terms, **more}).encode()]

    def term(names):
        places = draw.sample(range(1, 65), len(names))
        return {'coef': draw.choice([1, -2, '3', [0, 1]]), 'ops': [[place, name] for place, name in zip(places, names)]}

    count = 100 if short else 2000
    ways = {'creators and annihilators': ['Cdag', 'C'] * 16, 'numbers': ['N'] * 32}
    for name, names in ways.items():
        terms = [term(names) for _ in range(count)]
        yield '%d terms of 32 %s on 64 sites' % (count, name), ['mpo'], document(terms), None
    strings = [{'coef': 1, 'ops': [[1 + k % 64, 'N' if k % 2 else 'I'] for k in range(32)]}] * count
    yield '%d equal terms of 32 operators on 64 sites' % count, ['mpo'], document(strings), None
    one = [{'coef': 1, 'ops': [[1, 'N']] * 32}] * count
    yield '%d terms of 32 operators on one site' % count, ['mpo'], document(one), None
    charges = [{'coef': 1, 'ops': [[k + 1, 'Cdag'] for k in range(32)]}] * count
    yield '%d terms of charge 32' % count, ['mpo'], document(charges), None


def greatest():
    """As many tuples, entries and blocks as a tensor may have."""
    two = [[[0], 1], [[0], 1]]
    legs = [leg('out', two)] * 20
    head = json.dumps({'legs': legs, 'flux': [0], 'labels': [-k for k in range(1, 21)]}).encode()[:-1]
    start = b'{"group":[{"kind":"u1","fermion":false}],"tensors":['
    yield '2^20 tuples', ['contract'], [start, head, b',"blocks":[]}]}'], 'done'
    yield '2^20 blocks', ['contract'], blocks(start + head), 'done'
    square = [leg('out', [[[0], 2048]]), leg('in', [[[0], 2048]])]
    head = json.dumps({'legs': square, 'flux': [0], 'labels': [-1, -2]}).encode()[:-1]
    data = b',-1' * (2 ** 22 - 1)
    yield '2^22 entries', ['contract'], [start, head, b',"blocks":[[[0,0],[1', data, b']]]}]}'], 'done'
    turned = head.replace(b'[-1, -2]', b'[-2, -1]')
    yield '2^22 entries, legs turned', ['contract'], [start, turned, b',"blocks":[[[0,0],[1', data, b']]]}]}'], 'done'
    looped = head.replace(b'[-1, -2]', b'[1, 1]')
    yield 'a trace over 2^22 entries', ['contract'], [start, looped, b',"blocks":[[[0,0],[1', data, b']]]}]}'], 'done'


def blocks(head):
    yield head + b',"blocks":[[[' + b','.join([b'0'] * 20) + b'],[1]]'
    for first in range(1, 2 ** 20, 2 ** 14):
        last = min(first + 2 ** 14, 2 ** 20)
        yield b''.join(b',[[%s],[1]]' % ','.join(format(k, '020b')).encode() for k in range(first, last))
    yield b']}]}'
