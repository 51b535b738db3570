#!/usr/bin/env python3
"""audit_mutations.py PROGRAM FOLDER [N] [SEED]: what `audit` accepts of mutated outputs prints the same meaning.

FOLDER has a folder for each case, with the files `words` (one word a line, of `run .. --proofs`) and what they name.
Each case is run, its output is kept as O, and N mutated outputs (20,000) are made of all of them: a byte changed, a
number changed, a line cut, doubled, missing or swapped with another, a key dropped, renamed or taken from another line,
rows in another order or one less, another verdict. Each is audited. One that is accepted must say the same as O: line by line the same JSON, but for
what no test reads (the steps of a spent block, the clause of a stuck one), and for another proof or pair that holds.
Prints how many were tried, accepted and refused by each reason, and each that was accepted and says something else."""
import collections, json, os, random, re, shutil, subprocess, sys, tempfile

program, folder = os.path.abspath(sys.argv[1]), sys.argv[2]
tries = int(sys.argv[3]) if len(sys.argv) > 3 else 20000
random.seed(int(sys.argv[4]) if len(sys.argv) > 4 else 1)


def words_of(case):
    with open(os.path.join(case, 'words'), encoding='utf-8') as f:
        return f.read().split('\n')[:-1]


def audit_words(words):
    keep, out = ('--schema', '--policy', '--tables', '--script'), ['audit']
    for i, word in enumerate(words):
        if word in keep:
            out += [word, words[i + 1]]
        elif word.split('=')[0] in keep:
            out.append(word)
    return out + ['--output', 'O']


def run(words, where):
    r = subprocess.run([program] + words, cwd=where, stdout=subprocess.PIPE, stderr=subprocess.DEVNULL, timeout=120)
    return r.returncode, r.stdout


def said(line):
    """What a line says, without what no test reads and what may stand in its place."""
    it = json.loads(line)
    for key in ('proof', 'pair', 'steps', 'clause'):
        it.pop(key, None)
    if 'begin' in it or 'publish' in it:
        it.pop('version')  # which set a request sees is told by its questions alone
    if it.get('by') in ('template', 'proof'):
        it['by'] = 'steps'
    if it.get('blocked') in ('spent', 'stuck', 'refuted'):
        it['blocked'] = 'blocked'
    return it


def meaning(data):
    return [said(line) for line in data.split(b'\n')[:-1]]


def number(line):
    found = list(re.finditer(rb'-?\d+', line))
    if not found:
        return line
    m = random.choice(found)
    n = int(m.group()) + random.choice((-1, 1, 7, 2**31, 2**63))
    return line[:m.start()] + str(n).encode() + line[m.end():]


def byte(line):
    i = random.randrange(len(line) + 1)
    new = bytes([random.choice((0x20, 0x22, 0x30, 0x5B, 0x7B, 0x2C, 0xFF, random.randrange(256)))])
    return line[:i] + new + line[i + random.randrange(2):]


def member(line, lines):
    try:
        it, other = json.loads(line), json.loads(random.choice(lines))
    except ValueError:
        return line
    key = random.choice(list(it))
    what = random.randrange(5)
    if what == 0:
        del it[key]
    elif what == 1:
        it['zz' + key] = it.pop(key)
    elif what == 2 and other:
        key = random.choice(list(other))
        it[key] = other[key]
    elif what == 3 and isinstance(it.get('rows'), list):
        random.shuffle(it['rows'])
    else:
        it[key] = random.choice((0, None, True, [], {}, '', 'cover', 'proof', 'template', 1.0, -1))
    return json.dumps(it, ensure_ascii=False, separators=(',', ':')).encode()


def verdict(line):
    """Another verdict on the question of a line."""
    try:
        it = json.loads(line)
    except ValueError:
        return line
    if 'request' not in it:
        return line
    rest = {key: it[key] for key in ('line', 'request', 'version')}
    unread = random.choice(('syntax', 'unknown_table', 'unknown_column', 'kind_differs', 'too_long', 'too_many'))
    other = random.choice((
        {'blocked': 'spent', 'steps': 2000}, {'blocked': 'stuck', 'clause': 'value'}, {'unread': unread},
        {'by': 'cover', 'proof': [], 'rows': it.get('rows', [])}, {'by': random.choice(('proof', 'template')), 'proof': [], 'rows': it.get('rows', [])},
        {**it, 'rows': it.get('rows', [])[:-1]}, {**it, 'by': random.choice(('cover', 'proof', 'template'))}))
    return json.dumps({**rest, **other}, ensure_ascii=False, separators=(',', ':')).encode()


def mutate(data):
    lines = data.split(b'\n')[:-1]
    i, j = random.randrange(len(lines)), random.randrange(len(lines))
    what = random.randrange(10)
    if what == 0:
        lines[i], lines[j] = lines[j], lines[i]
    elif what == 1:
        lines.insert(i, lines[j])
    elif what == 2:
        del lines[i]
    elif what == 3:
        return data[:random.randrange(len(data) + 1)]
    elif what == 4:
        lines[i] = byte(lines[i])
    elif what == 5:
        lines[i] = number(lines[i])
    elif what in (6, 7):
        lines[i] = verdict(lines[i])
    else:
        lines[i] = member(lines[i], lines)
    return b''.join(line + b'\n' for line in lines)


cases = []
with tempfile.TemporaryDirectory() as top:
    for name in sorted(os.listdir(folder)):
        at = os.path.join(folder, name)
        if not os.path.isfile(os.path.join(at, 'words')) or '--proofs' not in words_of(at):
            continue
        where = os.path.join(top, name)
        shutil.copytree(at, where)
        status, data = run(words_of(at), where)
        if status == 0 and data.count(b'\n') > 1:
            cases.append((where, audit_words(words_of(at)), data))
    assert cases, 'no case was run'
    told, wrong = collections.Counter(), 0
    for where, words, data in cases:
        with open(os.path.join(where, 'O'), 'wb') as f:
            f.write(data)
        status, out = run(words, where)
        if status:
            wrong += 1
            print('%s: its own output is refused: %s' % (where, out.decode()))
    for _ in range(tries):
        where, words, data = random.choice(cases)
        other = mutate(data)
        with open(os.path.join(where, 'O'), 'wb') as f:
            f.write(other)
        status, out = run(words, where)
        if status == 0:
            told['accepted'] += 1
            if meaning(other) != meaning(data):
                wrong += 1
                print('%s: accepted, and says something else:\n%s' % (where, other.decode('utf-8', 'replace')))
        elif status == 1:
            told[json.loads(out)['reason']] += 1
        else:
            wrong += 1
            print('%s: status %d: %s' % (where, status, out.decode('utf-8', 'replace')))
print('%d outputs of %d cases: %s; %d wrong' % (tries, len(cases), ', '.join('%s %d' % it for it in told.most_common()), wrong))
sys.exit(1 if wrong else 0)
