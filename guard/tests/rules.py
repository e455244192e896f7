"""rules.py LEVELS LOG...: are the answers in the logs of steps.c those of the rules, with every call told? Written from
docs/RULES.md alone, without a look at the guard: a label, a level and a set of shop marks, falls by a read or a write, never
otherwise; an open is refused exactly where something could then reach a file that it is not at least the label of. Sets of
these files stand in the levels file as numbers. Prints opens, refusals, how many of these lack shop marks alone, and answers
that differ."""
import fnmatch
import sys

TOP = (15, 255)


def read_levels(path):
    """The labels of the files of steps.c: the first line that fits, without a set all marks."""
    with open(path) as file:
        lines = [line.split('#')[0].split() for line in file]
    lines = [line for line in lines if line and line[0] != 'name']
    def label(name):
        _, level, *shops = next(line for line in lines if fnmatch.fnmatch(name, line[0]))
        return int(level), int(shops[0]) if shops else 255
    return {name: label(name) for name in ('f2', 'f5', 'f9', 'f9b', 'f12')}


def at_least(a, b):
    return a[0] >= b[0] and a[1] & b[1] == b[1]


def fallen(a, b):
    return min(a[0], b[0]), a[1] & b[1]


def joined(a, b):
    return max(a[0], b[0]), a[1] | b[1]


FILES = read_levels(sys.argv[1])


def check(lines):
    label, steps, held, mapped = dict(FILES), {'0': TOP}, {'0': {}}, {'0': set()}
    pipes = asked = refused = marks = bad = 0

    def below(extra):
        """The things that are below a file which they reach: what each has, and what it needs."""
        edges = [(o, s) if w == 'r' else (s, o) for s in held for o, w in held[s].values()]
        edges += [(o, s) for s in mapped for o in mapped[s]] + extra
        need = {thing: label[thing] if thing in FILES else (0, 0) for thing in [*label, *steps]}
        for _ in range(len(need) + 1):
            for a, b in edges:
                need[a] = joined(need[a], need[b])
        has = {x: label[x] if x in label else steps[x] for x in need}
        return [(has[x], need[x]) for x in need if not at_least(has[x], need[x])]

    for line in lines:
        me, what, *words = line.split()
        if what == 'open':
            file, way, number = words[0], words[1], int(words[2])
            asked += 1
            refused += number < 0
            low = below([(file, me) if way == 'r' else (me, file)])
            marks += bool(low) and all(has[0] >= need[0] for has, need in low)
            if bool(low) != (number < 0):
                bad += 1
                print('DIFFERS', line.strip())
            if number >= 0:
                held[me][number] = (file, way)
        elif what == 'pipe':
            pipes += 1
            pipe = f'p{pipes}'
            label[pipe] = steps[me]
            held[me][int(words[0])], held[me][int(words[1])] = (pipe, 'r'), (pipe, 'w')
        elif what == 'fork':
            steps[words[0]], held[words[0]], mapped[words[0]] = steps[me], dict(held[me]), set(mapped[me])
        elif what == 'exit':
            del steps[me], held[me], mapped[me]
        elif what == 'close':
            del held[me][int(words[0])]
        elif what == 'dup':
            held[me][int(words[1])] = held[me][int(words[0])]
        elif what == 'read':
            steps[me] = fallen(steps[me], label[held[me][int(words[0])][0]])
        elif what == 'map':
            file = held[me][int(words[0])][0]
            mapped[me].add(file)
            steps[me] = fallen(steps[me], label[file])
        elif what == 'write':
            thing = held[me][int(words[0])][0]
            if thing not in FILES:
                label[thing] = fallen(label[thing], steps[me])
        else:
            bad += 1
            print('ODD', line.strip())
        live = {thing for s in held for thing, _ in held[s].values()}
        for pipe in [thing for thing in label if thing not in FILES and thing not in live]:
            del label[pipe]
    return asked, refused, marks, bad


total = [0, 0, 0, 0]
for name in sys.argv[2:]:
    with open(name) as log:
        found = check(log)
    if found[3]:
        print('in', name)
    total = [a + b for a, b in zip(total, found)]
print('%d opens, %d refused, of these %d for shop marks alone, %d differ' % tuple(total))
has_sets = any(shops != 255 for _, shops in FILES.values())
sys.exit(total[3] > 0 or total[1] == 0 or has_sets != (total[2] > 0))
