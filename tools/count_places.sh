#!/usr/bin/env bash
# Counts the places that docs/DESIGN-PASS.md is about, point by point. Run it at the top of a tree of this repository:
#     bash tools/count_places.sh          every point
#     bash tools/count_places.sh 3 5      points 3 and 5
# It reads the sources (and, for point 8, the proofs) as text, and prints each hit with its place, and totals.
# What it finds is approximate: docs/DESIGN-PASS.md says where the reading decides otherwise.
set -uo pipefail
export LC_ALL=C.UTF-8

mapfile -t SOURCES < <(find crates/*/src -name '*.rt' | sort)

# Lines of the sources that match a pattern, as file:line: text.
lines() { grep -nE "$1" "${SOURCES[@]}" | sed -E 's/^([^:]+:[0-9]+):[[:space:]]*/\1: /'; }

# Shows the hits of one command, a line each, and adds their number to the point's total.
show() {
    local label=$1 hits n=0
    hits=$(cat)
    if [ -n "$hits" ]; then n=$(wc -l <<<"$hits"); fi
    printf '  %s: %d\n' "$label" "$n"
    if [ -n "$hits" ]; then sed 's/^/    /' <<<"$hits"; fi
    total=$((total + n))
}

# The sources taken apart into functions, types and loops; the first argument says what is asked of them.
parsed() {
    python3 - "$@" "${SOURCES[@]}" <<'PY'
import collections, difflib, itertools, re, sys

ask, files = sys.argv[1], sys.argv[2:]
Function = collections.namedtuple('Function', 'file line name free head body')


# Whether the head of a function ends with a line: at its `;`, or where its body begins.
def head_ends(line):
    return line.endswith(';') or not re.match(r'\s*(requires|ensures)\b', line) and bool(re.search(r'\{$|\{.*\}$', line))


def functions():
    for file in files:
        text = open(file, encoding='utf-8').read().split('\n')
        i = 0
        while i < len(text):
            start = re.match(r'(\s*)(?:pub(?:\([a-z]+\))? )?(?:const )?fn ([a-z_0-9]+)', text[i])
            if not start:
                i += 1
                continue
            indent, name = start.groups()
            j = i
            while j + 1 < len(text) and not head_ends(text[j]):
                j += 1
            k = j
            if text[j].endswith('{'):
                while k + 1 < len(text) and text[k] != indent + '}':
                    k += 1
            yield Function(file, i + 1, name, not indent, text[i:j + 1], text[j + 1:k])
            i = k + 1


def where(f):
    return f'{f.file}:{f.line} {f.name}'


KEPT = set('if else match for while loop let mut return Some None Ok Err true false in self Self'.split())


# A body with names, numbers and texts left out, so that bodies which differ only in those are equal.
def shape(f):
    text = '\n'.join(re.sub(r'//.*', '', line) for line in f.body)
    text = re.sub(r'b?"[^"]*"|b\'[^\']*\'', ' 0 ', text)
    words = re.findall(r'[A-Za-z_][A-Za-z_0-9]*|\d[\d_]*|[^\s\w]', text)
    words = [w if w in KEPT or not re.match(r'\w', w) else '_' for w in words]
    return re.sub(r', ([\)\]\}])', r'\1', ' '.join(words)).split()


def shape_groups():
    found = [(f, shape(f)) for f in functions()]
    found = [(f, s) for f, s in found if len(s) >= 8]
    lead = list(range(len(found)))

    def root(i):
        while lead[i] != i:
            i = lead[i]
        return i

    for i, j in itertools.combinations(range(len(found)), 2):
        a, b = found[i][1], found[j][1]
        same = a == b
        if not same and min(len(a), len(b)) >= 24 and max(len(a), len(b)) <= 1.5 * min(len(a), len(b)):
            same = difflib.SequenceMatcher(None, a, b, autojunk=False).ratio() >= 0.87
        if same:
            lead[root(j)] = root(i)
    groups = collections.defaultdict(list)
    for i, (f, _) in enumerate(found):
        groups[root(i)].append(f)
    return [g for g in groups.values() if len(g) > 1]


def name_groups():
    together = {where(f): i for i, g in enumerate(shape_groups()) for f in g}
    names = collections.defaultdict(list)
    for f in functions():
        if f.free:
            names[f.name].append(f)
    for group in names.values():
        crates = {f.file.split('/')[1] for f in group}
        if len(crates) > 1 and len({together.get(where(f), where(f)) for f in group}) > 1:
            yield group


# Structs and enums with the names and the texts of their fields or cases.
def types():
    for file in files:
        text = open(file, encoding='utf-8').read()
        for m in re.finditer(r'^(?:pub(?:\([a-z]+\))? )?(struct|enum) (\w+)[^\n]*\{\n(.*?)^\}', text, re.M | re.S):
            inside = [re.sub(r'//.*', '', x).strip() for x in m.group(3).split('\n')]
            inside = [x for x in inside if x and not re.match(r'ghost |#', x)]
            yield f'{file}:{text[:m.start()].count(chr(10)) + 1} {m.group(2)}', m.group(1), inside


def type_groups():
    groups = collections.defaultdict(list)
    for place, kind, inside in types():
        names = tuple(re.match(r'(?:pub )?(\w+)', x).group(1) for x in inside if re.match(r'(?:pub )?\w+', x))
        if len(names) > 1:
            groups[kind, names].append(place)
    return [g for g in groups.values() if len(g) > 1]


def one_empty_case():
    for place, kind, inside in types():
        empty = [x for x in inside if re.fullmatch(r'\w+,', x)]
        if kind == 'enum' and len(empty) == 1 and len(inside) > 1:
            yield f'{place}: {empty[0][:-1]}'


def constants():
    found = collections.defaultdict(list)
    for file in files:
        for n, line in enumerate(open(file, encoding='utf-8'), 1):
            m = re.match(r'(?:pub )?const (\w+: .* = .*);', line)
            if m:
                found[m.group(1)].append(f'{file}:{n}')
    for text, places in found.items():
        if len(places) > 1:
            yield f'{", ".join(places)}: {text}'


# Loops with their bodies: the place, the head, the lines inside.
def loops():
    for file in files:
        text = open(file, encoding='utf-8').read().split('\n')
        for n, line in enumerate(text):
            m = re.match(r"(\s*)(?:let \w+ = )?(?:'\w+: )?(for|while|loop)\b.*\{$", line)
            if m:
                end = next((k for k in range(n + 1, len(text)) if re.match(m.group(1) + r'\}', text[k])), n + 1)
                yield f'{file}:{n + 1}', line.strip(), text[n + 1:end]


# What a chain, a range or a library method would do, by the kind of the loop.
def loop_kind(head, body):
    inside = '\n'.join(body)
    counted = re.match(r'while (\w+) < ', head)
    if re.match(r'for \w+ in 0\.\.', head) or counted and f'{counted.group(1)} += ' in inside:
        return 'index'
    if re.search(r'^\s*\w+\[\w+\] = ', inside, re.M):
        return 'index'
    if head.startswith('for ') and re.search(r'return (true|false|Some\(|&|[a-z]\w*;)', inside):
        return 'search'
    if re.match(r'while .*(next|more)\(\)', head) and len(body) <= 4 and re.search(r'return (true|false)', inside):
        return 'search'
    if head == 'loop {' and 'skip_past(' in inside:
        return 'search'
    if head.startswith('for ') and len(body) <= 2 and re.search(r'^\s*\w+ \+= |least|most', inside, re.M):
        return 'sum'
    return None


def clauses(f, words):
    for line in f.head:
        m = re.match(rf'\s*(?:{words})\b[^{{]*\{{(.*)\}};?$', line)
        if m:
            yield m.group(1).strip()


# The facts that a `requires` joins by ×.
def facts(clause):
    for part in re.split(r'\s×\s', clause):
        part = part.strip()
        while part.startswith('(') and part.count('(') > part.count(')'):
            part = part[1:].strip()
        while part.endswith(')') and part.count(')') > part.count('('):
            part = part[:-1].strip()
        if re.fullmatch(r'\([^()]*\)', part):
            part = part[1:-1].strip()
        yield part


def said_often(pairs):
    found = collections.defaultdict(set)
    for fact, f in pairs:
        found[fact].add(f'{f.file}:{f.line} {f.name}')
    for fact, places in sorted(found.items(), key=lambda x: (-len(x[1]), x[0])):
        if len(places) >= 3:
            yield f'{len(places)} × {fact}: {", ".join(sorted(places))}'


# Facts in the words of a representation or of a place in a file, which clauses repeat.
REPEATED = [r'if [\w.]*ended then', r'Holds \w+ \w+ [\w.]+', r'take [\w.]*\blen ', r'event_at event', r'lists_fit',
            r'parts \(B\.Bytes\.left', r'length \(view lines\.new\) ≤', r'Kept \(', r'\w\.Source\.ready',
            r'pieces 44']


def repeated():
    for f in functions():
        for clause in clauses(f, 'requires|ensures'):
            for pattern in REPEATED:
                if re.search(pattern, clause):
                    yield pattern, f


def parameters(f):
    head = re.split(r'\n\s*(?:requires|ensures)\b', '\n'.join(f.head))[0]
    inside = re.search(r'\((.*)\)', head, re.S)
    inside = re.sub(r"'\w+ ?", '', inside.group(1)) if inside else ''
    return sorted({f'{a}: {b.strip()}' for a, b in re.findall(r'(\w+): ((?:\([^()]*\)|[^,()])+)', inside)})


# Pairs of parameters that three or more functions take, and that the functions with the rarer one mostly take together.
def travellers():
    having, both = collections.Counter(), collections.defaultdict(list)
    for f in functions():
        mine = parameters(f)
        having.update(mine)
        for pair in itertools.combinations(mine, 2):
            both[pair].append(f)
    for (a, b), found in both.items():
        if len(found) >= 3 and len(found) >= 0.75 * min(having[a], having[b]):
            for f in found:
                yield f'{a}, {b}', f


def answer():
    if ask == 'empty-cases':
        return one_empty_case()
    if ask == 'shapes':
        return ('; '.join(map(where, g)) for g in shape_groups())
    if ask == 'names':
        return ('; '.join(map(where, g)) for g in name_groups())
    if ask == 'types':
        return ('; '.join(g) for g in type_groups())
    if ask == 'constants':
        return constants()
    if ask in ('index', 'search', 'sum'):
        return (f'{place}: {head}' for place, head, body in loops() if loop_kind(head, body) == ask)
    if ask == 'facts':
        return said_often((fact, f) for f in functions() for c in clauses(f, 'requires') for fact in facts(c))
    if ask == 'repeated':
        return said_often(repeated())
    return said_often(travellers())


for hit in answer():
    print(hit)
PY
}

point_1() {
    show 'arms that hand None or Err on, or stand in for it' \
        < <(lines '^\s*(None|Err\(\w+\)) => ')
    show 'arms that keep a value under a test' \
        < <(grep -nE -A1 '^\s*Some\((\w+)\) if .* => Some\(\w+\),$' "${SOURCES[@]}" | grep -E '_ => None,$' | sed -E 's/-([0-9]+)-\s*/:\1: /')
    show 'let .. else' < <(lines '^\s*let (Some|Ok)\(.*\) = .* else \{')
    show 'if let Err' < <(lines 'if let Err\(')
    show 'fields that say whether there is more' \
        < <(lines '^\s+(pub )?(ended|done|found|present|filled|is_\w+|has_\w+): bool,$')
    show 'a value with a flag that says whether it counts' < <(lines 'fn .*[( ](keep|found|present|valid): bool')
    show 'a flag, and what was found in the lent cursor' < <(lines 'fn \w+.*&mut .* -> bool$')
    show 'enums with one empty case beside cases with values' < <(parsed empty-cases)
    show 'numbers of kinds and refusals' < <(lines 'fn (number|code|kind)\(self\) -> u')
}

point_2() {
    show 'groups of functions whose bodies have one shape, or nearly' < <(parsed shapes)
    show 'free functions of one name in two crates, of other shapes' < <(parsed names)
    show 'types with the same fields or cases' < <(parsed types)
    show 'constants that stand in two files' < <(parsed constants)
}

point_3() {
    show 'loops with an index' < <(parsed index)
    show 'search loops' < <(parsed search)
    show 'sums and least ones' < <(parsed sum)
    show 'own iterators' < <(lines 'fn next\(&mut self\) -> Option')
}

point_4() {
    show 'tests for equality and order' < <(lines 'fn same_(code|letter|word)\(|\.cmp\(&\w+\)\.is_|% 7 == ' | grep -vE 'ensures|requires')
    show 'a bound on each side' < <(lines '(\w <= \w.* && .*\w <= \w|< 1 \|\| .* > )' | grep -vE 'ensures|requires|\.len <= ')
    show 'casts' < <(lines ' as (u8|u16|u32|u64|usize)\b' | grep -v 'fn ')
    show 'numbers and letters of cases' < <(lines 'fn ((number|letters)\(self\)|of\(\w+: u)')
    show 'texts' < <(lines 'fn (\w*_text|\w+_head|zeros|padded|last_digit)[<(]|struct \w+Text\(' | grep -vE 'Bytes>|RuleText|\(\)$')
}

point_5() {
    show 'facts that three or more functions require' < <(parsed facts)
    show 'facts that the clauses of three or more functions repeat' < <(parsed repeated)
    show 'pairs of parameters that three or more functions take' < <(parsed together)
}

point_6() {
    show 'a length beside an array' < <(lines '^\s+(pub )?len: usize,$')
    show 'arrays side by side' < <(lines '^\s+pub \w+: \[\w+; 13\],$')
    show 'slots with the number in use beside' < <(lines 'fn \w+<T.*slots: &mut \[T\], used: usize|\[0; SLOTS\]')
    show 'the first len places' < <(lines '\.at\[|&\w+\.at, ')
    show 'the months of a sheet by index or length' < <(lines '\.(codes|lengths)(\[|$)')
    show 'slices side by side' < <(lines '\b\w+\[(i|place)\]' | grep -vE '=>|\[i\] = ')
}

point_7() {
    show 'chains that choose by a word' < <(grep -nE -A4 '^\s*if (same_word|reads)\(' "${SOURCES[@]}" | grep -E -B4 '\} else if (same_word|reads)\(' | grep -E '^[^:]+:[0-9]+:\s*if ' | sed -E 's/^([^:]+:[0-9]+):\s*/\1: /')
    show 'tables of functions, function pointers, dyn' < <(lines '\[fn\b|: fn\(|\bdyn ')
    show 'numbers that choose a step' < <(lines '^\s*[0-9]+ => \w+\(')
}

point_8() {
    local crate kind files
    for crate in crates/*/; do
        for kind in answers invariants own; do
            case $kind in
                answers) files=$(find "$crate/proofs" -name Answers.antt 2>/dev/null | sort) ;;
                invariants) files=$(find "$crate/proofs" -name Invariants.antt 2>/dev/null | sort) ;;
                own) files=$(find "$crate/proofs" -name '*.antt' ! -name Answers.antt ! -name Invariants.antt ! -name Lib.antt 2>/dev/null | sort) ;;
            esac
            if [ -n "$files" ]; then
                show "$(basename "$crate"), $kind" < <(xargs wc -l <<<"$files" | grep -vE ' total$' | awk '{print $2 ": " $1 " lines"}' | sed 's,//,/,')
            fi
        done
    done
    printf '  lines in all: answers %d, invariants %d, own %d\n' \
        "$(find crates/*/proofs -name Answers.antt -exec cat {} + | wc -l)" \
        "$(find crates/*/proofs -name Invariants.antt -exec cat {} + | wc -l)" \
        "$(find crates/*/proofs -name '*.antt' ! -name Answers.antt ! -name Invariants.antt ! -name Lib.antt -exec cat {} + | wc -l)"
}

points=("$@")
if [ ${#points[@]} -eq 0 ]; then points=(1 2 3 4 5 6 7 8); fi
for point in "${points[@]}"; do
    total=0
    printf 'Point %s\n' "$point"
    "point_$point"
    printf 'Point %s: %d\n\n' "$point" "$total"
done
