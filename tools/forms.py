#!/usr/bin/env python3
"""Counts, in crates/*/src, the places that the eight points of docs/DESIGN-PASS.md look for.

    tools/forms.py            a row for each crate, a column for each kind of place
    tools/forms.py -v KIND    the places of one kind, with file and line
    tools/forms.py --at REV   the same of a commit (git archive into a temporary folder)
"""
import os, re, subprocess, sys, tempfile
from collections import Counter, defaultdict

KINDS = {
    '1-enum': 'enums of the repository',
    '1-flag': 'fields that are a flag or a refusal number beside a value (found, ok: bool; number: u32)',
    '1-none': 'functions whose comment gives a number that stands for none or for a refusal (0, 1, 64, 129, 513, 1024, hi, or the end)',
    '1-kind': 'comparisons with a number that stands for a kind (.kind == 0, == 129, == 513, order 0, 1, 2)',
    '2-twin': 'functions whose body is that of another one but for names, numbers and strings',
    '3-while': 'while loops that count an index by 1 in their body',
    '3-other': 'other while loops (a step that is no 1: a node\'s next, a block, a halving)',
    '3-for': 'for loops over numbers that index a slice by that number',
    '4-hand': 'functions that compare, copy, fill, order or take the least by hand, by their names',
    '5-group': 'functions that take text, table and a number of paths apart, or a text and its tape apart',
    '6-triple': 'parameters that are a slice with its two ends beside it',
    '6-length': 'arrays with a number beside that says how many count (in structs)',
    '7-switch': 'bool parameters that choose a step',
}

def files(root):
    for crate in sorted(os.listdir(os.path.join(root, 'crates'))):
        for d, _, fs in os.walk(os.path.join(root, 'crates', crate, 'src')):
            for f in sorted(fs):
                if f.endswith('.rt'):
                    yield os.path.join(d, f)

HEAD = re.compile(r'^( *)(?:pub(?:\([a-z]+\))? )?(?:unsafe )?(?:extern "C" )?fn ([a-z_0-9]+)')

def functions(lines):
    i = 0
    while i < len(lines):
        m = HEAD.match(lines[i])
        if not m:
            i += 1
            continue
        indent = m.group(1)
        j = i
        sig = ''
        while j < len(lines) and not re.match(r'^%s(\{| *(requires|ensures))' % indent, lines[j]) and not lines[j].rstrip().endswith(' {'):
            sig += lines[j].strip() + ' '
            j += 1
        if j < len(lines) and lines[j].rstrip().endswith(' {') and not re.match(r'^ *(requires|ensures)', lines[j]):
            sig += lines[j].strip()
        k = j
        while k < len(lines) and lines[k].rstrip() != indent + '}':
            k += 1
        body_from = j
        while body_from < k and lines[body_from].strip() != '{' and not (lines[body_from].rstrip().endswith(' {') and not re.match(r'^ *(requires|ensures)', lines[body_from])):
            body_from += 1
        comment = ''
        c = i - 1
        while c >= 0 and re.match(r'^ *(//|#\[)', lines[c]):
            comment = lines[c].strip() + ' ' + comment
            c -= 1
        yield m.group(2), i, sig, comment, lines[body_from + 1:k], body_from + 1
        i = k + 1

def params(sig):
    m = re.search(r'\((.*)\)', sig)
    if not m:
        return []
    return [tuple(x.strip() for x in p.split(':', 1)) for p in m.group(1).split(',') if ':' in p]

def shape(body):
    s = ' '.join(x.strip() for x in body if x.strip() and not x.strip().startswith('//'))
    s = re.sub(r'b?"[^"]*"|b\'.[^\']*\'', '"', s)
    s = re.sub(r'[A-Za-z_][A-Za-z_0-9]*', lambda m: m.group(0) if m.group(0) in KEEP else 'x', s)
    return re.sub(r'\b(0x)?[0-9][0-9a-zA-Z_]*', '1', s)

KEEP = set('let mut while for in if else return match true false as usize u8 u16 u32 u64 break continue fn'.split())

def scan(root):
    out = defaultdict(list)
    bodies = defaultdict(list)
    for path in files(root):
        rel = os.path.relpath(path, root)
        lines = open(path, encoding='utf-8').read().split('\n')
        for i, l in enumerate(lines):
            at = (rel, i + 1, l.strip())
            if re.match(r'^ *(pub(\([a-z]+\))? )?enum ', l):
                out['1-enum'].append(at)
            if re.match(r'^ *(pub )?((found|ok): bool|number: u32),', l):
                out['1-flag'].append(at)
            if re.search(r'kind [!=]= [0-3]\b|[!=]= (129|513)\b|\b(o|compare_labels\w*\(.*\)|order) [!=]= [012]\b', l):
                out['1-kind'].append(at)
            if re.match(r'^    (pub )?(names|places|held|values|words|name): \[', l):
                out['6-length'].append(at)
        for name, i, sig, comment, body, start in functions(lines):
            at = (rel, i + 1, name)
            ps = params(sig)
            names = [p for p, _ in ps]
            types = dict(ps)
            if re.search(r'\b(0|1|64|129|513|1024|u|hi|the end)\b(,)? (where|if|for none|past|also)|, or (0|hi|513|129|u|the text\'s end|e)\b|; (513|0|129|1024) (where|if)|or 513|0 where|, or its end|none: 0', comment) and not re.match(r'^// 1?7', comment):
                out['1-none'].append(at)
            for b, l in enumerate(body):
                m = re.match(r'^( *)while (.*) \{', l)
                if m:
                    e = b + 1
                    while e < len(body) and body[e].rstrip() != m.group(1) + '}':
                        e += 1
                    inner = '\n'.join(body[b + 1:e])
                    tested = re.findall(r'[a-z_][a-z_0-9]*', m.group(2))
                    counts = re.findall(r'^ *([a-z_0-9]+) [+-]= 1;', inner, re.M)
                    kind = '3-while' if any(c in tested for c in counts) else '3-other'
                    out[kind].append((rel, start + b + 1, name + ': ' + l.strip()))
                m = re.match(r'^( *)for ([a-z_0-9]+) in [^ ]*\.\.', l)
                if m:
                    e = b + 1
                    while e < len(body) and body[e].rstrip() != m.group(1) + '}':
                        e += 1
                    if re.search(r'\[[^\]]*\b%s\b' % m.group(2), '\n'.join(body[b + 1:e])):
                        out['3-for'].append((rel, start + b + 1, name + ': ' + l.strip()))
            if re.match(r'^(same(_[a-z]+)?|copy|clear|least|larger|precedes|compare_[a-z_]+|digits?|shift|insert|names_before)$', name) :
                out['4-hand'].append(at)
            if ('text' in names and 'table' in names) or ('src' in names and 'tape' in names and 'mut' not in types['tape']):
                out['5-group'].append(at)
            for x in range(len(ps) - 2):
                if re.search(r'\[u8\]$', ps[x][1]) and ps[x + 1][1] == 'usize' and ps[x + 2][1] == 'usize' and re.match(r'^(e\d?|end|hi|to)$', ps[x + 2][0]):
                    out['6-triple'].append(at)
            for p, t in ps:
                if t == 'bool' and p not in ('archive',):
                    out['7-switch'].append((rel, i + 1, name + ': ' + p))
            if len([b for b in body if b.strip()]) >= 3:
                bodies[shape(body)].append(at)
    for s, ats in bodies.items():
        if len(ats) > 1 and len(s) > 60:
            out['2-twin'] += ats
    return out

def main():
    args = sys.argv[1:]
    root = os.path.dirname(os.path.dirname(os.path.abspath(__file__)))
    if '--root' in args:
        root = args[args.index('--root') + 1]
    if '--at' in args:
        rev = args[args.index('--at') + 1]
        tmp = tempfile.mkdtemp()
        subprocess.run('git archive %s crates | tar -x -C %s' % (rev, tmp), shell=True, check=True, cwd=root)
        root = tmp
    found = scan(root)
    if '-v' in args:
        for at in found[args[args.index('-v') + 1]]:
            print('%s:%d: %s' % at)
        return
    crates = sorted({os.path.relpath(p, root).split('/')[1] for p in files(root)})
    print('| kind | ' + ' | '.join(crates) + ' | all |')
    print('|---|' + '--:|' * (len(crates) + 1))
    for k in KINDS:
        c = Counter(at[0].split('/')[1] for at in found[k])
        print('| %s | ' % k + ' | '.join(str(c[x]) if c[x] else '' for x in crates) + ' | %d |' % len(found[k]))

main()
