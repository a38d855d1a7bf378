#!/usr/bin/env python3
"""Counts, in the crates' sources, the places that docs/DESIGN-PASS.md speaks of: forms of the older language.

usage: python3 tools/forms.py [--list POINT]

Prints a line for each count; with --list 1, 2, .. the places of a point. Each count is by the form alone, as said beside it: whether a
place is to change, or why it stays, a reader has to say."""
import collections
import glob
import os
import re
import sys

top = os.path.dirname(os.path.dirname(os.path.abspath(__file__)))


def sources():
    for path in sorted(glob.glob(os.path.join(top, 'crates/*/src/*.rt'))):
        with open(path) as f:
            yield path.split('/')[-3], re.sub(r'//.*', '', f.read())


def items(text, word):
    """(name, body) of each struct or enum with named parts."""
    for m in re.finditer(r'^(?:pub )?%s (\w+)[^{;(]*\{(.*?)^\}' % word, text, re.M | re.S):
        yield m.group(1), ' '.join(m.group(2).split())


def parts(body):
    """The variants or fields of a body."""
    out, depth, word = [], 0, ''
    for c in body:
        depth += (c in '([{<') - (c in ')]}>')
        if c == ',' and depth == 0:
            out.append(word.strip())
            word = ''
        else:
            word += c
    return [p.replace('pub ', '') for p in out + [word.strip()] if p]


def functions(text):
    """(name, parameters, contract, body) of each function."""
    head = re.compile(r'^( *)(?:pub )?(?:unsafe )?(?:extern "C" )?fn (\w+)', re.M)
    for m in head.finditer(text):
        end = text.find('\n' + m.group(1) + '}\n', m.end())
        whole = text[m.end():end]
        opening = re.search(r'^%s\{$|\)(?: -> [^{\n]+)? \{$' % m.group(1), whole, re.M)
        if not opening:
            continue
        cut = opening.end()
        sign, contract = whole[:cut], ''
        k = re.search(r'^\s*(requires|ensures)\b', sign, re.M)
        if k:
            sign, contract = sign[:k.start()], sign[k.start():]
        yield m.group(2), sign, contract, whole[cut:]


def shape(body):
    """A body with its names, numbers and texts taken out, each name by its first use."""
    names = {}
    kept = {'let', 'mut', 'if', 'else', 'while', 'for', 'in', 'loop', 'match', 'return', 'break', 'continue', 'as', 'true', 'false', 'self',
            'Some', 'None', 'Ok', 'Err', 'len', 'u8', 'u16', 'u32', 'u64', 'usize', 'bool'}

    def word(m):
        w = m.group(0)
        if w in kept:
            return w
        return names.setdefault(w, 'n%d' % len(names))
    body = re.sub(r'b?"[^"]*"|b\'.+?\'', '0', body)
    body = re.sub(r'\b\d[\w]*', '0', body)
    return ' '.join(re.sub(r'\b[A-Za-z_]\w*', word, body).split())


def optional(variants):
    """One variant with values beside one without."""
    return len(variants) == 2 and sum('(' in v for v in variants) == 1


def resulting(variants):
    """One variant Good, Is, Next or Accepted beside refusals, or the other way round."""
    return len(variants) > 2 and any(re.match(r'(Good|Next|Refused|Stop|Found)\b', v) for v in variants)


def count():
    found = collections.OrderedDict()

    def put(key, place):
        found.setdefault(key, []).append(place)

    for key in KEYS:
        found[key] = []
    facts = collections.defaultdict(list)
    together = collections.defaultdict(list)
    shapes = collections.defaultdict(list)
    fields = collections.defaultdict(list)
    for crate, text in sources():
        for name, body in items(text, 'enum'):
            v = parts(body)
            if optional(v):
                put('1 enums of the shape of Option', crate + '::' + name)
            elif resulting(v) or re.match(r'Accepted', v[0]):
                put('1 enums of the shape of Result', crate + '::' + name)
        for name, body in items(text, 'struct'):
            f = parts(body)
            flags = [p for p in f if re.match(r'\w+: bool$', p)]
            if flags and len(f) > len(flags):
                put('1 structs with a flag beside values', crate + '::' + name)
            if any(re.match(r'(kind|sort|code): u', p) for p in f):
                put('1 structs with a number for a kind', crate + '::' + name)
            fields[tuple(p.split(': ')[1] for p in f)].append(crate + '::' + name)
        for name, sign, contract, body in functions(text):
            place = crate + '::' + name
            s = shape(body)
            if len(s) > 60:
                shapes[s].append(place)
            for m in re.finditer(r'^ *(while|loop)\b(.*)$', body, re.M):
                loop = m.group(0).strip()
                step = re.search(r'\b(\w+) [+-]= 1;', body[m.end():])
                head = m.group(2)
                if m.group(1) == 'while' and step and re.search(r'\b%s\b' % step.group(1), head):
                    put('3 while loops whose condition reads what counts by one', place + ': ' + loop)
                else:
                    put('3 other while and loop', place + ': ' + loop)
            for clause in re.finditer(r'requires[^{]*\{(.*?)\}\s*(?=requires|ensures|$)', contract, re.S):
                for fact in ' '.join(clause.group(1).split()).split(' × '):
                    facts[fact.strip().strip('()').strip()].append(place)
            if re.search(r'\bfn\(|dyn |\bFn(Once|Mut)?\(', sign):
                put('7 functions that take a function', place)
            if re.match(r'(same|equal)(_|$)', name):
                put('4 equality by hand', place)
            if re.search(r'(_before|_number|_word|code|letter)$', name):
                put('4 order and conversion by hand, by name', place)
            ps = tuple(p.strip().split(':')[0] for p in re.split(r',', re.sub(r'^[^(]*\(|\).*', '', ' '.join(sign.split()))) if p.strip())
            for a in range(len(ps)):
                for b in range(a + 3, len(ps) + 1):
                    together[ps[a:b]].append(place)
    for s, places in shapes.items():
        if len(places) > 1:
            put('2 groups of functions with bodies of one shape', ', '.join(places))
    for f, places in fields.items():
        if len(places) > 1 and len(f) > 1:
            put('2 groups of structs with the same types', ', '.join(places))
    for fact, places in sorted(facts.items(), key=lambda x: -len(x[1])):
        if len(places) > 2:
            put('5 facts that three functions or more require', '%d %s' % (len(places), fact))
    for ps, places in sorted(together.items(), key=lambda x: -len(x[1])):
        if len(places) > 5:
            put('5 runs of three parameters or more in six functions or more', '%d %s' % (len(places), ' '.join(ps)))
    return found


KEYS = [
    '1 enums of the shape of Option',
    '1 enums of the shape of Result',
    '1 structs with a flag beside values',
    '1 structs with a number for a kind',
    '2 groups of functions with bodies of one shape',
    '2 groups of structs with the same types',
    '3 while loops whose condition reads what counts by one',
    '3 other while and loop',
    '4 equality by hand',
    '4 order and conversion by hand, by name',
    '5 facts that three functions or more require',
    '5 runs of three parameters or more in six functions or more',
    '7 functions that take a function',
]


def main(args):
    found = count()
    if args[:1] == ['--list']:
        for key, places in found.items():
            if key.startswith(args[1] + ' '):
                print('# ' + key)
                print('\n'.join(places))
        return
    for key, places in found.items():
        print('%4d  %s' % (len(places), key))


main(sys.argv[1:])
