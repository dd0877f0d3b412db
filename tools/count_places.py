#!/usr/bin/env python3
"""Counts the places of docs/DESIGN-PASS.md's points in the sources: `tools/count_places.py [--list] [FOLDER]`, FOLDER being a checkout's top.

It goes by text, so that a place is what a pattern finds; which of them stay, and why, is written beside them and on that page."""
import difflib
import pathlib
import re
import sys

FUNCTION = re.compile(r'^( *)(?:#\[[^\n]*\]\n *)*(?:pub(?:\([a-z]+\))? )?(?:extern "C" )?fn (\w+)', re.M)


def functions(text):
    """Each function of a file: its line, name, head (signature and clauses) and body."""
    for found in FUNCTION.finditer(text):
        indent = found.group(1)
        opened = re.compile(r'[ \n]' + indent + r'\{\n|\{\n').search(text, found.end())
        if not opened:
            continue
        end = text.find('\n' + indent + '}', opened.end())
        yield text.count('\n', 0, found.start()) + 1, found.group(2), text[found.start():opened.start()], text[opened.end():end]


def without_comments(text):
    return re.sub(r'//[^\n]*', '', text)


def tokens(body):
    return re.findall(r'\w+|[^\w\s]', without_comments(body))


def lines_with(pattern, text):
    for number, line in enumerate(text.split('\n'), 1):
        if re.search(pattern, line.split('//')[0]):
            yield number, line.strip()


def places(top):
    found = {}

    def add(point, what, path, line, text):
        found.setdefault((point, what), []).append((f'{path.relative_to(top)}:{line}', text))

    for path in sorted(top.glob('crates/*/src/*.rt')):
        text = path.read_text()
        bare = without_comments(text)
        for made in re.finditer(r'^(?:pub )?enum (\w+)(?:<[^>]*>)? \{\n(.*?)\n\}', bare, re.M | re.S):
            variants = [v.strip() for v in made.group(2).split('\n') if v.strip()]
            if len(variants) <= 3 and any('(' in v for v in variants):
                add(1, 'enums of two or three cases, some with values', path, bare.count('\n', 0, made.start()) + 1, made.group(1))
        for made in re.finditer(r'^(?:pub )?struct (\w+)(?:<[^>]*>)? \{\n(.*?)\n\}', bare, re.M | re.S):
            for field in re.findall(r'(\w+): bool,', made.group(2)):
                add(1, 'structs with a flag', path, bare.count('\n', 0, made.start()) + 1, f'{made.group(1)}.{field}')
        for line, name, head, body in functions(text):
            if re.search(r'-> (u8|usize)\b', head) and re.search(r'first_no|refusal|also', head):
                add(1, 'functions that answer a refusal by its number', path, line, name)
            if re.search(r'\bu: usize', head) and re.search(r'\bg: usize', head):
                add(5, 'functions that take U and G side by side', path, line, name)
            if re.search(r'requires', head) and re.search(r'u \+ g ≤ 10|letters_fit u g ≡ true|n ≤ 10', head):
                add(5, 'functions that require the letters to fit', path, line, name)
            if re.search(r'requires[^{]*\{[^}]*order_fits', head):
                add(5, 'functions that require an order to fit', path, line, name)
            code = without_comments(body).strip()
            if re.fullmatch(r'\(?[\w.&() %>]+\)? as \w+', code) or re.fullmatch(r'if \w+(?:\.\w+)? \{ 1 \} else \{ 0 \}', code):
                add(4, 'functions that only cast', path, line, name)
            if re.match(r'(same|both|either|copy|clear|is_equal)', name):
                add(4, 'equality, copies, and, or by hand', path, line, name)
            if re.search(r'\bop: u8|method: Method', head):
                add(7, 'functions that switch on a step', path, line, name)
            if re.search(r'\b(count|kept_count|blocks|eights)\b: usize', head) and re.search(r'&(mut )?\[', head):
                add(6, 'slices with a length beside', path, line, name)
        asks_kinds = path.parts[-3] in ('records', 'reader', 'writer', 'entry')
        for line, code in lines_with(r'^\s*[0-9]+( \| [0-9]+)* =>|\bk == [0-9]|\br\[0\]|is_there\(s, [a-z]+, [0-9]|kind == [0-9]', text if asks_kinds else ''):
            add(1, 'lines that ask a kind by its number', path, line, code)
        for line, code in lines_with(r'\bwhile\b', text):
            add(3, '`while`', path, line, code)
        for line, code in lines_with(r'\bfor \w+ in [^{]*\.\.', text):
            add(3, '`for` over a range of numbers', path, line, code)
    for crate in sorted(top.glob('crates/*')):
        known = []
        for path in sorted(crate.glob('src/*.rt')):
            for line, name, head, body in functions(path.read_text()):
                parts = tokens(body)
                if len(parts) >= 30:
                    known.append((path, line, name, parts))
        for i, (path, line, name, parts) in enumerate(known):
            for other_path, other_line, other, others in known[i + 1:]:
                if difflib.SequenceMatcher(None, parts, others, autojunk=False).ratio() >= 0.8:
                    add(2, 'pairs of functions four fifths alike', path, line, f'{name}, {other}')
    return found


def proof_lines(top):
    return sum(len(p.read_text().split('\n')) - 1 for p in top.glob('crates/*/proofs/**/*.antt'))


def main():
    words = [w for w in sys.argv[1:] if w != '--list']
    top = pathlib.Path(words[0] if words else '.').resolve()
    for (point, what), lines in sorted(places(top).items()):
        print(f'{point}. {what}: {len(lines)}')
        if '--list' in sys.argv:
            for where, text in lines:
                print(f'     {where}: {text}')
    print(f'8. lines of proofs: {proof_lines(top)}')


main()
