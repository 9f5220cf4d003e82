#!/usr/bin/env python3
"""Counts the places in src/ that docs/DESIGN-PASS.md speaks of, by patterns over the lines of crates/*/src/*.rt.

    python3 tools/design_count.py [COMMIT] [--list POINT]

Without COMMIT the files as they stand are read. Comments do not count. A pattern tells where a form may stand, and not whether it should go: what is still found is
told of in the table, as kept with its reason.
"""
import re
import subprocess
import sys

POINTS = {
    '1a own enums of the shape of Option or Result': r'^\s+(Refused|Nothing|Failed)(\(|,)',
    '1b flags with a value beside them': r'^\s+(pub )?(found|has_bad|tells): \w+,|\b(paired|look): bool',
    '1c numbers for kinds and refusals': r'\b(alphabet|one|other): u64\b|\brefusal: [1-9],|Refused\([1-9]\)|^\s+return [1-9];$|^\s+[1-9] => \w+\(|\b(kind_of_number|LAST_ALPHABET)\b',
    '2 twins': r'\bfn (three_bits|four_bits|five_bits|by_ones|by_pairs|spread_pairs|spread|singles|smaller|larger|least|state_of|many_of|last_of|pass_many|pass_last|pack_fours'
               r'|fours_of_members|eights_of|eights_of_members|lay_bytes|identity_32|put_text|put|copy|same|same_parts|same_words|place|decode_[2345]bit)\b',
    '3a loops that count by hand': r"^\s*('\w+: )?while ",
    '3b loops over an index': r'^\s*for \w+ in (\d+|\w+)\.\.',
    '4 conversions, order and printing by hand': r'\bas (u8|u16|u32|u64|usize|isize)\b|\b(least|beyond|place|smaller|larger|wide|same|same_words)\(|\bprint_\w+\(',
    '5 parameters that travel together': r'\bbytes: &\[u8\], offset: usize|^\s+bytes: &\[u8\],$|\bkind: AlphabetType, fold: bool|^\s+fold: bool,$|\btable: &\[u8; (32|256)\]|\bmasks: &\[u8; 256\]',
    '6 buffers with a length beside them': r'\[u(8|64); (7|11|20|320|1048576)\]|\[0xA5u8; 320\]|\[0u64; 11\]',
    '7 switches on which step to run': r'\bengine: Engine\b|\b(paired|look|clean): bool|match place\(',
}


def lines(commit):
    if commit is None:
        names = subprocess.run(['git', 'ls-files', 'crates'], capture_output=True, text=True, check=True).stdout.split()
    else:
        names = subprocess.run(['git', 'ls-tree', '-r', '--name-only', commit, 'crates'], capture_output=True, text=True, check=True).stdout.split()
    for name in names:
        if not re.fullmatch(r'crates/\w+/src/\w+\.rt', name):
            continue
        if commit is None:
            text = open(name, encoding='utf-8').read()
        else:
            text = subprocess.run(['git', 'show', f'{commit}:{name}'], capture_output=True, text=True, check=True).stdout
        for number, line in enumerate(text.split('\n'), 1):
            code = line.split('//')[0].rstrip()
            if code and not code.lstrip().startswith(('ghost ', 'requires', 'ensures', 'use ')):
                yield name, number, code


def main(words):
    wanted = None
    if '--list' in words:
        at = words.index('--list')
        wanted = words[at + 1]
        words = words[:at] + words[at + 2:]
    found = list(lines(words[0] if words else None))
    for point, pattern in POINTS.items():
        hits = [place for place in found if re.search(pattern, place[2])]
        by_crate = {}
        for name, _, _ in hits:
            crate = name.split('/')[1]
            by_crate[crate] = by_crate.get(crate, 0) + 1
        if wanted is None:
            print(f'{point}: {len(hits)}  ' + ', '.join(f'{crate} {count}' for crate, count in sorted(by_crate.items())))
        elif point.startswith(wanted):
            for name, number, code in hits:
                print(f'{name}:{number}: {code.strip()}')


if __name__ == '__main__':
    main(sys.argv[1:])
