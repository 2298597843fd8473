#!/usr/bin/env bash
# Each line that `serdimko --json` prints over the examples is one JSON value, by Python and, if it is installed, by jq. Each has
# exactly the keys that docs/json.md lists for its kind, in one order. There are as many objects as the text form has lines, with
# the same readings and statuses, and the last one counts them. Labels and the names of images come last, and a label may have none
# of the keys of docs/json.md. The examples of docs/json.md, one of each object, are printed as they stand there. The rows of `--csv`
# have the same values.
# `tests/json.sh PROGRAM` tries that program; without a word the one of this repository is built first.
set -uo pipefail
[ $# -eq 0 ] || program=$(realpath "$1")
cd "$(dirname "$0")/.." || exit 1
[ $# -gt 0 ] || make -s build || exit 1
python3 - "${program:-crates/serdimko/out/serdimko}" << 'END'
import json, os, re, shutil, subprocess, sys, tempfile

program = sys.argv[1]
images = ['examples/server.image', 'examples/one-of-each.image', 'examples/three-rows.image']
page = open('docs/json.md').read()
faults = []


def fault(*parts):
    faults.append(parts)
    print(*parts)


def run(*words):
    done = subprocess.run([program, *words], capture_output=True, stdin=subprocess.DEVNULL)
    return done.returncode, done.stdout.decode(), done.stderr.decode()


# The keys of each kind by the tables of the page: of entries and records by kind, of inventories in one set.
def rows(head):
    section = page.split(f'`{head}`\n', 1)[1].split('\n## ', 1)[0]
    for line in section.splitlines():
        if re.match(r'\| `', line):
            yield [cell.strip() for cell in line.strip('|\n ').split(' | ')]


def kinds_of(cell, kinds, before):
    cell = cell.split(':')[0]
    if cell == 'the same':
        return before
    if cell == 'all':
        return kinds
    if cell.startswith('all but '):
        return kinds - set(cell.removeprefix('all but ').split(', '))
    return set(cell.split(', '))


def by_kind(head, kinds):
    keys, before = {kind: {'object'} for kind in kinds}, kinds
    for names, _, cell in rows(head):
        before = kinds_of(cell, kinds, before)
        for kind in before:
            keys[kind] |= set(re.findall(r'`(\w+)`', names))
    return keys


entries = by_kind('sel_entry', {'event', 'oem_timestamped', 'oem', 'unknown'})
records = by_kind('sdr_record', {
    'full', 'compact', 'event_only', 'generic_locator', 'fru_locator', 'mc_locator', 'other', 'faulty'})
inventory = {'object'}
for row in rows('fru'):
    if re.fullmatch(r'(`\w+`(, )?)+', row[0]) and row[0].strip('`') not in ('dc_output', 'dc_load', 'management_access', 'other'):
        inventory |= set(re.findall(r'`(\w+)`', row[0]))
examples, page_lines = {}, re.findall(r'^\{.*\}$', page, re.M)
for line in page_lines:
    example = json.loads(line)
    examples[example['object']] = set(example)


def keys_of(line):
    if line['object'] == 'sel_entry':
        return entries[line['kind']]
    if line['object'] == 'sdr_record':
        return records[line['kind']]
    return inventory if line['object'] == 'fru' else examples[line['object']]


orders = {}


def members(pairs):
    names = [name for name, _ in pairs]
    if len(set(names)) != len(names):
        fault('a key comes twice:', names)
    return dict(pairs)


# The objects of a run, without its end.
def objects(text, what, more=()):
    lines = text.split('\n')
    if lines.pop() != '':
        fault(what, 'does not end with a line feed')
    found = [json.loads(line, object_pairs_hook=members, parse_float=str) for line in lines]
    for line in found:
        names = list(line)
        if set(names) != keys_of(line) | set(more) or names[len(names) - len(more):] != list(more):
            fault(what, 'keys of', line['object'], line.get('kind'), sorted(set(names) ^ (keys_of(line) | set(more))))
        if orders.setdefault((line['object'], line.get('kind'), more), names) != names:
            fault(what, 'another order of keys:', names)
    if shutil.which('jq'):
        read = subprocess.run(['jq', '-c', '.object'], input=text.encode(), capture_output=True).stdout.decode()
        if read.split() != [json.dumps(line['object']) for line in found]:
            fault(what, 'jq reads', read)
    end = found.pop()
    if end['object'] != 'end' or end['count'] != len(found):
        fault(what, 'ends with', end)
    return found, end


commands = [
    ('sdr', 'list', 'all'), ('sdr', 'elist', 'full'), ('sensor',), ('sdr', 'hex'), ('sdr', 'info'), ('sel', 'info'), ('sel', 'list'),
    ('sel', 'list', 'first', '2'), ('sel', 'elist', 'last', '3'), ('sel', 'tail', '3'), ('fru', 'list'), ('sel', 'get', '1'), ('sdr', 'get', 'CPU1 Temp')]
for image in images:
    for command in commands:
        what = f'{image} {" ".join(command)}:'
        status, text, said = run('--image', image, *command)
        json_status, out, json_said = run('--image', image, '--json', *command)
        found, end = objects(out, what)
        if (status, said) != (json_status, json_said) or end['status'] != status:
            fault(what, 'status', status, said, 'and with --json', json_status, json_said)
        if end['message'] != (said.rstrip('\n') or None):
            fault(what, 'message', end['message'])
        if (end['reason'] == 'finished') != (status == 0):
            fault(what, 'reason', end['reason'])
        if command[1:] not in (('info',), ('get', '1'), ('get', 'CPU1 Temp')) and len(found) != text.count('\n'):
            fault(what, len(found), 'objects and', text.count('\n'), 'lines')
        if command == ('sdr', 'list', 'all'):
            for line, shown in zip(found, text.splitlines()):
                cells = [cell.strip() for cell in shown.split('|')]
                if line.get('reading') is not None and cells[1:] != [f"{line['reading']} {line['unit']}".strip(), line['status']]:
                    fault(what, line['name'], line['reading'], cells)
                if 'name' in line and line['name'] != cells[0]:
                    fault(what, line['name'], cells)

# The examples of the page, as the program prints them over an image of these rows. There is one of each object, and of each kind of
# entry.
page_rows = '''ipmi-image 1
sdr 0001 0002 010051013320000103017f680101000000003838000100000100000000f00000000000005f5a550000000202000000c84350552054656d70
sdr 0002 0003 020051110f200180000000000a0100c450535531
sdr 0003 0008 0300510100
sdr 0008 ffff 080051c003570100
sel 0001 0002 01000200105e5f200004010101574746
sel 0002 0003 0200c100100000570100010203040506
sel 0003 0004 0300e00102030405060708090a0b0c0d
sel 0004 ffff 0400030102030405060708090a0b0c0d
fru 01 01000000010000fe010319c24142c0c2504ec0c2534ec0c0c25831c0c100000f
reading 0 01 5cc01800
info sdr 510400001000105e5fffffffff22
info sel 510c00983a00105e5f0000000082
end
'''
with tempfile.TemporaryDirectory() as folder:
    name = os.path.join(folder, 'page.image')
    with open(name, 'w') as file:
        file.write(page_rows)
    printed = set()
    for command in [('sdr', 'list', 'all'), ('sdr', 'hex'), ('sel', 'list'), ('fru',), ('sdr', 'info'), ('sel', 'info')]:
        printed.update(run('--image', name, '--json', *command)[1].split('\n'))
for line in page_lines:
    if line not in printed:
        fault('docs/json.md has an example that is not printed:', line)
kinds = {(example['object'], example.get('kind') if example['object'] == 'sel_entry' else None) for example in map(json.loads, page_lines)}
others = ('sdr_record', 'sdr_raw', 'fru', 'sdr_info', 'sel_info', 'end')
if kinds != {*((name, None) for name in others), *(('sel_entry', kind) for kind in entries)}:
    fault('docs/json.md has no example of each object:', kinds)

# Labels, and several images.
status, out, said = run('--image', images[0], '--image', images[2], 'sdr', 'list', '--json', '--label', 'host=web 17', '--label=a==')
texts = out.split('"object":"end"')
if len(texts) != 3 or status != 0 or said:
    fault('several images:', len(texts) - 1, 'ends', status, said)
for image, run_text in zip((images[0], images[2]), re.findall(r'(?:.*\n)*?\{"object":"end".*\n', out)):
    found, end = objects(run_text, 'labels:', ('image', 'host', 'a'))
    if {(line['image'], line['host'], line['a']) for line in [*found, end]} != {(image, 'web 17', '=')}:
        fault('labels:', run_text)

refused = [
    ('--label', 'a=b', 'sdr'), ('--json', '--label', 'a', 'sdr'), ('--json', '--label', '=b', 'sdr'),
    ('--json', '--label', 'a=b', '--label', 'a=c', 'sdr'), ('--json', 'capture'), ('--json', 'image', 'rewrite'), ('--json=1', 'sdr')]
keys = set.union(inventory, *entries.values(), *records.values(), *examples.values(), {'image'})
refused += [('--json', '--label', f'{key}=x', 'sdr') for key in keys]
for words in refused:
    status, out, said = run('--image', images[2], *words)
    if status != 2 or out or said.count('\n') != 1:
        fault('not refused:', words, status, out, said)

# An image that is not there has an end all the same.
status, out, said = run('--image', 'examples/none', '--json', 'sel', 'list')
end = json.loads(out)
if status != 3 or (end['status'], end['reason'], end['count'], end['message'] + '\n') != (3, 'unread', 0, said):
    fault('no image:', status, out, said)
sys.exit(bool(faults))
END
like_docs=$?
python3 tests/serdimko/json_values.py "${program:-crates/serdimko/out/serdimko}" examples/server.image examples/one-of-each.image && exit $like_docs
