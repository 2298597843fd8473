#!/usr/bin/env bash
# What `--strict` counts, by a table of runs over images that this script makes. A run that printed an item with a fault, or a missing
# device, ends with status 1 and one message. Any other ends with status 0 and none. With --json the object `end` has both. Nothing
# else of the output depends on the option.
# `tests/strict.sh PROGRAM` tries that program; without a word the one of this repository is built first.
set -uo pipefail
[ $# -eq 0 ] || program=$(realpath "$1") || exit 1
cd "$(dirname "$0")/.." || exit 1
[ $# -gt 0 ] || make -s build || exit 1
program=${program:-$PWD/crates/serdimko/out/serdimko}
if [ ! -x "$program" ]; then
  echo "$program: no such program"
  exit 1
fi
work=$(mktemp -d)
trap 'rm -rf "$work"' EXIT
python3 - "$program" "$work" << 'END'
import json, os, shlex, subprocess, sys

program, folder = sys.argv[1:]
counted = 'a fault or a missing device was printed (--strict)'
no_record = 'length (sdr takes 5 bytes and as many more as the fifth says, at most 256 in all)'

# ---- bytes


# These bytes, then the one that makes their sum a multiple of 256.
def summed(data):
    return data + bytes([-sum(data) % 256])


# The byte at this place is one larger.
def changed(data, place):
    place %= len(data)
    return data[:place] + bytes([(data[place] + 1) % 256]) + data[place + 1:]


# A field of 8-bit text, not of one character: C1h ends the fields.
def text(characters):
    return bytes([0xC0 | len(characters)]) + characters.encode('latin-1')


# Version, length in units of eight bytes, what comes before the fields, the fields, C1h, padding and checksum.
def area(head, *fields, version=1, units=None):
    body = head + b''.join(fields) + b'\xc1'
    body += bytes(-(len(body) + 3) % 8)
    return summed(bytes([version, (len(body) + 3) // 8 if units is None else units]) + body)


# Type, version with the mark of the last one, length and checksum of the data, checksum of the header; then the data.
def multirecord(kind, data, last=True):
    return summed(bytes([kind, 0x82 if last else 0x02, len(data), -sum(data) % 256])) + data


# The header, then the areas in this order.
def inventory(chassis=b'', board=b'', product=b'', records=b''):
    places, body = [], b''
    for part in chassis, board, product, records:
        places.append(1 + len(body) // 8 if part else 0)
        body += part + bytes(-len(part) % 8)
    return summed(bytes([1, 0, *places, 0])) + body


# A sensor data record after its id: version, type, length, body.
def record(kind, body):
    return bytes([0x51, kind, len(body)]) + body


# What a record of each kind has before its name. Without the byte that begins the name it is too short.
def full_body(number):
    return bytes.fromhex(
        f'2000{number:02x} 0301 7f68 0101 000000003838 000100 00 0100000000f0 000000000000 5f5a55 000000 0202 0000 00')


def compact_body(number):
    return bytes([0x20, 0, number, 7, 1, 0x67, 0x40, 4, 3, 0, 0, 0, 0, 0, 0, 0xC0, 0, 0, 1, 0, 0, 0, 0, 0, 0, 0])


def locator_body(device, address=0x20, access=0x80):
    return bytes([address, device, access, 0, 0, 0, 0, 10, 1, 0])


event_only_body = bytes([0x20, 0, 3, 7, 1, 4, 0x6F, 1, 0, 0, 0])
generic_body = bytes([0x20, 0xA0, 0, 0, 0, 8, 0, 11, 1, 0])
controller_body = bytes([0x20, 0, 0, 0x1F, 0, 0, 0, 6, 1, 0])


def full(number, name):
    return record(0x01, full_body(number) + text(name))


def compact(number, name):
    return record(0x02, compact_body(number) + text(name))


def locator(device, name, **where):
    return record(0x11, locator_body(device, **where) + text(name))


# A system event of a fan, after its id.
def event(number):
    return bytes.fromhex(f'0200105e5f20000404{number:02x}01574746')


# ---- images


# The records and the events get the ids from 0001h on. If no devices are given, there is a sound device 0.
def image(*records, devices=None, events=(), more=()):
    lines = ['ipmi-image 2']
    for shelf, rows in ('sdr', records), ('sel', events):
        for place, rest in enumerate(rows, 1):
            lines.append(f'{shelf} {place:04x} - {place.to_bytes(2, "little").hex()}{rest.hex()}')
    for device, data in ({0: sound} if devices is None else devices).items():
        lines.append(f'fru {device:02x} {data.hex()}')
    return '\n'.join([*lines, *more, 'end', ''])


# An image with only device 0.
def of_device(data):
    return image(devices={0: data})


# The bytes before the fields: a main server chassis; English, and no date; English.
in_chassis, in_board, in_product = bytes([0x11]), bytes([25, 0, 0, 0]), bytes([25])
chassis = area(in_chassis, text('CH-PART'), text('CH-SERIAL'))
board = area(in_board, text('MAKER'), text('BOARD'), text('BO-SERIAL'), text('BO-PART'))
product = area(in_product, text('MAKER'), text('SERVER'), text('PR-PART'), text('V1'), text('PR-SERIAL'))
other_record = multirecord(0xC0, b'\xaa\xbb\xcc')
sound = inventory()
empty = text('')
# The type and length of a field of 63 bytes, which is longer than any area that gets it here.
long_field = b'\xff'
like_a_line = 'xy | not present | - | - | -'
oem_events = [b'\xc1\x00\x10\x5e\x5f\x57\x01\x00faulty', b'\xe0not present\n\n']
oem_record = record(0xC0, b'record 0001h: short')

images = {
    'sound': image(
        full(1, 'Temp'), compact(2, 'Fan'), record(0x03, event_only_body + text('Log')), record(0x10, generic_body + text('EEPROM')),
        locator(1, 'PSU1'), record(0x12, controller_body + text('BMC')), oem_record,
        devices={0: inventory(chassis, board, product, multirecord(0xC0, b'\xaa\xbb\xcc', last=False) + other_record), 1: sound},
        events=[event(2), *oem_events],
        more=['reading 0 01 2dc0c000', 'info sdr 510700001000105e5fffffffff22', 'info sel 510300001000105e5fffffffff02']),
    # In an image each record has the length that its header says.
    'shorter than a header': 'ipmi-image 2\nsdr 0001 - 01005101\nend\n',
    'longer than its header says': 'ipmi-image 2\nsdr 0001 - 010051c001aabb\nend\n',
    'full too short': image(record(0x01, full_body(1)), compact(2, 'Fan'), events=[event(1), event(2)]),
    'compact too short': image(full(1, 'Temp'), record(0x02, compact_body(2))),
    'event-only too short': image(record(0x03, event_only_body)),
    'generic too short': image(record(0x10, generic_body)),
    'fru locator too short': image(record(0x11, locator_body(9))),
    'controller too short': image(record(0x12, controller_body)),
    'as short as may be': image(
        *(record(kind, body + empty) for kind, body in [
            (0x01, full_body(1)), (0x02, compact_body(2)), (0x03, event_only_body), (0x10, generic_body), (0x11, locator_body(0)),
            (0x12, controller_body)])),
    'last of many': image(*(compact(n % 250, f'Fan{n}') for n in range(2999)), record(0x02, compact_body(250))),
    'first of many': image(record(0x02, compact_body(250)), *(compact(n % 250, f'Fan{n}') for n in range(2999))),
    'no reading': image(full(1, 'Temp'), compact(2, 'Fan')),
    'no device': image(devices={}),
    'no device named': image(locator(7, 'PSU7')),
    'no device with a long name': image(record(0x11, locator_body(254) + bytes([16, *range(16)]))),
    'device 0 named and missing': image(locator(0, 'Board'), devices={}),
    'at another address': image(locator(7, 'PSU7', address=0x22)),
    'on a bus': image(locator(7, 'PSU7', access=0x01)),
    'at another LUN': image(locator(7, 'PSU7', access=0x88)),
    'faulty, but elsewhere': image(locator(7, 'PSU7', address=0x22), devices={0: sound, 7: changed(sound, 7)}),
    'faulty beside a sound one': image(devices={0: sound, 3: changed(sound, 7)}),
    'faulty and named twice': image(locator(3, 'PSU3'), locator(3, 'PSU3b'), devices={0: sound, 3: changed(sound, 7)}),
    'header short': of_device(sound[:7]),
    'header version': of_device(summed(bytes([2, 0, 0, 0, 0, 0, 0]))),
    'header checksum': of_device(changed(sound, 7)),
    # The header names a place after the end, or the area ends after it.
    'chassis outside': of_device(inventory(chassis=chassis)[:8]),
    'chassis cut': of_device(inventory(chassis=chassis)[:-8]),
    'chassis version': of_device(inventory(chassis=area(in_chassis, text('CH-PART'), version=2))),
    'chassis length': of_device(inventory(chassis=area(in_chassis, text('CH-PART'), units=0))),
    'chassis checksum': of_device(inventory(chassis=changed(chassis, -1))),
    'chassis field': of_device(inventory(chassis=area(in_chassis, long_field))),
    'board outside': of_device(inventory(board=board)[:8]),
    'board cut': of_device(inventory(board=board)[:-8]),
    'board version': of_device(inventory(board=area(in_board, text('MAKER'), version=2))),
    'board length': of_device(inventory(board=area(in_board, text('MAKER'), units=0))),
    'board checksum': of_device(inventory(board=changed(board, -1))),
    'board field': of_device(inventory(board=area(in_board, long_field))),
    'product outside': of_device(inventory(product=product)[:8]),
    'product cut': of_device(inventory(product=product)[:-8]),
    'product version': of_device(inventory(product=area(in_product, text('MAKER'), version=2))),
    'product length': of_device(inventory(product=area(in_product, text('MAKER'), units=0))),
    'product checksum': of_device(inventory(product=changed(product, -1))),
    'product field': of_device(inventory(product=area(in_product, long_field))),
    'records outside': of_device(inventory(records=other_record)[:8]),
    'records cut': of_device(inventory(records=multirecord(0xC0, bytes(11)))[:-8]),
    'records without a last one': of_device(inventory(records=multirecord(0xC0, b'\xaa\xbb\xcc', last=False))),
    'records header checksum': of_device(inventory(records=changed(other_record, 4))),
    'records data checksum': of_device(inventory(records=changed(other_record, -1))),
    'records before other bytes': of_device(inventory(records=other_record + b'\xff' * 8)),
    'faulty in each area': of_device(inventory(
        changed(chassis, -1), area(in_board, text('MAKER'), version=2), area(in_product, long_field), changed(other_record, 4))),
    'board faulty, product sound': of_device(inventory(board=changed(board, -1), product=product)),
    'three of four': image(
        locator(1, 'PSU1'), locator(2, 'PSU2'), locator(3, 'PSU3'),
        devices={0: inventory(product=changed(product, -1)), 1: sound, 2: sound[:7]}),
    # Names of at most 16 characters. In some only one end is like a fault's line.
    'sensors like faults': image(
        compact(1, 'record 1h: short'), compact(2, 'record 0001h: sh'), compact(3, '1h: wrong length'), compact(4, ': body too short'),
        compact(5, 'not present'), compact(6, 'a\nnot present\nb'), full(7, '"kind":"faulty",'), events=[event(1), event(5)]),
    'locators like faults': image(
        locator(1, 'not present'), locator(2, 'Board fault: che'), locator(3, 'FRU fault: heade'), locator(4, ' | not present |'),
        locator(5, 'x)\nnot present\n('), locator(6, '"not_present"'), devices=dict.fromkeys(range(7), sound)),
    'named not present': of_device(inventory(product=area(in_product, empty, text('not present')))),
    'named Board fault': of_device(inventory(product=area(in_product, empty, text('Board fault: checksum')))),
    'named record': of_device(inventory(product=area(in_product, empty, text('record 0001h: short')))),
    'name like a line': of_device(inventory(product=area(in_product, empty, text(like_a_line)))),
    'serial like a line': of_device(inventory(product=area(in_product, empty, empty, empty, empty, text(like_a_line)))),
    'product like a line': of_device(inventory(
        product=area(in_product, empty, text('xy'), text('not present'), empty, text('- | - | -')))),
    'board like a line': of_device(inventory(board=area(in_board, empty, text('xy'), text('- | - | -'), text('faulty')))),
    'fields like faults': of_device(inventory(
        area(in_chassis, text('not present'), text('Chassis fault: checksum'), text('FRU fault: header short')),
        area(in_board, text('record 0001h: short'), text('Board fault: checksum'), text('ab\nnot present\n')),
        area(in_product, text('"state":"not_present"'), text('"product_fault":"checksum"'), text('","fault":"header_short')),
        multirecord(3, b'\x01not present'))),
    'events like faults': image(oem_record, events=oem_events),
    'not present': image(),
    'Board fault: checksum': image(),
}

# ---- rows

# The image or images; the words; the status of each run in text, and with --json; how many objects each run has before its `end`; a
# line of the text. None stands for what is not tried. Expected values follow from the option's meaning, and never from a run.
rows = [
    # A wholly sound store.
    ('sound', 'sdr', 0, 0, 2, None),
    ('sound', 'sdr list all', 0, 0, 7, None),
    ('sound', 'sdr elist all', 0, 0, 7, None),
    ('sound', 'sensor', 0, 0, 2, None),
    ('sound', 'sdr get PSU1', 0, 0, 1, 'Name: PSU1'),
    ('sound', 'sensor get Temp Fan', [0, 0], [0, 0], [1, 1], 'Name: Fan'),
    ('sound', 'sdr hex', 0, 0, 7, None),
    ('sound', 'sdr info', 0, 0, 1, 'Records: 7'),
    ('sound', 'sel info', 0, 0, 1, 'Records: 3'),
    ('sound', 'sel list', 0, 0, 3, None),
    ('sound', 'sel elist last 2', 0, 0, 2, None),
    ('sound', 'sel get 1', 0, 0, 1, None),
    ('sound', 'fru', 0, 0, 2, 'FRU 1 (PSU1)'),
    ('sound', 'fru list', 0, 0, 2, '0 | - | present | SERVER | PR-PART | PR-SERIAL'),
    ('sound', 'fru print 0', 0, 0, 1, 'Board Product: BOARD'),
    ('sound', 'image rewrite', 0, None, None, 'end'),
    # Records that are no lines of an image, so that nothing is printed of it.
    ('shorter than a header', 'sdr list all', 3, 3, 0, None),
    ('longer than its header says', 'sdr list all', 3, 3, 0, None),
    # Records that are too short for their type count where they are listed.
    ('full too short', 'sdr', 1, 1, 2, 'record 0001h: body too short'),
    ('full too short', 'sdr list', 1, 1, 2, 'record 0001h: body too short'),
    ('full too short', 'sdr list all', 1, 1, 2, 'record 0001h: body too short'),
    ('full too short', 'sdr list full', 1, 1, 1, 'record 0001h: body too short'),
    ('full too short', 'sdr elist', 1, 1, 2, 'record 0001h: body too short'),
    ('full too short', 'sdr elist full', 1, 1, 1, 'record 0001h: body too short'),
    ('full too short', 'sensor', 1, 1, 2, 'record 0001h: body too short'),
    ('full too short', 'sensor list', 1, 1, 2, 'record 0001h: body too short'),
    ('compact too short', 'sdr list', 1, 1, 2, 'record 0002h: body too short'),
    ('compact too short', 'sdr list compact', 1, 1, 1, 'record 0002h: body too short'),
    ('compact too short', 'sensor', 1, 1, 2, 'record 0002h: body too short'),
    ('event-only too short', 'sdr list all', 1, 1, 1, 'record 0001h: body too short'),
    ('event-only too short', 'sdr elist event', 1, 1, 1, 'record 0001h: body too short'),
    ('generic too short', 'sdr list all', 1, 1, 1, 'record 0001h: body too short'),
    ('generic too short', 'sdr list generic', 1, 1, 1, 'record 0001h: body too short'),
    ('fru locator too short', 'sdr elist all', 1, 1, 1, 'record 0001h: body too short'),
    ('fru locator too short', 'sdr list fru', 1, 1, 1, 'record 0001h: body too short'),
    ('controller too short', 'sdr list all', 1, 1, 1, 'record 0001h: body too short'),
    ('controller too short', 'sdr list mclocator', 1, 1, 1, 'record 0001h: body too short'),
    ('last of many', 'sdr list', 1, 1, 3000, 'record 0BB8h: body too short'),
    ('first of many', 'sensor', 1, 1, 3000, 'record 0001h: body too short'),
    # The same records where they are not listed.
    ('full too short', 'sdr list compact', 0, 0, 1, None),
    ('full too short', 'sdr elist fru', 0, 0, 0, None),
    ('full too short', 'sdr list all --from 0002', 0, 0, 1, None),
    ('full too short', 'sensor --from 0002', 0, 0, 1, None),
    ('full too short', 'sdr get Fan', 0, 0, 1, 'Name: Fan'),
    ('full too short', 'sensor get Fan', 0, 0, 1, 'Name: Fan'),
    ('full too short', 'sdr hex', 0, 0, 2, None),
    ('full too short', 'sel elist', 0, 0, 2, None),
    ('full too short', 'fru', 0, 0, 1, 'FRU 0'),
    ('full too short', 'fru list', 0, 0, 1, '0 | - | present | - | - | -'),
    ('full too short', 'image rewrite', 0, None, None, 'end'),
    ('compact too short', 'sdr list full', 0, 0, 1, None),
    ('event-only too short', 'sdr list', 0, 0, 0, None),
    ('event-only too short', 'sensor', 0, 0, 0, None),
    ('generic too short', 'sdr list event', 0, 0, 0, None),
    ('fru locator too short', 'sdr', 0, 0, 0, None),
    ('fru locator too short', 'fru', 0, 0, 1, 'FRU 0'),
    ('fru locator too short', 'fru list', 0, 0, 1, '0 | - | present | - | - | -'),
    ('controller too short', 'sdr list generic', 0, 0, 0, None),
    # Records that can be read, and lack a name or a reading.
    ('as short as may be', 'sdr list all', 0, 0, 6, None),
    ('as short as may be', 'sdr elist all', 0, 0, 6, None),
    ('as short as may be', 'sensor', 0, 0, 2, None),
    ('no reading', 'sdr list', 0, 0, 2, 'Temp             | no reading        | ns'),
    ('no reading', 'sensor', 0, 0, 2, None),
    # Missing devices, and those that are elsewhere.
    ('no device', 'fru', 1, 1, 1, 'not present'),
    ('no device', 'fru print', 1, 1, 1, 'not present'),
    ('no device', 'fru print 0', 1, 1, 1, 'not present'),
    ('no device', 'fru print 9', 1, 1, 1, 'not present'),
    ('no device', 'fru list', 1, 1, 1, '0 | - | not present | - | - | -'),
    ('no device', 'image rewrite', 0, None, None, 'end'),
    ('no device named', 'fru', 1, 1, 2, 'not present'),
    ('no device named', 'fru list', 1, 1, 2, '7 | PSU7 | not present | - | - | -'),
    ('no device named', 'fru print 7', 1, 1, 1, 'not present'),
    ('no device named', 'fru print 0', 0, 0, 1, 'FRU 0'),
    ('no device named', 'sdr list fru', 0, 0, 1, 'PSU7             | FRU 7             | na'),
    ('no device with a long name', 'fru list', 1, 1, 2, '254 | 000102030405060708090a0b0c0d0e0f | not present | - | - | -'),
    ('device 0 named and missing', 'fru', 1, 1, 1, 'not present'),
    ('device 0 named and missing', 'fru list', 1, 1, 1, '0 | Board | not present | - | - | -'),
    ('at another address', 'fru', 0, 0, 2, 'FRU (PSU7): elsewhere, not read'),
    ('at another address', 'fru list', 0, 0, 2, '- | PSU7 | elsewhere | - | - | -'),
    ('on a bus', 'fru', 0, 0, 2, 'FRU (PSU7): elsewhere, not read'),
    ('on a bus', 'fru list', 0, 0, 2, '- | PSU7 | elsewhere | - | - | -'),
    ('at another LUN', 'fru', 0, 0, 2, 'FRU (PSU7): elsewhere, not read'),
    ('at another LUN', 'fru list', 0, 0, 2, '- | PSU7 | elsewhere | - | - | -'),
    ('faulty, but elsewhere', 'fru', 0, 0, 2, 'FRU (PSU7): elsewhere, not read'),
    ('faulty, but elsewhere', 'fru print 7', 1, 1, 1, 'FRU fault: header checksum'),
    # A faulty device that is asked for, or not.
    ('faulty beside a sound one', 'fru print 3', 1, 1, 1, 'FRU fault: header checksum'),
    ('faulty beside a sound one', 'fru print 0', 0, 0, 1, 'FRU 0'),
    ('faulty beside a sound one', 'fru', 0, 0, 1, 'FRU 0'),
    ('faulty beside a sound one', 'fru list', 0, 0, 1, '0 | - | present | - | - | -'),
    ('faulty and named twice', 'fru', 1, 1, 3, 'FRU fault: header checksum'),
    ('faulty and named twice', 'fru list', 1, 1, 3, '3 | PSU3b | faulty | - | - | -'),
    ('faulty and named twice', 'fru print 0', 0, 0, 1, 'FRU 0'),
    # Faults of the header. Each form names them.
    ('header short', 'fru print 0', 1, 1, 1, 'FRU fault: header short'),
    ('header short', 'fru list', 1, 1, 1, '0 | - | faulty | - | - | -'),
    ('header version', 'fru', 1, 1, 1, 'FRU fault: header version'),
    ('header version', 'fru list', 1, 1, 1, '0 | - | faulty | - | - | -'),
    ('header checksum', 'fru print', 1, 1, 1, 'FRU fault: header checksum'),
    ('header checksum', 'fru list', 1, 1, 1, '0 | - | faulty | - | - | -'),
    # Faults of areas. A line of `fru list` names none, its object does.
    ('chassis outside', 'fru print 0', 1, 1, 1, 'Chassis fault: outside'),
    ('chassis outside', 'fru list', 0, 1, 1, '0 | - | present | - | - | -'),
    ('chassis cut', 'fru print 0', 1, 1, 1, 'Chassis fault: outside'),
    ('chassis cut', 'fru list', 0, 1, 1, '0 | - | present | - | - | -'),
    ('chassis version', 'fru print 0', 1, 1, 1, 'Chassis fault: version'),
    ('chassis version', 'fru list', 0, 1, 1, '0 | - | present | - | - | -'),
    ('chassis length', 'fru', 1, 1, 1, 'Chassis fault: length'),
    ('chassis length', 'fru list', 0, 1, 1, '0 | - | present | - | - | -'),
    ('chassis checksum', 'fru print', 1, 1, 1, 'Chassis fault: checksum'),
    ('chassis checksum', 'fru list', 0, 1, 1, '0 | - | present | - | - | -'),
    ('chassis field', 'fru print 0', 1, 1, 1, 'Chassis fault: field past end'),
    ('chassis field', 'fru list', 0, 1, 1, '0 | - | present | - | - | -'),
    ('board outside', 'fru print 0', 1, 1, 1, 'Board fault: outside'),
    ('board outside', 'fru list', 0, 1, 1, '0 | - | present | - | - | -'),
    ('board cut', 'fru print 0', 1, 1, 1, 'Board fault: outside'),
    ('board cut', 'fru list', 0, 1, 1, '0 | - | present | - | - | -'),
    ('board version', 'fru print', 1, 1, 1, 'Board fault: version'),
    ('board version', 'fru list', 0, 1, 1, '0 | - | present | - | - | -'),
    ('board length', 'fru print 0', 1, 1, 1, 'Board fault: length'),
    ('board length', 'fru list', 0, 1, 1, '0 | - | present | - | - | -'),
    ('board checksum', 'fru', 1, 1, 1, 'Board fault: checksum'),
    ('board checksum', 'fru list', 0, 1, 1, '0 | - | present | - | - | -'),
    ('board field', 'fru print 0', 1, 1, 1, 'Board fault: field past end'),
    ('board field', 'fru list', 0, 1, 1, '0 | - | present | - | - | -'),
    ('product outside', 'fru print 0', 1, 1, 1, 'Product fault: outside'),
    ('product outside', 'fru list', 0, 1, 1, '0 | - | present | - | - | -'),
    ('product cut', 'fru print 0', 1, 1, 1, 'Product fault: outside'),
    ('product cut', 'fru list', 0, 1, 1, '0 | - | present | - | - | -'),
    ('product version', 'fru', 1, 1, 1, 'Product fault: version'),
    ('product version', 'fru list', 0, 1, 1, '0 | - | present | - | - | -'),
    ('product length', 'fru print', 1, 1, 1, 'Product fault: length'),
    ('product length', 'fru list', 0, 1, 1, '0 | - | present | - | - | -'),
    ('product checksum', 'fru print 0', 1, 1, 1, 'Product fault: checksum'),
    ('product checksum', 'fru list', 0, 1, 1, '0 | - | present | - | - | -'),
    ('product field', 'fru print 0', 1, 1, 1, 'Product fault: field past end'),
    ('product field', 'fru list', 0, 1, 1, '0 | - | present | - | - | -'),
    # Faults at the end of the multirecords.
    ('records outside', 'fru print 0', 1, 1, 1, 'Record fault: outside'),
    ('records outside', 'fru list', 0, 1, 1, '0 | - | present | - | - | -'),
    ('records cut', 'fru', 1, 1, 1, 'Record fault: outside'),
    ('records cut', 'fru list', 0, 1, 1, '0 | - | present | - | - | -'),
    ('records without a last one', 'fru print 0', 1, 1, 1, 'Record fault: outside'),
    ('records without a last one', 'fru list', 0, 1, 1, '0 | - | present | - | - | -'),
    ('records header checksum', 'fru print 0', 1, 1, 1, 'Record fault: header checksum'),
    ('records header checksum', 'fru list', 0, 1, 1, '0 | - | present | - | - | -'),
    ('records data checksum', 'fru print', 1, 1, 1, 'Record fault: data checksum'),
    ('records data checksum', 'fru list', 0, 1, 1, '0 | - | present | - | - | -'),
    ('records before other bytes', 'fru print 0', 0, 0, 1, 'Record 0xc0: aabbcc'),
    ('records before other bytes', 'fru list', 0, 0, 1, '0 | - | present | - | - | -'),
    # Several faults are said once.
    ('faulty in each area', 'fru print 0', 1, 1, 1, 'Record fault: header checksum'),
    ('faulty in each area', 'fru', 1, 1, 1, 'Chassis fault: checksum'),
    ('faulty in each area', 'fru list', 0, 1, 1, '0 | - | present | - | - | -'),
    ('board faulty, product sound', 'fru print 0', 1, 1, 1, 'Product Name: SERVER'),
    ('board faulty, product sound', 'fru list', 0, 1, 1, '0 | - | present | SERVER | PR-PART | PR-SERIAL'),
    ('three of four', 'fru', 1, 1, 4, 'FRU 3 (PSU3)'),
    ('three of four', 'fru list', 1, 1, 4, '2 | PSU2 | faulty | - | - | -'),
    ('three of four', 'fru print 1', 0, 0, 1, 'FRU 1'),
    # Of several images the message names each that counts.
    (['board checksum', 'sound'], 'fru print 0', [1, 0], [1, 0], [1, 1], 'Board fault: checksum'),
    (['sound', 'board checksum'], 'fru', [0, 1], [0, 1], [2, 1], '== board checksum'),
    (['sound', 'board checksum'], 'fru list', [0, 0], [0, 1], [2, 1], '0 | - | present | - | - | -'),
    (['full too short', 'no reading', 'compact too short'], 'sdr list', [1, 0, 1], [1, 0, 1], [2, 2, 2], 'record 0002h: body too short'),
    (['no device', 'header short'], 'fru list', [1, 1], [1, 1], [1, 1], '0 | - | faulty | - | - | -'),
    (['shorter than a header', 'no device'], 'fru', [3, 1], [3, 1], [0, 1], 'not present'),
    (['sound', 'no reading'], 'sdr list all', [0, 0], [0, 0], [7, 2], '== no reading'),
    # Texts that look like faults.
    ('sensors like faults', 'sdr list', 0, 0, 7, 'record 1h: short | no reading        | ns'),
    ('sensors like faults', 'sdr list full', 0, 0, 1, '"kind":"faulty", | no reading        | ns'),
    ('sensors like faults', 'sdr elist', 0, 0, 7, None),
    ('sensors like faults', 'sensor', 0, 0, 7, None),
    ('sensors like faults', "sdr get 'record 1h: short'", 0, 0, 1, 'Name: record 1h: short'),
    ('sensors like faults', "sensor get 'not present' '1h: wrong length'", [0, 0], [0, 0], [1, 1], 'Name: not present'),
    ('sensors like faults', "sdr get 'a.not present.b'", 0, 0, 1, 'Name: a.not present.b'),
    ('sensors like faults', 'sel elist', 0, 0, 2, None),
    ('locators like faults', 'sdr list fru', 0, 0, 6, 'not present      | FRU 1             | na'),
    ('locators like faults', 'fru', 0, 0, 7, 'FRU 5 (x).not present.()'),
    ('locators like faults', 'fru list', 0, 0, 7, '4 |  | not present | | present | - | - | -'),
    ('named not present', 'fru print 0', 0, 0, 1, 'Product Name: not present'),
    ('named not present', 'fru list', 0, 0, 1, '0 | - | present | not present | - | -'),
    ('named Board fault', 'fru', 0, 0, 1, 'Product Name: Board fault: checksum'),
    ('named Board fault', 'fru list', 0, 0, 1, '0 | - | present | Board fault: checksum | - | -'),
    ('named record', 'fru print 0', 0, 0, 1, 'Product Name: record 0001h: short'),
    ('named record', 'fru list', 0, 0, 1, '0 | - | present | record 0001h: short | - | -'),
    ('name like a line', 'fru print 0', 0, 0, 1, 'Product Name: xy | not present | - | - | -'),
    ('name like a line', 'fru list', 0, 0, 1, '0 | - | present | xy | not present | - | - | - | - | -'),
    ('serial like a line', 'fru', 0, 0, 1, 'Product Serial: xy | not present | - | - | -'),
    ('serial like a line', 'fru list', 0, 0, 1, '0 | - | present | - | - | xy | not present | - | - | -'),
    ('product like a line', 'fru list', 0, 0, 1, '0 | - | present | xy | not present | - | - | -'),
    ('board like a line', 'fru list', 0, 0, 1, '0 | - | present | xy | faulty | - | - | -'),
    ('fields like faults', 'fru print 0', 0, 0, 1, 'Board Serial: ab.not present.'),
    ('fields like faults', 'fru', 0, 0, 1, 'Management Access 0x01: not present'),
    ('fields like faults', 'fru list', 0, 0, 1, '0 | - | present | "product_fault":"checksum" | ","fault":"header_short | -'),
    ('events like faults', 'sel list', 0, 0, 2, '0002 | OEM record 0xe0 | 6e6f742070726573656e740a0a'),
    ('events like faults', 'sel elist', 0, 0, 2, '0002 | OEM record 0xe0 | 6e6f742070726573656e740a0a'),
    ('events like faults', 'sel get 2', 0, 0, 1, 'Data: 6e6f742070726573656e740a0a'),
    ('events like faults', 'sdr list all', 0, 0, 1, None),
    (['not present', 'Board fault: checksum'], 'fru print 0', [0, 0], [0, 0], [1, 1], '== not present'),
    (['not present', 'no device'], 'fru list', [0, 1], [0, 1], [1, 1], '== not present'),
    # Labels, which go only with --json.
    ('sound', "fru --label 'note=not present'", None, 0, 2, None),
    ('sound', "fru list --label 'note=Board fault: checksum'", None, 0, 2, None),
    ('sound', "sdr list all --label 'note=record 0001h: short'", None, 0, 7, None),
    ('sound', """fru --label 'note="state":"not_present"'""", None, 0, 2, None),
    ('sound', """sdr list all --label 'note=","kind":"faulty' --label not_present=faulty""", None, 0, 7, None),
    ('board checksum', 'fru print 0 --label note=sound', None, 1, 1, None),
    (['sound', 'no device'], "fru print 0 --label 'note=not present'", None, [0, 1], [1, 1], None),
]

# ---- running


def run(names, *words):
    options = [word for name in names for word in ('--image', name)]
    done = subprocess.run([program, *options, *words], cwd=folder, capture_output=True, stdin=subprocess.DEVNULL, timeout=60)
    return done.returncode, done.stdout.decode(), done.stderr.decode()


# What is said of a run over this image. A fault of an image is in its second line.
def message_of(name, is_one, status):
    if status == 3:
        return f'{name}:2: {no_record}'
    if status == 1:
        return counted if is_one else f'{name}: {counted}'
    return None


def as_list(value):
    return value if isinstance(value, list) else [value]


# How two outcomes differ.
def outcome_differs(what, wanted, got):
    return [] if wanted == got else [f'{what}: expected {wanted}, got {got}']


# Of texts, for these statuses and messages of their runs.
def texts_differ(names, words, statuses, messages, line):
    said = ''.join(f'{message}\n' for message in messages if message)
    plain = run(names, *words)
    status, out, err = run(names, '--strict', *words)
    told = outcome_differs('status and message', (max(statuses), said), (status, err))
    if out != plain[1]:
        told.append('prints something else than without --strict')
    if 3 not in statuses:
        told += outcome_differs('without --strict', (0, ''), (plain[0], plain[2]))
    if line is not None and line not in out.split('\n'):
        told.append(f'no line {line!r}')
    return told


# The other objects as lines, and of each `end` its status, its message, its count, and how many of them come before it.
def objects_in(out):
    others, ends, before = [], [], 0
    for line in out.splitlines():
        found = json.loads(line)
        if found['object'] == 'end':
            ends.append((found['status'], found['message'], found['count'], len(others) - before))
            before = len(others)
        else:
            others.append(line)
    return others, ends


def objects_differ(names, words, statuses, messages, counts):
    said = ''.join(f'{message}\n' for message in messages if message)
    plain = run(names, '--json', *words)
    status, out, err = run(names, '--json', *words, '--strict')
    told = outcome_differs('status and message', (max(statuses), said), (status, err))
    others, ends = objects_in(out)
    told += outcome_differs('ends', list(zip(statuses, messages, counts, counts)), ends)
    if others != objects_in(plain[1])[0]:
        told.append('prints something else than without --strict')
    if 3 not in statuses:
        told += outcome_differs('without --strict', (0, ''), (plain[0], plain[2]))
    return told


# A run for each image, or for each name of `sensor get`.
def row_differs(names, words, in_text, in_json, counts, line):
    names, words, told = as_list(names), shlex.split(words), []
    for what, statuses in ('text', in_text), ('--json', in_json):
        if statuses is None:
            continue
        statuses = as_list(statuses)
        of_runs = names * len(statuses) if len(names) == 1 else names
        messages = [message_of(name, len(names) == 1, status) for name, status in zip(of_runs, statuses)]
        try:
            if what == 'text':
                found = texts_differ(names, words, statuses, messages, line)
            else:
                found = objects_differ(names, words, statuses, messages, as_list(counts))
        except (KeyError, TypeError, ValueError, subprocess.TimeoutExpired) as error:
            found = [f'{type(error).__name__}: {error}']
        told += [f'{what}: {difference}' for difference in found]
    return told


for name, lines in images.items():
    with open(os.path.join(folder, name), 'w', encoding='ascii') as file:
        file.write(lines)
differ = 0
for row in rows:
    told = row_differs(*row)
    if told:
        differ += 1
        print(f'{", ".join(as_list(row[0]))}; {row[1]}', *told, sep='\n  ')
print(f'{len(rows)} rows, {differ} differ')
sys.exit(differ > 0)
END
