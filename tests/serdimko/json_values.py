"""Compares `serdimko --json` with the text form and with `--csv`, value by value, over the images that are given and 1,000 generated ones.

All objects of a kind must have the same keys. tests/json.sh compares these with docs/json.md. If jq is installed, it must read each
object as Python does. If SQLite is installed, it must import each row of CSV as Python reads it.
"""
import csv
import io
import json
import multiprocessing
import os
import random
import re
import shutil
import subprocess
import sys
import tempfile

PROGRAM = os.path.abspath(sys.argv[1])
EXAMPLES = [os.path.abspath(name) for name in sys.argv[2:]]
GENERATED = 1_000
SEED = 20261127
MOST_TOLD = 20

# ---- images


def field(rng):
    """A type/length byte and a field of an inventory."""
    length = rng.randint(0, 20)
    return bytes([rng.choice([0x00, 0x40, 0x80, 0xC0, 0xC0, 0xC0]) | length]) + bytes(
        rng.choice(b"AB 12|\"\\\x07\xe9\xff\x7f") for _ in range(length)
    )


def area(rng, head):
    """An area with a length and a checksum, one of which may be wrong."""
    bytes_ = bytes([1, 0]) + head + b"".join(field(rng) for _ in range(rng.randint(0, 9)))
    bytes_ += b"\xc1" if rng.random() < 0.9 else b""
    bytes_ += bytes(-(len(bytes_) + 1) % 8)
    bytes_ = bytes([1 if rng.random() < 0.95 else 2, (len(bytes_) + 1) // 8]) + bytes_[2:]
    return bytes_ + bytes([-sum(bytes_) + (rng.random() < 0.05) & 0xFF])


def multirecords(rng):
    found, count = b"", rng.randint(1, 4)
    for n in range(count):
        kind = rng.choice([0, 1, 2, 3, 0xC0])
        data = rng.randbytes({1: 13, 2: 13}.get(kind, rng.randint(0, 12)))
        if kind == 3 and data:
            data = bytes([rng.randint(0, 8)]) + data[1:]
        head = bytes([kind, 2 | (0x80 if n == count - 1 else 0), len(data), -sum(data) & 0xFF])
        found += head + bytes([-sum(head) + (rng.random() < 0.05) & 0xFF]) + data
    return found


def inventory(rng):
    """The bytes of an inventory, of which some may be damaged."""
    parts = [
        area(rng, rng.randbytes(1)),
        area(rng, bytes([rng.choice([0, 25])]) + rng.randbytes(3)),
        area(rng, bytes([rng.choice([0, 25])])),
        multirecords(rng),
    ]
    header, body = [1, 0], b""
    for part in parts:
        if rng.random() < 0.25:
            header.append(0)
            continue
        header.append(1 + len(body) // 8)
        body += part + bytes(-len(part) % 8)
    header += [0]
    found = bytes(header) + bytes([-sum(header) & 0xFF]) + body
    if rng.random() < 0.2:
        place = rng.randrange(len(found))
        found = found[:place] + rng.randbytes(1) + found[place + 1 :]
    return found[: rng.randint(1, len(found))] if rng.random() < 0.05 else found


def id_string(rng):
    text = bytes(rng.choice(b"AZaz09 ._\"\\\x1b\xe9") for _ in range(rng.randint(1, 16)))
    return bytes([0xC0 | len(text)]) + text


def record(rng, id_):
    """A sensor data record of a kind, or one that may be of none."""
    kind = rng.choice([0x01] * 5 + [0x02] * 3 + [0x03, 0x10, 0x11, 0x11, 0x12, 0xC0])
    key = bytes([rng.choice([0x20, 0x20, 0x22]), rng.choice([0, 0, 1, 3]), rng.randint(1, 9)])
    body = {
        0x01: lambda: key + rng.randbytes(2) + b"\x7f\x68" + bytes([rng.randint(1, 12), rng.choice([1, 1, 1, 0x6F])])
        + rng.randbytes(6) + bytes([rng.choice([0, 0x80, 0xC0, 0x41]), rng.randint(0, 30), rng.randint(0, 5)])
        + bytes([rng.choice([0, 0, 0, 7, 0x70])]) + rng.randbytes(23) + b"\0" + id_string(rng),
        0x02: lambda: key + rng.randbytes(2) + b"\x67\x40" + bytes([rng.randint(1, 0x2C), rng.choice([0x6F, 3, 0x0A, 1])])
        + rng.randbytes(6) + bytes([0xC0, rng.randint(0, 30), 0]) + bytes([rng.choice([1, 1, 3, 0x12]), rng.randrange(256)])
        + bytes(6) + id_string(rng),
        0x03: lambda: key + rng.randbytes(2) + bytes([rng.randint(1, 12), 0x6F, 1, 0, 0, 0]) + id_string(rng),
        0x10: lambda: rng.randbytes(9) + b"\0" + id_string(rng),
        0x11: lambda: bytes([0x20, rng.randint(1, 3), rng.choice([0x80, 0x80, 0, 0x98]), 0, 0, 0x10, 0, 10, rng.randint(1, 9), 0])
        + id_string(rng),
        0x12: lambda: rng.randbytes(2) + bytes(5) + rng.randbytes(2) + b"\0" + id_string(rng),
        0xC0: lambda: rng.randbytes(rng.randint(3, 20)),
    }[kind]()
    if rng.random() < 0.05:
        body = body[: rng.randint(0, len(body))]
    return id_.to_bytes(2, "little") + bytes([0x51, kind, len(body)]) + body


def entry(rng, id_):
    kind = rng.choice([2, 2, 2, 2, 2, 0xC1, 0xE0, 0x55])
    stamp = rng.choice([rng.getrandbits(32), 0x655F5E4D, 16, 0x20000000, 0xFFFFFFFF]).to_bytes(4, "little")
    rest = bytes([0x20, 0, 4, rng.randint(0, 0x2E), rng.randint(1, 9), rng.choice([1, 0x81, 3, 0x6F, 0xEF, 0x0C, 0x73])]) + rng.randbytes(3)
    return id_.to_bytes(2, "little") + bytes([kind]) + stamp + (rest if kind == 2 else rng.randbytes(9))


def image(rng):
    lines = ["ipmi-image 2"]
    for shelf, make, most in ("sdr", record, 12), ("sel", entry, 12):
        ids = sorted(rng.sample(range(1, 200), rng.randint(0, most)))
        for place, id_ in enumerate(ids):
            next_ = f"{ids[place + 1]:04x}" if place + 1 < len(ids) else rng.choice(["ffff"] * 8 + ["0000", f"{ids[0]:04x}", "00fe"])
            lines.append(f"{shelf} {id_:04x} {next_} {make(rng, id_).hex()}")
    for device in range(4):
        if rng.random() < 0.6:
            lines.append(f"fru {device:02x} {inventory(rng).hex()}")
    for lun, number in ((lun, number) for lun in range(4) for number in range(1, 10)):
        if rng.random() < 0.4:
            lines.append(f"reading {lun} {number:02x} {bytes([rng.randrange(256), rng.choice([0x40, 0xC0, 0xC0, 0x60, 0])]).hex()}{rng.randbytes(2).hex()}")
    for shelf in "sdr", "sel":
        if rng.random() < 0.5:
            lines.append(f"info {shelf} 51{rng.randbytes(13).hex()}")
    return "\n".join([*lines, "end", ""])


# ---- the two forms


def run(name, *words):
    done = subprocess.run([PROGRAM, "--image", name, *words], capture_output=True, stdin=subprocess.DEVNULL, timeout=60)
    return done.returncode, done.stdout.decode(), done.stderr.decode()


def cells_of(line):
    return [cell.strip() for cell in line.split(" | ")]


def with_unit(line, value):
    return f"{value} {line['unit'] or ''}".strip()


def name_of(line):
    return (line["name"] or "").strip()


def told_reading(line):
    """The column of the text form that an object of a record means."""
    kind = line["kind"]
    if kind in ("full", "compact"):
        if line["status"] == "na":
            return "other owner"
        if line["status"] == "ns":
            return "no reading"
        if line["reading"] is not None:
            return with_unit(line, line["reading"])
        return None
    if kind == "event_only":
        return "event only"
    if kind == "fru_locator":
        return f"FRU {line['fru_device_id']}" if line["is_logical"] and line["device_access_address"] == 0x20 and line["access_lun"] == 0 else "elsewhere"
    return None


def record_differs(line, shown):
    if line["kind"] == "faulty":
        return shown != f"record {line['record_id']:04X}h: {line['fault'].replace('_', ' ')}"
    if line["kind"] == "other":
        return cells_of(shown)[-2:] != [f"record type 0x{line['record_type']:02x}", "na"]
    name, reading, status = shown[:16], *cells_of(shown)[-2:]
    wanted = told_reading(line)
    if line["kind"] in ("full", "compact"):
        if wanted is None and reading.startswith("states 0x"):
            # Of a sensor with thresholds, the text form shows the reserved bits too.
            mask = 0x3F if line["event_type"] == 1 else 0x7FFF
            wanted, reading = line["states"], int(reading.removeprefix("states "), 16) & mask
        if wanted is None and reading.startswith("raw 0x"):
            wanted = f"raw 0x{line['reading_raw']:02x}"
            reading = reading[: len(wanted)]
        if status != line["status"]:
            return True
    return name_of(line)[:16] != name.strip()[:16] or (wanted is not None and reading != wanted)


# ---- sensors

# The thresholds in the order of the columns of `sensor`.
THRESHOLDS = (
    "lower_non_recoverable", "lower_critical", "lower_non_critical", "upper_non_critical", "upper_critical", "upper_non_recoverable",
)


def is_raw(shown):
    """The text form has the byte itself where readings have no value."""
    return re.fullmatch(r"raw 0x[0-9a-f]{2}", shown) is not None


def words_of_reading(line, shown):
    """The column of the text form in words, or what it shows where an object has no such value."""
    if line["status"] not in ("na", "ns") and line["state_words"] is not None and line["reading"] is None and not is_raw(shown):
        return ", ".join(line["state_words"]) or "no state"
    wanted = told_reading(line)
    if wanted is not None:
        return wanted
    if shown.startswith("states 0x") and line["event_type"] == 1:
        return shown if int(shown[7:], 16) & 0x3F == line["states"] else None
    return f"raw 0x{line['reading_raw']:02x}"


def thresholds_differ(line, columns):
    if line["kind"] != "full":
        return any(column != "-" for column in columns)
    for key, column in zip(THRESHOLDS, columns):
        if column != str(line[key]) and not (line[key] is None and (column == "-" or is_raw(column))):
            return True
    return False


THRESHOLD_NAMES = {
    "unr": "Upper Non-recoverable", "ucr": "Upper Critical", "unc": "Upper Non-critical",
    "lnr": "Lower Non-recoverable", "lcr": "Lower Critical", "lnc": "Lower Non-critical",
}


def reason_differs(line, words):
    """Whether the reason of a severity is none of these words, or is there though nothing is worse than nominal."""
    reason = line["severity_reason"]
    if line["severity"] in (None, "nominal"):
        return reason is not None
    return reason not in words


def severity_differs(line):
    """Whether the severity is another one than the status and the words of the states allow, or its reason."""
    if reason_differs(line, [THRESHOLD_NAMES.get(line["status_words"])] if line["event_type"] == 1 else line["state_words"] or []):
        return True
    severity = line["severity"]
    if line["status"] in ("na", "ns"):
        return severity is not None
    if line["event_type"] == 1:
        return severity != {"ok": "nominal", "nc": "warning"}.get(line["status"], "critical")
    if not line["state_words"]:
        return severity != "nominal"
    return severity is None and not any(re.fullmatch("state [0-9]+", words) for words in line["state_words"])


def sensor_differs(line, shown):
    """A line of `sensor`."""
    if line["kind"] not in ("full", "compact"):
        return record_differs(line, shown)
    cells = cells_of(shown)
    if len(cells) != 12:
        return True
    name, number, entity, reading, status, severity, *columns = cells
    return severity_differs(line) or thresholds_differ(line, columns) or [name, number, entity, reading, status, severity] != [
        name_of(line),
        f"{line['sensor_number']:02X}h",
        f"{line['entity_name']} {line['entity_instance']}",
        words_of_reading(line, reading),
        line["status_words"],
        line["severity"] or "-",
    ]


def block_differs(line, rows):
    """A block of `sensor get`."""
    shown = dict(row.split(": ", 1) for row in rows)
    wanted = {
        "Record": f"{line['record_id']:04X}h",
        "Name": line["name"],
        "Sensor": f"{line['sensor_number']:02X}h",
        "Owner": f"{line['owner_id']:02X}h LUN {line['owner_lun']}",
        "Entity": f"{line['entity_name']} {line['entity_instance']}",
        "Kind": line["sensor_type_name"],
        "Reading": words_of_reading(line, shown.get("Reading", "")),
        "Status": line["status_words"],
    }
    shown.pop("Shared by", None)
    for key in THRESHOLDS if line["kind"] == "full" else ():
        label = key.replace("_", " ", 1).replace("_", "-").capitalize()
        if line[key] is not None:
            wanted[label] = with_unit(line, line[key])
        elif is_raw(shown.get(label, "")):
            del shown[label]
    return shown != wanted


def blocks_differ(lines, text):
    blocks = [block.split("\n") for block in text.split("\n\n") if block]
    pairs = [(line, rows) for line, rows in zip(lines, blocks) if line["kind"] in ("full", "compact")]
    return len(blocks) != len(lines) or any(block_differs(line, rows) for line, rows in pairs)


# ---- entries



def entry_differs(line, shown):
    cells = cells_of(shown)
    if cells[0] != f"{line['record_id']:04x}":
        return True
    if line["kind"] != "event":
        return f"0x{line['record_type']:02x}" not in cells[-1 if line["kind"] != "oem_timestamped" else 2] and f"0x{line['record_type']:02x}" not in shown
    if (line["severity"] is None) != (line["event_words"] is None) or reason_differs(line, [line["event_words"]]):
        return True
    if line["direction"] == "deasserted" and line["severity"] not in ("nominal", None):
        return True
    return cells[1:] != [
        time_of(line["timestamp"], line["timestamp_raw"]),
        f"{line['sensor_type_name']} #0x{line['sensor_number']:02x}",
        line["event"],
        line["direction"].capitalize(),
    ]


def time_of(time, stamp):
    """The text form of a time and its stamp."""
    if time is not None:
        return time.replace("T", " ").rstrip("Z")
    return "unspecified" if stamp == 0xFFFFFFFF else f"+{stamp} s"


def event_differs(line, shown):
    """A line of `sel elist`."""
    if line["kind"] != "event":
        return entry_differs(line, shown)
    offset = int(line["event_data"][:2], 16) % 16
    wanted = [
        f"{line['record_id']:04x}",
        time_of(line["timestamp"], line["timestamp_raw"]),
        (line["sensor_name"] or f"{line['sensor_type_name']} #0x{line['sensor_number']:02x}").strip(),
        line["event_words"] or f"offset {offset} of type 0x{line['event_type']:02x}",
        line["direction"].capitalize(),
        line["severity"] or "-",
    ]
    return cells_of(shown) != wanted + ([] if line["event_details"] is None else [line["event_details"]])


# ---- infos


def info_differs(lines, text):
    wanted = "".join(
        f"Version: 0x{line['version']:02x}\nRecords: {line['record_count']}\nFree Space: {line['free_space']}\n"
        f"Last Addition: {time_of(line['last_addition'], line['last_addition_raw'])}\n"
        f"Last Erase: {time_of(line['last_erase'], line['last_erase_raw'])}\n"
        f"Overflow: {'yes' if line['overflow'] else 'no'}\nSupport: 0x{line['operation_support']:02x}\n"
        for line in lines
    )
    return text != wanted


# ---- inventories

# The labels of the text form, and the keys of the object.
LABELS = {
    "Chassis Type": ("chassis", "type_name"), "Chassis Part Number": ("chassis", "part_number"),
    "Chassis Serial": ("chassis", "serial_number"), "Board Mfg": ("board", "manufacturer"),
    "Board Product": ("board", "product_name"), "Board Serial": ("board", "serial_number"),
    "Board Part Number": ("board", "part_number"), "Board FRU ID": ("board", "fru_file_id"),
    "Product Manufacturer": ("product", "manufacturer"), "Product Name": ("product", "name"),
    "Product Part Number": ("product", "part_number"), "Product Version": ("product", "version"),
    "Product Serial": ("product", "serial_number"), "Product Asset Tag": ("product", "asset_tag"),
    "Product FRU ID": ("product", "fru_file_id"),
}


def inventory_lines(line):
    """The lines of the text form that an object means, but for multirecords."""
    if line["state"] == "elsewhere":
        return [f"FRU ({line['name'] or ''}): elsewhere, not read"]
    # The text form prints device 0 before it meets its locator, and so without a name.
    name = "" if line["name"] is None or line["fru_device_id"] == 0 else f" ({line['name']})"
    found = [f"FRU {line['fru_device_id']}{name}"]
    if line["state"] == "not_present":
        return [*found, "not present"]
    if line["state"] == "faulty":
        return [*found, f"FRU fault: {line['fault'].replace('_', ' ')}"]
    for area in "chassis", "board", "product":
        title = area.capitalize()
        if line[f"{area}_fault"] is not None:
            found.append(f"{title} fault: {line[f'{area}_fault'].replace('_', ' ')}")
        if line[area] is None:
            continue
        if area == "board":
            made = line["board"]["manufactured"]
            found.append("Board Mfg Date: " + ("unspecified" if made is None else made[:16].replace("T", " ")))
        for label, (owner, key) in LABELS.items():
            if owner == area and line[area][key] is not None:
                found.append(f"{label}: {line[area][key]}")
        found += [f"{title} Extra: {text}" for text in line[area]["extra"] if text]
    return found


def is_of_records(shown):
    return re.match(r"(DC |Power |Management |Multirecord|OEM |Record|Records )", shown) is not None


def inventories_differ(lines, text):
    shown = [block.split("\n") for block in text.split("\n\n") if block]
    if len(shown) != len(lines):
        return True
    return any(
        inventory_lines(line) != [row.replace(" ()", "", 1) if ":" not in row else row for row in rows if not is_of_records(row)]
        for line, rows in zip(lines, shown)
    )


# ---- comparing


def objects(text):
    return [json.loads(line, parse_float=str) for line in text.splitlines()]


def raw_rows_differ(lines, text):
    rows = [f"sdr {line['record_id']:04x} {line['next_record_id']:04x} {line['raw']}" for line in lines]
    return rows != text.split("\n")[1:-1] and rows != text.split("\n")[:-1]


def lists_differ(differs):
    """The comparison of a listing by one of its lines."""
    return lambda lines, text: text.count("\n") != len(lines) or any(
        differs(line, row) for line, row in zip(lines, text.split("\n"))
    )


COMMANDS = (
    (("sdr", "list", "all"), lists_differ(record_differs)), (("sensor",), lists_differ(sensor_differs)),
    (("sel", "list"), lists_differ(entry_differs)), (("sel", "elist"), lists_differ(event_differs)), (("fru",), inventories_differ),
    (("sdr", "hex"), raw_rows_differ), (("sdr", "info"), info_differs), (("sel", "info"), info_differs),
)


# ---- CSV

# Members without a column: the name of the object, lists, and areas, whose members have columns.
NO_COLUMN = {"object", "state_words", "chassis", "board", "product", "records"}


def flat(line):
    """The members of an object as texts, those of areas by both keys; null is empty."""
    found = {}
    for key, value in line.items():
        for more, inner in value.items() if isinstance(value, dict) else [(None, value)]:
            name = key if more is None else f"{key}.{more}"
            if isinstance(inner, bool):
                inner = str(inner).lower()
            found[name] = inner if isinstance(inner, list) else str("" if inner is None else inner)
    return found


def rows_of(text, separator=","):
    return list(csv.reader(io.StringIO(text, newline=""), delimiter=separator))


def rows_differ(out, text):
    """Whether the rows of CSV have other values than the objects."""
    lines = [json.loads(line, parse_float=str) for line in out.splitlines()][:-1]
    if not text.endswith("\n"):
        return True
    columns, *rows = rows_of(text)
    if len(rows) != len(lines) or len(set(columns)) != len(columns):
        return True
    for line, row in zip(lines, rows):
        wanted = flat(line)
        if row != [wanted.get(column, "") for column in columns]:
            return True
        if any(not isinstance(value, list) for key, value in wanted.items() if key not in columns and key not in NO_COLUMN):
            return True
    return False


def compare_tables(names, tables):
    """The differences between the rows of all images at once and those of each, and what SQLite imports of them."""
    told = []
    for words in sorted(set().union(*tables)):
        command = next(command for command, _ in COMMANDS if command[:2] == words)
        what = " ".join(command)
        images = [word for name in names for word in ("--image", name)]
        done = subprocess.run([PROGRAM, *images, "--csv", *command], capture_output=True, stdin=subprocess.DEVNULL)
        columns, *rows = rows_of(done.stdout.decode())
        wanted = [(row + [name]) for name, table in zip(names, tables) for row in rows_of(table[words])[1:]]
        if columns[-1] != "image" or rows != wanted or any(rows_of(table[words])[0] != columns[:-1] for table in tables):
            told.append(f"{what}: the rows of all images are not those of each")
        semicolons = subprocess.run(
            [PROGRAM, *images, "--separator=semicolon", "--csv", *command], capture_output=True, stdin=subprocess.DEVNULL
        )
        if rows_of(semicolons.stdout.decode(), ";") != [columns, *rows]:
            told.append(f"{what}: other rows with semicolons")
        told += read_by_sqlite(what, done.stdout, columns, rows)
    return told


def read_by_sqlite(what, text, columns, rows):
    if not shutil.which("sqlite3"):
        return []
    with tempfile.NamedTemporaryFile(suffix=".csv") as file:
        file.write(text)
        file.flush()
        done = subprocess.run(["sqlite3", "-json", ":memory:", f".import --csv {file.name} t", "select * from t"], capture_output=True)
    read = json.loads(done.stdout) if done.stdout else []
    if done.stderr or [list(row.items()) for row in read] != [list(zip(columns, row)) for row in rows]:
        return [f"{what}: SQLite reads other rows: {done.stderr.decode()[:200]}"]
    return []


def compare(name):
    """Compares the two forms of one image. Gives the differences, the kinds of objects with their keys, and the objects."""
    told, kinds, outs, tables = [], set(), {}, {}
    commands = list(COMMANDS)
    while commands:
        words, differ = commands.pop(0)
        status, text, message = run(name, *words)
        json_status, out, json_message = run(name, "--json", *words)
        outs[words[:2]] = out
        csv_status, table, csv_message = run(name, "--csv", *words)
        tables.setdefault(words[:2], table)
        if (csv_status, csv_message) != (json_status, json_message) or rows_differ(out, table):
            told.append(f"{name}: --csv {' '.join(words)}:\n{table}\n{csv_message}\n{out}")
        lines = objects(out)
        kinds |= {(line["object"], line.get("kind"), tuple(line)) for line in lines}
        end = lines.pop() if lines else {}
        what = f"{name}: {' '.join(words)}"
        if (status, message) != (json_status, json_message) and not words[0] == "sel":
            told.append(f"{what}: {status} {message!r} {json_status} {json_message!r}")
        if end.get("count") != len(lines) or end["status"] != json_status or (end["message"] or "") != json_message.rstrip("\n"):
            told.append(f"{what}: {end}")
        if differ(lines, text):
            told.append(f"{what}:\n{text}\n{out}")
        if words == ("sensor",):
            # one sensor by its name, if there is one
            names = [line["name"] for line in lines if line["kind"] == "full" and line["name"]]
            commands += [(("sensor", "get", name), blocks_differ) for name in names[:1]]
    tables.pop(("sensor", "get"), None)
    return told, kinds, outs, tables


def read_by_jq(outs):
    """The differences between jq and Python on the objects of each command, which jq reads in one run."""
    told = []
    for words in sorted(set().union(*outs)) if shutil.which("jq") else ():
        text = "".join(out.get(words, "") for out in outs)
        done = subprocess.run(["jq", "-c", "."], input=text.encode(), capture_output=True)
        ours, theirs = text.splitlines(), done.stdout.decode().splitlines()
        same = len(ours) == len(theirs) and all(json.loads(a) == json.loads(b) for a, b in zip(ours, theirs))
        if done.returncode or not same:
            told.append(f"{' '.join(words)}: jq reads other values: {done.stderr.decode()}")
    return told


def main():
    with tempfile.TemporaryDirectory() as folder:
        rng = random.Random(SEED)
        names = list(EXAMPLES)
        for n in range(GENERATED):
            names.append(f"{folder}/{n}.image")
            with open(names[-1], "w", encoding="ascii") as file:
                file.write(image(rng))
        with multiprocessing.Pool(4) as pool:
            found = pool.map(compare, names, chunksize=20)
        told = compare_tables(names, [tables for *_, tables in found])
    told += [text for texts, *_ in found for text in texts] + read_by_jq([outs for _, _, outs, _ in found])
    orders = {}
    for object_, kind, keys in sorted(set().union(*(kinds for _, kinds, *_ in found)), key=str):
        if orders.setdefault((object_, kind), keys) != keys:
            told.append(f"keys of {object_} {kind}: {keys} and {orders[object_, kind]}")
    for text in told[:MOST_TOLD]:
        print(text)
    if told:
        sys.exit(f"{len(told)} differences")


main()
