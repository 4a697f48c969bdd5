"""The records of a CSV file as a load reads them, and why a record fits no row of a table. For tools/load_csv.py.

A record ends at a line feed, a carriage return, or both. Its fields stand between commas. A field that begins with a
double quote goes on to its closing quote, over commas and line ends; a quote in it is doubled. Nothing is trimmed.
"""

import re

CHUNK = 1_048_576
# No record that fits a table has as many bytes, unless its integers have leading zeros.
MOST_RECORD = 1_048_576
# The byte order mark.
MARK = b"\xef\xbb\xbf"
ENDS = (b"\r\n", b"\n", b"\r")
# A field: quotes count at its front alone, and bytes may follow the closing one.
FIELD = rb'(?:"[^"]*(?:""[^"]*)*"(?!")[^,\r\n]*|[^,\r\n"][^,\r\n]*|)'
ONE_FIELD = re.compile(FIELD)
QUOTED = re.compile(rb'"([^"]*(?:""[^"]*)*)"')
# A record and its end. A carriage return may end it alone, unless its line feed is still to come.
RECORD = re.compile(FIELD + rb"(?:," + FIELD + rb")*(?:\n|\r\n|\r(?=[^\n]))")
LAST_RECORD = re.compile(FIELD + rb"(?:," + FIELD + rb")*(?:\n|\r\n|\r|\Z)")
COLUMN = re.compile(
    r"\s*([A-Za-z_]\w*)\s+(int|text)(?:\s+(key)|\s+references\s+([A-Za-z_]\w*))?\s*", re.IGNORECASE | re.ASCII
)
DECLARATION = re.compile(r"\s*(?:dimension|fact)\s+\w+\s*\((.*)\)\s*;?\s*", re.IGNORECASE | re.DOTALL)
INTEGER = re.compile(rb"-?[0-9]+")
CONTROL = re.compile(rb"[\x00-\x1f]")


class FileFault(Exception):
    """The file cannot be loaded as it is."""


def pieces_of(file):
    """The bytes of a file, piece by piece, without byte order marks at its front."""
    piece = file.read(CHUNK)
    if piece.startswith((b"\xff\xfe", b"\xfe\xff")):
        raise FileFault("the file is UTF-16, and a table takes UTF-8: convert it (iconv -f UTF-16 -t UTF-8)")
    while piece.startswith(MARK):
        piece = piece[len(MARK) :]
    while piece:
        yield piece
        piece = file.read(CHUNK)


def cut(data, is_last):
    """Cuts bytes into records with their ends, blank lines among them, and what is left."""
    if b'"' not in data:
        lines = data.splitlines(keepends=True)
        # The line feed of a carriage return may still come.
        is_open = lines and not is_last and not lines[-1].endswith(b"\n")
        return (lines[:-1], lines[-1]) if is_open else (lines, b"")
    records, place, pattern = [], 0, LAST_RECORD if is_last else RECORD
    while place < len(data):
        found = pattern.match(data, place)
        if not found:
            break
        records.append(found[0])
        place = found.end()
    return records, data[place:]


def all_records(file):
    """The records of a file, each with the number of its first line. Lines without bytes are no records."""
    left, line, pieces = b"", 1, pieces_of(file)
    is_last = False
    while not is_last:
        piece = next(pieces, b"")
        is_last = not piece
        records, left = cut(left + piece, is_last)
        for record in records:
            if record not in ENDS:
                yield line, record
            line += record.count(b"\n")
        if len(left) > MOST_RECORD:
            raise FileFault(f"the record at line {line} has over {MOST_RECORD:,} bytes: does a quote lack its end?")
    if left:
        raise FileFault(f"the record at line {line} has a quote that is not closed")


def body_of(record):
    """A record without its end."""
    for end in ENDS:
        if record.endswith(end):
            return record[: -len(end)]
    return record


def fields_of(record):
    """The fields of a record."""
    body = body_of(record)
    if b'"' not in body:
        return body.split(b",")
    fields, place = [], 0
    while place <= len(body):
        found = ONE_FIELD.match(body, place)
        fields.append(value_of(found[0]))
        place = found.end() + 1
    return fields


def value_of(field):
    """The value that a field writes: without its quotes, if it begins with one."""
    found = QUOTED.match(field)
    return found[1].replace(b'""', b'"') + field[found.end() :] if found else field


def has_dot_line(record):
    """Whether a line within the quotes of a record is a single dot, which would end a block."""
    return b"\n" in body_of(record) and any(it in (b".", b".\r") for it in record.split(b"\n")[1:])


def shown(some_bytes, most=100):
    """A record or a field as it may be printed."""
    text = some_bytes[:most].decode("utf-8", "backslashreplace")
    text = "".join(it if it.isprintable() else ascii(it)[1:-1] for it in text)
    return f"{text} .." if len(some_bytes) > most else text


class Column:
    """A column as it is declared."""

    def __init__(self, name, kind, key, dimension):
        self.name, self.kind, self.is_key = name.lower(), kind.lower(), bool(key)
        self.dimension = dimension.lower() if dimension else None


def columns_of(text):
    """The columns of a declaration, which may be whole, or what stands between its parentheses."""
    found = DECLARATION.fullmatch(text)
    columns = [COLUMN.fullmatch(it) for it in (found[1] if found else text).split(",")]
    if not all(columns):
        raise ValueError(text)
    return [Column(*it.groups()) for it in columns]


def integer_of(field):
    """The integer of 64 bits that a field writes, if it writes one."""
    if not INTEGER.fullmatch(field):
        return None
    digits = field.lstrip(b"-").lstrip(b"0")
    if len(digits) > 19:
        return None
    number = int(digits or b"0") * (-1 if field.startswith(b"-") else 1)
    return number if -(2**63) <= number < 2**63 else None


def fault_of_text(field):
    """Why no text column takes a field, if none does."""
    control = CONTROL.search(field)
    if control:
        return f"has the byte 0x{control[0][0]:02X}, and a text has none below 0x20"
    if len(field) > 255:
        return f"has {len(field)} bytes, and a text has at most 255"
    try:
        field.decode()
    except UnicodeDecodeError:
        return "is not UTF-8"
    return None


def fault_of_field(field, kind):
    """Why a column of some kind does not take a field. The kind is None if it is not known."""
    if kind != "text" and integer_of(field) is not None:
        return None
    return "is no integer of 64 bits" if kind == "int" else fault_of_text(field)


def fault_of_record(record, columns, width):
    """Why a record fits no row, if that is known: by the columns, or else by how many fields there are to be."""
    fields = fields_of(record)
    if columns and len(fields) != len(columns):
        return f"it has {len(fields)} fields, and the table has {len(columns)} columns"
    if not columns and len(fields) != width:
        return f"it has {len(fields)} fields, and the first record of the file has {width}"
    for place, field in enumerate(fields):
        fault = fault_of_field(field, columns[place].kind if columns else None)
        if fault:
            name = columns[place].name if columns else f"field {place + 1}"
            return f"{name} '{shown(field, 40)}' {fault}"
    return None


def key_of(field, kind):
    """What is compared of a key: an integer by its value, unless the column holds texts, and a text by its bytes."""
    number = None if kind == "text" else integer_of(field)
    return field if number is None else number
