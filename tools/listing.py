"""Records of a file as lines of text, and back: what tools/chart and tools/bars share. In a listing `#` begins a comment. A price is a number as Python
writes it, or 0x and 16 digits for its bits. The form of a record has a letter for each field: B a direction, H a number, Q a price."""
import struct, sys

DIRECTIONS = ["down", "up"]

def price_bits(word):
    return int(word, 16) if word.startswith("0x") else struct.unpack("<Q", struct.pack("<d", float(word)))[0]

def direction(word):
    return DIRECTIONS.index(word) if word in DIRECTIONS else int(word)

def price(bits):
    x = struct.unpack("<d", struct.pack("<Q", bits))[0]
    return repr(x) if price_bits(repr(x)) == bits else f"0x{bits:016X}"

READ = {"B": direction, "H": int, "Q": price_bits}
SHOWN = {"B": lambda d: DIRECTIONS[d] if d < 2 else d, "H": int, "Q": price}

def packed(name, form, words):
    """the fields of a record, as bytes"""
    if len(words) != len(form):
        raise ValueError(f"a {name} has {len(form)} fields")
    return struct.pack("<" + form, *(READ[f](w) for f, w in zip(form, words)))

def each_line(lines, made):
    """what is made of each line that has more than a comment; where that is an error, names the line and ends"""
    out = []
    for number, line in enumerate(lines, 1):
        line = line.split("#")[0].strip()
        if line:
            try:
                out.append(made(line.split()))
            except (ValueError, struct.error) as e:
                sys.exit(f"line {number}: {e}: {line}")
    return out

def records(data, forms):
    """mark, place and fields of each record of a file; where none is whole, names the place and ends"""
    at = 0
    while at < len(data):
        mark = data[at:at + 2]
        size = struct.calcsize("<" + forms.get(mark, ""))
        if mark not in forms or len(data) - at - 2 < size:
            sys.exit(f"no whole record at byte {at}")
        yield mark, at, struct.unpack_from("<" + forms[mark], data, at + 2)
        at += 2 + size

def show(form, fields, *before):
    print(*before, *(SHOWN[f](x) for f, x in zip(form, fields)))

def run(doc, **ways):
    """one of the ways, which its argument names: from standard input to standard output"""
    if len(sys.argv) != 2 or sys.argv[1] not in ways:
        sys.exit(doc)
    ways[sys.argv[1]]()
