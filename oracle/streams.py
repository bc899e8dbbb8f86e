"""Streams of stored cases for the program vectors: each case its kind (a byte), its length (u32, lowest byte first) and its bytes."""
import struct, subprocess
import running

ROOM = 2097152  # bytes that a stream has at most
# the number of a kind is its place
KINDS = [b"UNKNOWN", b"REPORT", b"REWRITE", b"REPLAY", b"SAME", b"BARS"]

def stream(cases):
    """cases, each of them its kind, its bytes and perhaps more, in one"""
    return b"".join(struct.pack("<BI", KINDS.index(kind), len(case)) + case for kind, case, *_ in cases)

def wanted(cases):
    """what must be printed of cases, each of them its kind, its bytes and what comes of it"""
    return b"".join(b"%s %d\n" % (kind, i) + answer for i, (kind, _, answer) in enumerate(cases))

def cases(data):
    """kind and bytes of the cases of a stream, but of one that is cut short"""
    out, at = [], 0
    while at + 5 <= len(data):
        kind, n = struct.unpack_from("<BI", data, at)
        out.append((KINDS[kind], data[at + 5:at + 5 + n]))
        at += 5 + n
    return out if at == len(data) else out[:-1]

def differing(cases, shown):
    """how many cases of a stream print something else than they must; the first three are shown: the case, what must be printed, what is"""
    run = subprocess.run([running.program("vectors")], input=stream(cases), capture_output=True, timeout=60)
    if (run.stdout, run.returncode) == (wanted(cases), 0):
        return 0
    if len(cases) > 1:
        return differing(cases[:len(cases) // 2], shown) + differing(cases[len(cases) // 2:], shown)
    shown.append(cases[0])
    if len(shown) <= 3:
        texts = (cases[0][1], wanted(cases), run.stdout)
        print(f"differs: {cases[0][0].decode()}, ended with {run.returncode}", *("%.2000s" % text.hex() for text in texts), sep="\n")
    return 1

def all_differing(given):
    """how many cases print something else than they must, in streams that the program has room for"""
    wrong, batch, size, shown = 0, [], 0, []
    for case in given:
        if size + 5 + len(case[1]) > ROOM:
            wrong += differing(batch, shown)
            batch, size = [], 0
        batch.append(case)
        size += 5 + len(case[1])
    return wrong + differing(batch, shown)
