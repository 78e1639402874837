"""The rules of document 01 with Asks 1 and 2, written down a second time, for the tests to compare with."""
import struct

LENT = 99  # what lent memory holds before a job, so that a change shows
FUTURE = 32768  # the least age of a record from the future


# ---- boards, links and vectors


def weight(x):
    return bin(x).count("1")


def crossed(x, i):
    return x ^ 2 ** (i - 1) if 1 <= i <= 10 else x


def working(byte):
    return 1 <= byte <= 4


def class_of(byte):
    return "silent" if byte == 0 else "working" if byte <= 4 else "late" if byte <= 253 else "down" if byte == 254 else "empty"


def faulty(links, a, i):
    """Whether the word of a or of its neighbour along i marks the link between them."""
    ends = (a, a ^ 2 ** (i - 1))
    return any(links[end] >> (i - 1) & 1 == 1 for end in ends)


def definition_1(n, status, links):
    """The bits of every node by Definition 1: bits[a][k]."""
    nodes = range(2**n)
    bits = [[1] + [0] * n for _ in nodes]
    for k in range(1, n + 1):
        for a in nodes:
            if not working(status[a]):
                continue
            if k == 1:
                bits[a][1] = 0 if any(faulty(links, a, i) for i in range(1, n + 1)) else 1
            else:
                total = sum(bits[a ^ 2 ** (i - 1)][k - 1] for i in range(1, n + 1) if not faulty(links, a, i))
                bits[a][k] = 0 if total <= n - k else 1
    return bits


def vectors_of(n, status, links):
    return [sum(b[k] << (k - 1) for k in range(1, n + 1)) for b in definition_1(n, status, links)]


def held(n, vectors, a, k):
    """Bit k of node a as lent; there are bits 1 to n, and bit 0 is 1."""
    return 1 if k == 0 else vectors[a] >> (k - 1) & 1 if k <= n else 0


def mask(n, links, vectors, a, dims, k):
    return sum(2 ** (i - 1) for i in range(1, n + 1) if dims >> (i - 1) & 1 and not faulty(links, a, i) and held(n, vectors, a ^ 2 ** (i - 1), k))


# ---- the jobs


def refusal(n, lengths, links, nodes, boards, status, short=False, wide=False):
    """The first of refusals 1 to 6, or None. boards: source and destination, looked at last."""
    if not 1 <= n <= 10:
        return 1
    if any(length != 2**n for length in lengths) or short:
        return 2
    if wide and any(w >= 2**n for w in links):
        return 3
    if any(x >= 2**n for x in nodes):
        return 4
    for by, a in zip((5, 6), boards):
        if not working(status[a]):
            return by
    return None


def fill(n, status, links, length):
    by = refusal(n, (len(status), len(links), length), links, (), (), status, wide=True)
    return by, [LENT] * length if by else vectors_of(n, status, links)


def decision(n, links, vectors, s, d):
    """A number, or kind, mask and hops."""
    nav = s ^ d
    h = weight(nav)
    if h == 0:
        return ("home", 0, 0)
    p = mask(n, links, vectors, s, nav, h - 1)
    if held(n, vectors, s, h):
        return ("assured", p, h) if p else 8
    if p:
        return ("lent", p, h)
    q = mask(n, links, vectors, s, 2**n - 1 - nav, h + 1)
    return ("detour", q, h + 2) if q else 7


def decide(n, status, links, vectors, s, d):
    lengths = (len(status), len(links), len(vectors))
    return refusal(n, lengths, links, (s, d), (s, d), status) or decision(n, links, vectors, s, d)


def hop(n, status, links, vectors, a, nav):
    lengths = (len(status), len(links), len(vectors))
    by = refusal(n, lengths, links, (a, nav), (a, a ^ nav), status)
    if by:
        return by
    if nav == 0:
        return "arrived"
    p = mask(n, links, vectors, a, nav, weight(nav) - 1)
    return "mask %d" % p if p else 9


def journey(n, status, links, length, picks, words, s, d):
    """The answer, the vectors and the path."""
    lengths = (len(status), len(links), length)
    old = [LENT] * length
    path = [LENT] * words
    by = refusal(n, lengths, links, (s, d), (s, d), status, short=len(picks) < n + 1 or words < n + 2, wide=True)
    if by:
        return by, old, path
    vectors = vectors_of(n, status, links)
    chosen = decision(n, links, vectors, s, d)
    if isinstance(chosen, int):
        return chosen, vectors, path
    kind, offer, hops = chosen
    a, walked = s, [s]
    while a != d:
        dims = [i for i in range(1, n + 1) if offer >> (i - 1) & 1]
        a ^= 2 ** (dims[picks[len(walked) - 1] % len(dims)] - 1)
        walked.append(a)
        if a != d:
            offer = mask(n, links, vectors, a, a ^ d, weight(a ^ d) - 1)
    return (kind, chosen[1], hops, len(walked) - 1), vectors, walked + path[len(walked):]


# ---- a record


def opened(data, places, link_places):
    """A number or n, and the status bytes and link words afterwards."""
    status, links = [LENT] * places, [LENT] * link_places
    length = int.from_bytes(data[0:2], "little")
    if len(data) < 5 or length != len(data) - 2 or int.from_bytes(data[2:4], "little") != 1:
        return 10, None, status, links
    n = data[4]
    if not 1 <= n <= 10:
        return 1, None, status, links
    nodes = 2**n
    if length != 3 + 3 * nodes:
        return 10, None, status, links
    if places < nodes or link_places < nodes:
        return 2, None, status, links
    read = [int.from_bytes(data[5 + nodes + 2 * a : 7 + nodes + 2 * a], "little") for a in range(nodes)]
    if any(w >= nodes for w in read):
        return 3, None, status, links
    return None, n, list(data[5 : 5 + nodes]) + status[nodes:], read + links[nodes:]


def listing(data):
    by, n, status, links = opened(data, 1024, 1024)
    if len(data) > 4096:
        by = 10
    if by:
        return ["refused %d" % by]
    bits = definition_1(n, status, links)
    return ["cube %d" % n] + ["%d %s %s" % (a, class_of(status[a]), "".join(map(str, bits[a][1:]))) for a in range(2**n)]


# ---- the status log


def log_refusal(n, data, places):
    """The first refusal of a log for a status slice of that many places, or None."""
    if n not in range(1, 11):
        return 1
    if places != 1 << n:
        return 2
    while data:
        record, data = data[:8], data[8:]
        if len(record) < 8 or record[:4] != b"\x06\x00\x02\x00":
            return 11
        if int.from_bytes(record[6:], "little") >= places:
            return 12
    return None


def heard(sweep, data):
    """Node and age of every record of a log that isn't refused."""
    return [(node, (sweep - own) % 65536) for _, _, own, node in struct.iter_unpack("<4H", data)]


def status_byte(ages):
    return min(min(ages) + 1, 253) if ages else 0


def refresh(n, sweep, data, status):
    """The answer, and the status bytes afterwards."""
    by = log_refusal(n, data, len(status))
    if by:
        return "refused %d" % by, status
    pairs = heard(sweep, data)
    usable = [(node, age) for node, age in pairs if age < FUTURE]
    return "skipped %d" % (len(pairs) - len(usable)), [status_byte([x for a, x in usable if a == node]) for node in range(2**n)]


def update(n, sweep, part, before):
    """One more part after the log that came before: the answer, the log so far, and what the bytes must be, as if that had come at once."""
    answer, _ = refresh(n, sweep, part, [0] * 2**n)
    so_far = before if answer.startswith("refused") else before + part
    return answer, so_far, refresh(n, sweep, so_far, [0] * 2**n)[1]
