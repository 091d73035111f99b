"""Rows of columns, their images, and what document 01's definitions hash for each call: the bill, in labels. A label is definition 3.1's:
four short digests of one block each and the digest of 128 bytes, three blocks; so seven 64-byte blocks."""
import hashlib

BLOCKS = 7


def flat(n):
    return [0] * n


def stairs(k):
    """A row, and a position in it whose path has k entries of every level: right entries by falling level, then down entries."""
    downs = min(15, k // 2)
    rights = k - downs
    return [15 - 16 * i // rights for i in range(rights)] + list(range(16 - downs, 16)), rights


def drawn(n):
    """Heights drawn from coin words, the words from a digest, so that every run has the same row."""
    words = (int.from_bytes(hashlib.sha256(b"coin %d" % i).digest()[:2], "big") for i in range(n))
    return [min(15, (w & -w).bit_length() - 1) if w else 15 for w in words]


def image(heights):
    n = len(heights)
    records = (bytes([h]) + hashlib.sha256(b"block %d" % i).digest() for i, h in enumerate(heights))
    return bytes([1]) + (2 + 33 * n).to_bytes(4, "big") + n.to_bytes(2, "big") + b"".join(records)


def tree(run):
    """The labels of tree(c, run): a leaf for each column, and a node for each column of the run above height 0."""
    return 1 + len(run) + sum(h > 0 for h in run)


def path(heights, p):
    """The entries from the root to position p, as (kind, level, first column and end of the side), with the labels that their sides
    have, and the labels of what stands at the stop's right."""
    row, c, end, entries, sides = [0] + heights, 0, len(heights) + 1, [], 0
    while True:
        run = row[c + 1 : end]
        level = max(run, default=0)
        if level == 0 and p == c:
            return entries, sides + (tree(run[1:]) if run else 0)
        d = c + 1 + run.index(level)
        if p < d:
            entries.append((0, level, d, end))
            sides += tree(row[d + 1 : end])
            end = d
        else:
            entries.append((1, level, c, d))
            sides += tree(row[c + 1 : d]) if level else 0
            c = d


def shared(first, second):
    """The leading entries that two paths share."""
    return next((i for i in range(min(len(first), len(second))) if first[i] != second[i]), min(len(first), len(second)))


def proof_bytes(heights, positions):
    """The bytes of a joint proof, and of a proof for each position."""
    paths = [path(heights, p)[0] for p in positions]
    sent = sum(map(len, paths)) - sum(map(shared, paths, paths[1:]))
    return 6 + 74 * len(paths) + 2 * (len(paths) - 1) + 38 * sent, sum(77 + 38 * len(entries) for entries in paths)


def check(heights):
    return tree(heights)


def prove(heights, p):
    return path(heights, p)[1]


def read(k):
    return k + 1


def replace(k):
    return 2 * (k + 1)


def insert(k, height):
    """The check, then every entry, the two leaves, and above height 0 the new node."""
    return (k + 1) + (k + 2 if height == 0 else k + 3)


def tag(length):
    """The 64-byte blocks of a tag: seven bytes, the readings, and the nine that end a message."""
    return (7 + length + 9 + 63) // 64


def filing(k, after, height, length):
    """Insert's check, Read's of the block after, and the tags of three blocks, as if their blocks made labels."""
    return insert(k, height) + read(after) + 3 * tag(length) / BLOCKS


def delete(first, second):
    """Both checks, then the first's stop leaf, both paths' entries below the place where they part, and the entries above it."""
    k, l, j = len(first), len(second), shared(first, second)
    return (k + 1) + (l + 1) + 1 + (k - min(j + 1, k)) + (l - min(j + 1, l)) + j
