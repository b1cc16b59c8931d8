"""Leaves of a register of the third version, spelled and read by Python from their format, which crates/zeb_leaf/README.md tells.

A leaf is a row of `blocks` with the blocks of many terms, each an entry: a term, a block, how many records, and the block's bytes. It covers
what is from its own key on, a term and a block, up to that of the next leaf of its database, index and register.
"""
import itertools

# How many bytes a leaf of several entries has at most.
LEAF_BYTES = 3_000
REGISTERS = (0, 1, 2)
# Blocks are those of numbers of records of 64 bits, and a block has as many records.
BLOCKS, RECORDS = 2**56, 256
FIRST_KEY = (b"", 0)


class Malformed(Exception):
    """Bytes that are no leaf."""


def spelled_number(value):
    """The shortest bytes of a number, seven bits in each."""
    return bytes([value]) if value < 128 else bytes([value % 128 + 128]) + spelled_number(value // 128)


def read_number(data, at):
    """The number at a place, of 64 bits at most and in its shortest form, and where it ends."""
    end = next((it for it in range(at, len(data)) if data[it] < 128), None)
    if end is None:
        raise Malformed
    value = sum(byte % 128 << 7 * nth for nth, byte in enumerate(data[at : end + 1]))
    if value >= 2**64 or (end > at and data[end] == 0):
        raise Malformed
    return value, end + 1


def shared(before, term):
    """How many bytes two terms have in common at their front."""
    return next((at for at, (one, other) in enumerate(zip(before, term)) if one != other), min(len(before), len(term)))


def spelled_entry(before, entry):
    """The bytes of an entry behind one with this term."""
    term, block, records, data = entry
    front = shared(before, term)
    own = term[front:]
    return b"".join(
        (spelled_number(front), spelled_number(len(own)), own, spelled_number(block), spelled_number(records), spelled_number(len(data)), data)
    )


def spelled_leaf(entries):
    """The bytes of these entries, which rise."""
    befores = [b"", *(it[0] for it in entries)]
    return b"".join(spelled_entry(before, entry) for before, entry in zip(befores, entries))


def read_counted(data, at):
    """Bytes behind how many they are, and where they end."""
    length, at = read_number(data, at)
    if at + length > len(data):
        raise Malformed
    return data[at : at + length], at + length


def read_entry(before, data, at):
    """The entry that stands at this place behind one with this term, and where it ends."""
    front, at = read_number(data, at)
    own, at = read_counted(data, at)
    block, at = read_number(data, at)
    records, at = read_number(data, at)
    bytes_, at = read_counted(data, at)
    term = before[:front] + own
    if front > len(before) or front != shared(before, term) or block >= BLOCKS or not 1 <= records <= RECORDS:
        raise Malformed
    return (term, block, records, bytes_), at


def read_leaf(data):
    """The entries of a leaf's bytes, none where there are no bytes."""
    entries, at, before = [], 0, b""
    while at < len(data):
        entry, at = read_entry(before, data, at)
        if not is_text(entry[0]) or (entries and key_of(entry) <= key_of(entries[-1])):
            raise Malformed
        entries.append(entry)
        before = entry[0]
    return entries


def is_text(term):
    try:
        return term.decode() is not None
    except UnicodeDecodeError:
        return False


def key_of(entry):
    """Where an entry stands."""
    return entry[:2]


def cut(entries):
    """The entries in leaves, each as long as it may be."""
    leaves = [[]]
    for entry in entries:
        if leaves[-1] and len(spelled_leaf([*leaves[-1], entry])) > LEAF_BYTES:
            leaves.append([])
        leaves[-1].append(entry)
    return leaves


def rows_of(register, leaves):
    """The rows of the leaves of a register, which is a database, an index and a number; the first has the least key."""
    keys = [FIRST_KEY, *(key_of(it[0]) for it in leaves[1:])]
    return [(*register, *key, spelled_leaf(entries)) for key, entries in zip(keys, leaves)]


def leaf_rows(blocks):
    """The rows of `blocks` of a register with these blocks, each with its register, its term, its block, its records and its bytes."""
    rows = []
    for register, each in itertools.groupby(sorted(blocks), key=lambda it: it[:3]):
        rows += rows_of(register, cut([it[3:] for it in each]))
    return rows


def entries_of(leaves):
    """The entries of a register, whose leaves come in order with their own keys, or Malformed where it isn't sound."""
    entries, keys = [], [key for key, _ in leaves]
    if keys[0] != FIRST_KEY:
        raise Malformed
    for (own, data), end in zip(leaves, [*keys[1:], None]):
        found = read_leaf(data)
        is_within = all(own <= key_of(it) and (end is None or key_of(it) < end) for it in found)
        if not is_within or not is_text(own[0]) or (len(found) > 1 and len(data) > LEAF_BYTES):
            raise Malformed
        entries += found
    return entries


def are_leaves(rows, blocks):
    """Whether these rows are sound leaves that have just these blocks."""
    if any(index < 0 or register not in REGISTERS or block < 0 for _, index, register, _, block, _ in rows):
        return False
    found = []
    try:
        for register, each in itertools.groupby(sorted(rows), key=lambda it: it[:3]):
            found += [(*register, *it) for it in entries_of([((term, block), data) for *_, term, block, data in each])]
    except Malformed:
        return False
    return sorted(found) == sorted(blocks)
