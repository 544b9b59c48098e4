"""hashed.py CAPACITY < TEXTS: the digest (FNV-1a) and the size of the hashed table of these texts, one a line. It shares no code
with the library: it follows "The bytes" and "What `pack_hashed` writes" in crates/tinystr_hashed/CALLING.md."""
import functools
import struct
import sys

# for each attempt: how many texts there are for 16 pilots, and how many for a move
ATTEMPTS = [*zip([36] * 3 + [32] * 3 + [24] * 2 + [16] * 2 + [8] * 2, [64] * 3 + [32] * 3 + [16] * 6)]


def hash_of(seed, record):
    found = seed * 0x2545_F491_4F6C_DD1D % 2**64
    for a, b in struct.iter_unpack("<2Q", record + bytes(-len(record) % 16)):
        high, low = divmod((found ^ a) * (found ^ 0x9E37_79B9_7F4A_7C15 ^ b), 2**64)
        found = high ^ low
    return found


def slot_of(found, pilot, slots):
    return (found * 0xE703_7ED1_A0B4_28DB * pilot % 2**64) * slots // 2**64


def place_of(seed, pilots, moves, count, record):
    found = hash_of(seed, record)
    slot = slot_of(found, pilots[found * len(pilots) // 2**64], count + len(moves))
    return slot if slot < count else moves[slot - count]


def attempt(records, seed, pilot_count, move_count):
    """The table of some records, which differ, by this seed and so many pilots and moves; None where the search fails."""
    count, pilots, groups, owners, held, stack, took = len(records), bytearray(pilot_count), {}, {}, {}, [], []
    left = 32 * count + 256 * min(count, 32)
    for found in (hash_of(seed, record) for record in records):
        groups.setdefault(found * pilot_count // 2**64, []).append(found)

    def choices(group, turn):
        for tried in range(255):
            pilot = 1 + (turn * 0x9E37_79B1 // 2**24 % 256 + tried) % 255
            slots = {slot_of(found, pilot, count + move_count) for found in groups[group]}
            losers = [owners[slot] for slot in slots if slot in owners]
            if len(slots) == len(groups[group]) and not (set(losers) & set(took[-8:]) if turn else losers):
                yield sum(len(groups[loser]) ** 2 for loser in losers), tried, pilot, slots, sorted(set(losers))

    def takes(group, turn=0):
        nonlocal left
        size = len(groups[group])
        left -= 255 * size**2 if turn else 0
        if left <= 0:
            return None
        choice = min(choices(group, turn), default=None) if turn else next(choices(group, turn), None)
        left -= 0 if turn else size * (choice[2] if choice else 255)
        if choice:
            _, _, pilots[group], held[group], losers = choice
            for slot in [slot for loser in losers for slot in held[loser]]:
                del owners[slot]
            owners.update(dict.fromkeys(held[group], group))
            stack.extend(losers)
        return choice

    stack += [group for group in sorted(groups, key=lambda group: (-len(groups[group]), group)) if not takes(group)][::-1]
    if max(map(len, groups.values())) > 32:
        return None
    while stack and left > 0:
        group = stack.pop()
        if not takes(group):
            if not takes(group, len(took) + 1):
                return None
            took.append(group)
    if left <= 0:
        return None
    free = (place for place in range(count) if place not in owners)
    moves = [next(free) if slot in owners else 0 for slot in range(count, count + move_count)]
    start = struct.pack(f"<4I{pilot_count}s{move_count}I", 1, pilot_count, move_count, seed, pilots, *moves)
    return start + b"".join(sorted(records, key=functools.partial(place_of, seed, pilots, moves, count)))


def packed(texts, capacity, first_seed=1):
    """The table of the set of these texts, as the builder makes it; the builder's first seed is 1."""
    records = sorted({text.ljust(capacity, b"\0") for text in texts})
    count, size = len(records), len(records) * capacity
    for seed, (for_pilots, for_move) in enumerate(ATTEMPTS if 1 < count < 2**31 else [], first_seed):
        pilots, moves = 1 + -(-16 * count // for_pilots), count // for_move
        pilots += -(16 + pilots + 4 * moves) % (64 if size >= 4096 else 16 if size >= 256 else 1)
        if table := attempt(records, seed, pilots, moves):
            return table
    return b"\1".ljust(16, b"\0") + b"".join(records)


def digest(data):
    return functools.reduce(lambda found, byte: (found ^ byte) * 0x100_0000_01B3 % 2**64, data, 0xCBF2_9CE4_8422_2325)


if __name__ == "__main__":
    table = packed([line.removesuffix(b"\n") for line in sys.stdin.buffer], int(sys.argv[1]))
    print(f"{digest(table):#018x} {len(table)}")
