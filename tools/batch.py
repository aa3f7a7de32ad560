"""The oracle's formats, for scripts that read and write them: a case's head, an answer, a row, and records of cases and of
JSON texts."""
import collections
import struct

# The entry (0 one expression, 1 one statement, 2 the whole script; in strict mode 3 more), the start place, the pool's
# length in words (low half, high half) and the number of tokens, which follow.
HEAD = struct.Struct("<5H")
# The four words of an answer, and 1 if every pool word behind the used rows is zero; the used rows follow.
ANSWER = struct.Struct("<5I")
# A row is kind, mark, place, four children, next and end.
ROW_WORDS = 9
ROW = struct.Struct(f"<{ROW_WORDS}I")

# A recorded case: tokens as bytes, the pool's length in words, the five words of the answer, and each row's words.
Record = collections.namedtuple("Record", "entry start pool tokens answer rows")


# The head of a recorded JSON text: the root, the lengths of the pool in words, of the file and of the lent slice in bytes,
# the number and the value of the answer, and 0; the pool's words follow, the file, and the text if the number is 0.
TEXT_HEAD = struct.Struct("<7I")
Retold = collections.namedtuple("Retold", "root pool file room number value text")


def cases(stream, one):
    """Each case of a list, as a function makes it that is given one for so many next bytes; a ValueError if the stream ends
    within a case."""
    at = 0

    def taken(length):
        nonlocal at
        part, at = stream[at : at + length], at + length
        if len(part) < length:
            raise ValueError("the list ends within a case")
        return part

    while at < len(stream):
        yield one(taken)


def records(stream, row_words=ROW_WORDS):
    """Each case of a recorded list with its answer."""
    row = struct.Struct(f"<{row_words}I")

    def one(taken):
        entry, start, low, high, count = HEAD.unpack(taken(HEAD.size))
        tokens = taken(2 * count)
        answer = ANSWER.unpack(taken(ANSWER.size))
        used = answer[2] if answer[0] == 0 else 0
        rows = list(row.iter_unpack(taken(used * row.size)))
        return Record(entry, start, low | high << 16, tokens, answer, rows)

    return cases(stream, one)


def retold(stream):
    """Each case of a list of JSON texts."""

    def one(taken):
        root, words, length, room, number, value, _ = TEXT_HEAD.unpack(taken(TEXT_HEAD.size))
        pool, file = taken(4 * words), taken(length)
        return Retold(root, pool, file, room, number, value, taken(value) if number == 0 else b"")

    return cases(stream, one)
