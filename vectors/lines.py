"""The lines that crates/vectors_calls reads and writes; its source says what stands in them. vectors/calls.py collects them."""

# where what is lent stands, and how much room output and work have of which a first part is lent
AT = {'key': 40, 'public_key': 60, 'salt': 100, 'seeds': 200, 'message': 1000, 'file': 34000}
ROOM, OUTPUT_ROOM, WORK_ROOM = 53800, 19800, 65600
# so many bytes of work are zero after these answers, none after the others
WORK, CLEARING = 65536, (0, 13, 14, 15, 16, 17)
lent = bytearray(ROOM)
read, written = [], []


def numbers(*values):
    """Three bytes each, low byte first."""
    return b''.join(n.to_bytes(3, 'little') for n in values)


def put(at, value, kind):
    lent[at:at + len(value)] = value
    read.append((numbers(at, len(value)) + value).hex() + kind)


def lend(name, value):
    """Of what is lent only what changes is written, and what stands between two such places that are near each other."""
    at = AT[name]
    differ = [at + i for i, byte in enumerate(value) if lent[at + i] != byte]
    while differ:
        n = next((n for n in range(1, len(differ)) if differ[n] > differ[n - 1] + 16), len(differ))
        put(differ[0], value[differ[0] - at:differ[n - 1] + 1 - at], 'i')
        differ = differ[n:]


def told(answer):
    """Number and place of the oracle's answer."""
    return (0, 0) if answer[0] == 'accepted' else answer[1:]


def call(kind, answer, output=0, work=0, e=0, hidden=0, second=0, **inputs):
    """A call of this kind, and the oracle's answer. By document 01's rule what is not written of output and work is as it was, or zero."""
    verdict, made = told(answer), answer[1] if told(answer) == (0, 0) else b''
    for name, value in inputs.items():
        lend(name, value)
    lend('file', made)
    lengths = [len(inputs.get(name, b'')) for name in AT]
    put(0, numbers(*lengths, output, work, len(made), e, hidden) + second.to_bytes(4, 'little'), kind)
    zeros = WORK if work and verdict[0] in CLEARING else 0
    written.append(' '.join(map(str, (*verdict, zeros, WORK_ROOM, len(made), OUTPUT_ROOM))))
    return verdict
