"""For the tests of tools/sheet, not proved: random decimals, patterns and sheets, and texts that are damaged and read. Imported after support,
which has the tool's modules found."""
from decimal import Context, Decimal

from support import EDGES, KINDS, ok
import binary32
from sheet_bytes import CLASS_SHEET, MOST_CLASS, Cell, Sheet, widens_beyond
from text_lines import BadText


def random_decimal(draw):
    digits = "".join(draw.choice("0123456789") for _ in range(draw.randint(1, 40)))
    point = draw.randint(0, len(digits))
    word = draw.choice(["", "-"]) + draw.choice([digits, digits[:point] + "." + digits[point:]])
    return word + draw.choice(["", f"e{draw.randint(-60, 30 - point)}", f"e-{draw.randint(40, 400)}"])


def random_neighbour(draw):
    """A decimal very close to a binary32 number, of up to 2,000 digits, or the number itself."""
    pattern = draw.choice([draw.choice(EDGES), draw.getrandbits(31)])
    near = binary32.decimal(pattern if binary32.is_finite(pattern) else binary32.MAX)
    step = Decimal(draw.choice([-9, -5, -1, 0, 1, 4, 5, 6])).scaleb(-draw.choice([draw.randint(140, 160), draw.randint(45, 2000)]))
    return str(Context(prec=2100).add(near, step).copy_sign(draw.choice([1, -1])))


def random_pattern(draw):
    while True:
        pattern = draw.choice([draw.choice(EDGES) | draw.getrandbits(1) << 31, draw.getrandbits(32), 0x3F000000 + draw.getrandbits(25)])
        if binary32.is_finite(pattern):
            return pattern


def random_amount(draw):
    """A pattern that is not below zero; zeros have either sign."""
    return draw.choice([random_pattern(draw) & ~binary32.MINUS_ZERO, 0]) or draw.choice([0, binary32.MINUS_ZERO])


def random_sheet(draw, kind=None):
    """A sheet of this kind or of either, with records in any order, some of them outside the chain. A cell that would be widened too far has wear 0."""
    rows, columns, kind = draw.randint(1, 6), draw.randint(1, 6), draw.choice(KINDS) if kind is None else kind
    records = [draw.randbytes(16) for _ in range(draw.randint(0, 2))]
    for place in range(rows * columns):
        if draw.random() < 0.6:
            bounds = sorted((random_pattern(draw), random_pattern(draw)), key=binary32.value)
            wear = draw.randint(0, MOST_CLASS) if kind == CLASS_SHEET else random_amount(draw)
            cell = Cell(*divmod(place, columns), *bounds, wear)
            records.append(cell._replace(wear=0) if widens_beyond(kind, cell) else cell)
    draw.shuffle(records)
    return Sheet(rows, columns, kind, records)


def damage_text(draw, data):
    """Changes, takes out or puts in some bytes, exchanges two words or cuts the end off."""
    for _ in range(draw.randint(1, 3)):
        at, cut = draw.randrange(len(data) + 1), draw.randint(0, 2)
        data = data[:at] + bytes(draw.choices(b"0123456789ABCDEFx.eE+-# \t\n\r\0\xff", k=draw.randint(0, 2))) + data[at + cut:]
    if draw.random() < 0.2:
        words = data.split(b" ")
        i, j = draw.randrange(len(words)), draw.randrange(len(words))
        words[i], words[j] = words[j], words[i]
        data = b" ".join(words)
    return data[:draw.randint(0, len(data))] if draw.random() < 0.1 else data


def parsed(parse, data):
    """What a text holds, or None if it is refused, with one of its lines or the one that would follow."""
    try:
        return parse(data)
    except BadText as bad:
        assert 1 <= bad.line <= data.count(b"\n") + 1, (data, bad)
        return None


def check_damaged_texts(name, draw, texts, parse, accepted):
    """Each of these texts, damaged, is refused with a line, or holds what the library accepts."""
    count = packed = 0
    for text in texts:
        count += 1
        data = damage_text(draw, text.encode())
        found = parsed(parse, data)
        if found is not None:
            packed += 1
            assert accepted(found), data
    assert count / 20 < packed < count * 19 / 20, packed
    ok(name, f"{count}: {count - packed} refused with a line, {packed} packed and accepted by the library")
