"""A model of an office's day, written from docs/RULES.md, and a writer of random scripts.

  day.py script SEED    writes a script
  day.py answers        reads a script, and writes the answers
"""
import random
import sys

M32 = 0xFFFFFFFF


def left(x, k):
    return ((x << k) | (x >> (32 - k))) & M32


def noekeon(key, block):
    k = [key[0] >> 32, key[0] & M32, key[1] >> 32, key[1] & M32]
    a = [block[0] >> 32, block[0] & M32, block[1] >> 32, block[1] & M32]

    def theta():
        t = a[0] ^ a[2]
        t ^= left(t, 8) ^ left(t, 24)
        a[1] ^= t
        a[3] ^= t
        for i in range(4):
            a[i] ^= k[i]
        t = a[1] ^ a[3]
        t ^= left(t, 8) ^ left(t, 24)
        a[0] ^= t
        a[2] ^= t

    constant = 0x80
    for _ in range(16):
        a[0] ^= constant
        theta()
        a[1], a[2], a[3] = left(a[1], 1), left(a[2], 5), left(a[3], 2)
        a[1] ^= ~a[3] & ~a[2] & M32
        a[0] ^= a[2] & a[1]
        a[0], a[3] = a[3], a[0]
        a[2] ^= a[0] ^ a[1] ^ a[3]
        a[1] ^= ~a[3] & ~a[2] & M32
        a[0] ^= a[2] & a[1]
        a[1], a[2], a[3] = left(a[1], 31), left(a[2], 27), left(a[3], 30)
        constant *= 2
        if constant > 0xFF:
            constant ^= 0x11B
    a[0] ^= constant
    theta()
    return a[0] << 32 | a[1]


def chaskey(key, block):
    def words(pair):
        raw = pair[0].to_bytes(8, "big") + pair[1].to_bytes(8, "big")
        return [int.from_bytes(raw[i:i + 4], "little") for i in range(0, 16, 4)]

    k = words(key)
    v = [x ^ y for x, y in zip(words(block), k)]
    for _ in range(12):
        v[0] = (v[0] + v[1]) & M32
        v[1] = left(v[1], 5) ^ v[0]
        v[0] = left(v[0], 16)
        v[2] = (v[2] + v[3]) & M32
        v[3] = left(v[3], 8) ^ v[2]
        v[0] = (v[0] + v[3]) & M32
        v[3] = left(v[3], 13) ^ v[0]
        v[2] = (v[2] + v[1]) & M32
        v[1] = left(v[1], 7) ^ v[2]
        v[2] = left(v[2], 16)
    raw = b"".join((x ^ y).to_bytes(4, "little") for x, y in zip(v, k))
    return int.from_bytes(raw[:8], "big")


def m61_step(x, block, subkey):
    return (x + block) * subkey % (2**61 - 1)


def b63_step(x, block, subkey):
    x ^= block
    product = 0
    for i in range(subkey.bit_length()):
        if subkey >> i & 1:
            product ^= x << i
    for i in range(product.bit_length() - 1, 62, -1):
        if product >> i & 1:
            product ^= (1 << i) ^ (3 << (i - 63))
    return product


FIELDS = {
    "m61": (lambda n: n % (2**61 - 1), m61_step, lambda x, n: (x + n) % (2**61 - 1)),
    "b63": (lambda n: n % 2**63, b63_step, lambda x, n: x ^ n),
}
CIPHERS = {"noekeon": noekeon, "chaskey": chaskey}


def chunks(text):
    return -(-len(text) // 7168)


class Refused(Exception):
    pass


class Grave:
    def __init__(self):
        self.state, self.key, self.next, self.held = "free", None, 0, []
        self.sealed, self.voided, self.current, self.false_seals = 0, 0, None, 0


class Book:
    def __init__(self, field, cipher):
        self.field, self.cipher = FIELDS[field], CIPHERS[cipher]
        self.graves = [Grave() for _ in range(256)]
        self.hand = []

    def seal_of(self, key, draw, text):
        reduced, step, plus = self.field
        x = 0
        for i in range(0, len(text), 7):
            if i % 7168 == 0:
                subkey = reduced(self.cipher(key, (0, i // 7168)))
            x = step(x, int.from_bytes(text[i:i + 7], "little"), subkey)
        return self.cipher(key, (2**63 + plus(x, len(text)), draw))

    def grave(self, number):
        if number > 255:
            raise Refused(1)
        return self.graves[number]

    def in_use(self, number):
        grave = self.grave(number)
        if grave.state in ("free", "closed"):
            raise Refused(4)
        return grave

    def holding(self, number, draw):
        grave = self.in_use(number)
        if draw not in grave.held:
            raise Refused(8)
        return grave

    def fits(self, text, places):
        if len(text) > 57344:
            raise Refused(9)
        if chunks(text) > places:
            raise Refused(10)

    def open(self, number, key):
        grave = self.grave(number)
        if grave.state != "free":
            raise Refused(2)
        if any(g.key == key for g in self.graves):
            raise Refused(3)
        grave.state, grave.key = "open", key

    def draw(self, number):
        grave = self.in_use(number)
        if grave.state == "locked":
            raise Refused(5)
        if len(grave.held) == 4:
            raise Refused(6)
        draw = grave.next
        grave.next += 1
        grave.held.append(draw)
        self.hand.append((number, draw))
        return draw

    def seal(self, number, draw, text, places):
        grave = self.holding(number, draw)
        self.fits(text, places)
        grave.held.remove(draw)
        self.hand.remove((number, draw))
        grave.sealed += 1
        grave.current = draw
        return self.seal_of(grave.key, draw, text)

    def void(self, number, draw):
        self.hand.remove((number, draw))
        grave = self.holding(number, draw)
        grave.held.remove(draw)
        grave.voided += 1

    def check(self, number, draw, text, seal, places):
        grave = self.in_use(number)
        if grave.state == "locked":
            raise Refused(5)
        self.fits(text, places)
        if draw >= grave.next:
            raise Refused(11)
        if seal != self.seal_of(grave.key, draw, text):
            grave.false_seals += 1
            if grave.false_seals == 4:
                grave.state = "locked"
            raise Refused(12)
        return "current" if draw == grave.current else "superseded"

    def clear(self, number):
        grave = self.in_use(number)
        grave.state, grave.false_seals = "open", 0

    def close(self, number):
        grave = self.in_use(number)
        grave.voided += len(grave.held)
        grave.state, grave.held = "closed", []

    def tell(self, number):
        grave = self.grave(number)
        state = f"open {grave.false_seals}" if grave.state == "open" else grave.state
        current = "none" if grave.current is None else grave.current
        return f"{state}, sealed {grave.sealed}, voided {grave.voided}, held {len(grave.held)}, current {current}"

    def owing(self):
        return next((n for n, g in enumerate(self.graves) if g.held), "none")


class NoCall(Exception):
    pass


# Unicode's white space
WHITE = "\t\n\x0b\x0c\r \x85\xa0\u1680\u2028\u2029\u202f\u205f\u3000" + "".join(map(chr, range(0x2000, 0x200b)))
HEX = "0123456789abcdefABCDEF"


class Words:
    def __init__(self, line):
        self.rest = line

    def word(self, reads=None, why=None):
        word, _, rest = self.rest.lstrip(WHITE).partition(" ")
        if not word:
            raise NoCall("a word is missing")
        self.rest = rest
        value = word if reads is None else reads(word)
        if value is None:
            raise NoCall(why)
        return value

    def number(self, limit, why):
        def reads(word):
            digits = word[1:] if word[:1] == "+" else word
            if digits and all(c in "0123456789" for c in digits) and int(digits) <= limit:
                return int(digits)
        return self.word(reads, why)

    def grave(self):
        return self.number(65535, "a grave is a number up to 65535")

    def draw(self):
        return self.number(2**64 - 1, "a draw is a number")

    def digits(self, count, why):
        return self.word(lambda w: int(w, 16) if len(w.encode()) == count and all(c in HEX for c in w) else None, why)

    def key(self):
        return divmod(self.digits(32, "a key has 32 hexadecimal digits"), 2**64)

    def seal(self):
        return self.digits(16, "a seal has 16 hexadecimal digits")

    def text(self):
        why = "a text is pairs of hexadecimal digits, - or quoted"
        quoted = self.rest.lstrip(WHITE)
        if quoted[:1] == '"':
            inside, quote, rest = quoted[1:].partition('"')
            if not quote:
                raise NoCall(why)
            self.rest = rest
            return inside.encode()
        pairs = lambda w: bytes.fromhex(w) if len(w) % 2 == 0 and all(c in HEX for c in w) else None
        return self.word(lambda w: b"" if w == "-" else pairs(w), why)

    def name_in(self, names, why):
        return self.word(lambda w: w if w in names else None, why)

    def end(self):
        if self.rest.lstrip(WHITE):
            raise NoCall("there are words too many")


class Day:
    def __init__(self):
        self.book, self.places = None, 8

    def parts(self, line):
        words = Words(line)
        name = words.word()
        if name == "book":
            parts = [words.name_in(FIELDS, "a field is m61 or b63"), words.name_in(CIPHERS, "a cipher is noekeon or chaskey")]
        elif name == "ring":
            parts = [words.number(64, "a ring has 0 to 64 places")]
        elif name == "open":
            parts = [words.grave(), words.key()]
        elif name in ("draw", "clear", "close", "tell"):
            parts = [words.grave()]
        elif name == "seal":
            parts = [words.grave(), words.draw(), words.text(), self.places]
        elif name == "void":
            parts = [words.grave(), words.draw()]
        elif name == "check":
            parts = [words.grave(), words.draw(), words.text(), words.seal(), self.places]
        elif name == "owing":
            parts = []
        else:
            raise NoCall("its first word is no call's name")
        words.end()
        return name, parts

    def answer(self, line):
        line = line.strip(WHITE)
        if not line or line[0] == "#":
            return None
        try:
            name, parts = self.parts(line)
        except NoCall as why:
            return f"not a call: {why}"
        if name == "book":
            self.book = Book(*parts)
            return "ok"
        if name == "ring":
            self.places = parts[0]
            return "ok"
        if self.book is None:
            return "not a call: no book is begun yet"
        if name in ("seal", "void") and (parts[0], parts[1]) not in self.book.hand:
            return "not in hand"
        try:
            told = getattr(self.book, name)(*parts)
        except Refused as refusal:
            return f"refused {refusal.args[0]:02}"
        if name in ("draw", "owing"):
            return f"{name} {told}"
        if name == "seal":
            return f"seal {told:016x}"
        return "ok" if told is None else told


def random_script(seed):
    pick = random.Random(seed)
    day, sheets, graves = Day(), [], [7, 7, 7, 7, 3, 3, 3, 255, 255, 256]
    keys = ["%032x" % pick.getrandbits(128) for _ in range(6)]
    odd = ["", "  ", "# a comment", "\t", "draw", "draw 7 8", "draw x", "Draw 7", "seal 7 0 abc -", 'seal 7 0 "a', "open 7 +" + 31 * "0",
           "ring 65", "ring +2", "draw +7", "book m61", "book m62 noekeon", "book b63 aes", "check 7 0 - 12", "owing 1", "void 7 -1",
           "tell 65536", "tell 65535", " owing ", "tell 7\t", "\u2003owing", "tell \u00a07\u3000", "draw\t7", "owing\r", "\x0btell \x857",
           "tell\u20037", "\u2028# a comment", "\u205f", "owing \x1f", "\u200bowing", "tell 7\x1c", "open 7 " + 31 * "0", "seal 7 99999999999999999999 -", "check 7 0 xy " + 16 * "0"]

    def text():
        shape = pick.randrange(12)
        if shape == 0:
            return "-", b""
        if shape == 1:
            raw = pick.randbytes(pick.choice([7167, 7168, 7169, 15000] if pick.randrange(4) == 0 else [1, 6, 7, 8, 14]))
            return pick.choice([raw.hex(), raw.hex().upper()]), raw
        if shape == 2 and pick.randrange(25) == 0:
            raw = bytes(57345)
            return raw.hex(), raw
        words = pick.choice(["Plot 7, row A", "two  urns", "caf\u00e9", "", "# one - stone"]) + str(pick.randrange(3))
        return f'"{words}"', words.encode()

    def one_line():
        grave = pick.choice(graves)
        held = day.book.hand if day.book else []
        in_hand = pick.choice(held) if held and pick.randrange(6) else (grave, pick.randrange(4))
        kind = pick.randrange(100)
        if kind < 1 or day.book is None and kind < 60:
            return f"book {pick.choice(list(FIELDS))} {pick.choice(list(CIPHERS))}"
        if kind < 10:
            return pick.choice(odd)
        if kind < 14:
            return f"ring {pick.choice([0, 1, 2, 8, 8, 8, 64])}"
        if kind < 20 or day.book and not any(g.key for g in day.book.graves) and kind < 70:
            return f"open {grave} {pick.choice(keys)}"
        if kind < 46:
            return f"draw {grave}"
        if kind < 62:
            shown, raw = text()
            sheets.append((in_hand[0], in_hand[1], shown))
            return f"seal {in_hand[0]} {in_hand[1]} {shown}"
        if kind < 68:
            return f"void {in_hand[0]} {in_hand[1]}"
        if kind < 86 and sheets:
            grave, draw, shown = pick.choice(sheets[-6:])
            words = Words(shown + " ")
            raw = words.text()
            key = day.book.graves[grave].key if day.book and grave < 256 else None
            seal = day.book.seal_of(key, draw, raw) if key and len(raw) <= 57344 else 1
            if pick.randrange(3) == 0:
                seal ^= 1 << pick.randrange(64)
            return f"check {grave} {draw + (pick.randrange(8) == 0)} {shown} {seal:016x}"
        if kind < 90:
            return f"clear {grave}"
        if kind < 92:
            return f"close {grave}"
        if kind < 97:
            return f"tell {grave}"
        return "owing"

    lines = []
    for _ in range(pick.randrange(20, 120)):
        line = one_line()
        day.answer(line)
        lines.append(line)
    return lines


def main():
    if sys.argv[1:2] == ["script"]:
        print("\n".join(random_script(int(sys.argv[2]))))
    else:
        day = Day()
        for line in sys.stdin.buffer.read().decode().split("\n")[:-1]:
            answer = day.answer(line)
            if answer is not None:
                print(answer)


main()
