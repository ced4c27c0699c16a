"""What the scripts have in common: the numbers, frames, tags, and polynomials, from the definitions and not from the program.

SHA-256 is Python's, products are made with whole numbers, and packing and unpacking are sums over the slots, taken as convolutions.
"""
import hashlib

N, T, Q1, Q2 = 4096, 65537, 68719403009, 68719230977
Q = Q1 * Q2
DELTA, REST = Q // T, Q % T
BINS, CIPHERTEXT = 819, 81920
ADDED, REPLACED, REMOVED, ABSENT, FULL, ANSWER, REPACKED, MOVED, REFUSED = range(129, 138)


# ---- parameters and frames

class Params:
    def __init__(self, rows=1, capacity=1, units=0):
        self.rows, self.capacity, self.units = rows, capacity, units

    def bytes(self):
        return bytes([1, self.rows]) + self.capacity.to_bytes(2, "big") + bytes([self.units]) + bytes(3)

    def words(self):
        return [str(self.rows), str(self.capacity), str(self.units)]


def frame(kind, session, number, body):
    return (7 + len(body)).to_bytes(4, "big") + bytes([kind]) + session.to_bytes(2, "big") + number.to_bytes(4, "big") + body


def spelled(item):
    return bytes([len(item)]) + item


def frames_of(text):
    """The whole frames of a text, and whether nothing is left behind them."""
    frames, at = [], 0
    while at + 4 <= len(text) and at + 4 + int.from_bytes(text[at:at + 4], "big") <= len(text):
        end = at + 4 + int.from_bytes(text[at:at + 4], "big")
        frames.append(text[at:end])
        at = end
    return frames, at == len(text)


def residue_bytes(residues):
    return b"".join(r.to_bytes(5, "big") for r in residues)


GO_FRAME = frame(5, 0, 0, b"")
ZERO_QUERY = Params().bytes() + bytes(CIPHERTEXT)


# ---- items

def tag_of(item):
    return hashlib.sha256(item).digest()[:22]


def slot_values(tag):
    return [int.from_bytes(tag[2 * j:2 * j + 2], "big") for j in range(5)]


def positions(tag, rows=1):
    return sorted({int.from_bytes(tag[10 + 4 * i:14 + 4 * i], "big") % (BINS * rows) for i in range(3)})


# ---- polynomials

def convolution(a, b):
    """All sums of a[i] * b[j] over i + j = k, by one product of large whole numbers."""
    width = 12
    x = int.from_bytes(b"".join(c.to_bytes(width, "little") for c in a), "little")
    y = int.from_bytes(b"".join(c.to_bytes(width, "little") for c in b), "little")
    count = len(a) + len(b)
    z = (x * y).to_bytes(count * width, "little")
    return [int.from_bytes(z[width * i:width * (i + 1)], "little") for i in range(count)]


POWER = [pow(6561, e, T) for e in range(2 * N)]
CHIRP = [POWER[(k * k) % (2 * N)] for k in range(N)]
BACK = [POWER[-(k * k) % (2 * N)] for k in range(N)]


def packed(values):
    """The polynomial whose value at 6561^(2j+1) is values[j]: coefficient i is the sum of values[j] * y^((2j+1) * i) over
    4096, where y is the inverse of 6561. As 2ij is i^2 + j^2 - (i-j)^2, it is a convolution."""
    degree_inverse = pow(N, -1, T)
    c = convolution([v * BACK[j] % T for j, v in enumerate(values)], CHIRP[:0:-1] + CHIRP)
    return [degree_inverse * POWER[-i % (2 * N)] * BACK[i] * c[i + N - 1] % T for i in range(N)]


def unpacked(plain):
    """Its values at 6561^(2j+1)."""
    c = convolution([a * POWER[i] * CHIRP[i] % T for i, a in enumerate(plain)], BACK[:0:-1] + BACK)
    return [CHIRP[j] * c[j + N - 1] % T for j in range(N)]


def product(a, b, m):
    """The product modulo x^4096 + 1 and m, by one product of large whole numbers."""
    c = convolution(a, b)
    return [(c[i] - c[i + N]) % m for i in range(N)]


def padded(polynomial, capacity):
    return polynomial + [0] * (capacity + 1 - len(polynomial))


def roots_polynomial(roots):
    """The coefficients of the product of x - a over the roots, modulo 65537."""
    out = [1]
    for a in roots:
        out = [((out[k - 1] if k else 0) - a * (out[k] if k < len(out) else 0)) % T for k in range(len(out) + 1)]
    return out


def through(points):
    """Lagrange's polynomial."""
    out = [0] * max(len(points), 1)
    for i, (x, y) in enumerate(points):
        others = [a for j, (a, _) in enumerate(points) if j != i]
        below = 1
        for a in others:
            below = below * (x - a) % T
        scale = y * pow(below, -1, T) % T
        for k, c in enumerate(roots_polynomial(others)):
            out[k] = (out[k] + scale * c) % T
    return out
