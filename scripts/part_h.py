"""The cryptography of Part H for the scripts here: AES-CMAC, f4, f5, f6, g2 and P-256. Plain and slow, for tests alone."""

# AES-128 (FIPS 197) and AES-CMAC (RFC 4493)

def times(a, b):
    r = 0
    while b:
        if b & 1: r ^= a
        a = a << 1 ^ (0x11B if a & 0x80 else 0)
        b >>= 1
    return r

def sbox_entry(a):
    inverse = next((b for b in range(256) if times(a, b) == 1), 0)
    out = 0x63
    for turn in range(5): out ^= inverse * 0x101 >> (8 - turn) & 0xFF
    return out

SBOX = [sbox_entry(a) for a in range(256)]
TWICE = [times(a, 2) for a in range(256)]

def round_keys(key):
    words, rcon = [list(key[i:i + 4]) for i in range(0, 16, 4)], 1
    for i in range(4, 44):
        w = words[-1]
        if i % 4 == 0:
            w = [SBOX[b] for b in w[1:] + w[:1]]
            w[0] ^= rcon
            rcon = TWICE[rcon]
        words.append([a ^ b for a, b in zip(words[i - 4], w)])
    return [sum(words[i:i + 4], []) for i in range(0, 44, 4)]

def mixed(state):
    out = []
    for i in range(0, 16, 4):
        c = state[i:i + 4]
        out += [TWICE[c[j]] ^ TWICE[c[(j + 1) % 4]] ^ c[(j + 1) % 4] ^ c[(j + 2) % 4] ^ c[(j + 3) % 4] for j in range(4)]
    return out

def aes(key, block):
    keys = round_keys(key)
    state = [a ^ b for a, b in zip(block, keys[0])]
    for r in range(1, 11):
        state = [SBOX[state[(i + 4 * (i % 4)) % 16]] for i in range(16)]
        if r < 10: state = mixed(state)
        state = [a ^ b for a, b in zip(state, keys[r])]
    return bytes(state)

def xor(a, b): return bytes(p ^ q for p, q in zip(a, b))

def doubled(block):
    n = int.from_bytes(block, "big") << 1
    return (n & (1 << 128) - 1 ^ (0x87 if n >> 128 else 0)).to_bytes(16, "big")

def cmac(key, message):
    first = doubled(aes(key, bytes(16)))
    blocks = [message[i:i + 16] for i in range(0, len(message), 16)] or [b""]
    last = blocks.pop()
    last = xor(last, first) if len(last) == 16 else xor((last + b"\x80").ljust(16, b"\0"), doubled(first))
    state = bytes(16)
    for block in blocks + [last]: state = aes(key, xor(state, block))
    return state

# Part H 2.2.6 to 2.2.9

SALT = bytes.fromhex("6c888391aaf5a53860370bdb5a6083be")

def f4(u, v, x, z): return cmac(x, u + v + bytes([z]))

def f5(w, n1, n2, a1, a2):
    t = cmac(SALT, w)
    return tuple(cmac(t, bytes([i]) + b"btle" + n1 + n2 + a1 + a2 + b"\x01\x00") for i in (0, 1))

def f6(w, n1, n2, r, iocap, a1, a2): return cmac(w, n1 + n2 + r + iocap + a1 + a2)

def g2(u, v, x, y): return int.from_bytes(cmac(x, u + v + y)[12:], "big")

# P-256

P = 2**256 - 2**224 + 2**192 + 2**96 - 1
B = 0x5AC635D8AA3A93E7B3EBBD55769886BC651D06B0CC53B0F63BCE3C3E27D2604B
G = (0x6B17D1F2E12C4247F8BCE6E563A440F277037D812DEB33A0F4A13945D898C296,
    0x4FE342E2FE1A7F9B8EE7EB4A7C0F9E162BCE33576B315ECECBB6406837BF51F5)

def on_curve(x, y): return x < P and y < P and (y * y - x**3 + 3 * x - B) % P == 0

def added(a, b):
    if a is None or b is None: return a or b
    if a[0] == b[0] and (a[1] + b[1]) % P == 0: return None
    slope = (3 * a[0]**2 - 3) * pow(2 * a[1], -1, P) if a == b else (b[1] - a[1]) * pow(b[0] - a[0], -1, P)
    x = (slope**2 - a[0] - b[0]) % P
    return x, (slope * (a[0] - x) - a[1]) % P

def multiplied(k, point):
    out = None
    while k:
        if k & 1: out = added(out, point)
        point = added(point, point)
        k >>= 1
    return out

def public(private): return tuple(c.to_bytes(32, "big") for c in multiplied(private, G))

# The DHKey, or nothing for a point that is not on the curve.
def agreed(private, x, y):
    point = int.from_bytes(x, "big"), int.from_bytes(y, "big")
    return multiplied(private, point)[0].to_bytes(32, "big") if on_curve(*point) else None

# Part H, Appendix D: what stands above computes the specification's own samples.
def check_samples(expect):
    h = bytes.fromhex
    u = h("20b003d2f297be2c5e2c83a7e9f9a5b9eff49111acf4fddbcc0301480e359de6")
    v = h("55188b3d32f6bb9a900afcfbeed4e72a59cb9ac2f19d7cfb6b4fdd49f47fc5fd")
    n1, n2 = h("d5cb8454d177733effffb2ec712baeab"), h("a6e8e7cc25a75f6e216583f7ff3dc4cf")
    a1, a2 = h("0056123737bfce"), h("00a713702dcfc1")
    w = h("ec0234a357c8ad05341010a60a397d9b99796b13b4f866f1868d34f373bfa698")
    keys = f5(w, n1, n2, a1, a2)
    r = h("12a3343bb453bb5408da42d20c2d0fc8")
    expect("the sample of f4", f4(u, v, n1, 0).hex(), "f2c916f107a9bd1cf1eda1bea974872d")
    expect("the sample of f5", keys[0].hex() + keys[1].hex(), "2965f176a1084a02fd3f6a20ce636e206986791169d7cd23980522b594750a38")
    expect("the sample of f6", f6(keys[0], n1, n2, r, h("010102"), a1, a2).hex(), "e3c473989cd0e8c5d26c0b09da958f61")
    expect("the sample of g2", g2(u, v, n1, n2), 0x2F9ED5BA)
    private = 0x3F49F6D4A3C55F3874C9B3E3D2103F504AFF607BEB40B7995899B8A6CD3C1ABD
    expect("the sample of P-256", public(private)[0], u)
    expect("the sample of the DHKey", agreed(private, *public(int.from_bytes(v, "big"))), w)
