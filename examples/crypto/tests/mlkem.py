"""ML-KEM-768 as FIPS 203 writes it down, algorithm by algorithm, for the tests: with numbers of any length, divisions and branches. The hashes
are Python's."""
import hashlib

MODULUS, ROOT, RANK, ETA, DU, DV = 3329, 17, 3, 2, 10, 4
PUBLIC_KEY, SECRET_KEY, CIPHERTEXT = 1184, 2400, 1088


def hash_g(text):
    digest = hashlib.sha3_512(text).digest()
    return digest[:32], digest[32:]


def hash_h(text):
    return hashlib.sha3_256(text).digest()


def hash_j(text):
    return hashlib.shake_256(text).digest(32)


def bits_of(text):
    """Algorithm 4, BytesToBits."""
    return [byte >> place & 1 for byte in text for place in range(8)]


def encode(width, numbers):
    """Algorithm 5, ByteEncode."""
    total = 0
    for place, number in enumerate(numbers):
        total |= number << width * place
    return total.to_bytes(32 * width, "little")


def decode(width, text):
    """Algorithm 6, ByteDecode."""
    total = int.from_bytes(text, "little")
    numbers = [total >> width * place & (1 << width) - 1 for place in range(256)]
    return [number % MODULUS for number in numbers] if width == 12 else numbers


def compress(width, number):
    """Compress of section 4.2.1: to the nearest whole number."""
    return (2 * (number << width) + MODULUS) // (2 * MODULUS) % (1 << width)


def decompress(width, number):
    return (2 * MODULUS * number + (1 << width)) // (2 << width)


def sample_ntt(seed):
    """Algorithm 7, SampleNTT."""
    text, at, numbers = hashlib.shake_128(seed).digest(3 * 2000), 0, []
    while len(numbers) < 256:
        first = text[at] + 256 * (text[at + 1] % 16)
        second = text[at + 1] // 16 + 16 * text[at + 2]
        numbers += [number for number in (first, second) if number < MODULUS]
        at += 3
    return numbers[:256]


def sample_noise(seed, count):
    """Algorithm 8, SamplePolyCBD, of the pseudorandom function's bytes."""
    bits = bits_of(hashlib.shake_256(seed + bytes([count])).digest(64 * ETA))
    return [(sum(bits[at:at + ETA]) - sum(bits[at + ETA:at + 2 * ETA])) % MODULUS for at in range(0, 512 * ETA, 2 * ETA)]


def reversed_bits(number):
    return int(f"{number:07b}"[::-1], 2)


ZETA = [pow(ROOT, reversed_bits(place), MODULUS) for place in range(128)]
GAMMA = [pow(ROOT, 2 * reversed_bits(place) + 1, MODULUS) for place in range(128)]


def ntt(numbers):
    """Algorithm 9."""
    f, place, length = list(numbers), 1, 128
    while length >= 2:
        for start in range(0, 256, 2 * length):
            zeta = ZETA[place]
            place += 1
            for at in range(start, start + length):
                product = zeta * f[at + length] % MODULUS
                f[at + length] = (f[at] - product) % MODULUS
                f[at] = (f[at] + product) % MODULUS
        length //= 2
    return f


def inverse_ntt(numbers):
    """Algorithm 10."""
    f, place, length = list(numbers), 127, 2
    while length <= 128:
        for start in range(0, 256, 2 * length):
            zeta = ZETA[place]
            place -= 1
            for at in range(start, start + length):
                first = f[at]
                f[at] = (first + f[at + length]) % MODULUS
                f[at + length] = zeta * (f[at + length] - first) % MODULUS
        length *= 2
    return [number * 3303 % MODULUS for number in f]


def product(f, g):
    """Algorithms 11 and 12, MultiplyNTTs."""
    h = []
    for place in range(128):
        a, b, c, d = f[2 * place], f[2 * place + 1], g[2 * place], g[2 * place + 1]
        h += [(a * c + b * d * GAMMA[place]) % MODULUS, (a * d + b * c) % MODULUS]
    return h


def add(f, g):
    return [(a + b) % MODULUS for a, b in zip(f, g)]


def subtract(f, g):
    return [(a - b) % MODULUS for a, b in zip(f, g)]


def inner(f, g):
    total = [0] * 256
    for a, b in zip(f, g):
        total = add(total, product(a, b))
    return total


def matrix(rho):
    return [[sample_ntt(rho + bytes([column, row])) for column in range(RANK)] for row in range(RANK)]


def parts(text, size):
    return [text[at:at + size] for at in range(0, len(text), size)]


def pke_keygen(d):
    """Algorithm 13, K-PKE.KeyGen."""
    rho, sigma = hash_g(d + bytes([RANK]))
    a = matrix(rho)
    s = [ntt(sample_noise(sigma, count)) for count in range(RANK)]
    e = [ntt(sample_noise(sigma, RANK + count)) for count in range(RANK)]
    t = [add(inner(row, s), error) for row, error in zip(a, e)]
    return b"".join(encode(12, f) for f in t) + rho, b"".join(encode(12, f) for f in s)


def pke_encrypt(public, message, coins):
    """Algorithm 14, K-PKE.Encrypt."""
    t, rho = [decode(12, part) for part in parts(public[:-32], 384)], public[-32:]
    a = matrix(rho)
    y = [ntt(sample_noise(coins, count)) for count in range(RANK)]
    e1 = [sample_noise(coins, RANK + count) for count in range(RANK)]
    e2 = sample_noise(coins, 2 * RANK)
    u = [add(inverse_ntt(inner([a[row][column] for row in range(RANK)], y)), e1[column]) for column in range(RANK)]
    mu = [decompress(1, bit) for bit in decode(1, message)]
    v = add(add(inverse_ntt(inner(t, y)), e2), mu)
    return b"".join(encode(DU, [compress(DU, number) for number in f]) for f in u) + encode(DV, [compress(DV, number) for number in v])


def pke_decrypt(secret, ciphertext):
    """Algorithm 15, K-PKE.Decrypt."""
    u = [[decompress(DU, number) for number in decode(DU, part)] for part in parts(ciphertext[:32 * DU * RANK], 32 * DU)]
    v = [decompress(DV, number) for number in decode(DV, ciphertext[32 * DU * RANK:])]
    s = [decode(12, part) for part in parts(secret, 384)]
    w = subtract(v, inverse_ntt(inner(s, [ntt(f) for f in u])))
    return encode(1, [compress(1, number) for number in w])


def keygen(d, z):
    """Algorithm 16, ML-KEM.KeyGen_internal: the encapsulation key and the decapsulation key."""
    public, secret = pke_keygen(d)
    return public, secret + public + hash_h(public) + z


def encapsulate(public, message):
    """Algorithm 17, ML-KEM.Encaps_internal: the shared secret and the ciphertext."""
    shared, coins = hash_g(message + hash_h(public))
    return shared, pke_encrypt(public, message, coins)


def decapsulate(secret, ciphertext):
    """Algorithm 18, ML-KEM.Decaps_internal: the shared secret, and that of a rejection where the ciphertext isn't the one of its message."""
    key, public, digest, z = secret[:1152], secret[1152:2336], secret[2336:2368], secret[2368:]
    message = pke_decrypt(key, ciphertext)
    shared, coins = hash_g(message + digest)
    return shared if pke_encrypt(public, message, coins) == ciphertext else hash_j(z + ciphertext)


def accumulated(count):
    """What the Community Cryptography Test Vectors accumulate: SHAKE128 of the keys, ciphertexts and shared secrets of so many seeds, which are
    what SHAKE128 of nothing gives; of each a random ciphertext is decapsulated, too."""
    drawn, at, told = hashlib.shake_128().digest(count * (96 + CIPHERTEXT)), 0, hashlib.shake_128()
    for _ in range(count):
        d, z, message = drawn[at:at + 32], drawn[at + 32:at + 64], drawn[at + 64:at + 96]
        random = drawn[at + 96:at + 96 + CIPHERTEXT]
        at += 96 + CIPHERTEXT
        public, secret = keygen(d, z)
        shared, ciphertext = encapsulate(public, message)
        assert decapsulate(secret, ciphertext) == shared
        told.update(public + ciphertext + shared + decapsulate(secret, random))
    return told.digest(32).hex()
