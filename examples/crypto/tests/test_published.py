"""The programs of README.md, "What is published": they put out what their standards have at each level, also for other secrets, and a second
implementation of ML-KEM gives what is accumulated of it elsewhere."""
import hashlib
import os
import unittest

import mlkem
import test_crypto
from test_crypto import NEEDS, PROGRAM, Secret, folder, make, missing, published, vectors, written

# FIPS 203 for 100 seeds and their random ciphertexts, as the Community Cryptography Test Vectors accumulate it
ACCUMULATED = "1114b1b6699ed191734fa339376afa7e285c9e6acf6ff0177d346696ce564415"
OTHER_LEVELS = ("3", "s")
SEEDS = hashlib.shake_128().digest(96)
D, Z, MESSAGE = SEEDS[:32], SEEDS[32:64], SEEDS[64:]
FIELD, ORDER = 2**255 - 19, 2**252 + 27742317777372353535851937790883648493
CURVE = -121665 * pow(121666, -1, FIELD) % FIELD
BASE = 0x216936d3cd6e53fec0a4e231fdd6dc5c692cc7609525a7b2c9562d608f25d51a, 4 * pow(5, -1, FIELD) % FIELD
# RFC 8032, 7.1, TEST 1 to 3: secret key, public key, message, signature
SIGNED = [("9d61b19deffd5a60ba844af492ec2cc44449c5697b326919703bac031cae7f60",
           "d75a980182b10ab7d54bfed3c964073a0ee172f3daa62325af021a68f707511a", "",
           "e5564300c360ac729086e2cc806e828a84877f1eb8e5d974d873e065224901555fb8821590a33bacc61e39701cf9b46bd25bf5f0595bbe24655141438e7a100b"),
          ("4ccd089b28ff96da9db6c346ec114e0f5b8a319f35aba624da8cf6ed4fb8a6fb",
           "3d4017c3e843895a92b70aa74d1b7ebc9c982ccf2ec4968cc0cd55f12af4660c", "72",
           "92a009a9f0d4cab8720e820b5f642540a2b27b5416503f8fb3762223ebdb69da085ac1e43e15996e458f3613d0f11d8c387b2eaeb4302aeeb00d291612bb0c00"),
          ("c5aa8df43f9f837bedb7442f31dcb7b166d38535076f094b85ce3a2e0b4458f7",
           "fc51cd8e6218a1a38da47ed00230f0580816ed13ba3303ac5deb911548908025", "af82",
           "6291d657deec24024827e69c3abe01a30ce548a284743a445e3680d7db5ac3ac18ff9b538d16f290ae67f760984dc6594a7c15e9716ed28dc027beceea1ec40a")]
OTHER_KEYS = [b"\x5a" * 32, bytes(range(32))]


def add_points(p, q):
    """The sum of two points of the curve, by its two coordinates."""
    (a, b), (c, d) = p, q
    product = CURVE * a * b * c * d
    return (a * d + b * c) * pow(1 + product, -1, FIELD) % FIELD, (b * d + a * c) * pow(1 - product, -1, FIELD) % FIELD


def times_base(number):
    """The base point so many times, as 32 bytes."""
    total, power = (0, 1), BASE
    while number:
        if number & 1:
            total = add_points(total, power)
        power, number = add_points(power, power), number >> 1
    return (total[1] | (total[0] & 1) << 255).to_bytes(32, "little")


def signature(secret, public, message):
    """RFC 8032, 5.1.6."""
    digest = hashlib.sha512(secret).digest()
    scalar = int.from_bytes(digest[:32], "little") & (1 << 254) - 8 | 1 << 254
    nonce = int.from_bytes(hashlib.sha512(digest[32:] + message).digest(), "little") % ORDER
    first = times_base(nonce)
    challenge = int.from_bytes(hashlib.sha512(first + public + message).digest(), "little")
    return first + ((nonce + challenge * scalar) % ORDER).to_bytes(32, "little")


def keygen_told(secret):
    """What mlkem_keygen puts out: what it publishes, and the hashes of both keys."""
    public, key = mlkem.keygen(secret[:32], secret[32:])
    return public[-32:] + mlkem.hash_h(public) + mlkem.hash_h(key)


def encaps_told(message):
    shared, ciphertext = mlkem.encapsulate(mlkem.keygen(D, Z)[0], message)
    return shared + mlkem.hash_h(ciphertext)


def decaps_told(z):
    """What mlkem_decaps puts out where its last 32 secret bytes are these."""
    public, key = mlkem.keygen(D, Z)
    _, ciphertext = mlkem.encapsulate(public, MESSAGE)
    wrong = bytes([ciphertext[0] ^ 1]) + ciphertext[1:]
    return b"".join(mlkem.decapsulate(key[:-32] + z, text) for text in (ciphertext, wrong))


def sign_told(secret):
    return signature(secret, bytes.fromhex(SIGNED[1][1]), b"\x72")


def refused(_):
    return bytes(4)


# of each program whose outputs for other secrets are told here: what tells them, the secret's symbol, other secrets, and how the run ends
TELLS = {"mlkem_keygen": (keygen_told, "secret", [key + key[::-1] for key in OTHER_KEYS], "end exit 0"),
         "mlkem_encaps": (encaps_told, "secret", OTHER_KEYS, "end exit 0"),
         "mlkem_decaps": (decaps_told, "secret", OTHER_KEYS[:1], "end exit 0"),
         "kyberslash_message": (decaps_told, "secret", OTHER_KEYS[:1], "end exit 0"),
         "kyberslash_ciphertext": (encaps_told, "secret", OTHER_KEYS[:1], "end exit 0"),
         "ed25519": (sign_told, "secret", OTHER_KEYS[:1], "end exit 0"),
         "aead_open": (refused, "key", OTHER_KEYS, "end exit 1"),
         "aes_gcm_open": (refused, "key", [key[:16] for key in OTHER_KEYS], "end exit 1")}


class Standards(unittest.TestCase):
    """What the programs are compared with, against what is published."""

    def test_accumulated(self):
        self.assertEqual(mlkem.accumulated(100), ACCUMULATED)

    def test_signatures(self):
        for secret, public, message, wanted in SIGNED:
            signed = signature(*map(bytes.fromhex, (secret, public, message)))
            self.assertEqual(signed.hex(), wanted)

    def test_vectors_of_ml_kem(self):
        found = vectors()
        for name, told in [("mlkem_keygen", keygen_told(D + Z)), ("mlkem_encaps", encaps_told(MESSAGE)), ("mlkem_decaps", decaps_told(Z)),
                           ("kyberslash_message", decaps_told(Z)), ("kyberslash_ciphertext", encaps_told(MESSAGE))]:
            self.assertEqual(found[name], told.hex(), name)

    def test_stream_of_rejection(self):
        """The numbers of reject are those of the stream that RFC 8439, A.1, has third."""
        stream = bytes.fromhex("3aeb5224ecf849929b9d828db1ced4dd832025e8018b8160")
        candidates = [int.from_bytes(stream[at:at + 2], "little") & 0xfff for at in range(0, len(stream), 2)]
        verdicts = bytes(candidate < 3329 for candidate in candidates)
        numbers = b"".join(candidate.to_bytes(2, "little") for candidate in candidates if candidate < 3329)
        self.assertEqual((len(numbers), vectors()["reject"]), (16, (verdicts + numbers).hex()))


@unittest.skipUnless(PROGRAM, "the program isn't built")
class Programs(unittest.TestCase):
    def each_compiler(self):
        """Each compiler that is there; one that isn't is skipped with a word."""
        for compiler in NEEDS:
            with self.subTest(compiler=compiler):
                if missing(compiler):
                    self.skipTest(missing(compiler))
                yield compiler

    def image(self, compiler, level, name, *words):
        """An image, built now."""
        path = os.path.join(folder(), f"{compiler}-O{level}", f"{name}.elf")
        ended = make("-s", path, *words)
        self.assertEqual((ended.returncode, ended.stderr), (0, ""))
        return path

    def test_other_levels(self):
        """At -O1 and -O2 `make test` compares, on the core (test_crypto.py)."""
        for compiler in self.each_compiler():
            for level in OTHER_LEVELS:
                for name in published():
                    with self.subTest(name=name, level=level):
                        end = "end exit 1" if name.endswith("_refuse") else "end exit 0"
                        told, ended = written(self.image(compiler, level, name))
                        self.assertEqual((told.hex(), ended), (vectors()[name], end))

    def test_other_secrets(self):
        for compiler in self.each_compiler():
            for name, (tells, symbol, values, end) in TELLS.items():
                secret = Secret(self.image(compiler, "2", name), symbol)
                for value in values:
                    with self.subTest(name=name, value=value.hex()):
                        self.assertEqual(written(secret.other(value)), (tells(value), end))

    def test_secrets(self):
        """Each secret that README.md names has so many bytes, and they aren't code."""
        table = [line.split(" | ") for line in test_crypto.read("README.md").splitlines() if line[3:].split("`")[0] in published()]
        listed = {row[0][3:-1]: zip(row[1].replace("`", "").split(", "), row[2].split(" and ")) for row in table if len(row) == 5}
        self.assertEqual(sorted(listed), sorted(published()))
        for compiler in self.each_compiler():
            for name, symbols in [(name, list(symbols)) for name, symbols in listed.items()]:
                listed[name] = symbols
                for symbol, size in symbols:
                    secret = Secret(self.image(compiler, "2", name), symbol)
                    self.assertEqual((secret.size, secret.executable), (int(size), False), name)

    def test_ml_kem_accumulated(self):
        """Three seeds, with what the second implementation accumulates of them."""
        for compiler in self.each_compiler():
            told, ended = written(self.image(compiler, "2", "tests/mlkem_accumulated", "EXTRA=-DCOUNT=3"))
            self.assertEqual((told[3 * 32:].hex(), ended), (mlkem.accumulated(3), "end exit 0"))


if __name__ == "__main__":
    unittest.main()
