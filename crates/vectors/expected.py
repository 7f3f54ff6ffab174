#!/usr/bin/env python3
"""Writes what the program must write: `python3 expected.py > stdout`.

SHA-512 and SHA-256 are hashlib's, and a message that is fed in parts has the hash of the whole. A text is the base64 of n bytes where base64's module decodes it to n bytes and encodes these to the same text again.
How far a text goes well is found by trying: a beginning of it goes well where some end makes it the base64 of n bytes.
"""
import base64
import binascii
import hashlib


def sha512(data):
    return hashlib.sha512(data).digest()


def sha256(data):
    return hashlib.sha256(data).digest()


def slid(letters, n):
    """Each n letters that stand together, from the first on: how the standard's long messages are made."""
    return b"".join(letters[i : i + n] for i in range(len(letters) - n + 1))


def messages():
    print("SHA-512, FIPS 180-4")
    named = [('""', b""), ('"abc"', b"abc"), ("of the 896 bit message", slid(b"abcdefghijklmnopqrstu", 8))]
    runs = [(f"of {n} times a", b"a" * n) for n in (111, 112, 127, 128, 239, 240, 1000000)]
    for name, data in named + runs:
        print("sha512", name, sha512(data).hex())


def chain():
    print('\nHash chain of "Hello world!" in blocks of 5 bytes')
    body, last = b"Hello world!", b""
    for i in range(0, len(body), 5):
        last = sha512(last + body[i : i + 5])
        print(f"hash({i // 5})", last.hex())


def messages_256():
    print("\nSHA-256, FIPS 180-4")
    named = [
        ('""', b""),
        ('"abc"', b"abc"),
        ("of the 448 bit message", slid(b"abcdefghijklmnopq", 4)),
        ("of the 896 bit message", slid(b"abcdefghijklmnopqrstu", 8)),
    ]
    runs = [(f"of {n} times a", b"a" * n) for n in (55, 56, 63, 64, 65, 119, 120, 128, 1000000)]
    for name, data in named + runs:
        print("sha256", name, sha256(data).hex())


def in_parts():
    print("\nSHA-256 of 200 bytes in parts")
    whole = sha256(bytes(i % 251 for i in range(200))).hex()
    print("sha256 of the whole", whole)
    for a, b in [(0, 0), (1, 2), (55, 56), (63, 64), (63, 65), (64, 128), (65, 127), (100, 100), (120, 199), (200, 200)]:
        print(f"cut at {a} and {b}", whole)
    for n in (1, 7, 32, 63, 64, 65, 128):
        print(f"in parts of {n}", whole)


def decoded(text, n):
    try:
        data = base64.b64decode(text, validate=True)
    except binascii.Error:
        return None
    return data if len(data) == n and base64.b64encode(data) == text else None


def answer(text, n):
    data = decoded(text, n)
    return "refused, buffer as it was" if data is None else f"ok [{data.hex()}]"


def short_texts():
    print("\nBase64, RFC 4648")
    for n in range(7):
        text = base64.b64encode(b"foobar"[:n])
        print(f'{n} bytes "{text.decode()}":', answer(text, n))
    for text, n in [(b"NhX4", 3), (b"Zh==", 1), (b"Zm9=", 2), (b"Zg=A", 1), (b"Zm9=", 3), (b"Zg==", 2)]:
        print(f'{n} bytes "{text.decode()}":', answer(text, n))


def texts(name, data, rest, bad):
    n = len(data)
    text = base64.b64encode(data)
    print(f"\nBase64 of a {name}, {n} bytes")
    print("good:", answer(text, n))
    for what, other in bad(text):
        assert len(other) == len(text) and other != text
        print(f"{what}:", answer(other, n))
    long = text + rest
    assert len(long) == 90
    found = [str(k) for k in range(91) if decoded(long[:k], n) is not None]
    print("of its beginnings of 0 to 90 characters ok at:", " ".join(found))


def key(text):
    return [
        ("a byte that is no letter", text.replace(b"W19j", b"W1-j")),
        ("a letter for the padding", text[:-1] + b"A"),
        ("padding for a letter", text[:-2] + b"=="),
        ("spare bits set", text[:-2] + b"d="),
    ]


def signature(text):
    return [
        ("a byte that is no letter", text.replace(b"/", b"_")),
        ("a letter for the padding", text[:-1] + b"A"),
        ("padding for a letter", text[:-3] + b"==="),
        ("spare bits set", text[:-3] + b"B=="),
    ]


def completed(start, n):
    """Whether some end makes start the base64 of n bytes. `A` may stand wherever a letter may, so ends of `A` and of no, one or two `=` will do."""
    missing = len(base64.b64encode(bytes(n))) - len(start)
    ends = [b"A" * (missing - k) + b"=" * k for k in range(3) if k <= missing]
    return any(decoded(start + end, n) is not None for end in ends)


def stop(text, n):
    return max(k for k in range(len(text) + 1) if completed(text[:k], n))


def stops(name, n, others, text):
    print(f"\nBase64 of a {name}, how far it goes well")
    for what, other in others:
        print(f"{what}: {stop(other, n)}" + (", good" if decoded(other, n) is not None else ""))
    for b in b"=AB-":
        places = [stop(text[:i] + bytes([b]) + text[i + 1 :], n) for i in range(len(text))]
        print(f"with {chr(b)} at each place:", *places)


messages()
chain()
messages_256()
in_parts()
short_texts()
key_bytes, signature_bytes = bytes(range(200, 232)), bytes((3 + 7 * i) % 256 for i in range(64))
key_text, signature_text = base64.b64encode(key_bytes), base64.b64encode(signature_bytes)
texts("key", key_bytes, signature_text[:46], key)
texts("signature", signature_bytes, b"AA", signature)
stops(
    "key",
    32,
    [
        ("good", key_text),
        ("one character more", key_text + b"="),
        ("no character", b""),
        ("a padded group before it", b"Zm8=" + key_text),
    ],
    key_text,
)
stops(
    "signature",
    64,
    [
        ("good", signature_text),
        ("one character less", signature_text[:87]),
        ("two characters less", signature_text[:86]),
        ("a key in its place", key_text),
    ],
    signature_text,
)
