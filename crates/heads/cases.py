#!/usr/bin/env python3
"""Writes the heads and what must be said of each: `python3 cases.py`, run in this folder, writes `stdin` and `stdout`.

The number of each refusal stands here by hand, from the rules; where a text went wrong is found by trying. What a good head asks is put together
from the parts that it was made of.
"""
import base64
import re

FIRST = base64.b64encode(bytes(range(200, 232))).decode()
OTHER = base64.b64encode(bytes((3 + 7 * i) % 256 for i in range(32))).decode()
STRANGE = base64.b64encode(bytes(range(32))).decode()
# 64 bytes that can be written as they are
SIGNED = "0123456789ABCDEFGHIJKLMNOPQRSTUVWXYZabcdefghijklmnopqrstuvwxyz-_"
SIGNATURE = base64.b64encode(SIGNED.encode()).decode()
ID = "qwertyuiop-12345"
TIME = "1584748800"
OK = "HTTP/1.1 200 OK"
# the most that a head may have
MOST_BYTES = 32768
MOST_FIELDS = 128
PSEUDO = ["(response-status)", "(created)"]
OURS = ["x-Ouinet-version", "x-Ouinet-uri", "x-Ouinet-injection"]
# what the program asks for
URI = "https://example.com/hello"
NAMES = PSEUDO + OURS + ["date", "content-type"]

# ---- a good head, and changes of it


def injection(ident=ID, ts=TIME):
    return f"id={ident},ts={ts}"


def start(key=FIRST, algorithm="hs2019"):
    return f'keyId="ed25519={key}",algorithm="{algorithm}",'


def bsigs(size="5", key=FIRST):
    return start(key) + f"size={size}"


def sig0(names=NAMES, key=FIRST, created=TIME, signature=SIGNATURE):
    return start(key) + f'created={created}, headers="{" ".join(names)}",signature="{signature}"'


GOOD = [
    ("X-Ouinet-Version", "4"),
    ("X-Ouinet-URI", URI),
    ("X-Ouinet-Injection", injection()),
    ("Date", "Sat, 21 Mar 2020 00:00:00 GMT"),
    ("Content-Type", "text/plain"),
    ("X-Ouinet-Sig0", sig0()),
    ("X-Ouinet-BSigs", bsigs()),
    ("Transfer-Encoding", "chunked"),
    ("Trailer", "Digest, X-Ouinet-Data-Size, X-Ouinet-Sig1"),
]


def put(name, value, fields=GOOD):
    """The fields with another value for one of them."""
    assert name in dict(fields)
    return [(n, value if n == name else v) for n, v in fields]


def without(name):
    assert name in dict(GOOD)
    return [(n, v) for n, v in GOOD if n != name]


def signed_by(key, ts, created=TIME):
    """The fields of a head whose two signatures name one key, made at a time."""
    fields = put("X-Ouinet-Injection", injection(ts=ts))
    fields = put("X-Ouinet-BSigs", bsigs(key=key), fields)
    return put("X-Ouinet-Sig0", sig0(key=key, created=created), fields)


def listing(names, more=()):
    return put("X-Ouinet-Sig0", sig0(names)) + list(more)


def numbered(n):
    return [(f"Field-{i}", f"value {i}") for i in range(n)]


def text(fields, status=OK):
    return "\r\n".join([status] + [f"{n}: {v}" for n, v in fields]) + "\r\n\r\n"


def padded(n, fields):
    """The fields with one more, so that the head has n bytes."""
    fill = n - len(text(fields + [("Padding", "")]))
    return fields + [("Padding", "p" * fill)]


# ---- the cases

CASES = []


# Where the text of a head went wrong, found by trying: the longest beginning that one of these ends completes to a good head. From wherever a
# good head may be cut, one of them does.
GOOD_HEAD = re.compile(r"HTTP/1\.1 [0-9]{3} [\t -~\x80-\xff]*\r\n([!#$%&'*+\-.^_`|~0-9A-Za-z]+:[\t -~\x80-\xff]*\r\n)*\r\n")
ENDS = [end[i:] for end in ("HTTP/1.1 000 \r\n\r\n", "a:\r\n\r\n") for i in range(len(end) + 1)]


def place(head):
    if not head.endswith("\r\n\r\n"):
        return len(head)
    return max(n for n in range(len(head) + 1) if any(GOOD_HEAD.fullmatch(head[:n] + end) for end in ENDS))


def refused(number, label, head):
    at = f" at {place(head)}" if number == 3 else ""
    CASES.append((label, head, f"{label} refused {number}{at}\n"))


def broken(number, label, fields, status=OK):
    refused(number, label, text(fields, status))


def joined(name, lines):
    """The values of all lines of a name."""
    return ", ".join(v.strip(" \t") for n, v in lines if n.lower() == name.lower())


def good(label, fields=GOOD, status=OK, names=NAMES, created=TIME, size=5, key=1, ident=ID, head=None, signed=None, part=""):
    lines = [("(response-status)", signed or status[9:12]), ("(created)", created)] + fields
    string = "\n".join(f"{n.lower()}: {joined(n, lines)}" for n in names)
    line = f"{label} asks {len(string)} status {status[9:12]} size {size}{part} key {key} id {ident}\n"
    if label.startswith("string-"):
        line += f"signature {SIGNED}\n{string}\n"
    CASES.append((label, head or text(fields, status), line))
    return len(string)


def limits():
    assert good("string-example") == 219
    for length in (8192, 8193, MOST_BYTES):
        good(f"head-of-{length}", padded(length, GOOD))
    over = MOST_BYTES + 1
    refused(3, f"head-of-{over}", text(padded(over, GOOD)))
    refused(3, f"head-of-{over}-cut-at-{MOST_BYTES}", text(padded(over, GOOD))[:MOST_BYTES])
    refused(3, f"{MOST_BYTES}-bytes-in-the-status-line", OK + " " * (MOST_BYTES - len(OK)))
    most = PSEUDO + OURS + [f"field-{i}" for i in range(27)]
    full = padded(MOST_BYTES, listing(most, numbered(MOST_FIELDS - 10)))
    assert len(full) == MOST_FIELDS and len(most) == 32
    good("all-limits-at-once", full, names=most)
    for count in (64, 65, MOST_FIELDS):
        good(f"{count}-fields", GOOD + numbered(count - len(GOOD)))
    broken(3, f"{MOST_FIELDS + 1}-fields", GOOD + numbered(MOST_FIELDS + 1 - len(GOOD)))
    good("32-names", listing(most, numbered(27)), names=most)
    broken(4, "33-names", listing(most + ["date"], numbered(27)))


def text_rules():
    whole = text(GOOD)
    refused(3, "empty", "")
    refused(3, "no-end", whole[:-2])
    refused(3, "end-without-its-LF", whole[:-1])
    refused(3, "end-of-two-LF", whole[:-4] + "\n\n")
    refused(3, "empty-line-first", "\r\n" + whole)
    status = [
        ("in-lower-case", "http/1.1 200 OK"),
        ("of-HTTP-1.0", "HTTP/1.0 200 OK"),
        ("of-HTTP-2", "HTTP/2 200 OK"),
        ("of-2-digits", "HTTP/1.1 20 OK"),
        ("of-4-digits", "HTTP/1.1 2000 OK"),
        ("with-a-letter", "HTTP/1.1 2O0 OK"),
        ("without-first-space", "HTTP/1.1200 OK"),
        ("with-two-first-spaces", "HTTP/1.1  200 OK"),
        ("with-a-tab", "HTTP/1.1\t200 OK"),
        ("without-second-space", "HTTP/1.1 200"),
        ("after-a-space", " HTTP/1.1 200 OK"),
    ]
    for label, line in status:
        broken(3, f"status-line-{label}", GOOD, line)
    good("reason-empty", status="HTTP/1.1 200 ")
    good("reason-of-many-bytes", status="HTTP/1.1 200 a\tb ~\x80\xff")
    for byte in (0, 8, 10, 13, 31, 127):
        broken(3, f"reason-with-byte-{byte}", GOOD, f"{OK}{chr(byte)}x")
        broken(3, f"value-with-byte-{byte}", put("Date", f"a{chr(byte)}b"))
    broken(3, "value-with-CR-at-its-end", put("Date", "a\r"))
    good("value-of-many-bytes", put("Date", "a\tb !~\x80\xff"))
    good("value-empty", put("Date", ""))
    good("string-value-with-blanks-around", put("Content-Type", " text/plain "))
    good("value-after-tabs", put("Content-Type", "\t \ttext/plain\t"))
    good("name-of-all-sorts", GOOD + [("!#$%&'*+-.^_`|~09azAZ", "x")])
    for label, line in [
        ("without-name", ": x"),
        ("with-space-before-colon", "Server : x"),
        ("after-a-space", " Server: x"),
        ("without-colon", "Server"),
        ("with-a-parenthesis", "Ser(ver: x"),
        ("with-byte-128-in-name", "Ser\x80ver: x"),
        ("with-byte-127-in-name", "Ser\x7fver: x"),
    ]:
        refused(3, f"field-{label}", whole[:-2] + line + "\r\n\r\n")
    good("field-without-space-after-colon", head=whole.replace("Type: ", "Type:"))


def repetitions():
    """Names that are there more than once: only of the protected ones it is refused, signed or not."""
    for label, more in [
        ("version", [("X-Ouinet-Version", "4")]),
        ("uri-in-other-case", [("x-oUINET-uri", "x")]),
        ("sig0", [("X-Ouinet-Sig0", sig0())]),
        ("encoding", [("Transfer-Encoding", "chunked")]),
        ("encoding-in-other-case", [("transfer-ENCODING", "")]),
        ("length", [("Content-Length", "12"), ("Content-Length", "12")]),
        ("length-in-other-case", [("CONTENT-length", "12"), ("content-LENGTH", "")]),
        ("unknown-name", [("X-Ouinet-A", "x"), ("X-Ouinet-A", "x")]),
        ("unknown-name-in-other-case", [("X-OUINET-a", "x"), ("Date", "x"), ("x-ouinet-A", "y")]),
        ("shortest-name", [("X-Ouinet-", "x"), ("x-ouinet-", "x")]),
        ("status", [("X-Ouinet-HTTP-Status", "200"), ("X-Ouinet-HTTP-Status", "200")]),
    ]:
        broken(3, f"protected-twice-{label}", GOOD + more)
    broken(3, "protected-twice-first-and-last", [("X-Ouinet-A", "x")] + GOOD + [("x-ouinet-a", "y")])
    for name in ("X-Ouinet-A", "Transfer-Encoding", "Content-Length"):
        broken(3, f"protected-twice-{name}-signed", listing(NAMES + [name], [(name, "chunked"), (name, "chunked")]))
    near = ["X-Ouinet", "X-Ouinet_A", "Content-Length-A", "Content-Lengt", "Transfer-Encodings", "Transfer-Encodin", "Trailer"]
    for name in near:
        good(f"repeated-{name}", GOOD + [(name, "x"), (name.lower(), "")])
    good("string-repeated-signed-and-near", listing(NAMES + near[:3], [(n, v) for v in "xyz" for n in near]), names=NAMES + near[:3])
    good("string-repeated-date", GOOD + [("dATE", "x")])
    names = NAMES + ["vary"]
    for label, values in [
        ("once", ["a"]),
        ("twice", ["a", "b"]),
        ("the-same", ["a", "a", "a"]),
        ("empty-around", ["", "b", ""]),
        ("all-empty", ["", "", ""]),
        ("with-commas", ["a, b", ",", "c,"]),
        ("with-blanks", ["\t a\tb ", "  \t", "c \t "]),
        ("of-many-bytes", ["~\x80\xff", "!\"#"]),
    ]:
        good(f"string-repeated-{label}", listing(names, [("Vary", v) for v in values]), names=names)
    names = PSEUDO + ["VIA"] + OURS + ["vARY"]
    good("string-repeated-in-turn", listing(names, [("Vary", "a"), ("Via", "2"), ("vary", "c"), ("VIA", "1"), ("VARY", "b")]), names=names)
    names = NAMES + ["padding"]
    ours = len(GOOD)
    full = padded(MOST_BYTES, listing(names, [("Padding", "")] * (MOST_FIELDS - ours - 1)))
    assert len(full) == MOST_FIELDS
    good(f"{MOST_FIELDS}-fields-of-which-{MOST_FIELDS - ours}-have-one-name", full, names=names)
    over = MOST_FIELDS + 1
    broken(3, f"{over}-fields-of-which-{over - ours}-have-one-name", listing(names, [("Padding", "")] * (over - ours)))
    broken(4, "repeated-and-listed-twice", listing(NAMES + ["vary", "vary"], [("Vary", "a"), ("Vary", "b")]))
    broken(4, "repeated-and-listed-twice-in-other-case", listing(NAMES + ["vary", "VARY"], [("Vary", "a"), ("Vary", "b")]))


def plain_rules():
    refused(4, "no-fields", OK + "\r\n\r\n")
    broken(4, "version-absent", without("X-Ouinet-Version"))
    for label, value in [("5", "5"), ("empty", ""), ("04", "04"), ("40", "40"), ("6", "6")]:
        broken(5, f"version-{label}", put("X-Ouinet-Version", value))
    good("version-with-blanks", put("X-Ouinet-Version", " 4\t"))
    for status in (200, 301, 302, 307):
        good(f"status-{status}", status=f"HTTP/1.1 {status} Some reason")
    for status in ("000", 100, 201, 204, 206, 300, 303, 304, 308, 404, 500):
        broken(4, f"status-{status}", GOOD, f"HTTP/1.1 {status} Some reason")
    broken(4, "encoding-absent", without("Transfer-Encoding"))
    for label, value in [("empty", ""), ("gzip", "gzip"), ("of-two", "gzip, chunked"), ("with-more", "chunkedx"), ("cut", "chunke")]:
        broken(4, f"encoding-{label}", put("Transfer-Encoding", value))
    for value in ("Chunked", "CHUNKED", "chunkeD "):
        good(f"encoding-{value.strip()}", put("Transfer-Encoding", value))
    broken(4, "length-present", GOOD + [("Content-Length", "12")])
    broken(4, "length-present-in-other-case", GOOD + [("CONTENT-length", "")])
    broken(4, "uri-absent", without("X-Ouinet-URI"))
    broken(4, "uri-empty", put("X-Ouinet-URI", ""))
    broken(4, "uri-of-blanks", put("X-Ouinet-URI", " \t "))
    broken(16, "uri-of-one-byte", put("X-Ouinet-URI", "/"))


def injections():
    broken(4, "injection-absent", without("X-Ouinet-Injection"))
    for label, value in [
        ("empty", ""),
        ("id-empty", "id=,ts=1584748800"),
        ("id-of-65", injection("i" * 65)),
        ("id-with-a-dot", injection("a.b")),
        ("id-with-a-space", injection("a b")),
        ("id-in-quotes", injection('"a"')),
        ("name-in-capitals", "ID=a,ts=1584748800"),
        ("ts-absent", "id=a"),
        ("ts-empty", "id=a,ts="),
        ("ts-with-a-letter", "id=a,ts=158474880x"),
        ("ts-with-a-sign", "id=a,ts=+1584748800"),
        ("ts-first", "ts=1584748800,id=a"),
        ("blank-after-comma", "id=a, ts=1584748800"),
        ("blank-before-comma", "id=a ,ts=1584748800"),
        ("without-comma", "id=ats=1584748800"),
        ("with-more", "id=a,ts=1584748800,x=1"),
    ]:
        broken(4, f"injection-{label}", put("X-Ouinet-Injection", value))
    for ident in ("a", "AZaz09-_", "i" * 64):
        good(f"injection-id-of-{len(ident)}", put("X-Ouinet-Injection", injection(ident)), ident=ident)
    for ts in ("0", "1", "999999999999"):
        good(f"injection-ts-{ts}", signed_by(OTHER, ts), key=2)
    for ts in ("00", "01", "01584748800", "1000000000000", "0999999999999"):
        broken(4, f"injection-ts-{ts}", signed_by(OTHER, ts))


def keys_of(field, form):
    """Texts that are no key, each in a field."""
    for label, key in [
        ("of-43", FIRST[:-1]),
        ("of-43-with-padding", FIRST[:-2] + "="),
        ("of-45", FIRST + "="),
        ("empty", ""),
        ("without-padding", FIRST[:-1] + "A"),
        ("with-two-paddings", FIRST[:-2] + "=="),
        ("with-a-dash", FIRST[:20] + "-" + FIRST[21:]),
        ("with-a-space", FIRST[:20] + " " + FIRST[21:]),
        ("with-spare-bits", FIRST[:-2] + "d="),
    ]:
        broken(4, f"{field[9:].lower()}-key-{label}", put(field, form(key=key)))


def starts_of(field, value):
    """What may go wrong where both signature fields begin."""
    name = field[9:].lower()
    broken(4, f"{name}-absent", without(field))
    for label, old, new in [
        ("keyid-in-lower-case", "keyId", "keyid"),
        ("without-scheme", "ed25519=", ""),
        ("with-other-scheme", "ed25519=", "ed448="),
        ("with-scheme-in-capitals", "ed25519=", "ED25519="),
        ("key-without-quotes", f'"ed25519={FIRST}"', f"ed25519={FIRST}"),
        ("with-other-algorithm", "hs2019", "hs2020"),
        ("with-algorithm-in-capitals", "hs2019", "HS2019"),
        ("algorithm-without-quotes", '"hs2019"', "hs2019"),
        ("algorithm-absent", 'algorithm="hs2019",', ""),
        ("key-absent", f'keyId="ed25519={FIRST}",', ""),
        ("without-first-comma", '",algorithm', '"algorithm'),
        ("without-second-comma", '"hs2019",', '"hs2019"'),
        ("blank-before-first-comma", '",algorithm', '" ,algorithm'),
        ("blank-before-second-comma", '"hs2019",', '"hs2019"\t,'),
        ("blank-before-equals", "algorithm=", "algorithm ="),
        ("blank-after-equals", "algorithm=", "algorithm= "),
        ("with-two-commas", '",algorithm', '",,algorithm'),
        ("algorithm-first", start(), f'algorithm="hs2019",keyId="ed25519={FIRST}",'),
    ]:
        assert old in value
        broken(4, f"{name}-{label}", put(field, value.replace(old, new)))
    broken(4, f"{name}-with-more", put(field, value + "x"))
    broken(4, f"{name}-with-comma-at-its-end", put(field, value + ","))
    broken(4, f"{name}-with-one-parameter-more", put(field, value + ",expires=1"))
    good(f"{name}-with-blanks-after-commas", put(field, value.replace('",', '", \t ')))


def block_signatures():
    starts_of("X-Ouinet-BSigs", bsigs())
    keys_of("X-Ouinet-BSigs", bsigs)
    for size in (1, 9, 65535, 65536):
        good(f"bsigs-size-{size}", put("X-Ouinet-BSigs", bsigs(str(size))), size=size)
    for size in ("0", "00", "05", "065536", "65537", "99999", "100000", "18446744073709551617", "5x", "-5", '"5"'):
        broken(4, f"bsigs-size-{size}", put("X-Ouinet-BSigs", bsigs(size)))
    broken(4, "bsigs-size-empty", put("X-Ouinet-BSigs", bsigs("")))
    broken(4, "bsigs-size-absent", put("X-Ouinet-BSigs", start()[:-1]))
    broken(4, "bsigs-size-first", put("X-Ouinet-BSigs", "size=5," + start()[:-1]))


def head_signatures():
    starts_of("X-Ouinet-Sig0", sig0())
    keys_of("X-Ouinet-Sig0", lambda key: sig0(key=key))
    for created in ("0", "7", "999999999999"):
        good(f"sig0-created-{created}", put("X-Ouinet-Sig0", sig0(created=created)), created=created)
    for created in ("", "00", "07", "1000000000000", "7x", f'"{TIME}"'):
        broken(4, f"sig0-created-{created or 'empty'}", put("X-Ouinet-Sig0", sig0(created=created)))
    for label, signature in [
        ("of-87", SIGNATURE[:-1]),
        ("of-89", SIGNATURE + "="),
        ("empty", ""),
        ("with-one-padding", SIGNATURE[:-2] + "A="),
        ("with-three-paddings", SIGNATURE[:-3] + "==="),
        ("with-an-underscore", SIGNATURE[:40] + "_" + SIGNATURE[41:]),
        ("with-spare-bits", SIGNATURE[:-3] + chr(ord(SIGNATURE[-3]) + 1) + "=="),
    ]:
        broken(4, f"sig0-signature-{label}", put("X-Ouinet-Sig0", sig0(signature=signature)))
    created, headers, signature = f"created={TIME}", f'headers="{" ".join(NAMES)}"', f'signature="{SIGNATURE}"'
    for label, rest in [
        ("created-absent", [headers, signature]),
        ("headers-absent", [created, signature]),
        ("signature-absent", [created, headers]),
        ("headers-before-created", [headers, created, signature]),
        ("signature-before-headers", [created, signature, headers]),
        ("created-twice", [created, created, headers, signature]),
        ("expires-between", [created, "expires=1584749800", headers, signature]),
        ("blank-before-third-comma", [created + " ", headers, signature]),
        ("blank-before-fourth-comma", [created, headers + " ", signature]),
        ("headers-without-quotes", [created, headers.replace('"', ""), signature]),
        ("signature-without-quotes", [created, headers, signature.replace('"', "")]),
        ("last-quote-absent", [created, headers, signature[:-1]]),
        ("headers-in-capitals", [created, headers.replace("headers", "Headers"), signature]),
    ]:
        broken(4, f"sig0-{label}", put("X-Ouinet-Sig0", start() + ",".join(rest)))
    broken(4, "sig0-without-third-comma", put("X-Ouinet-Sig0", start() + created + " " + headers + "," + signature))
    broken(4, "sig0-without-fourth-comma", put("X-Ouinet-Sig0", start() + created + "," + headers + signature))
    good("sig0-without-blanks", put("X-Ouinet-Sig0", start() + ",".join([created, headers, signature])))


def lists():
    for label, names in [
        ("empty", []),
        ("of-one", PSEUDO[:1]),
        ("of-two", PSEUDO),
        ("first-two-turned", PSEUDO[::-1] + OURS),
        ("without-status", PSEUDO[1:] + OURS),
        ("without-created", PSEUDO[:1] + OURS),
        ("created-third", [PSEUDO[0], OURS[0], PSEUDO[1]] + OURS[1:]),
        ("double-space", PSEUDO + OURS + ["", "date"]),
        ("space-at-front", [""] + NAMES),
        ("space-at-end", NAMES + [""]),
        ("tab-between", PSEUDO + OURS + ["date\tcontent-type"]),
        ("comma-between", PSEUDO + OURS + ["date,", "content-type"]),
        ("name-twice", NAMES + ["date"]),
        ("name-twice-in-other-case", NAMES + ["DATE"]),
        ("created-twice", NAMES + ["(created)"]),
        ("unknown-field", NAMES + ["server"]),
        ("unknown-pseudo-field", NAMES + ["(request-target)"]),
        ("beginning-of-a-name", PSEUDO + OURS + ["dat"]),
        ("without-version", PSEUDO + OURS[1:] + ["date"]),
        ("without-uri", PSEUDO + [OURS[0], OURS[2], "date"]),
        ("without-injection", PSEUDO + OURS[:2] + ["date"]),
        ("with-sig0", NAMES + ["x-ouinet-sig0"]),
        ("with-sig0-in-other-case", NAMES + ["X-Ouinet-Sig0"]),
    ]:
        broken(4, f"list-{label}", listing(names))
    for label, names in [
        ("shortest", PSEUDO + OURS),
        ("in-capitals", [n.upper() for n in NAMES]),
        ("in-other-order", PSEUDO + ["trailer", "date"] + OURS[::-1]),
        ("with-bsigs", NAMES + ["X-Ouinet-BSigs", "Transfer-Encoding"]),
    ]:
        good(f"string-list-{label}", listing(names), names=names)


def asked():
    """Heads of another URI than the one asked for, with as few fields as may be; and such heads that break another rule too."""
    fewest = PSEUDO + OURS
    short = [f for f in put("X-Ouinet-Sig0", sig0(fewest)) if f[0] not in ("Date", "Content-Type", "Trailer")]
    good("uri-with-blanks-around", put("X-Ouinet-URI", f"\t {URI} \t", short), names=fewest)
    for label, uri in [("in-other-case", URI.replace("hello", "Hello")), ("cut", URI[:-1]), ("longer", URI + "/")]:
        broken(16, f"uri-{label}", put("X-Ouinet-URI", uri, short))
    other = put("X-Ouinet-URI", "/", short)
    broken(4, "order-list-and-uri", put("X-Ouinet-Sig0", sig0(PSEUDO), other))
    broken(5, "order-version-and-uri", put("X-Ouinet-Version", "5", other))
    broken(16, "order-uri-and-trust", put("X-Ouinet-Injection", injection(ts="0"), other))
    broken(16, "order-uri-and-unlike-keys", put("X-Ouinet-BSigs", bsigs(key=OTHER), other))


def part_answers():
    """Answers of status 206, with as few fields as may be: the range against blocks of N bytes, its text, and the status that is signed."""
    fewest = PSEUDO + OURS
    partial = "HTTP/1.1 206 Partial Content"

    def head(value="bytes 5-11/12", n=5, signed="200", names=fewest, more=()):
        fields = put("X-Ouinet-Sig0", sig0(names), put("X-Ouinet-BSigs", bsigs(str(n))))
        both = [("Content-Range", value), ("X-Ouinet-HTTP-Status", signed)]
        return [f for f in fields if f[0] not in ("Date", "Content-Type", "Trailer")] + [f for f in both if f[1] is not None] + list(more)

    most = 2**32
    for n, numbers in [
        (5, "5-11/12"),
        (5, "0-11/12"),
        (5, "0-4/12"),
        (5, "5-9/12"),
        (5, "10-11/12"),
        (5, "0-0/1"),
        (1, "7-7/12"),
        (65536, f"0-{most - 1}/{most}"),
        (65536, f"{most - 65536}-{most - 1}/{most}"),
        (65536, f"65536-131071/{most - 1}"),
    ]:
        good(f"part-{n}-{numbers}", head(f"bytes {numbers}", n), partial, fewest, size=n, signed="200", part=f" part {numbers}")
    for n, numbers in [
        (5, "5-10/12"),
        (5, "6-11/12"),
        (5, "4-11/12"),
        (5, "5-12/12"),
        (5, "5-4/12"),
        (5, "10-9/12"),
        (5, "0-5/5"),
        (5, "0-4/0"),
        (1, f"0-0/{most + 1}"),
        (1, f"{most}-{most}/{most + 1}"),
        (65536, f"65536-131071/{2**64 + 131072}"),
        (5, f"{2**64 + 5}-11/12"),
        (5, f"5-{2**64 + 11}/12"),
        (5, "0-999999999998/999999999999"),
        (5, "0-9999999999999/10000000000000"),
    ]:
        broken(4, f"part-{n}-{numbers}", head(f"bytes {numbers}", n), partial)
    for label, value in [
        ("empty", ""),
        ("in-capitals", "Bytes 5-11/12"),
        ("without-unit", "5-11/12"),
        ("with-equals", "bytes=5-11/12"),
        ("with-two-spaces", "bytes  5-11/12"),
        ("with-a-tab", "bytes\t5-11/12"),
        ("with-space-before-hyphen", "bytes 5 -11/12"),
        ("without-first", "bytes -11/12"),
        ("without-last", "bytes 5-/12"),
        ("without-total", "bytes 5-11/"),
        ("of-unknown-total", "bytes 5-11/*"),
        ("of-no-range", "bytes */12"),
        ("cut", "bytes 5-11"),
        ("with-more", "bytes 5-11/12 x"),
        ("of-two-ranges", "bytes 0-4/12, 5-11/12"),
        ("with-zero-before-first", "bytes 05-11/12"),
        ("with-zero-before-last", "bytes 5-011/12"),
        ("with-zero-before-total", "bytes 5-11/012"),
        ("of-two-zeros", "bytes 00-11/12"),
        ("with-a-sign", "bytes +5-11/12"),
        ("absent", None),
    ]:
        broken(4, f"part-range-{label}", head(value), partial)
    twice = [("content-range", "bytes 5-11/12")]
    broken(4, "part-range-twice", head(more=twice), partial)
    broken(4, "part-range-twice-and-signed", head(names=fewest + ["content-range"], more=twice), partial)
    for signed in ("200", "301", "302", "307"):
        good(f"string-part-signs-{signed}", head(signed=signed), partial, fewest, signed=signed, part=" part 5-11/12")
    for signed in ("206", "204", "", "0200", "20", "200x", None):
        broken(4, f"part-signs-{signed or repr(signed)}", head(signed=signed), partial)
    names = fewest + ["content-range", "X-Ouinet-HTTP-Status"]
    good("string-part-lists-both", head(" bytes 5-11/12\t", signed=" 301 ", names=names), partial, names, signed="301", part=" part 5-11/12")
    for value, signed in (("x", "x"), ("bytes 0-0/1", "206"), ("bytes 5-11/12", "301")):
        good(f"whole-with-{value.replace(' ', '-')}-and-{signed}", head(value, signed=signed, more=twice), OK, fewest)
    good("whole-of-302-with-200", head(signed="200"), "HTTP/1.1 302 Found", fewest)
    broken(4, "part-and-size-0", head(n=0), partial)
    broken(5, "order-version-and-part", put("X-Ouinet-Version", "5", head("x")), partial)
    broken(4, "order-part-and-uri", put("X-Ouinet-URI", "/", head("x")), partial)
    broken(16, "order-uri-of-a-part", put("X-Ouinet-URI", "/", head()), partial)
    broken(12, "order-trust-of-a-part", put("X-Ouinet-Injection", injection(ts="0"), head()), partial)


def trust():
    for ts, key in [(1000000000, 0), (1500000000, 0), (1584748000, 1), (1584748999, 1)]:
        good(f"trust-at-{ts}", signed_by(FIRST, str(ts)), key=key)
    for ts in (0, 999999999, 1500000001, 1584747999, 1584749000, 999999999999):
        broken(12, f"trust-at-{ts}", signed_by(FIRST, str(ts)))
    good("trust-looks-at-ts-not-created", signed_by(FIRST, TIME, created="1"), created="1")
    broken(12, "trust-with-created-within-and-ts-not", signed_by(FIRST, "1"))
    good("trust-of-other-key", signed_by(OTHER, TIME), key=2)
    broken(12, "trust-of-strange-key", signed_by(STRANGE, TIME))
    broken(12, "trust-of-other-key-in-bsigs", put("X-Ouinet-BSigs", bsigs(key=OTHER)))
    broken(12, "trust-of-other-key-in-sig0", put("X-Ouinet-Sig0", sig0(key=OTHER)))
    broken(12, "trust-of-strange-key-in-bsigs", put("X-Ouinet-BSigs", bsigs(key=STRANGE)))


def order():
    """Two rules broken at once: the earlier one gives the number."""
    old = put("X-Ouinet-Version", "3")
    twice = [("X-Ouinet-A", "x"), ("X-Ouinet-A", "x")]
    broken(3, "order-protected-twice-and-version", old + twice)
    broken(5, "order-repeated-and-version", old + [("Date", "x")])
    many = numbered(MOST_FIELDS + 1 - len(GOOD))
    broken(3, f"order-{MOST_FIELDS + 1}-fields-and-version", old + many)
    broken(3, "order-protected-twice-and-version-absent", without("X-Ouinet-Version") + twice)
    broken(4, "order-repeated-and-version-absent", without("X-Ouinet-Version") + [("Date", "x")])
    broken(3, f"order-text-after-{MOST_FIELDS + 1}-fields", GOOD + many + [("Server ", "x")])
    broken(3, "order-text-after-protected-twice", GOOD + twice + [("Server ", "x")])
    broken(3, "order-text-after-repeated", GOOD + [("Date", "x"), ("Server ", "x")])
    broken(3, f"order-{MOST_FIELDS + 1}-fields-and-protected-twice", GOOD + many[2:] + twice)
    broken(3, "order-last-field-and-status", GOOD + [("Server ", "x")], "HTTP/1.1 404 Not Found")
    broken(3, "order-status-line-and-trust", signed_by(STRANGE, TIME), "HTTP/1.0 200 OK")
    broken(4, "order-version-absent-and-trust", [f for f in signed_by(STRANGE, TIME) if f[0] != "X-Ouinet-Version"])
    broken(5, "order-version-and-status", old, "HTTP/1.1 404 Not Found")
    broken(5, "order-version-and-injection", put("X-Ouinet-Injection", "", old))
    broken(5, "order-version-and-trust", put("X-Ouinet-Version", "5", signed_by(STRANGE, TIME)))
    broken(4, "order-status-and-trust", signed_by(STRANGE, TIME), "HTTP/1.1 404 Not Found")
    broken(4, "order-list-and-trust", put("X-Ouinet-Sig0", sig0(PSEUDO, key=STRANGE)))
    broken(4, "order-length-and-trust", signed_by(STRANGE, TIME) + [("Content-Length", "0")])


for part in (limits, text_rules, repetitions, plain_rules, injections, block_signatures, head_signatures, lists, asked, part_answers, trust, order):
    part()
labels = [label for label, _, _ in CASES]
assert len(set(labels)) == len(labels) and not any(" " in label for label in labels)
# the program reads no more
assert sum(len(f"{label} {len(head)}\n{head}") for label, head, _ in CASES) <= 600000
with open("stdin", "wb") as cases, open("stdout", "wb") as lines:
    for label, head, line in CASES:
        cases.write(f"{label} {len(head)}\n{head}".encode("latin-1"))
        lines.write(line.encode("latin-1"))
