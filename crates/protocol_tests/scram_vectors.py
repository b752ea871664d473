"""Requests of SCRAM-SHA-256 and their answers: the vectors of RFC 4231, RFC 7914 and RFC 7677, verifiers that PostgreSQL 15 made, and
exchanges whose answers Python's hashlib and hmac give."""
import base64
import hashlib
import hmac
import os

HERE = os.path.dirname(os.path.realpath(__file__))
SECRET, DRAWN = b"\x07" * 32, b"\xa5" * 32
lines = []


def ask(request, answer):
    lines.append((request, answer))


def b64(data):
    return base64.b64encode(data).decode()


def mac(key, message):
    return hmac.new(key, message, "sha256").digest()


class Verifier:
    def __init__(self, password, salt, iterations=4096):
        salted = hashlib.pbkdf2_hmac("sha256", password, salt, iterations)
        self.salt, self.iterations = salt, iterations
        self.client_key = mac(salted, b"Client Key")
        self.stored_key = hashlib.sha256(self.client_key).digest()
        self.server_key = mac(salted, b"Server Key")

    def text(self):
        return f"SCRAM-SHA-256${self.iterations}:{b64(self.salt)}${b64(self.stored_key)}:{b64(self.server_key)}"

    def proof(self, messages):
        return bytes(a ^ b for a, b in zip(self.client_key, mac(self.stored_key, messages)))


def codes():
    long_key = b"\xaa" * 131
    for key, message, code in [
        (b"\x0b" * 20, b"Hi There", "b0344c61d8db38535ca8afceaf0bf12b881dc200c9833da726e9376c2e32cff7"),
        (b"Jefe", b"what do ya want for nothing?", "5bdcc146bf60754e6a042426089575c75a003f089d2739839dec58b964ec3843"),
        (b"\xaa" * 20, b"\xdd" * 50, "773ea91e36800e46854db8ebd09181a72959098b3ef8c122d9635514ced565fe"),
        (bytes(range(1, 26)), b"\xcd" * 50, "82558a389a443c0ea4cc819899f2083a85f0faa3e578f8077a2e3ff46729665b"),
        (long_key, b"Test Using Larger Than Block-Size Key - Hash Key First",
         "60e431591ee0b67f0d8a26aacbf5b77f8e0bc6213728c5140546040f0ee37f54"),
        (long_key, b"This is a test using a larger than block-size key and a larger than block-size data. The key needs to be "
         b"hashed before being used by the HMAC algorithm.", "9b09ffa71b942fcb27635fbcd5b0e944bfdc63644f0713938a7f51535c3a35e2"),
    ]:
        ask(f"code {key.hex()} {message.hex()}", code)


def keys():
    ask(f"derive 1 {b'passwd'.hex()} {b'salt'.hex()}", "55ac046e56e3089fec1691c22544b605f94185216dde0465e68b9d57c20dacbc")
    ask(f"derive 80000 {b'Password'.hex()} {b'NaCl'.hex()}", "4ddcd8f60b98be21830cee5ef22701f9641a4418d04c0414aeff08876b34ab56")


def standard_exchange():
    """The exchange of RFC 7677, 3."""
    verifier = Verifier(b"pencil", base64.b64decode("W22ZaJ0SNY7soEsUEjb6gQ=="))
    nonce = "rOprNGfwEbeRWgbNEkqO%hvYDpWUa2RaTCAfuxFIlj)hNlF$k0"
    messages = f"n=user,r=rOprNGfwEbeRWgbNEkqO,r={nonce},s=W22ZaJ0SNY7soEsUEjb6gQ==,i=4096,c=biws,r={nonce}".encode()
    proof = base64.b64decode("dHzbZapWIk4jUhN+Ute9ytag9zjfMHgsqmmiz7AndVQ=")
    signature = base64.b64decode("6rriTRBi23WpRR/wtup+mMhUZUn/dB5nLTJRsjl95G4=").hex()
    ask(f"verifier 4096 {b'pencil'.hex()} {verifier.salt.hex()}", verifier.text())
    ask(f"show {verifier.text()} {messages.hex()} {proof.hex()}", signature)
    for i in (0, 31):
        wrong = bytearray(proof)
        wrong[i] ^= 1
        ask(f"show {verifier.text()} {messages.hex()} {bytes(wrong).hex()}", "refused")


def texts():
    # a password in hexadecimal digits, and what PostgreSQL 15 stored for it in pg_authid
    for line in open(os.path.join(HERE, "postgres.txt"), encoding="ascii"):
        password, text = line.split()
        count, salt = text.split("$")[1].split(":")
        ask(f"verifier {count} {password} {base64.b64decode(salt).hex()}", text)
        ask(f"read {text}", text)
    good = Verifier(b"pencil", b"0123456789abcdef").text()
    kind, count, keys_part = good.split("$")[0], "4096", good.split("$")[2]
    salt = b64(b"0123456789abcdef")
    stored, server = keys_part.split(":")
    for text in [
        "md5" + "0" * 32, "pencil", "SCRAM-SHA-256$", good + ":", good + "=", good[:-1], good.replace("4096", "4095"),
        good.replace("4096", "1000001"), good.replace("4096", "04096"), good.replace("4096", "+4096"),
        good.replace("256$", "256$$"), good.replace("SCRAM", "scram"),
        good.replace("SHA-256", "SHA-512"), f"{kind}${count}:$" + keys_part, f"{kind}${count}:{b64(b'x' * 65)}${keys_part}",
        f"{kind}${count}:{salt}${b64(b'x' * 31)}:{server}", f"{kind}${count}:{salt}${stored}:{b64(b'x' * 33)}",
        f"{kind}${count}:{salt.rstrip('=')}${keys_part}", f"{kind}${count}:{salt[:-3]}h==${keys_part}",
    ]:
        ask(f"read {text}", "none")
    for iterations, size in [(4096, 1), (4097, 64), (1000000, 16)]:
        text = f"{kind}${iterations}:{b64(b's' * size)}${keys_part}"
        ask(f"read {text}", text)


def challenge(verifier, nonce):
    return f"r={nonce}{b64(DRAWN)},s={b64(verifier.salt)},i={verifier.iterations}"


def last(verifier, header, bare, nonce, said=None):
    whole = nonce + b64(DRAWN)
    without = f"c={b64(header.encode())},r={whole}"
    messages = f"{bare},{challenge(verifier, nonce)},{said or without}".encode()
    return without, messages


def mock(role):
    it = Verifier(b"", b"x")
    it.salt = mac(SECRET, b"salt," + role)[:16]
    return it


def exchanges():
    bob, eve = Verifier(b"correct horse", b"0123456789abcdef"), Verifier(b"battery staple", b"fedcba9876543210")
    for header in ("n,,", "y,,"):
        nonce = "fyko+d2lbbFgONRv9qkxdawL"
        bare = f"n=,r={nonce}"
        ask(f"begin bob {bob.text()} {header}{bare}", challenge(bob, nonce))
        without, messages = last(bob, header, bare, nonce)
        good = f"{without},p={b64(bob.proof(messages))}"
        told = f"v={b64(mac(bob.server_key, messages))}"
        ask(f"finish {bob.text()} {good}", told)
        ask(f"finish {eve.text()} {good}", "refused")
        ask(f"finish - {good}", "refused")
        proof = bytearray(bob.proof(messages))
        for i in (0, 15, 31):
            proof[i] ^= 0x80
            ask(f"finish {bob.text()} {without},p={b64(bytes(proof))}", "refused")
            proof[i] ^= 0x80
        other = "biws" if header == "y,," else "eSws"
        for wrong in [good[:-1], good + "=", good + ",x=1", good.replace(nonce, nonce[:-1] + "M"), good.replace(b64(DRAWN), ""),
                      f"c={other}" + good[6:], f"{without},x=1,p={b64(bytes(proof))}", f"{without},p={b64(bytes(proof[:31]))}",
                      f"{without},p=", without, "x", f"{without},p={b64(eve.proof(messages))}"]:
            ask(f"finish {bob.text()} {wrong}", "refused")
    for role, stored in [("nobody", "-"), ("old", "md5" + "0" * 32)]:
        ask(f"begin {role} {stored} n,,n=,r=abc", challenge(mock(role.encode()), "abc"))
        without, messages = last(mock(role.encode()), "n,,", "n=,r=abc", "abc")
        ask(f"finish {stored} {without},p={b64(bytes(32))}", "refused")
        ask(f"finish {bob.text()} {without},p={b64(bob.proof(messages))}", "refused")
    ask(f"begin bob {bob.text()} n,,n=a=2Cb,r=z", challenge(bob, "z"))
    for first in ["", "n=,r=abc", "p=tls-unique,,n=,r=abc", "n,a=eve,n=,r=abc", "n,,m=x,n=,r=abc", "n,,n=", "n,,n=,r=", "n,,n=,r=a,b",
                  "n,,n=,r=abc,e=x", "n,,r=abc", "n,,n=a,b,r=abc", "n,,n=,r=\x7f", "n,,n=,r=\u00e9", "N,,n=,r=abc", "y,n=,r=abc"]:
        ask(f"begin bob {bob.text()} {first}", "none")
    ask(f"finish {bob.text()} x", "no exchange")


def pairs():
    """Each request with its answer."""
    for part in (codes, keys, standard_exchange, texts, exchanges):
        part()
    return lines
