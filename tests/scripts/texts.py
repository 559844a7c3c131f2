"""Texts: a mistake is named by its line and nothing is made of it; any encoding will do; garbage is
no text, and refused as a table."""

from case import DONE, REFUSED, SHORT, Case, content, holds, made, surroundings

# Each with the line of its mistake.
MISTAKES = {
    b"": 1, b"10 7": 1, b"cores 1\n10 x": 2, b"cores 1\n\n10": 3, b"cores 256": 1,
    b"cores 1\n4294967296 1": 2, b"charge 1\ncores 1\n10 1": 1, b"cores 1\ncharge 256": 2,
    b"cores 1\ncharge": 2, b"cores 1\ncharge -1": 2, b"cores 1\ncharge 1\ncharge 1": 3,
    b"cores 1\n10 1\ncharge 1": 3, b"cores 1\ncharge 1 2": 2, b"cores 1\n10 1 1": 2,
    b"cores 2\n10 1 on": 2, b"cores 2\n10 1 on 0": 2, b"cores 2\n10 1 on 1,8\n10 1 on 9": 3,
    b"cores 2\n10 1 on 1,2,1": 2, b"cores 2\n10 1 on 1,": 2, b"cores 2\n10 1 on 1 2": 2,
    b"cores 2\n10 1 on 0 1": 2, b"cores 2\n10 1 on x": 2, b"cores 2\n10 on 1": 2,
    b"cores 2\n10 1 at 1": 2, b"cores 1\r\n10 x\r\n": 2, b"cores 1\n" + b"9" * 5000 + b" 1": 2,
    b"cores 1\n10 \xff": 2, b"\0" * 4096: 1, b"cores 1\n\x1b[2J 1": 2,
    b"cores 1\n" + b"10 1\n" * 256: 257,
}


def cases(rng, folder):
    for k, (text, line) in enumerate(MISTAKES.items()):
        path = made(folder, f"mistake{k}", text)
        yield Case(["./maketable", path], REFUSED, b"", [f"line {line}: "])
    table = content("examples/watch.table")
    for k, text in enumerate(encodings(content("examples/watch.txt"))):
        path = made(folder, f"encoded{k}.txt", text)
        yield Case(["./maketable", path], DONE, table)
        yield Case(["./explain", path], SHORT, holds("short 5 5"), **surroundings(LC_ALL="C"))
    for k in range(12):
        garbage = made(folder, f"garbage{k}", rng.randbytes(rng.randrange(2000)))
        yield Case(["./maketable", garbage], REFUSED, b"", ["line "])
        script = rng.choice(["./run", "./explain", "./feeds"])
        yield Case([script, garbage], REFUSED, holds("refused "), ["number "])
    yield Case("head -c 3000000 /dev/zero | ./maketable", REFUSED, b"", ["line 1: "])
    yield Case(["./run", "/dev/zero"], REFUSED, b"refused 2 0\n", ["number 2 "])


def encodings(plain):
    """The same text with names in Latin-1, in no encoding and in UTF-8, with byte-order marks, and
    with other ends of lines."""
    marked = b"\xef\xbb\xbf"
    yield plain.replace(b"path", b"Bahn f\xfcr Fr\xe4se\x85").replace(b"axis", b"\xff\xfe\x00\x80")
    yield plain.replace(b"path", "Fräse – ひ".encode())
    yield marked + plain
    yield marked + b"# \xe9\n" + plain
    yield plain.decode().encode("utf-16")
    yield plain.replace(b"\n", b"\r\n")
    yield plain.replace(b"\n", b"\r")
    yield plain.rstrip(b"\n")
