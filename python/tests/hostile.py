"""A report on a profile whose names try to be something else."""

from virage import Report, read_report

from .places import EXPECTED

NAMES = [
    b"<script>document.title='taken'</script>",
    b"</title></style></pre></bdi><img src=x onerror=\"document.title='taken'\">",
    b"\" onmouseover=\"document.title='taken'\" x=\"",
    b"<style>body{display:none}</style><link rel=stylesheet href=http://127.0.0.1:9/x.css>",
    b"&lt;b&gt;not an entity&amp;",
    "\u202egnp.exe \u2066turned round\u2069".encode(),
    "z" + "\u0301\u0316\u0334" * 60,
    b"\xff\xfe\x00\x1b[31m bytes\x85\r\x0b and holds mono mono-ne(ne-leaf)",
    "\u2028\u2029\ufeff\u200b".encode(),
    b"W" * 5000,
    "a name that is long and goes on " * 20,
    "\u05e9\u05dc\u05d5\u05dd \u0633\u0644\u0627\u0645 \u6295\u7968 \U0001f5f3\ufe0f".encode(),
]


def report() -> Report:
    """The recorded report of Copeland's rule, with these names and so many alternatives."""
    lines = (EXPECTED / "report.copeland.board").read_bytes().split(b"\n")
    names = [name if isinstance(name, bytes) else name.encode() for name in NAMES]
    head = [lines[0], b"alternatives %d" % len(names), lines[2]]
    said = [b"name %d: %s" % (i, name) for i, name in enumerate(names, 1)]
    rejected = b" ".join(b"%d" % i for i in range(3, len(names)))
    sets = [b"elected: 1 2", b"rejected: " + rejected, b"deferred: %d" % len(names)]
    return read_report(b"\n".join(head + said + sets + lines[9:]))
