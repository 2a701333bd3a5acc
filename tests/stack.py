"""stack.py FILES FOLDER: stills whose traces undo the longest chains of transforms, 16 pictures deep, by the writer of bench/files.py."""
import pathlib
import runpy
import sys

sys.argv, (_, writer, folder) = ["files.py", sys.argv[2] + "/again"], sys.argv
# The writer is a script: it writes its own files once more, beside ours.
bench = runpy.run_path(writer)
box = bench["box"]


def deep(transform, where, kind):
    """16 derived pictures over a coded one; the chain stands on the coded one or on the topmost."""
    still = bench["Still"]()
    base, turn = still.property(bench["ispe"](60, 60)), still.property(transform)
    plain, chain = [(base, 0)], [(base, 0)] + [(turn, 1)] * 254
    still.add(b"jpeg", chain if where == "low" else plain, extents=1)
    for level in range(16):
        body = bench["overlay_body"](60, 60, [(0, 0)]) if kind == b"iovl" else None
        body = bench["grid_body"](1, 1, 60, 60) if kind == b"grid" else body
        still.add(kind, chain if where == "top" and level == 15 else plain, inputs=[level], body=body)
    still.primary = 16
    still.number()
    return still.bytes()


for name, transform in (("irot", bench["irot"](1)), ("imir", bench["imir"](1)), ("clap", bench["clap"](60, 60, 0, 0))):
    for where in ("low", "top"):
        for kind in (b"iden", b"grid", b"iovl"):
            data = deep(transform, where, kind)
            (pathlib.Path(folder) / f"deep-{name}-{where}-{kind.decode()}.bin").write_bytes(data)
