"""Makes the Python wheel of a built library: the package blink, which is blink.py with its types and the shared library. Of the same files it
has the same bytes: its members are sorted, and have the time that SOURCE_DATE_EPOCH names.

    wheel.py VERSION LIBRARY FOLDER  LIBRARY is libblink.so; the wheel is written into FOLDER, and its name is printed"""

import base64
import hashlib
import os
import pathlib
import re
import subprocess
import sys
import time
import zipfile

top = pathlib.Path(__file__).resolve().parent.parent
SUMMARY = "A proved B-link tree index, and a map that threads share without a global lock"


def platforms_of(library):
    """The oldest Linux that has each version of the C library's symbols that this one needs, and no other library, by its names for pip."""
    told = subprocess.run(["readelf", "-dVW", library], check=True, capture_output=True, text=True, env={**os.environ, "LC_ALL": "C"}).stdout
    needed = set(re.findall(r"\(NEEDED\).*\[(.*)\]", told))
    if needed - {"libc.so.6"}:
        sys.exit(f"{library} needs {', '.join(sorted(needed))}, and a wheel may count on libc.so.6 alone")
    versions = [tuple(map(int, it.split("."))) for it in re.findall(r"GLIBC_([0-9.]+)", told)]
    oldest = max([(2, 17), *(it[:2] for it in versions)])
    # the first has an older name, which pip has known for longer
    return ["manylinux_{}_{}_x86_64".format(*oldest)] + ["manylinux2014_x86_64"] * (oldest == (2, 17))


def main(version, library, folder):
    platforms = platforms_of(library)
    tags = "".join(f"Tag: py3-none-{it}\n" for it in platforms)
    info = f"blink-{version}.dist-info"
    files = {
        "blink/__init__.py": (top / "python/blink.py").read_bytes(),
        "blink/__init__.pyi": (top / "python/blink.pyi").read_bytes(),
        "blink/py.typed": (top / "python/py.typed").read_bytes(),
        f"blink/libblink.so.{version.split('.')[0]}": pathlib.Path(library).read_bytes(),
        f"{info}/METADATA": f"Metadata-Version: 2.1\nName: blink\nVersion: {version}\nSummary: {SUMMARY}\n"
                            "Requires-Python: >=3.8\nClassifier: Typing :: Typed\n".encode(),
        f"{info}/WHEEL": f"Wheel-Version: 1.0\nGenerator: tools/wheel.py\nRoot-Is-Purelib: false\n{tags}".encode(),
    }
    record = ""
    for name, text in sorted(files.items()):
        digest = base64.urlsafe_b64encode(hashlib.sha256(text).digest()).rstrip(b"=").decode()
        record += f"{name},sha256={digest},{len(text)}\n"
    files[f"{info}/RECORD"] = f"{record}{info}/RECORD,,\n".encode()
    # a zip file has no earlier times
    when = time.gmtime(max(int(os.environ["SOURCE_DATE_EPOCH"]), 315532800))[:6]
    name = f"blink-{version}-py3-none-{'.'.join(platforms)}.whl"
    with zipfile.ZipFile(os.path.join(folder, name), "w", zipfile.ZIP_DEFLATED, compresslevel=9) as wheel:
        for member, text in sorted(files.items()):
            it = zipfile.ZipInfo(member, when)
            it.create_system, it.compress_type = 3, zipfile.ZIP_DEFLATED
            it.external_attr = (0o100755 if ".so." in member else 0o100644) << 16
            wheel.writestr(it, text)
    print(name)


main(*sys.argv[1:])
