"""Makes a wheel of this folder: the module kmip_ttlv, its names, and the shared library beside them. `pip install FOLDER` calls it.

It needs Python alone, and no network. (These are the hooks of PEP 517.) The version is the library's; importing the module, which compares
the two, fails if they don't belong together.
"""
import base64
import hashlib
import os
import sysconfig
import zipfile

import kmip_ttlv

HERE = os.path.dirname(os.path.abspath(__file__))
FILES = ("kmip_ttlv.py", "kmip_ttlv_names.py", "libkmip_ttlv.so")
SUMMARY = "TTLV, the encoding of OASIS KMIP: messages printed, redacted, listed, checked, decoded and encoded"


def build_wheel(wheel_directory, config_settings=None, metadata_directory=None):
    """Writes the wheel into a folder, and returns its name."""
    # 0.1.0-unproved, of a library that isn't proved, is 0.1.0+unproved to pip
    version = kmip_ttlv.version().replace("-", "+")
    tag = "py3-none-" + sysconfig.get_platform().replace("-", "_").replace(".", "_")
    name, notes = f"kmip_ttlv-{version}-{tag}.whl", f"kmip_ttlv-{version}.dist-info"
    rows = []
    with zipfile.ZipFile(os.path.join(wheel_directory, name), "w", zipfile.ZIP_DEFLATED) as wheel:

        def put(path, content):
            # a fixed time, so that one folder makes one wheel
            entry = zipfile.ZipInfo(path, (1980, 1, 1, 0, 0, 0))
            entry.external_attr = 0o644 << 16
            wheel.writestr(entry, content, zipfile.ZIP_DEFLATED)
            digest = base64.urlsafe_b64encode(hashlib.sha256(content).digest()).rstrip(b"=").decode()
            rows.append(f"{path},sha256={digest},{len(content)}\n")

        for file in FILES:
            with open(os.path.join(HERE, file), "rb") as it:
                put(file, it.read())
        put(f"{notes}/METADATA", f"Metadata-Version: 2.1\nName: kmip_ttlv\nVersion: {version}\nSummary: {SUMMARY}\nRequires-Python: >=3.9\n".encode())
        put(f"{notes}/WHEEL", f"Wheel-Version: 1.0\nGenerator: kmip_ttlv_wheel\nRoot-Is-Purelib: false\nTag: {tag}\n".encode())
        wheel.writestr(zipfile.ZipInfo(f"{notes}/RECORD", (1980, 1, 1, 0, 0, 0)), "".join(rows) + f"{notes}/RECORD,,\n")
    return name


def build_sdist(sdist_directory, config_settings=None):
    """There are no sources to hand on but the whole repository's."""
    raise UnsupportedOperation("build a wheel")


class UnsupportedOperation(Exception):
    """What this backend doesn't do."""
