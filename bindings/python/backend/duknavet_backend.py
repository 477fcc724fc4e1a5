"""Makes a wheel of the package with the shared object in it, from the archive that `bindings/archive` wrote. It needs cc and nothing else.

The archive is the one that DUKNAVET_ARCHIVE names, else target/staticlib/libexports.a of the repository."""

import base64
import hashlib
import os
import subprocess
import sysconfig
import tempfile
import zipfile

HERE = os.path.dirname(os.path.dirname(os.path.abspath(__file__)))
NAME = "duknavet"
VERSION = "0.2.0"


def get_requires_for_build_wheel(config_settings=None):
    return []


def _tag():
    platform = sysconfig.get_platform().replace("-", "_").replace(".", "_")
    return f"py3-none-{platform}"


def _shared_object(folder):
    """The bytes of the shared object."""
    default = os.path.join(HERE, "..", "..", "target", "staticlib", "libexports.a")
    archive = os.environ.get("DUKNAVET_ARCHIVE", default)
    if not os.path.isfile(archive):
        raise SystemExit(f"duknavet: there is no archive at {archive}: run `bindings/archive`")
    made = os.path.join(folder, "libduknavet.so")
    subprocess.run([os.path.join(HERE, "build"), archive, made], check=True)
    with open(made, "rb") as file:
        return file.read()


def _contents(folder):
    """Each file of the wheel by its name."""
    files = {}
    package = os.path.join(HERE, NAME)
    for name in sorted(os.listdir(package)):
        if name.endswith(".py") or name == "py.typed":
            with open(os.path.join(package, name), "rb") as file:
                files[f"{NAME}/{name}"] = file.read()
    files[f"{NAME}/libduknavet.so"] = _shared_object(folder)
    information = f"{NAME}-{VERSION}.dist-info"
    summary = "Calls to Duknavet, a proved engine for rules over endless event sequences"
    files[f"{information}/METADATA"] = (
        f"Metadata-Version: 2.1\nName: {NAME}\nVersion: {VERSION}\nSummary: {summary}\nRequires-Python: >=3.9\n"
    ).encode()
    files[f"{information}/WHEEL"] = (
        f"Wheel-Version: 1.0\nGenerator: duknavet_backend\nRoot-Is-Purelib: false\nTag: {_tag()}\n"
    ).encode()
    return information, files


def _record(files, own):
    lines = []
    for name, contents in files.items():
        digest = base64.urlsafe_b64encode(hashlib.sha256(contents).digest()).rstrip(b"=").decode()
        lines.append(f"{name},sha256={digest},{len(contents)}\n")
    return "".join(lines) + f"{own},,\n"


def build_wheel(wheel_directory, config_settings=None, metadata_directory=None):
    with tempfile.TemporaryDirectory() as folder:
        information, files = _contents(folder)
    own = f"{information}/RECORD"
    files[own] = _record(files, own).encode()
    wheel = f"{NAME}-{VERSION}-{_tag()}.whl"
    with zipfile.ZipFile(os.path.join(wheel_directory, wheel), "w", zipfile.ZIP_DEFLATED) as archive:
        for name, contents in files.items():
            entry = zipfile.ZipInfo(name, (2020, 1, 1, 0, 0, 0))
            entry.external_attr = (0o755 if name.endswith(".so") else 0o644) << 16
            archive.writestr(entry, contents)
    return wheel
