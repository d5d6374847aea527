"""Builds the wheel of the Python module with the library inside, by the standard library alone (PEP 517).

The library is the one that GIQAPSUN_LIBRARY names, or else target/bindings/libgiqapsun.so of the repository,
which bindings/build.sh makes. The wheel's bytes depend on nothing but the files in it.
"""

import sys

if sys.version_info < (3, 11):
    sys.exit("giqapsun: Python 3.11 or later is needed")

import hashlib
import os
import re
import sysconfig
import tomllib
import zipfile
from base64 import urlsafe_b64encode
from pathlib import Path

HERE = Path(__file__).resolve().parents[1]
PACKAGE = HERE / "giqapsun"
LIBRARY = "libgiqapsun.so"


class UnsupportedOperation(Exception):
    """A form of distribution that is not made."""


def build_wheel(wheel_directory, config_settings=None, metadata_directory=None):
    """Writes the wheel into a folder and returns its name."""
    project = tomllib.loads((HERE / "pyproject.toml").read_text(encoding="utf-8"))["project"]
    name, version = project["name"], _version()
    tag = f"py3-none-{re.sub('[-.]', '_', sysconfig.get_platform())}"
    files = {f"giqapsun/{path.name}": path.read_bytes() for path in sorted(PACKAGE.iterdir()) if _belongs(path)}
    files[f"giqapsun/{LIBRARY}"] = _library().read_bytes()
    info = f"{name}-{version}.dist-info"
    files[f"{info}/METADATA"] = _lines(
        "Metadata-Version: 2.1", f"Name: {name}", f"Version: {version}", f"Summary: {project['description']}",
        f"Requires-Python: {project['requires-python']}",
    )
    files[f"{info}/WHEEL"] = _lines(
        "Wheel-Version: 1.0", "Generator: giqapsun_backend", "Root-Is-Purelib: false", f"Tag: {tag}"
    )
    rows = [f"{path},sha256={_digest(data)},{len(data)}" for path, data in files.items()]
    files[f"{info}/RECORD"] = _lines(*rows, f"{info}/RECORD,,")
    wheel = f"{name}-{version}-{tag}.whl"
    with zipfile.ZipFile(Path(wheel_directory) / wheel, "w", zipfile.ZIP_DEFLATED) as archive:
        for path, data in files.items():
            entry = zipfile.ZipInfo(path)
            entry.external_attr = 0o644 << 16
            entry.compress_type = zipfile.ZIP_DEFLATED
            archive.writestr(entry, data)
    return wheel


def build_sdist(sdist_directory, config_settings=None):
    """There is no source distribution: the library is proved and built in the repository."""
    raise UnsupportedOperation("no source distribution is made; build the wheel in the repository")


def _version():
    """The version, as the module says it."""
    return re.search(r'^__version__ = "(.+)"$', (PACKAGE / "__init__.py").read_text(encoding="utf-8"), re.M)[1]


def _belongs(path):
    return path.suffix in (".py", ".typed")


def _library():
    built = HERE.parents[1] / "target" / "bindings" / LIBRARY
    library = Path(os.environ.get("GIQAPSUN_LIBRARY") or built)
    if not library.is_file():
        raise SystemExit(f"giqapsun: {library} is not there: run bindings/build.sh, or set GIQAPSUN_LIBRARY")
    return library


def _digest(data):
    return urlsafe_b64encode(hashlib.sha256(data).digest()).rstrip(b"=").decode()


def _lines(*lines):
    return "".join(line + "\n" for line in lines).encode()
