"""Builds the wheel of smtcheck.py, for `pip install`, without any package from elsewhere.

The wheel has a package of the module, with its types and a command `smtcheck`. The shared library goes into it where it stands beside
smtcheck.py as libsmtcheck.so; without it the package finds the library by SMTCHECK_LIBRARY.
"""
import base64
import hashlib
import os
import platform
import re
import sysconfig
import tarfile
import zipfile
from typing import Dict, Optional

HERE = os.path.dirname(os.path.abspath(__file__))
MODULE, LIBRARY = "smtcheck.py", "libsmtcheck.so"
SOURCES = ("pyproject.toml", "smtcheck_wheel.py", MODULE)
MAIN = b'"""`python -m smtcheck`."""\nimport sys\n\nfrom smtcheck import main\n\nsys.exit(main())\n'


def _read(name: str) -> bytes:
    with open(os.path.join(HERE, name), "rb") as file:
        return file.read()


def _version() -> str:
    """The version that the module tells."""
    found = re.search(rb'^__version__ = "([^"]+)"$', _read(MODULE), re.MULTILINE)
    if found is None:
        raise ValueError(f"{MODULE} tells no version")
    return found.group(1).decode("ascii")


def _metadata() -> bytes:
    about = "Metadata-Version: 2.1\nName: smtcheck\nVersion: {}\nSummary: Checks the models that an SMT solver printed\nRequires-Python: >=3.8\n"
    return (about + "License: MIT\n").format(_version()).encode("ascii")


def _tag(library: bytes) -> str:
    """The tag of a wheel with this library: of Linux, by the newest version of the C library that it wants."""
    if platform.system() != "Linux":
        return "py3-none-" + re.sub(r"[-.]", "_", sysconfig.get_platform())
    wanted = max([17, *(int(version) for version in re.findall(rb"GLIBC_2\.(\d+)", library))])
    return f"py3-none-manylinux_2_{wanted}_{platform.machine()}"


def _hash(data: bytes) -> str:
    return "sha256=" + base64.urlsafe_b64encode(hashlib.sha256(data).digest()).rstrip(b"=").decode("ascii")


def build_wheel(wheel_directory: str, config_settings: Optional[object] = None, metadata_directory: Optional[str] = None) -> str:
    """Writes the wheel to the folder, and answers its name."""
    files: Dict[str, bytes] = {"smtcheck/__init__.py": _read(MODULE), "smtcheck/__main__.py": MAIN, "smtcheck/py.typed": b""}
    tag, pure = "py3-none-any", "true"
    if os.path.exists(os.path.join(HERE, LIBRARY)):
        files["smtcheck/" + LIBRARY] = library = _read(LIBRARY)
        tag, pure = _tag(library), "false"
    info = f"smtcheck-{_version()}.dist-info/"
    files[info + "METADATA"] = _metadata()
    files[info + "entry_points.txt"] = b"[console_scripts]\nsmtcheck = smtcheck:main\n"
    files[info + "WHEEL"] = f"Wheel-Version: 1.0\nGenerator: smtcheck_wheel\nRoot-Is-Purelib: {pure}\nTag: {tag}\n".encode("ascii")
    record = "".join(f"{name},{_hash(data)},{len(data)}\n" for name, data in files.items())
    files[info + "RECORD"] = (record + info + "RECORD,,\n").encode("ascii")
    name = f"smtcheck-{_version()}-{tag}.whl"
    with zipfile.ZipFile(os.path.join(wheel_directory, name), "w", zipfile.ZIP_DEFLATED) as wheel:
        for path, data in files.items():
            wheel.writestr(path, data)
    return name


def build_sdist(sdist_directory: str, config_settings: Optional[object] = None) -> str:
    """Writes the sources to the folder, and answers their archive's name."""
    base = f"smtcheck-{_version()}"
    with tarfile.open(os.path.join(sdist_directory, base + ".tar.gz"), "w:gz") as archive:
        for name in SOURCES:
            archive.add(os.path.join(HERE, name), f"{base}/{name}")
    return base + ".tar.gz"
