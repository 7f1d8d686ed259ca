"""Makes the wheel of the module wsn for pip, with the built library in it:

    tools/library built
    pip install --no-index --no-build-isolation ./python

The library is built/libwsn.so in the repository, or what WSN_LIBRARY names.
"""

import base64
import hashlib
import os
import pathlib
import re
import sysconfig
import zipfile

HERE = pathlib.Path(__file__).resolve().parent
ABSENT = """\
wsn: there is no library {}. In the repository of wsn, `tools/library built` makes it with its proof, where pip then \
finds it; WSN_LIBRARY=FOLDER/libwsn.so names another one."""
METADATA = """\
Metadata-Version: 2.1
Name: wsn
Version: {version}
Summary: Why a WebSocket session failed
"""
WHEEL = """\
Wheel-Version: 1.0
Generator: backend.py
Root-Is-Purelib: false
Tag: {tag}
"""


def library() -> pathlib.Path:
    """The built library. pip calls this module in the module's folder, so a relative name is one in the shell's."""
    named = os.environ.get("WSN_LIBRARY")
    place = pathlib.Path(os.environ.get("PWD", ""), named) if named else HERE.parent / "built/libwsn.so"
    if not place.is_file():
        raise SystemExit(ABSENT.format(place))
    return place


def line(name: str, data: bytes) -> str:
    """A file as a wheel's list has it."""
    checksum = base64.urlsafe_b64encode(hashlib.sha256(data).digest()).decode().rstrip("=")
    return f"{name},sha256={checksum},{len(data)}\n"


def build_wheel(wheel_directory, config_settings=None, metadata_directory=None):
    """What pip calls: writes the wheel to a folder, and returns its name."""
    module = (HERE / "wsn.py").read_bytes()
    version = re.search(rb'^__version__ = "(.*?)"', module, re.MULTILINE)[1].decode()
    tag = f"py3-none-{re.sub('[-.]', '_', sysconfig.get_platform())}"
    info = f"wsn-{version}.dist-info"
    files = {
        "wsn.py": module,
        "libwsn.so": library().read_bytes(),
        f"{info}/METADATA": METADATA.format(version=version).encode(),
        f"{info}/WHEEL": WHEEL.format(tag=tag).encode(),
    }
    listed = "".join(line(name, data) for name, data in files.items())
    made = f"wsn-{version}-{tag}.whl"
    with zipfile.ZipFile(pathlib.Path(wheel_directory, made), "w", zipfile.ZIP_DEFLATED) as wheel:
        for name, data in {**files, f"{info}/RECORD": f"{listed}{info}/RECORD,,\n".encode()}.items():
            wheel.writestr(name, data)
    return made
