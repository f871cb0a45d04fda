"""Makes the package's wheel, for pip, with nothing but Python (PEP 517): the library in it is for Linux on x86-64."""
import base64
import hashlib
import pathlib
import zipfile

HERE = pathlib.Path(__file__).parent
NAME, VERSION, TAG = "kifzaro", "0.1", "py3-none-linux_x86_64"
INFO = f"{NAME}-{VERSION}.dist-info"
METADATA = f"""Metadata-Version: 2.1
Name: {NAME}
Version: {VERSION}
Summary: Both ends of MTProto 2.0 sessions, without sockets and clocks
Requires-Python: >=3.9
"""
WHEEL = f"Wheel-Version: 1.0\nGenerator: packing\nRoot-Is-Purelib: false\nTag: {TAG}\n"


def get_requires_for_build_wheel(config_settings=None):
    """Nothing."""
    return []


def build_wheel(wheel_directory, config_settings=None, metadata_directory=None):
    """Writes the wheel into the folder, and tells its name."""
    if not (HERE / NAME / "libkifzaro.so").exists():
        raise SystemExit("libkifzaro.so isn't there: run bindings/build first")
    files = {f"{NAME}/{it.name}": it.read_bytes() for it in sorted((HERE / NAME).iterdir()) if it.suffix in (".py", ".so", ".typed")}
    files |= {f"{INFO}/METADATA": METADATA.encode(), f"{INFO}/WHEEL": WHEEL.encode()}
    sums = {name: base64.urlsafe_b64encode(hashlib.sha256(data).digest()).rstrip(b"=").decode() for name, data in files.items()}
    record = [*(f"{name},sha256={sums[name]},{len(data)}" for name, data in files.items()), f"{INFO}/RECORD,,"]
    wheel = f"{NAME}-{VERSION}-{TAG}.whl"
    with zipfile.ZipFile(pathlib.Path(wheel_directory) / wheel, "w", zipfile.ZIP_DEFLATED) as packed:
        for name, data in [*files.items(), (f"{INFO}/RECORD", "\n".join(record) + "\n")]:
            packed.writestr(name, data)
    return wheel
