"""Packs the client for `pip install ./clients/python`, with nothing to fetch. Where `make -C clients/lib` made the library, that comes along."""
import base64
import hashlib
import pathlib
import platform
import zipfile

HERE = pathlib.Path(__file__).resolve().parent
LIBRARY = HERE.parent / "lib/build/libstable_heap.so"
INFO = "stable_heap-1.dist-info"
METADATA = "Metadata-Version: 2.1\nName: stable_heap\nVersion: 1\nRequires-Python: >=3.8\n"


def build_wheel(wheel_directory, config_settings=None, metadata_directory=None):
    tag = f"py3-none-linux_{platform.machine()}" if LIBRARY.exists() else "py3-none-any"
    wheel = f"Wheel-Version: 1.0\nGenerator: stable_heap\nRoot-Is-Purelib: {str(not LIBRARY.exists()).lower()}\nTag: {tag}\n"
    modules = {str(path.relative_to(HERE)): path.read_bytes() for path in sorted(HERE.glob("stable_heap/**/*.py"))}
    files = {**modules, f"{INFO}/METADATA": METADATA.encode(), f"{INFO}/WHEEL": wheel.encode()}
    if LIBRARY.exists():
        files["stable_heap/libstable_heap.so"] = LIBRARY.read_bytes()
    record = f"{INFO}/RECORD,,\n"
    name = f"stable_heap-1-{tag}.whl"
    with zipfile.ZipFile(pathlib.Path(wheel_directory) / name, "w", zipfile.ZIP_DEFLATED) as made:
        for path, data in files.items():
            digest = base64.urlsafe_b64encode(hashlib.sha256(data).digest()).rstrip(b"=").decode()
            record += f"{path},sha256={digest},{len(data)}\n"
            made.writestr(path, data)
        made.writestr(f"{INFO}/RECORD", record)
    return name
