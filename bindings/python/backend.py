"""Builds the wheel of the package by the standard library alone, so that `pip install` needs no registry (PEP 517, PEP 427)."""
import base64
import hashlib
import sysconfig
import zipfile
from pathlib import Path

HERE = Path(__file__).resolve().parent
FILES = ['morph/__init__.py', 'morph/py.typed', 'morph/libmorph.so']
NAME, VERSION = 'morph', '0.1.0'
METADATA = f'Metadata-Version: 2.1\nName: {NAME}\nVersion: {VERSION}\nSummary: Look-ups in projects of finite-state morphology\nRequires-Python: >=3.8\n'


def tag():
    return 'py3-none-' + sysconfig.get_platform().replace('-', '_').replace('.', '_')


def build_wheel(wheel_directory, config_settings=None, metadata_directory=None):
    if not (HERE / 'src' / 'morph' / 'libmorph.so').exists():
        raise SystemExit('bindings/python/src/morph/libmorph.so is missing: run tools/library.sh first (docs/EMBEDDING.md)')
    info = f'{NAME}-{VERSION}.dist-info'
    contents = {name: (HERE / 'src' / name).read_bytes() for name in FILES}
    contents[f'{info}/METADATA'] = METADATA.encode()
    contents[f'{info}/WHEEL'] = f'Wheel-Version: 1.0\nGenerator: morph\nRoot-Is-Purelib: false\nTag: {tag()}\n'.encode()
    record = [f'{name},sha256={base64.urlsafe_b64encode(hashlib.sha256(content).digest()).rstrip(b"=").decode()},{len(content)}' for name, content in contents.items()]
    contents[f'{info}/RECORD'] = '\n'.join([*record, f'{info}/RECORD,,', '']).encode()
    wheel = f'{NAME}-{VERSION}-{tag()}.whl'
    with zipfile.ZipFile(Path(wheel_directory) / wheel, 'w', zipfile.ZIP_DEFLATED) as archive:
        for name, content in contents.items():
            archive.writestr(name, content)
    return wheel
