"""Makes the wheel that `pip install ./library` installs: the package icfp_ants, with libants.so in it. It needs Python alone, and no network."""
import base64
import hashlib
import os
import re
import zipfile

HERE = os.path.dirname(os.path.abspath(__file__))
PACKAGE = "icfp_ants"
TAG = "py3-none-linux_x86_64"
METADATA = "Metadata-Version: 2.1\nName: %(name)s\nVersion: %(version)s\nSummary: %(description)s\nRequires-Python: %(requires-python)s\n"
WHEEL = "Wheel-Version: 1.0\nGenerator: wheel_of_ants\nRoot-Is-Purelib: false\nTag: %s\n" % TAG


def content(name):
    path = os.path.join(HERE, name)
    if not os.path.exists(path):
        raise SystemExit("no %s: `make library` makes it" % path)
    with open(path, "rb") as file:
        return file.read()


def row(name, data):
    """The line of RECORD for a file."""
    digest = base64.urlsafe_b64encode(hashlib.sha256(data).digest()).rstrip(b"=").decode()
    return "%s,sha256=%s,%d\n" % (name, digest, len(data))


def build_wheel(wheel_directory, config_settings=None, metadata_directory=None):
    """Writes the wheel into a folder, and gives its name: what pip calls."""
    project = dict(re.findall(r'^([a-z-]+) = "(.*)"$', content("pyproject.toml").decode().partition("[project]")[2], re.M))
    project["version"] = project["version"].replace("-dev", ".dev0")  # as Python spells it
    stem = "%s-%s" % (project["name"].replace("-", "_"), project["version"])
    sources = sorted(it for it in os.listdir(os.path.join(HERE, PACKAGE)) if it.endswith(".py") or it == "py.typed")
    files = {PACKAGE + "/" + it: content(os.path.join(PACKAGE, it)) for it in sources}
    files[PACKAGE + "/libants.so"] = content("libants.so")
    files[stem + ".dist-info/METADATA"] = (METADATA % project).encode()
    files[stem + ".dist-info/WHEEL"] = WHEEL.encode()
    record = stem + ".dist-info/RECORD"
    files[record] = ("".join(row(*it) for it in files.items()) + record + ",,\n").encode()
    name = "%s-%s.whl" % (stem, TAG)
    with zipfile.ZipFile(os.path.join(wheel_directory, name), "w", zipfile.ZIP_DEFLATED) as wheel:
        for path, data in files.items():
            wheel.writestr(zipfile.ZipInfo(path), data)
    return name
