"""Archives whose bytes depend on the files alone: on no time but one that is given, no user, no order of a folder."""

from __future__ import annotations

import base64
import gzip
import hashlib
import io
import os
import pathlib
import tarfile
import tempfile
import time
import zipfile

from release import tree as trees
from release.tree import File, Tree
from toolchain import run

LINK_MODE, FILE_TYPE = 0o777, 0o100000


def tar_gz(tree: Tree, seconds: int) -> bytes:
    """A packed tar archive, all of whose files are of one time."""
    packed = io.BytesIO()
    with tarfile.open(fileobj=packed, mode="w", format=tarfile.USTAR_FORMAT) as archive:
        for folder in trees.folders(tree):
            archive.addfile(_about(f"{folder}/", tarfile.DIRTYPE, 0o755, seconds))
        for path, it in sorted(tree.items()):
            about = _about(path, tarfile.SYMTYPE if it.link else tarfile.REGTYPE, it.mode, seconds)
            if it.link:
                about.linkname, about.mode = it.link, LINK_MODE
            about.size = len(it.data)
            archive.addfile(about, io.BytesIO(it.data))
    return gzip.compress(packed.getvalue(), 9, mtime=0)


def _about(path: str, kind: bytes, mode: int, seconds: int) -> tarfile.TarInfo:
    about = tarfile.TarInfo(path)
    about.type, about.mode, about.mtime = kind, mode, seconds
    about.uname = about.gname = "root"
    return about


def unpacked(archive: bytes) -> dict[str, File]:
    """The files of a zip archive, as a wheel is one."""
    with zipfile.ZipFile(io.BytesIO(archive)) as found:
        infos = [it for it in found.infolist() if not it.is_dir()]
        return {it.filename: File(found.read(it), bool(it.external_attr >> 16 & 0o100)) for it in infos}


def wheel(tree: Tree, record: str, seconds: int) -> bytes:
    """A wheel of files, with the list of their sums at the path `record`."""
    rows = [f"{path},sha256={_wheel_sum(it.data)},{len(it.data)}\n" for path, it in sorted(tree.items())]
    whole = {**tree, record: trees.text("".join([*rows, f"{record},,\n"]))}
    packed = io.BytesIO()
    with zipfile.ZipFile(packed, "w", zipfile.ZIP_DEFLATED, compresslevel=9) as archive:
        for path, it in sorted(whole.items(), key=lambda pair: (".dist-info/" in pair[0], pair[0])):
            about = zipfile.ZipInfo(path, time.gmtime(seconds)[:6])
            about.external_attr = (FILE_TYPE | it.mode) << 16
            about.compress_type, about.create_system = zipfile.ZIP_DEFLATED, 3
            archive.writestr(about, it.data)
    return packed.getvalue()


def _wheel_sum(data: bytes) -> str:
    return base64.urlsafe_b64encode(hashlib.sha256(data).digest()).decode("ascii").rstrip("=")


def deb(tree: Tree, control: Tree, seconds: int) -> bytes:
    """A Debian package of files, with what says which it is."""
    sums = "".join(
        f"{hashlib.md5(it.data, usedforsecurity=False).hexdigest()}  {path}\n"
        for path, it in sorted(tree.items())
        if it.link is None
    )
    with tempfile.TemporaryDirectory() as room:
        folder = pathlib.Path(room, "package")
        trees.write({**tree, **trees.below("DEBIAN", {**control, "md5sums": trees.text(sums)})}, folder)
        command = ["dpkg-deb", "--root-owner-group", "-Zxz", "--build", folder, f"{room}/package.deb"]
        run(command, env={**os.environ, "SOURCE_DATE_EPOCH": str(seconds)})
        return pathlib.Path(room, "package.deb").read_bytes()
