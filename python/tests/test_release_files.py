"""The files of a release: bytes that depend on nothing but what is packed, and no release that isn't proved."""

from __future__ import annotations

import gzip
import hashlib
import io
import json
import posixpath
import tarfile
import zipfile
from dataclasses import replace
from pathlib import Path

import pytest
from conftest import TOP
from release import archives, contents, debian, javascript, proof, sbom
from release import tree as trees
from release.proof import Binary, Gate, State
from release.tree import File
from toolchain import NotBuilt

from yuzuratchet import __version__

SECONDS = 1_700_000_000
FILES = {"b/run": File(b"#!/bin/sh\n", True), "a": File(b"text\n"), "b/link": File(link="run")}
CLEAN = State("c" * 40, SECONDS, "t" * 40, False)
LINE = "312 passed, 0 failed"
TOOLCHAIN = "rattle-kit-13f logic dac8208d650f15bf"


def test_an_archive_has_one_order_one_time_and_no_user() -> None:
    turned = dict(reversed(FILES.items()))
    packed = archives.tar_gz(FILES, SECONDS)
    assert packed == archives.tar_gz(turned, SECONDS)
    with tarfile.open(fileobj=io.BytesIO(gzip.decompress(packed))) as archive:
        found = {it.name: it for it in archive.getmembers()}
    assert list(found) == ["b", "a", "b/link", "b/run"]
    assert {it.mtime for it in found.values()} == {SECONDS}
    assert {(it.uid, it.gid, it.uname) for it in found.values()} == {(0, 0, "root")}
    assert (found["a"].mode, found["b/run"].mode, found["b/link"].linkname) == (0o644, 0o755, "run")


def test_a_wheel_lists_its_sums_and_keeps_what_is_a_program() -> None:
    files = {"p/run": File(b"abc", True), "p-1.dist-info/WHEEL": File(b"")}
    packed = archives.wheel(files, "p-1.dist-info/RECORD", SECONDS)
    assert packed == archives.wheel(dict(reversed(files.items())), "p-1.dist-info/RECORD", SECONDS)
    with zipfile.ZipFile(io.BytesIO(packed)) as archive:
        record = archive.read("p-1.dist-info/RECORD").decode()
        assert archive.getinfo("p/run").external_attr >> 16 == 0o100755
    # SHA-256 of "abc", as the standard's example has it, in the letters of addresses
    assert "p/run,sha256=ungWv48Bz-pBQUDeXa4iI7ADYaOWF3qctBD_YfIAFa0,3\n" in record
    assert record.endswith("p-1.dist-info/RECORD,,\n")
    assert archives.unpacked(packed)["p/run"] == files["p/run"]


def test_files_on_the_disk(tmp_path: Path) -> None:
    trees.write(FILES, tmp_path)
    assert trees.read(tmp_path) == FILES
    assert trees.folders({"a/b/c": File(), "d": File()}) == ["a", "a/b"]


# ---- the gate


@pytest.fixture
def record(monkeypatch: pytest.MonkeyPatch, tmp_path: Path) -> Path:
    path = tmp_path / "out" / "gate.json"
    monkeypatch.setattr(proof, "RECORD", path)
    monkeypatch.setattr(proof, "toolchain_line", lambda: TOOLCHAIN)
    return path


def test_a_release_of_a_commit_on_which_the_gate_passed(record: Path) -> None:
    gate = proof.record(LINE, CLEAN)
    assert proof.passed(CLEAN) == gate
    # (another commit of the same files is as good)
    assert proof.passed(replace(CLEAN, commit="d" * 40)) == gate


@pytest.mark.parametrize(
    "line", ["311 passed, 1 failed", "0 passed, 0 failed", "", "312 passed, 10 failed"]
)
def test_a_gate_that_did_not_pass(record: Path, line: str) -> None:
    with pytest.raises(NotBuilt, match="the gate didn't pass"):
        proof.record(line, CLEAN)
    assert not record.exists()


def test_no_release_where_the_gate_is_not_known_to_have_passed(
    record: Path, monkeypatch: pytest.MonkeyPatch
) -> None:
    with pytest.raises(NotBuilt, match="isn't there"):
        proof.passed(CLEAN)
    changed = replace(CLEAN, is_changed=True)
    with pytest.raises(NotBuilt, match="has changes"):
        proof.record(LINE, changed)
    proof.record(LINE, CLEAN)
    with pytest.raises(NotBuilt, match="has changes"):
        proof.passed(changed)
    with pytest.raises(NotBuilt, match="the gate passed on cccccccccccc"):
        proof.passed(replace(CLEAN, tree="e" * 40))
    told = json.loads(record.read_text())
    record.write_text(json.dumps({**told, "line": "311 passed, 1 failed"}))
    with pytest.raises(NotBuilt, match="says that the gate didn't pass"):
        proof.passed(CLEAN)
    record.write_text(json.dumps(told))
    monkeypatch.setattr(proof, "toolchain_line", lambda: "another")
    with pytest.raises(NotBuilt, match="and this is another"):
        proof.passed(CLEAN)


# ---- texts


BINARIES = {"tiledraw": Binary("tiledraw", b"abc", "how it is made")}


def test_the_proof_says_what_the_gate_passed() -> None:
    gate = Gate(LINE, "2026-11-28 10:00 UTC", CLEAN.commit, CLEAN.tree, TOOLCHAIN)
    text = proof.text("0.4.0", CLEAN, gate, BINARIES)
    assert f"Gate: {LINE}\nDate: 2026-11-28 10:00 UTC\n" in text and "NOT PROVED" not in text
    assert f"{hashlib.sha256(b'abc').hexdigest()}  tiledraw\n  how it is made\n" in text
    assert "Whatever script of calls on eight deferred contexts" in text


def test_a_build_without_a_proof_says_so_and_claims_nothing() -> None:
    text = proof.text("0.4.0", replace(CLEAN, is_changed=True), None, BINARIES)
    assert "with changes\nGate: not run for this release\n" in text and "NOT PROVED." in text
    assert "passed" not in text.replace("not run for this release", "")


@pytest.mark.parametrize(
    ("text", "name"),
    [
        ("Permission is hereby granted, free of charge, to any", "MIT"),
        ("                 Apache License\n           Version 2.0", "Apache-2.0"),
        ("Unicode License v3 / UNICODE LICENSE V3", "Unicode-3.0"),
        ("All rights reserved.", "NOASSERTION"),
    ],
)
def test_licences(text: str, name: str) -> None:
    assert sbom.licence_of(text) == name


def test_the_list_of_parts() -> None:
    part = sbom.Part("a b", "1", "MIT", "")
    told = json.loads(sbom.text("0.4.0", SECONDS, CLEAN.commit, [part]))
    assert told["creationInfo"]["created"] == "2023-11-14T22:13:20Z"
    assert [it["SPDXID"] for it in told["packages"]] == ["SPDXRef-yuzuratchet", "SPDXRef-a-b"]
    kinds = [it["relationshipType"] for it in told["relationships"]]
    assert kinds == ["DESCRIBES", "STATIC_LINK"]


def test_sums() -> None:
    assert contents.sums({"b": b"", "a": b"abc"}).splitlines() == [
        "ba7816bf8f01cfea414140de5dae2223b00361a396177a9cb410ff61f20015ad  a",
        "e3b0c44298fc1c149afbf4c8996fb92427ae41e4649b934ca495991b7852b855  b",
    ]


# ---- forms


def test_the_javascript_package_names_files_that_it_has() -> None:
    files = javascript.package(__version__, b"module", {})
    manifest = json.loads(files["package/package.json"].data)
    assert manifest["version"] == __version__ and manifest["type"] == "module"
    for it in manifest["exports"].values():
        for path in it.values() if isinstance(it, dict) else [it]:
            assert f"package/{path.removeprefix('./')}" in files
    imported = [
        posixpath.normpath(posixpath.join(posixpath.dirname(name), it.split('"')[1]))
        for name, file in files.items()
        if name.endswith(".js")
        for it in file.data.decode().splitlines()
        if it.startswith(("import ", "} from ")) and '"node:' not in it
    ]
    assert "package/engine/device.js" in imported and {*imported} <= {*files}


def test_the_control_file_of_a_package() -> None:
    package = debian.Package("a", {"x": File(b"1" * 1025)}, "all", "b", "libs", "what", "more")
    assert package.control_file("1.2").splitlines() == [
        "Package: a",
        "Version: 1.2",
        "Architecture: all",
        f"Maintainer: {debian.MAINTAINER}",
        "Installed-Size: 2",
        "Depends: b",
        "Section: libs",
        "Priority: optional",
        "Description: what",
        " more",
    ]


def test_the_archive_has_the_whole_gallery() -> None:
    files = contents.scripts()
    names = (TOP / "crates" / "gallery" / "data" / "index").read_text().split()
    assert all(f"gallery/data/{it}" in files for it in names) and "gallery/stdout" in files
