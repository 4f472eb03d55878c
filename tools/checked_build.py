"""The device compiled with checks and without a proof, by `rt try`, which takes a minute.

It draws what the proved one draws, and stops where a sum would wrap, an index would be out of range or memory would be
used that isn't one's own. It is slow.
"""

from __future__ import annotations

import hashlib
import pathlib
import re
import shutil
import subprocess
import tempfile
from collections.abc import Callable, Iterable, Mapping, Sequence

import package_path
import toolchain
from toolchain import NotBuilt
from yuzuratchet.program import CHECKED

TOP = package_path.TOP
CRATES = TOP / "crates"
CRATE = CRATES / "tiledraw"
SCRIPT = CRATES / "gallery" / "data" / "fan.txt"
PROGRAM = TOP / CHECKED
SUM = PROGRAM.with_suffix(".sum")
# the last line of `rt try` where the program that it built has ended well
ENDED = "run=ended status=0 "
# `rt try` takes programs alone, and compiles what they reach: so a library is tried as one that calls all of it
LIBRARY, DEVICE_LIBRARY = "yuzuratchet", "device_calls"
EXPORTED = ("version", "examine", "draw_fitting", "sizes_fitting", "history_fitting")
CALLS_ALL = """
fn main(rt: HostRuntime) {
    let script = [1u8; 1];
    let mut lines = [0u8; 1];
    let mut image = [0u8; 1];
    let areas = [Area { at: 1, size: 1, align: 0 }];
    let mut report = told(inmemory::draw(rt.alloc(), &script, &mut lines, &mut image));
    let _ = yuzuratchet_version();
    let _ = yuzuratchet_examine(&areas);
    yuzuratchet_draw_fitting(rt.alloc(), &script, &mut lines, &mut image, &mut report);
    yuzuratchet_sizes_fitting(rt.alloc(), &script, &mut report);
    let mut events = [EventTold {
        item: 0, line: 0, command: 0, triangle: 0, depth_before: 0, depth_after: 0, color_before: [0; 4],
        color_after: [0; 4], stencil_before: 0, stencil_after: 0, stencil_passed: 0, depth_passed: 0, passed: 0,
    }; 1];
    let mut told = history_told(inmemory::history(rt.alloc(), &script, 0, 0, &mut events));
    yuzuratchet_history_fitting(rt.alloc(), &script, 0, 0, &mut events, &mut told);
}
"""
# a name of a function in the text
FUNCTION = re.compile(r"\b(yz_handle_\w+)\(")
RECORDS = """
    let _ = MODULE::NAME_set_vertices(alloc, &mut handle, &vertices);
    let _ = MODULE::NAME_set_indices(alloc, &mut handle, &indices);
    let _ = MODULE::NAME_set_topology(alloc, &mut handle, 4);
    let _ = MODULE::NAME_set_raster(alloc, &mut handle, &raster);
    let _ = MODULE::NAME_set_scissor(alloc, &mut handle, 0, 0, 1, 1);
    let _ = MODULE::NAME_set_depth_stencil(alloc, &mut handle, &depth_stencil, 0);
    let _ = MODULE::NAME_set_blend(alloc, &mut handle, &blend);
    let _ = MODULE::NAME_set_predication(alloc, &mut handle, 0, true);
    let _ = MODULE::NAME_clear_predication(alloc, &mut handle);
    let _ = MODULE::NAME_begin(alloc, &mut handle, 0);
    let _ = MODULE::NAME_draw(alloc, &mut handle, 1, 0);
    let _ = MODULE::NAME_draw_indexed(alloc, &mut handle, 1, 0, 0);
    let _ = MODULE::NAME_end(alloc, &mut handle, 0);
    let _ = MODULE::NAME_clear_color(alloc, &mut handle, 1, 2, 3, 4);
    let _ = MODULE::NAME_clear_depth_stencil(alloc, &mut handle, 1, 2);
"""


def records(kind: str) -> str:
    """All recording calls by one kind of handle."""
    text = RECORDS.replace("MODULE", f"on_{kind}").replace("NAME", f"yz_handle_{kind}")
    return text.replace("&mut handle", f"&mut {kind}")


CALLS_BY_HANDLE = f"""
fn main(rt: HostRuntime) {{
    let alloc = rt.alloc();
    let face = FaceDescription {{ fail: 1, depth_fail: 1, pass: 1, compare: 8 }};
    let depth_stencil = DepthStencilDescription {{
        depth: 1, write: 1, compare: 2, stencil: 0, front: face, back: face, read_mask: 255, write_mask: 255,
    }};
    let raster = RasterDescription {{ cull: 1, front_ccw: 0, scissor: 0, depth_bias: 0 }};
    let blend = BlendDescription {{ logic: 0, op: 0, mask: 15 }};
    let vertices = [gfxspec::Vertex {{ x: 0, y: 0, z: 0, rgba: [0, 0, 0, 0] }}; 1];
    let indices = [0u16; 1];
    let mut device = handles::DeviceHandle::none();
    let mut context = handles::ContextHandle::none();
    let mut list = handles::ListHandle::none();
    let mut pixel = PixelTold {{ depth: 0, red: 0, green: 0, blue: 0, alpha: 0, stencil: 0 }};
    let mut count = 0u64;
    let mut cells = [Cell {{ first: 0, second: 0, third: 0, fourth: 0 }}; 1];
    let mut depths = [0u32; 1];
    let mut stencils = [0u8; 1];
    let mut player = handles::PlayerHandle::none();
    let mut told = LineTold {{ taken: 0, answer: 0 }};
    let mut answer = [0u8; 176];
    let _ = devices::yz_handle_device_create(alloc, &mut device, 1, 1);
    let _ = contexts::yz_handle_context_create(alloc, &mut context);
    {records("device")}
    {records("context")}
    let _ = contexts::yz_handle_context_finish(alloc, &mut context, true, &mut list);
    let _ = devices::yz_handle_device_execute(alloc, &mut device, &mut list, true);
    let _ = devices::yz_handle_device_flush(alloc, &mut device);
    let _ = devices::yz_handle_device_pixel(alloc, &mut device, 0, 0, &mut pixel);
    let _ = devices::yz_handle_device_get_data(alloc, &mut device, 0, &mut count);
    let mut events = [EventTold {{
        item: 0, line: 0, command: 0, triangle: 0, depth_before: 0, depth_after: 0, color_before: [0; 4],
        color_after: [0; 4], stencil_before: 0, stencil_after: 0, stencil_passed: 0, depth_passed: 0, passed: 0,
    }}; 1];
    let _ = telling::yz_handle_device_history(alloc, &mut device, 0, 0, &mut events, &mut count);
    let _ = rows::yz_handle_device_read_colors(alloc, &mut device, 0, 0, true, &mut cells);
    let _ = rows::yz_handle_device_read_depths(alloc, &mut device, 0, 0, &mut depths);
    let _ = rows::yz_handle_device_read_stencils(alloc, &mut device, 0, 0, &mut stencils);
    let _ = playing::yz_handle_player_create(alloc, &mut player);
    let _ = playing::yz_handle_play_line(alloc, &mut player, &mut device, b"i pixel 0 0\\n", &mut told, &mut answer);
    playing::yz_handle_player_destroy(alloc, &mut player);
    contexts::yz_handle_list_destroy(alloc, &mut list);
    contexts::yz_handle_context_destroy(alloc, &mut context);
    devices::yz_handle_device_destroy(alloc, &mut device);
}}
"""

Runner = Callable[[Sequence[str], pathlib.Path], str]
"""Runs a command in a folder, and gives what it said."""


def run_quietly(words: Sequence[str], folder: pathlib.Path) -> str:
    """Runs a command in a folder."""
    pipes = subprocess.PIPE, subprocess.STDOUT
    ran = subprocess.run(words, cwd=folder, stdin=subprocess.DEVNULL, stdout=pipes[0], stderr=pipes[1], check=False)
    return ran.stdout.decode(errors="replace")


def try_program(crate: pathlib.Path, words: Iterable[object], command: Sequence[str], run: Runner) -> None:
    """Runs `rt try`, which compiles the crate's program and runs it with some words."""
    said = run([*command, "--", *map(str, words)], crate)
    if ENDED not in said:
        raise NotBuilt(f"`rt try`, in {crate}, built no program that ends well:\n{said[-2000:]}")


def sources_sum() -> str:
    """A sum of all that the device is compiled from: the sources, and the toolchain."""
    found = hashlib.sha256((toolchain.kit() / "KIT-ID").read_bytes())
    for path in [TOP / "crates.txt", *sorted(CRATES.glob("*/src/**/*.rt"))]:
        found.update(f"{path.relative_to(TOP)}\n{path.stat().st_size}\n".encode())
        found.update(path.read_bytes())
    return found.hexdigest()


# ---- the program, as `rt try` links it


def is_built() -> bool:
    """Whether the checked program is there, and is that of the sources as they are now."""
    if not (PROGRAM.is_file() and SUM.is_file()):
        return False
    return not toolchain.is_there() or SUM.read_text(encoding="ascii") == sources_sum()


def build_program(run: Runner = run_quietly) -> pathlib.Path:
    """Builds the checked program to where the package finds it."""
    before = sources_sum()
    with tempfile.TemporaryDirectory() as name:
        room = pathlib.Path(name)
        command = toolchain.watched(room, {"ld.lld": toolchain.KEEPS_LINKED}, ["try"])
        try_program(CRATE, [SCRIPT, room / "image.tga"], command, run)
        PROGRAM.parent.mkdir(exist_ok=True)
        shutil.copy(toolchain.kept(room, "ld.lld"), PROGRAM)
    PROGRAM.chmod(0o755)
    SUM.write_text(before, encoding="ascii")
    return PROGRAM


# ---- program and library as LLVM's text, without the guards around memory, which want a C library of their own


def without_guards(text: str) -> str:
    """The text without what asks for the guards; the checks of sums, indices and the like stay."""
    return text.replace(" sanitize_address ", " ")


def for_processor(text: str, name: str) -> str:
    """The text for a processor, as x86-64-v3."""
    return re.sub(r'"target-cpu"="[^"]*"', f'"target-cpu"="{name}"', text)


def exporting(text: str, library: str = LIBRARY, names: Iterable[str] | None = None) -> str:
    """The text of a library's program as that of the library: its functions have the names that C calls."""
    for name in names or [f"{LIBRARY}_{it}" for it in EXPORTED]:
        inside = rf'@"{library}::(?:\w+::)?{name}"'
        text, count = re.subn(rf"^define internal (.*?){inside}\(", rf"define \1@{name}(", text, flags=re.M)
        if count != 1:
            raise NotBuilt(f"{name} isn't in what `rt try` compiles of the library")
        text = re.sub(rf"{inside}\(", f"@{name}(", text)
    return text.replace("define i32 @main()", "define internal i32 @main()")


def tried_text(crate: pathlib.Path, words: Mapping[str, object], room: pathlib.Path, run: Runner) -> str:
    """A crate's program as LLVM's text, as `rt try` hands it to its clang."""
    command = toolchain.watched(room, {"clang": toolchain.KEEPS_PROGRAM}, ["try"])
    try_program(crate, words.values(), command, run)
    text = toolchain.text_of(toolchain.kept(room, "clang"), room / "tried.ll")
    return without_guards(text.read_text(encoding="utf-8"))


def program_text(run: Runner = run_quietly) -> str:
    """The program as LLVM's text."""
    with tempfile.TemporaryDirectory() as room:
        words = {"script": SCRIPT, "image": f"{room}/image.tga"}
        return tried_text(CRATE, words, pathlib.Path(room), run)


def library_text(run: Runner = run_quietly) -> str:
    """The crate of the C library as LLVM's text."""
    return exporting(tried_library(LIBRARY, CALLS_ALL, run))


def device_text(run: Runner = run_quietly) -> str:
    """The crate of the C library's calls by handle as LLVM's text."""
    text = tried_library(DEVICE_LIBRARY, CALLS_BY_HANDLE, run)
    return exporting(text, DEVICE_LIBRARY, sorted(set(FUNCTION.findall(CALLS_BY_HANDLE))))


def tried_library(library: str, calls: str, run: Runner) -> str:
    """The crate of a library as LLVM's text, tried in a copy where it is a program that calls all of it."""
    with tempfile.TemporaryDirectory() as room:
        copy = pathlib.Path(room, "copy")
        shutil.copytree(CRATES, copy / "crates", ignore=shutil.ignore_patterns("out"))
        lists = (TOP / "crates.txt").read_text(encoding="ascii")
        (copy / "crates.txt").write_text(lists.replace(f"{library} staticlib:", f"{library}:"), encoding="ascii")
        crate = copy / "crates" / library
        root = (crate / "src" / "lib.rt").rename(crate / "src" / "main.rt")
        root.write_text(root.read_text(encoding="utf-8") + calls, encoding="utf-8")
        return tried_text(crate, {}, pathlib.Path(room), run)
