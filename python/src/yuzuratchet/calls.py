"""The device by its calls, in this process: a target that stays, with contexts that draw on it.

A :class:`Device` has the contexts of a :class:`~yuzuratchet.scene.Scene`, with the same methods, so
that what draws on one draws on the other. Here a question gives its answer, a refused call raises
:class:`~yuzuratchet.errors.CallRefused` and changes nothing, and lists are executed again:

    with Device(64, 64) as device:
        device.immediate.clear_color("#181828")
        draw_triangles(device.immediate, rectangle(8, 8, 56, 40, colour="#ff8000"))
        device.save("frame.png")

It wants the library ``libyuzuratchet.so`` from 0.4 on (:mod:`yuzuratchet.library`), and numpy. Each
object may be used on any thread. Threads that use the same one wait for each other, and other
threads of Python run while a call does.
"""

from __future__ import annotations

import ctypes
import threading
import weakref
from ctypes import (
    POINTER,
    byref,
    c_char,
    c_int,
    c_int32,
    c_size_t,
    c_uint8,
    c_uint32,
    c_uint64,
    c_void_p,
)
from contextlib import contextmanager
from functools import lru_cache
from pathlib import Path
from types import TracebackType
from typing import Any, Callable, Final, Iterable, Iterator

import numpy as np
import numpy.typing as npt

from .errors import ArgumentError, CallRefused, LibraryMissing, ProgramFailed, WrongType
from .history import EVENT, FEW, Event, events_in
from .images import Picture, Pixels, save
from .library import HOW_TO_BUILD, find_library, load_library
from .line import Line, Row, whole_numbers
from .messages import FAULTS, message_of
from .planes import Planes
from .results import PixelAnswer, QueryAnswer, parse_answer
from .scene import CommandList, Context, Scene
from .vertices import Vertex, Vertices, can_be_spelled, vertex_line
from .words import DEFERRED, IMMEDIATE, TARGET, WORDS

RGBA, DEPTH, STENCIL = 0, 2, 3
OUT_OF_MEMORY: Final = 1
# a vertex as C has it
VERTEX: Final = np.dtype([("place", "<i4", 2), ("depth", "<u4"), ("colour", "u1", 4)])


class _DeviceDesc(ctypes.Structure):
    _fields_ = (("struct_size", c_size_t), ("width", c_uint32), ("height", c_uint32))


class _Raster(ctypes.Structure):
    _fields_ = (
        ("struct_size", c_size_t),
        ("cull", c_uint32),
        ("front_counter_clockwise", c_uint32),
        ("scissor", c_uint32),
        ("depth_bias", c_int32),
    )


class _DepthStencil(ctypes.Structure):
    _fields_ = (
        ("struct_size", c_size_t),
        ("tests", c_uint32 * 4),
        ("faces", c_uint32 * 8),
        ("masks", c_uint8 * 2),
    )


class _Blend(ctypes.Structure):
    _fields_ = (
        ("struct_size", c_size_t),
        ("logic", c_uint32),
        ("op", c_uint32),
        ("channels", c_uint32),
    )


class _Rect(ctypes.Structure):
    _fields_ = tuple((name, c_uint32) for name in ("left", "top", "right", "bottom"))


class _Pixel(ctypes.Structure):
    _fields_ = (("depth", c_uint32), ("colour", c_uint8 * 4), ("stencil", c_uint8))


class _Played(ctypes.Structure):
    _fields_ = (
        ("size", c_size_t),
        ("lines", c_size_t),
        ("answer_size", c_size_t),
        ("answer", c_char * 176),
    )


_U32: Final = [c_uint32]
# what the calls take behind their object
_RECORDING: Final[dict[str, list[Any]]] = {
    "set_vertices": [c_void_p, c_size_t],
    "set_indices": [c_void_p, c_size_t],
    "set_topology": _U32,
    "set_raster": [POINTER(_Raster)],
    "set_scissor": [POINTER(_Rect)],
    "set_depth_stencil": [POINTER(_DepthStencil), c_uint8],
    "set_blend": [POINTER(_Blend)],
    "set_predication": [c_uint32, c_int],
    "clear_predication": [],
    "draw": 2 * _U32,
    "draw_indexed": [c_uint32, c_uint32, c_int32],
    "clear_color": [c_uint8] * 4,
    "clear_depth_stencil": [c_uint32, c_uint8],
    "begin": _U32,
    "end": _U32,
}
_OTHERS: Final[dict[str, list[Any]]] = {
    "device_flush": [],
    "device_execute": [c_void_p, c_int],
    "device_get_data": [c_uint32, POINTER(c_uint64)],
    "device_pixel": [c_uint32, c_uint32, POINTER(_Pixel)],
    "device_history": [c_uint32, c_uint32, c_void_p, c_size_t, POINTER(c_uint64)],
    "device_read": [c_uint32, POINTER(_Rect), c_void_p, c_size_t, c_size_t],
    "context_finish": [c_int, POINTER(c_void_p)],
}


@lru_cache(maxsize=8)
def _calls(path: Path | str) -> ctypes.CDLL:
    """The library at a path, with the calls of yuzuratchet_device.h declared."""
    loaded = load_library(path)
    try:
        for kind in ("device", "context"):
            for name, types in _RECORDING.items():
                getattr(loaded, f"yz_{kind}_{name}").argtypes = [c_void_p, *types]
        for name, types in _OTHERS.items():
            getattr(loaded, f"yz_{name}").argtypes = [c_void_p, *types]
        for kind in ("device", "context", "list"):
            destroy = getattr(loaded, f"yz_{kind}_destroy")
            destroy.argtypes, destroy.restype = [c_void_p], None
        loaded.yz_device_create.argtypes = [POINTER(_DeviceDesc), POINTER(c_void_p)]
        loaded.yz_context_create.argtypes = [POINTER(c_void_p)]
        setattr(loaded, "yz_device_play", loaded.yz_play)
        loaded.yz_play.argtypes = [c_void_p, c_void_p, c_size_t, POINTER(_Played)]
    except AttributeError as error:
        raise LibraryMissing(
            f"{path} is older than the calls of a device: {error}\n{HOW_TO_BUILD}"
        ) from error
    return loaded


class _Object:
    """An object of the library, which is destroyed when nobody has it any more."""

    def __init__(self, calls: ctypes.CDLL, kind: str, create: Callable[[Any], int]) -> None:
        made = c_void_p()
        _look_at(create(byref(made)), kind)
        self.calls, self.kind, self.at = calls, kind, made
        self.is_used = False
        self.lock = threading.Lock()
        self.close = weakref.finalize(self, getattr(calls, f"yz_{kind}_destroy"), made)

    def answer(self, name: str, *arguments: Any) -> int:
        """The answer of ``yz_KIND_NAME``."""
        with self.lock:
            if not self.close.alive:
                raise ProgramFailed(f"the {self.kind} is closed")
            self.is_used = True
            result: int = getattr(self.calls, f"yz_{self.kind}_{name}")(self.at, *arguments)
            return result

    def call(self, name: str, *arguments: Any) -> None:
        """Calls ``yz_KIND_NAME``; raises where it is refused."""
        result = self.answer(name, *arguments)
        if result:
            _look_at(result, name)


def _look_at(result: int, name: str) -> None:
    """Raises where a call was refused."""
    if result == OUT_OF_MEMORY:
        raise MemoryError(name)
    if result > max(_REFUSALS) and result not in FAULTS:
        raise ProgramFailed(f"the library refuses {name} with {result}")
    if result:
        raise CallRefused(result, name, message_of(result).when)


_REFUSALS: Final = range(1, 32)
_EVENTS_TOO_SMALL: Final = 35


class LiveList:
    """A list that a deferred context finished. It may be executed again, by any device."""

    def __init__(self, held: _Object, recorded: CommandList | None = None) -> None:
        self._held = held
        self._recorded = recorded

    def __repr__(self) -> str:
        return f"<LiveList at {self._held.at.value:#x}>"


class _Recording:
    """The scene of a device's accepted calls. Who makes one has the lock until it stands there."""

    def __init__(self, scene: Scene) -> None:
        self.scene = scene
        self.lock = threading.RLock()


class LiveContext(Context):
    """The calls that both kinds of context have, of a device that stays."""

    def __init__(self, held: _Object, actor: str) -> None:
        self.actor = actor
        self._held = held
        self._recording: _Recording | None = None

    @contextmanager
    def _recorded(self, word: str, *arguments: int) -> Iterator[None]:
        """Adds a line to the scene, if there is one, behind a call that was accepted."""
        if self._recording is None:
            yield
            return
        with self._recording.lock:
            yield
            self._recording.scene.add(self.actor, word, *arguments)

    def __repr__(self) -> str:
        return f"<{type(self).__name__} {self.actor}>"

    def ia_set_vertices(self, vertices: Iterable[Vertex]) -> None:
        """Sets the vertices, at most 65,536, each ``(x, y, depth, colour)``."""
        if isinstance(vertices, Vertices) and can_be_spelled(vertices.numbers):
            self._set_vertices(vertices.numbers)
        else:
            self._set_vertices(_rows(vertex_line(self.actor, vertices).arguments))

    def _set_vertices(self, rows: npt.NDArray[np.int64]) -> None:
        packed = np.empty(len(rows), dtype=VERTEX)
        packed["place"], packed["depth"], packed["colour"] = rows[:, :2], rows[:, 2], rows[:, 3:]
        if self._recording is None:
            self._held.call("set_vertices", _address(packed), len(packed))
            return
        with self._recorded("vb", *rows.ravel().tolist()):
            self._held.call("set_vertices", _address(packed), len(packed))

    def _set_indices(self, numbers: Row) -> None:
        packed = np.array(numbers, dtype=np.uint16)
        with self._recorded("ib", *numbers):
            self._held.call("set_indices", _address(packed), len(packed))

    def _add(self, word: str, *arguments: int) -> None:
        if not _is_plain(word, arguments):
            arguments = Line(self.actor, word, arguments).arguments
        self._take(word, arguments)

    def take(self, line: Line) -> None:
        """Makes the call of a line that records, whoever its actor is."""
        self._take(line.word, line.arguments)

    def _take(self, word: str, n: Row) -> None:
        if word == "vb":
            self._set_vertices(_rows(n))
        elif word == "ib":
            self._set_indices(n)
        elif self._recording is None:
            self._make(word, n)
        else:
            with self._recorded(word, *n):
                self._make(word, n)

    def _make(self, word: str, n: Row) -> None:
        if word == "predicate" and not n:
            self._held.call("clear_predication")
        else:
            name, of = _WORDS[word]
            self._held.call(name, *of(n))


def _is_plain(word: str, values: tuple[int, ...]) -> bool:
    """Whether a script has these values behind the word, as is seen at once of most."""
    ranges = _RANGES[word]
    if len(values) != len(ranges):
        return False
    for value, (least, most) in zip(values, ranges):
        if not isinstance(value, int) or value is False or value is True:
            return False
        if not least <= value <= most:
            return False
    return True


# the ranges of each word's numbers; where 0 is left out, those above it
_RANGES: Final = {
    name: tuple((1 if it.but_zero else it.least, it.most) for it in word.arguments)
    for name, word in WORDS.items()
}


def _address(array: npt.NDArray[Any]) -> int:
    """Where an array's numbers stand (``array.ctypes.data`` makes an object for it)."""
    address: int = array.__array_interface__["data"][0]
    return address


def _rows(numbers: Row) -> npt.NDArray[np.int64]:
    return np.array(numbers, dtype=np.int64).reshape(-1, 7)


def _raster(n: Row) -> tuple[Any, ...]:
    return (byref(_Raster(ctypes.sizeof(_Raster), *n)),)


def _depth_stencil(n: Row) -> tuple[Any, ...]:
    size = ctypes.sizeof(_DepthStencil)
    tests, faces = (c_uint32 * 4)(*n[:4]), (c_uint32 * 8)(*n[6:14])
    return byref(_DepthStencil(size, tests, faces, (c_uint8 * 2)(*n[4:6]))), n[14]


def _blend(n: Row) -> tuple[Any, ...]:
    return (byref(_Blend(ctypes.sizeof(_Blend), *n)),)


_WORDS: Final[dict[str, tuple[str, Callable[[Row], tuple[Any, ...]]]]] = {
    "topology": ("set_topology", tuple),
    "raster": ("set_raster", _raster),
    "scissor": ("set_scissor", lambda n: (byref(_Rect(*n)),)),
    "ds": ("set_depth_stencil", _depth_stencil),
    "blend": ("set_blend", _blend),
    "predicate": ("set_predication", tuple),
    "draw": ("draw", tuple),
    "drawi": ("draw_indexed", tuple),
    "clearc": ("clear_color", tuple),
    "cleards": ("clear_depth_stencil", tuple),
    "begin": ("begin", tuple),
    "end": ("end", tuple),
}


class LiveDeferredContext(LiveContext):
    """A context that records lists, which the immediate context executes."""

    def finish_command_list(self, restore: bool = False) -> LiveList:
        """Ends the list and gives it; with ``restore`` the next one begins with the state kept."""

        def finish(out: Any) -> int:
            with self._held.lock:
                answer: int = calls.yz_context_finish(self._held.at, int(bool(restore)), out)
                return answer

        calls, recording = self._held.calls, self._recording
        self._held.is_used = True
        if recording is None:
            return LiveList(_Object(calls, "list", finish))
        with recording.lock:
            finished = _Object(calls, "list", finish)
            context = recording.scene.deferred[DEFERRED.index(self.actor)]
            return LiveList(finished, context.finish_command_list(restore))


class LiveImmediateContext(LiveContext):
    """The context that draws, executes lists and answers."""

    def flush(self) -> None:
        """Runs what is pending; it makes room for more commands, and changes nothing else."""
        with self._recorded("flush"):
            self._held.call("flush")

    def execute(self, command_list: LiveList, restore: bool = False) -> None:
        """Executes a list; with ``restore`` the context's state stays, else the default is set."""
        if not isinstance(command_list, LiveList):
            raise WrongType("command_list", f"a LiveList is wanted, and not {command_list!r}")
        held = command_list._held
        with held.lock, self._recorded_execution(command_list, restore):
            self._held.call("execute", held.at, int(bool(restore)))

    @contextmanager
    def _recorded_execution(self, command_list: LiveList, restore: bool) -> Iterator[None]:
        if self._recording is None:
            yield
            return
        recorded, scene = command_list._recorded, self._recording.scene
        if recorded is None or recorded.scene is not scene:
            raise ProgramFailed("the list was finished by a context whose calls aren't recorded")
        with self._recording.lock:
            yield
            scene.immediate.execute(recorded, restore)

    def get_data(self, query: int) -> int:
        """How many pixels the last begin and end of a query counted."""
        count = c_uint64()
        (query,) = Line(self.actor, "query", (query,)).arguments
        with self._recorded("query", query):
            self._held.call("get_data", query, byref(count))
        return count.value

    def pixel(self, x: int, y: int) -> PixelAnswer:
        """What a pixel holds."""
        x, y = Line(self.actor, "pixel", (x, y)).arguments
        told = _Pixel()
        with self._recorded("pixel", x, y):
            self._held.call("pixel", x, y, byref(told))
        red, green, blue, alpha = told.colour
        return PixelAnswer(x, y, (red, green, blue, alpha), told.depth, told.stencil)

    def history(self, x: int, y: int) -> list[Event]:
        """What each clear and triangle that is pending does to a pixel that it touches.

        None of them runs for it; ``flush``, ``execute`` and what asks leave none pending. ``item``
        counts what is pending and ``command`` the calls, a kept state being the first, from 0; no
        event has a line.
        """
        x, y = Line(self.actor, "pixel", (x, y)).arguments
        return [*events_in(self._told(x, y, FEW))]

    def _told(self, x: int, y: int, room: int) -> bytes:
        """The events as C has them, of which so many are expected."""
        area, count = ctypes.create_string_buffer(EVENT.size * room), c_uint64()
        result = self._held.answer("history", x, y, area, room, byref(count))
        if result == _EVENTS_TOO_SMALL:
            return self._told(x, y, count.value)
        _look_at(result, "history")
        return area.raw[: EVENT.size * count.value]


class Device:
    """A target of ``width`` by ``height`` pixels, 1 to 4,096 each, with its contexts.

    ``immediate`` draws on it, and each of the eight of ``deferred`` records lists. Raises
    :class:`~yuzuratchet.errors.LibraryMissing`.
    """

    def __init__(self, width: int, height: int, *, library: str | Path | None = None) -> None:
        (self.width, self.height) = sides = whole_numbers("size", (width, height))
        TARGET.check(sides)
        calls = _calls(find_library(library))
        desc = _DeviceDesc(ctypes.sizeof(_DeviceDesc), self.width, self.height)

        def create(out: Any) -> int:
            answer: int = calls.yz_device_create(byref(desc), out)
            return answer

        self._held = _Object(calls, "device", create)
        self._whole = _Rect(0, 0, self.width, self.height)
        self.immediate = LiveImmediateContext(self._held, IMMEDIATE)
        self.deferred = tuple(
            LiveDeferredContext(_Object(calls, "context", calls.yz_context_create), actor)
            for actor in DEFERRED
        )

    def __repr__(self) -> str:
        return f"<Device: {self.width} by {self.height} pixels>"

    def __enter__(self) -> Device:
        return self

    def __exit__(
        self,
        kind: type[BaseException] | None,
        error: BaseException | None,
        at: TracebackType | None,
    ) -> None:
        self.close()

    def close(self) -> None:
        """Gives the memory of the target back; its contexts can't be used any more."""
        with self._held.lock:
            self._held.close()

    def _read(self, plane: int, into: npt.NDArray[Any]) -> None:
        area = byref(self._whole), _address(into), into.nbytes, into.strides[0]
        self._held.call("read", plane, *area)

    @property
    def image(self) -> Pixels:
        """The target as it is now: an array of height, width and red, green, blue, alpha."""
        pixels = np.empty((self.height, self.width, 4), dtype=np.uint8)
        self._read(RGBA, pixels)
        return pixels.view(Picture)

    @property
    def planes(self) -> Planes:
        """Depth and stencil of the target as it is now."""
        depth = np.empty((self.height, self.width), dtype=np.uint32)
        stencil = np.empty((self.height, self.width), dtype=np.uint8)
        self._read(DEPTH, depth)
        self._read(STENCIL, stencil)
        return Planes(depth, stencil)

    def save(self, path: str | Path, *, keep_alpha: bool = False, scale: float = 1) -> None:
        """Saves the image, as ``device.save("x.png")``; opaque unless alpha is kept."""
        save(self.image, path, keep_alpha=keep_alpha, scale=scale)

    def record(self) -> Scene:
        """Gives a scene to which each call that is accepted from now on is added.

        A script of it draws what the device drew, so it is to be asked for before the first call.
        Planes that are read are no lines. Threads make their calls in turns while a device records.
        """
        contexts: tuple[LiveContext, ...] = (self.immediate, *self.deferred)
        if any(it._held.is_used for it in contexts):
            raise ProgramFailed("a scene of all calls has to be asked for before the first one")
        recording = _Recording(Scene(self.width, self.height, strict=False))
        for context in contexts:
            context._recording = recording
        return recording.scene

    def play(self, lines: str) -> Iterator[int | PixelAnswer]:
        """Plays lines of a script, as they stand behind its target; yields each answer as it comes.

        Its deferred contexts, with the lists that they finish, are others than ``deferred``: the
        device keeps them for scripts. A line that has a fault or is refused raises
        :class:`~yuzuratchet.errors.CallRefused` with its ``line``, counted from 1 here, and changes
        nothing.
        """
        if self.immediate._recording is not None:
            raise ProgramFailed("lines that are played can't be added to a scene of calls")
        text = ctypes.create_string_buffer(lines.encode())
        played, at, line = _Played(), 0, 1
        while at < len(text) - 1:
            rest = ctypes.addressof(text) + at, len(text) - 1 - at
            try:
                self._held.call("play", *rest, byref(played))
            except CallRefused as error:
                error.line = line + played.lines
                raise
            at, line = at + played.size, line + played.lines
            if played.answer_size:
                told = parse_answer(played.answer[: played.answer_size].decode().rstrip())
                yield told.count if isinstance(told, QueryAnswer) else told

    def replay(self, scene: Scene) -> list[int | PixelAnswer]:
        """Makes all calls of a scene, on this device as it is; gives the answers."""
        replay = Replay(self)
        for line in scene.lines:
            replay.take(line)
        return replay.answers


class Replay:
    """Makes the calls of a script's lines on a device, one after the other.

    ``answers`` are those of the calls so far. One that is refused raises
    :class:`~yuzuratchet.errors.CallRefused`, and the next may be made.
    """

    def __init__(self, device: Device) -> None:
        self.device = device
        self.answers: list[int | PixelAnswer] = []
        self._contexts = dict(zip(DEFERRED, device.deferred))
        self._lists: dict[str, list[LiveList]] = {actor: [] for actor in DEFERRED}

    def take(self, line: Line) -> None:
        """Makes the call of a line; an ``exec`` line is one of a list that was finished before."""
        immediate, n = self.device.immediate, line.arguments
        if line.word == "finish":
            finished = self._contexts[line.actor].finish_command_list(bool(n[0]))
            self._lists[line.actor].append(finished)
        elif line.word == "exec":
            immediate.execute(self._list(line), bool(n[2]))
        elif line.word == "flush":
            immediate.flush()
        elif line.word == "query":
            self.answers.append(immediate.get_data(*n))
        elif line.word == "pixel":
            self.answers.append(immediate.pixel(*n))
        else:
            self._contexts.get(line.actor, immediate).take(line)

    def _list(self, line: Line) -> LiveList:
        """The list that a line executes."""
        context, number, _ = line.arguments
        finished = self._lists[DEFERRED[context]]
        if number >= len(finished):
            made = f"{DEFERRED[context]} has finished {len(finished)}, counted from 0"
            raise ArgumentError("list", made)
        return finished[number]
