"""The states of a context, with Direct3D's names and numbers.

An enumeration leaves out the prefix that its names have in Direct3D: ``CullMode.BACK`` is
``D3D11_CULL_BACK``. Each state's defaults are those of the device.
"""

from __future__ import annotations

from dataclasses import dataclass, field, fields
from enum import IntEnum, IntFlag
from typing import Any

from .errors import ArgumentError
from .words import Argument


class PrimitiveTopology(IntEnum):
    """How vertices make triangles (``D3D11_PRIMITIVE_TOPOLOGY``)."""

    TRIANGLELIST = 4
    TRIANGLESTRIP = 5


class CullMode(IntEnum):
    """Which triangles are dropped (``D3D11_CULL_MODE``)."""

    NONE = 1
    FRONT = 2
    BACK = 3


class ComparisonFunc(IntEnum):
    """How the new value, on the left, is compared with the old one (``D3D11_COMPARISON_FUNC``)."""

    NEVER = 1
    LESS = 2
    EQUAL = 3
    LESS_EQUAL = 4
    GREATER = 5
    NOT_EQUAL = 6
    GREATER_EQUAL = 7
    ALWAYS = 8


class StencilOp(IntEnum):
    """What becomes of a stored stencil (``D3D11_STENCIL_OP``).

    ``INCR_SAT`` and ``DECR_SAT`` stop at 255 and 0, ``INCR`` and ``DECR`` go round.
    """

    KEEP = 1
    ZERO = 2
    REPLACE = 3
    INCR_SAT = 4
    DECR_SAT = 5
    INVERT = 6
    INCR = 7
    DECR = 8


class LogicOp(IntEnum):
    """What becomes of each bit of a triangle's colour and the stored one (``D3D11_LOGIC_OP``)."""

    CLEAR = 0
    SET = 1
    COPY = 2
    COPY_INVERTED = 3
    NOOP = 4
    INVERT = 5
    AND = 6
    NAND = 7
    OR = 8
    NOR = 9
    XOR = 10
    EQUIV = 11
    AND_REVERSE = 12
    AND_INVERTED = 13
    OR_REVERSE = 14
    OR_INVERTED = 15


class ColorWriteEnable(IntFlag):
    """Which channels are written (``D3D11_COLOR_WRITE_ENABLE``)."""

    NONE = 0
    RED = 1
    GREEN = 2
    BLUE = 4
    ALPHA = 8
    ALL = 15


def names_of(argument: Argument) -> dict[str, int]:
    """The names of the values of a script's argument."""
    kind = _KINDS.get(argument.name) or next(
        (kind for end, kind in _ENDS.items() if argument.name.endswith(end)), None
    )
    return {name: int(it) for name, it in kind.__members__.items()} if kind else {}


_KINDS: dict[str, type[IntEnum] | type[IntFlag]] = {
    "topology": PrimitiveTopology,
    "cull_mode": CullMode,
    "logic_op": LogicOp,
    "write_mask": ColorWriteEnable,
}
_ENDS: dict[str, type[IntEnum]] = {"_func": ComparisonFunc, "_op": StencilOp}


def _as_kind(kind: type, value: Any, name: str) -> Any:
    """The value as a flag or as a member of an enumeration."""
    few = {bool: (False, True), ColorWriteEnable: range(16)}.get(kind, None)
    try:
        if few is None or value in few:
            return kind(value)
    except ValueError:
        pass
    raise ArgumentError(name, f"{value!r} is no {kind.__name__}")


def _checked(state: Any, kinds: dict[str, type]) -> None:
    for name, kind in kinds.items():
        object.__setattr__(state, name, _as_kind(kind, getattr(state, name), name))


def _check_byte(value: Any, name: str) -> None:
    if isinstance(value, bool) or not isinstance(value, int) or not 0 <= value <= 255:
        raise ArgumentError(name, f"{value!r} is not in 0 to 255")


def _check_bias(value: object) -> None:
    if isinstance(value, bool) or not isinstance(value, int) or not -(2**31) <= value < 2**31:
        raise ArgumentError("depth_bias", f"{value!r} is not in {-(2**31)} to {2**31 - 1}")


def _numbers(state: Any) -> tuple[int, ...]:
    return tuple(int(getattr(state, it.name)) for it in fields(state))


@dataclass(frozen=True)
class RasterizerState:
    """Which triangles are drawn, whether the scissor rectangle acts, and what moves their depths.

    A triangle that goes clockwise on the target, whose y goes down, faces the front, or the other
    way round where ``front_counter_clockwise`` is True. ``depth_bias`` is added to each depth, as
    stored, 0 to 16,777,215: a whole number of 32 bits, below 0 for nearer. The sum stays in that
    range.
    """

    cull_mode: CullMode = CullMode.BACK
    front_counter_clockwise: bool = False
    scissor_enable: bool = False
    depth_bias: int = 0

    def __post_init__(self) -> None:
        kinds = {"front_counter_clockwise": bool, "scissor_enable": bool}
        _checked(self, {"cull_mode": CullMode, **kinds})
        _check_bias(self.depth_bias)

    def numbers(self) -> tuple[int, ...]:
        """The numbers of a ``raster`` line: three, or four where there is a bias."""
        numbers = _numbers(self)
        return numbers if self.depth_bias else numbers[:3]

    @classmethod
    def from_numbers(cls, numbers: tuple[int, ...]) -> RasterizerState:
        """The state that a ``raster`` line sets."""
        kinds: tuple[Any, ...] = numbers
        return cls(*kinds)


@dataclass(frozen=True)
class StencilFace:
    """What one face of the triangles does with the stencil (``D3D11_DEPTH_STENCILOP_DESC``)."""

    stencil_fail_op: StencilOp = StencilOp.KEEP
    stencil_depth_fail_op: StencilOp = StencilOp.KEEP
    stencil_pass_op: StencilOp = StencilOp.KEEP
    stencil_func: ComparisonFunc = ComparisonFunc.ALWAYS

    def __post_init__(self) -> None:
        names = ("stencil_fail_op", "stencil_depth_fail_op", "stencil_pass_op")
        _checked(self, {**dict.fromkeys(names, StencilOp), "stencil_func": ComparisonFunc})


@dataclass(frozen=True)
class DepthStencilState:
    """How depth and stencil are tested and changed (``D3D11_DEPTH_STENCIL_DESC``).

    A test that is off passes. Depth is written where both tests pass, the depth test is on and
    ``depth_write`` is True. The stencil is compared and changed in the bits of its two masks, each
    0 to 255.
    """

    depth_enable: bool = True
    depth_write: bool = True
    depth_func: ComparisonFunc = ComparisonFunc.LESS
    stencil_enable: bool = False
    stencil_read_mask: int = 255
    stencil_write_mask: int = 255
    front_face: StencilFace = field(default_factory=StencilFace)
    back_face: StencilFace = field(default_factory=StencilFace)

    def __post_init__(self) -> None:
        flags = dict.fromkeys(("depth_enable", "depth_write", "stencil_enable"), bool)
        _checked(self, {**flags, "depth_func": ComparisonFunc})
        _check_byte(self.stencil_read_mask, "stencil_read_mask")
        _check_byte(self.stencil_write_mask, "stencil_write_mask")

    def numbers(self) -> tuple[int, ...]:
        """The numbers of a ``ds`` line but for the last one, the reference."""
        tests = (self.depth_enable, self.depth_write, self.depth_func, self.stencil_enable)
        masks = (self.stencil_read_mask, self.stencil_write_mask)
        faces = (*_numbers(self.front_face), *_numbers(self.back_face))
        return (*map(int, tests), *masks, *faces)

    @classmethod
    def from_numbers(cls, numbers: tuple[int, ...]) -> DepthStencilState:
        """The state that a ``ds`` line sets; the reference may stand behind its numbers."""
        kinds: tuple[Any, ...] = numbers
        faces = (StencilFace(*kinds[at : at + 4]) for at in (6, 10))
        return cls(*kinds[:6], *faces)


@dataclass(frozen=True)
class BlendState:
    """What is written of a triangle's colour (``D3D11_RENDER_TARGET_BLEND_DESC1``)."""

    logic_op_enable: bool = False
    logic_op: LogicOp = LogicOp.NOOP
    write_mask: ColorWriteEnable = ColorWriteEnable.ALL

    def __post_init__(self) -> None:
        kinds = {"logic_op_enable": bool, "logic_op": LogicOp, "write_mask": ColorWriteEnable}
        _checked(self, kinds)

    def numbers(self) -> tuple[int, ...]:
        """The numbers of a ``blend`` line."""
        return _numbers(self)

    @classmethod
    def from_numbers(cls, numbers: tuple[int, ...]) -> BlendState:
        """The state that a ``blend`` line sets."""
        kinds: tuple[Any, ...] = numbers
        return cls(*kinds)
