"""States with Direct3D's names, numbers and defaults."""

from __future__ import annotations

from typing import Callable

import pytest

from yuzuratchet import (
    BlendState,
    ColorWriteEnable,
    ComparisonFunc,
    CullMode,
    DepthStencilState,
    LogicOp,
    PrimitiveTopology,
    RasterizerState,
    StencilFace,
    StencilOp,
)
from yuzuratchet.errors import ArgumentError


def test_direct3d_numbers() -> None:
    assert [it.value for it in PrimitiveTopology] == [4, 5]
    assert [(it.name, it.value) for it in CullMode] == [("NONE", 1), ("FRONT", 2), ("BACK", 3)]
    comparisons = "NEVER LESS EQUAL LESS_EQUAL GREATER NOT_EQUAL GREATER_EQUAL ALWAYS".split()
    assert [(it.name, it.value) for it in ComparisonFunc] == list(zip(comparisons, range(1, 9)))
    operations = "KEEP ZERO REPLACE INCR_SAT DECR_SAT INVERT INCR DECR".split()
    assert [(it.name, it.value) for it in StencilOp] == list(zip(operations, range(1, 9)))
    logic = (
        "CLEAR SET COPY COPY_INVERTED NOOP INVERT AND NAND OR NOR XOR EQUIV "
        "AND_REVERSE AND_INVERTED OR_REVERSE OR_INVERTED"
    ).split()
    assert [(it.name, it.value) for it in LogicOp] == list(zip(logic, range(16)))
    assert (ColorWriteEnable.RED, ColorWriteEnable.ALPHA, ColorWriteEnable.ALL) == (1, 8, 15)


def test_defaults_have_the_spelling_of_the_defaults() -> None:
    assert RasterizerState().numbers() == (3, 0, 0)
    assert DepthStencilState().numbers() == (1, 1, 2, 0, 255, 255, 1, 1, 1, 8, 1, 1, 1, 8)
    assert BlendState().numbers() == (0, 4, 15)


def test_numbers_there_and_back() -> None:
    raster = RasterizerState(CullMode.NONE, True, True)
    face = StencilFace(StencilOp.ZERO, StencilOp.INCR, StencilOp.DECR, ComparisonFunc.EQUAL)
    tests = DepthStencilState(
        False, False, ComparisonFunc.GREATER, True, 15, 240, face, StencilFace()
    )
    blend = BlendState(True, LogicOp.XOR, ColorWriteEnable.RED | ColorWriteEnable.BLUE)
    assert RasterizerState.from_numbers(raster.numbers()) == raster
    assert DepthStencilState.from_numbers((*tests.numbers(), 77)) == tests
    assert BlendState.from_numbers(blend.numbers()) == blend
    assert (raster.numbers(), blend.numbers()) == ((1, 1, 1), (1, 10, 5))
    for bias in (-(2**31), -3, 5, 2**31 - 1):
        biased = RasterizerState(CullMode.NONE, True, True, bias)
        assert biased.numbers() == (1, 1, 1, bias)
        assert RasterizerState.from_numbers(biased.numbers()) == biased
    assert tests.numbers() == (0, 0, 5, 1, 15, 240, 2, 7, 8, 3, 1, 1, 1, 8)


@pytest.mark.parametrize(
    ("make", "argument", "value"),
    [
        (RasterizerState, "cull_mode", 4),
        (RasterizerState, "depth_bias", 2**31),
        (RasterizerState, "depth_bias", -(2**31) - 1),
        (RasterizerState, "depth_bias", 1.5),
        (RasterizerState, "scissor_enable", 2),
        (StencilFace, "stencil_pass_op", 0),
        (StencilFace, "stencil_func", 9),
        (DepthStencilState, "depth_func", "LESS"),
        (DepthStencilState, "stencil_read_mask", 256),
        (DepthStencilState, "stencil_write_mask", -1),
        (BlendState, "logic_op", 16),
        (BlendState, "write_mask", 16),
    ],
)
def test_no_states(make: Callable[..., object], argument: str, value: object) -> None:
    with pytest.raises(ArgumentError) as raised:
        make(**{argument: value})
    assert raised.value.argument == argument
