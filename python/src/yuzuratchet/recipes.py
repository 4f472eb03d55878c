"""States for what people draw again and again. docs/SCRIPT.md has the same as lines of a script.

Each function sets the rasterizer, depth-stencil and blend state of a context, and the draws behind
it do what it says; :func:`default_states` ends that.
"""

from __future__ import annotations

from typing import Iterable

from .scene import Context, ImmediateContext
from .shapes import draw_triangles
from .states import (
    BlendState,
    ColorWriteEnable,
    ComparisonFunc,
    CullMode,
    DepthStencilState,
    LogicOp,
    RasterizerState,
    StencilFace,
    StencilOp,
)
from .vertices import Vertex

NO_COLOUR = BlendState(write_mask=ColorWriteEnable.NONE)
BOTH_FACES = RasterizerState(cull_mode=CullMode.NONE)


def default_states(context: Context) -> None:
    """Sets the three states back: back faces dropped, depth LESS and written, colour written."""
    _set(context, RasterizerState(), DepthStencilState(), BlendState())


def count_overlaps(context: Context) -> None:
    """Each draw behind it adds 1 to the stencil of the pixels that it covers, up to 255.

    Both faces count; neither depth is looked at, nor colour or depth written.
    """
    face = StencilFace(stencil_pass_op=StencilOp.INCR_SAT)
    state = DepthStencilState(
        depth_enable=False, stencil_enable=True, front_face=face, back_face=face
    )
    _set(context, BOTH_FACES, state, NO_COLOUR)


def mark_stencil(context: Context, reference: int, *, depth: bool = True) -> None:
    """Draws behind it give the stencil of what they cover this value, 1 to 255, by both faces.

    Nothing else is written. With ``depth`` only what is nearer than what stands there is marked, as
    of a mirror that is half hidden; without it depth isn't looked at.
    """
    face = StencilFace(stencil_pass_op=StencilOp.REPLACE)
    state = DepthStencilState(
        depth_enable=depth,
        depth_write=False,
        stencil_enable=True,
        front_face=face,
        back_face=face,
    )
    _set(context, BOTH_FACES, state, NO_COLOUR, reference)


def draw_where_stencil(
    context: Context,
    reference: int,
    func: ComparisonFunc = ComparisonFunc.EQUAL,
    *,
    depth: bool = False,
) -> None:
    """Draws behind it reach only pixels whose stencil compares: ``reference func stencil``.

    So ``LESS_EQUAL`` with 2 takes pixels whose stencil is 2 or more. The stencil stays. Depth is
    neither looked at nor written, but with ``depth`` both, as usual.
    """
    face = StencilFace(stencil_func=func)
    state = DepthStencilState(
        depth_enable=depth, stencil_enable=True, front_face=face, back_face=face
    )
    _set(context, RasterizerState(), state, BlendState(), reference)


def draw_without_depth(context: Context) -> None:
    """Draws behind it cover what stands there, whatever its depth: the last one is seen."""
    _set(context, RasterizerState(), DepthStencilState(depth_enable=False), BlendState())


def lay_decals(context: Context, bias: int = -2) -> None:
    """Draws behind it lie on the surfaces in whose plane they are, as marks on a floor.

    Their depths are moved so many units of the stored ones, below 0 for nearer, so that no pixel is
    lost to rounding. They are not written, so that one decal doesn't hide the next.
    """
    state = DepthStencilState(depth_write=False)
    _set(context, RasterizerState(depth_bias=bias), state, BlendState())


def draw_by_xor(context: Context) -> None:
    """Draws behind it turn the bits of what stands there: the same draw once more undoes it.

    Depth is neither looked at nor written.
    """
    blend = BlendState(logic_op_enable=True, logic_op=LogicOp.XOR)
    _set(context, RasterizerState(), DepthStencilState(depth_enable=False), blend)


def mark_shadow_volumes(context: Context) -> None:
    """Draws behind it are closed shadow volumes: a stencil of 0 is left where no shadow falls.

    Where the depth test fails, back faces add 1 to the stencil and front faces take 1 away. The
    scene's depths must be drawn before, and the stencil be 0.
    """
    front = StencilFace(stencil_depth_fail_op=StencilOp.DECR)
    back = StencilFace(stencil_depth_fail_op=StencilOp.INCR)
    state = DepthStencilState(
        depth_write=False, stencil_enable=True, front_face=front, back_face=back
    )
    _set(context, BOTH_FACES, state, NO_COLOUR)


def light_outside_shadows(context: Context) -> None:
    """Draws behind it are the same faces again in the light: they are drawn where no shadow falls.

    They reach the pixels where they are the nearest face and the stencil is 0.
    """
    face = StencilFace(stencil_func=ComparisonFunc.EQUAL)
    state = DepthStencilState(
        depth_write=False,
        depth_func=ComparisonFunc.EQUAL,
        stencil_enable=True,
        front_face=face,
        back_face=face,
    )
    _set(context, RasterizerState(), state, BlendState())


def count_seen(context: Context) -> None:
    """Draws behind it write nothing: a query counts which of their pixels would be seen, by both faces."""
    _set(context, BOTH_FACES, DepthStencilState(depth_write=False), NO_COLOUR)


def skip_where_hidden(context: ImmediateContext, query: int, bounds: Iterable[Vertex]) -> None:
    """Leaves out the draws and clears behind it where nothing of a stand-in can be seen.

    ``bounds`` are triangles round what is drawn next, whose pixels before what stands there are
    counted by the query, without being drawn. Then the default states are set, and a predicate
    that ``context.set_predication(None)`` ends.
    """
    count_seen(context)
    with context.counted(query):
        draw_triangles(context, bounds)
    context.flush()  # (a list can't both begin a query and depend on it)
    default_states(context)
    context.set_predication((query, False))


def _set(
    context: Context,
    rasterizer: RasterizerState,
    depth_stencil: DepthStencilState,
    blend: BlendState,
    reference: int = 0,
) -> None:
    context.rs_set_state(rasterizer)
    context.om_set_blend(blend)
    context.om_set_depth_stencil(depth_stencil, reference)
