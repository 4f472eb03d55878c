"""Write scenes for the device Yuzuratchet, draw them, and look at what came.

>>> from yuzuratchet import Scene
>>> from yuzuratchet.shapes import draw_triangles, rectangle
>>> scene = Scene(64, 64)
>>> scene.immediate.clear_color("#181828")
>>> draw_triangles(scene.immediate, rectangle(8, 8, 56, 40, colour="#ff8000"))

``run(scene).save("scene.png")`` draws it. The commands ``check``, ``explain``, ``diff``, ``suite``
and ``png`` stand beside it: ``yuzuratchet --help``.
"""

from .errors import (
    ArgumentError,
    CallRefused,
    ImageError,
    LibraryMissing,
    PageMissing,
    ProgramFailed,
    ProgramMissing,
    ScriptFault,
    ScriptRefused,
    WrongType,
    YuzuratchetError,
)
from .line import Line
from .reader import load_script, read_script
from .results import (
    PixelAnswer,
    QueryAnswer,
    Refusal,
    Result,
    depth_and_stencil,
    run,
    run_many,
)
from .scene import CommandList, DeferredContext, ImmediateContext, Scene
from .states import (
    BlendState,
    ColorWriteEnable,
    ComparisonFunc,
    CullMode,
    DepthStencilState,
    LogicOp,
    PrimitiveTopology,
    RasterizerState,
    StencilFace,
    StencilOp,
)

__version__ = "0.4.0"

__all__ = [
    "ArgumentError",
    "BlendState",
    "CallRefused",
    "ColorWriteEnable",
    "CommandList",
    "ComparisonFunc",
    "CullMode",
    "DeferredContext",
    "DepthStencilState",
    "ImageError",
    "ImmediateContext",
    "LibraryMissing",
    "Line",
    "LogicOp",
    "PageMissing",
    "PixelAnswer",
    "PrimitiveTopology",
    "ProgramFailed",
    "ProgramMissing",
    "QueryAnswer",
    "RasterizerState",
    "Refusal",
    "Result",
    "Scene",
    "ScriptFault",
    "ScriptRefused",
    "StencilFace",
    "StencilOp",
    "WrongType",
    "YuzuratchetError",
    "depth_and_stencil",
    "load_script",
    "read_script",
    "run",
    "run_many",
]
