// Choices of a device's states, by the names and numbers of the Direct3D 11 headers without their prefixes.

export const PrimitiveTopology = Object.freeze({ TRIANGLELIST: 4, TRIANGLESTRIP: 5 });

export const CullMode = Object.freeze({ NONE: 1, FRONT: 2, BACK: 3 });

export const ComparisonFunc = Object.freeze(
    { NEVER: 1, LESS: 2, EQUAL: 3, LESS_EQUAL: 4, GREATER: 5, NOT_EQUAL: 6, GREATER_EQUAL: 7, ALWAYS: 8 });

export const StencilOp = Object.freeze(
    { KEEP: 1, ZERO: 2, REPLACE: 3, INCR_SAT: 4, DECR_SAT: 5, INVERT: 6, INCR: 7, DECR: 8 });

export const LogicOp = Object.freeze({
    CLEAR: 0,
    SET: 1,
    COPY: 2,
    COPY_INVERTED: 3,
    NOOP: 4,
    INVERT: 5,
    AND: 6,
    NAND: 7,
    OR: 8,
    NOR: 9,
    XOR: 10,
    EQUIV: 11,
    AND_REVERSE: 12,
    AND_INVERTED: 13,
    OR_REVERSE: 14,
    OR_INVERTED: 15,
});

export const ColorWriteEnable = Object.freeze({ NONE: 0, RED: 1, GREEN: 2, BLUE: 4, ALPHA: 8, ALL: 15 });

/** What is read of each pixel. */
export const Plane = Object.freeze({ RGBA8: 0, BGRA8: 1, DEPTH32: 2, STENCIL8: 3 });
