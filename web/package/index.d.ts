/** A picture: red, green, blue, alpha of each pixel, row by row from the top. */
export interface Picture {
    width: number;
    height: number;
    pixels: Uint8ClampedArray;
}

/** The line that was refused or has a fault, and the number of why, as docs/SCRIPT.md lists them. */
export interface Refused {
    line: number;
    number: number;
}

/** What came of a script. Where a line is refused there is no picture, and the image has no byte. */
export interface Drawn {
    answers: string[];
    refused: Refused | null;
    picture: Picture | null;
    tga: Uint8Array;
}

/** Draws a script. Fails where the engine has no memories of 64 bits, or no memory is left. */
export function draw(script: string | Uint8Array): Promise<Drawn>;

/** What a pixel holds: red, green, blue, alpha; the stored depth; the stencil. */
export interface Content {
    colour: number[];
    depth: number;
    stencil: number;
}

/** What a clear or a triangle did to a pixel that it touched. */
export interface Event {
    /** counts those that ran, from 0 on */
    item: number;
    /** the line of the immediate context that recorded it, or executed its list */
    line: number;
    /** its command in that list, from 0 on, or 0 */
    command: number;
    /** the triangle of its draw, from 0 on; 0 for a clear */
    triangle: number;
    stencilPassed: boolean;
    depthPassed: boolean;
    before: Content;
    after: Content;
}

/**
 * What touched a pixel of a script's target, in order: over all lines, or those up to `at`, which is counted from 1.
 * Fails too where a line is refused, or there is no such pixel or line.
 */
export function history(
    script: string | Uint8Array, x: number, y: number, options?: { at?: number }): Promise<Event[]>;

/**
 * Starts the module, which `draw` and `createDevice` do where they have to; one that lies elsewhere is given by its
 * bytes.
 */
export function start(module?: ArrayBuffer | Uint8Array): Promise<void>;

/** A device by its calls, of 1 to 4,096 pixels each way. */
export function createDevice(width: number, height: number): Promise<Device>;

/** Why a call was refused: `number` and `name` are those of yuzuratchet_device.h. Nothing was changed. */
export class CallRefused extends Error {
    readonly number: number;
}

/** "#rrggbb", "#rrggbbaa", or three or four numbers from 0 to 255: red, green, blue, alpha. */
export type Colour = string | ArrayLike<number>;
/** A vertex: pixels, y downwards, a depth from 0 to 1, and a colour. */
export type Vertex = [x: number, y: number, depth: number, colour: Colour];
/** Vertices, or their bytes: for each x and y in 1/65,536 pixel, the stored depth, and four bytes of colour. */
export type Vertices = Iterable<Vertex> | ArrayBufferView;
/** A depth that was read as one from 0 to 1. */
export function depthOf(stored: number): number;
/** The bytes of vertices. */
export function vertexBytes(vertices: Vertices): Uint8Array;

export interface RasterizerState {
    cullMode?: number;
    frontCounterClockwise?: boolean;
    scissorEnable?: boolean;
    /** what is added to stored depths, 0 to 16,777,215 */
    depthBias?: number;
}

export interface StencilFace {
    stencilFailOp?: number;
    stencilDepthFailOp?: number;
    stencilPassOp?: number;
    stencilFunc?: number;
}

export interface DepthStencilState {
    depthEnable?: boolean;
    depthWrite?: boolean;
    depthFunc?: number;
    stencilEnable?: boolean;
    stencilReadMask?: number;
    stencilWriteMask?: number;
    frontFace?: StencilFace;
    backFace?: StencilFace;
}

export interface BlendState {
    logicOpEnable?: boolean;
    logicOp?: number;
    writeMask?: number;
}

/** The calls that both kinds of context have. What is left out of a state is its default. */
export class Context {
    protected constructor();
    iaSetVertices(vertices: Vertices): void;
    iaSetIndices(indices: Iterable<number>): void;
    iaSetTopology(topology: number): void;
    rsSetState(state?: RasterizerState): void;
    rsSetScissor(left: number, top: number, right: number, bottom: number): void;
    omSetDepthStencil(state?: DepthStencilState, stencilRef?: number): void;
    omSetBlend(state?: BlendState): void;
    /** Leaves out draws and clears where whether a query's result passed anything is the value; null ends that. */
    setPredication(query: number | null, value?: boolean): void;
    draw(count: number, start?: number): void;
    drawIndexed(count: number, start?: number, base?: number): void;
    clearColor(colour: Colour): void;
    clearDepthStencil(depth?: number, stencil?: number): void;
    /** Begins to count the pixels that pass, under a query from 0 to 63. */
    begin(query: number): void;
    end(query: number): void;
}

/** A list that a deferred context finished: any device executes it, as often as wanted. */
export class CommandList {
    private constructor();
    /** Gives its memory back. */
    dispose(): void;
}

/** A context that records lists. */
export class DeferredContext extends Context {
    finishCommandList(options?: { restore?: boolean }): CommandList;
}

/** What a pixel holds; its depth as it is stored, 0 to 16,777,215. */
export interface PixelValue {
    x: number;
    y: number;
    colour: number[];
    depth: number;
    stencil: number;
}

/** The context that draws, executes lists and answers. */
export class ImmediateContext extends Context {
    flush(): void;
    execute(list: CommandList, options?: { restore?: boolean }): void;
    /** How many pixels the last begin and end of a query counted. */
    getData(query: number): number;
    pixel(x: number, y: number): PixelValue;
    /**
     * What each clear and triangle that is pending does to a pixel that it touches; none of them runs for it. An event
     * has line 0; `item` counts what is pending and `command` the calls, of which a state that is kept is the first.
     */
    history(x: number, y: number): Event[];
}

/** The pixels with left <= x < right and top <= y < bottom, all where none are told. */
export interface Rectangle {
    left?: number;
    top?: number;
    right?: number;
    bottom?: number;
}

/** A target that stays, with its contexts. */
export class Device {
    private constructor();
    readonly width: number;
    readonly height: number;
    readonly immediate: ImmediateContext;
    /** eight */
    readonly deferred: readonly DeferredContext[];
    /** Reads a rectangle of a plane, into an array that is told, or into a new one. */
    read(plane: 2, options?: Rectangle & { into?: Uint32Array }): Uint32Array;
    read(plane: number, options?: Rectangle & { into?: Uint8Array }): Uint8Array;
    picture(): Picture;
    /** Depth and stencil of each pixel. */
    planes(): { width: number; height: number; depth: Uint32Array; stencil: Uint8Array };
    /** Gives the memory of the target and the contexts back; lists stay. */
    dispose(): void;
}

export const PrimitiveTopology: { readonly TRIANGLELIST: 4; readonly TRIANGLESTRIP: 5 };
export const CullMode: { readonly NONE: 1; readonly FRONT: 2; readonly BACK: 3 };
export const ComparisonFunc: {
    readonly NEVER: 1;
    readonly LESS: 2;
    readonly EQUAL: 3;
    readonly LESS_EQUAL: 4;
    readonly GREATER: 5;
    readonly NOT_EQUAL: 6;
    readonly GREATER_EQUAL: 7;
    readonly ALWAYS: 8;
};
export const StencilOp: {
    readonly KEEP: 1;
    readonly ZERO: 2;
    readonly REPLACE: 3;
    readonly INCR_SAT: 4;
    readonly DECR_SAT: 5;
    readonly INVERT: 6;
    readonly INCR: 7;
    readonly DECR: 8;
};
export const LogicOp: {
    readonly CLEAR: 0;
    readonly SET: 1;
    readonly COPY: 2;
    readonly COPY_INVERTED: 3;
    readonly NOOP: 4;
    readonly INVERT: 5;
    readonly AND: 6;
    readonly NAND: 7;
    readonly OR: 8;
    readonly NOR: 9;
    readonly XOR: 10;
    readonly EQUIV: 11;
    readonly AND_REVERSE: 12;
    readonly AND_INVERTED: 13;
    readonly OR_REVERSE: 14;
    readonly OR_INVERTED: 15;
};
export const ColorWriteEnable: {
    readonly NONE: 0;
    readonly RED: 1;
    readonly GREEN: 2;
    readonly BLUE: 4;
    readonly ALPHA: 8;
    readonly ALL: 15;
};
/** What is read of each pixel: four bytes of colour, its stored depth, or its stencil. */
export const Plane: { readonly RGBA8: 0; readonly BGRA8: 1; readonly DEPTH32: 2; readonly STENCIL8: 3 };
