// A device by its calls: a target that stays, with contexts that draw on it, over the WebAssembly module.
//
// What a call means, and why it may be refused, stands in library/yuzuratchet_device.h; the methods are those of the
// Python package's calls.py. What JavaScript hands over that is no number of the call's kind is a RangeError, and what
// the device refuses a CallRefused; both leave all as it was.

import { ColorWriteEnable, ComparisonFunc, CullMode, LogicOp, Plane, StencilOp } from "./states.js";
import { channels, signed, storedDepth, vertexBytes, whole } from "./units.js";

/** @typedef {import("./module.js").Module} Module */
/** @typedef {import("./module.js").Event} Event */
/** @typedef {import("./targa.js").Picture} Picture */
/** @typedef {import("./units.js").Colour} Colour */
/** @typedef {import("./units.js").Vertices} Vertices */
/**
 * @typedef {{x: number, y: number, colour: number[], depth: number, stencil: number, touched?: number}} PixelValue what
 * a pixel holds, and how often it was touched, where that is asked for
 */
/**
 * @typedef {{cullMode?: number, frontCounterClockwise?: boolean, scissorEnable?: boolean, depthBias?: number}} Raster
 */
/**
 * @typedef {{stencilFailOp?: number, stencilDepthFailOp?: number, stencilPassOp?: number, stencilFunc?: number}} Face
 */
/**
 * @typedef {{depthEnable?: boolean, depthWrite?: boolean, depthFunc?: number, stencilEnable?: boolean,
 *     stencilReadMask?: number, stencilWriteMask?: number, frontFace?: Face, backFace?: Face}} DepthStencil
 */
/** @typedef {{logicOpEnable?: boolean, logicOp?: number, writeMask?: number}} Blend */
/**
 * @typedef {{left?: number, top?: number, right?: number, bottom?: number, into?: Uint8Array | Uint8ClampedArray |
 *     Uint32Array}} Reading the pixels with left <= x < right and top <= y < bottom, and where they go
 */

const CONTEXTS = 8;
// sizes in bytes, as C has them
const ADDRESS = 8, COUNT = 8, PIXEL = 12, PLAYED = 3 * COUNT + 176;
// how many events are expected of a pixel, and the answer where there are more
const EXPECTED_EVENTS = 64, EVENTS_TOO_SMALL = 35;
const DEVICE_DESC = 16, RASTER_DESC = 24, DEPTH_STENCIL_DESC = 64, BLEND_DESC = 24;

/** Why a call was refused: `number` is that of yz_result, and `name` its name. */
export class CallRefused extends Error {
    /**
     * @param {number} number
     * @param {string} name
     * @param {string} text
     */
    constructor(number, name, text) {
        super(text);
        this.name = name;
        this.number = number;
    }
}

/** @typedef {{module: Module, kind: string, at: bigint}} Address where an object of the module is */

/** gives back what nobody holds any more */
const FORGOTTEN = new FinalizationRegistry(
    (/** @type {Address} */ { module, kind, at }) => module.objects[`yz_${kind}_destroy`](at));

/** An object of the module. */
class Held {
    /**
     * @param {Module} module
     * @param {string} kind
     * @param {string} maker the name of the call that makes it, which writes its address
     * @param {(out: bigint) => number} make
     */
    constructor(module, kind, maker, make) {
        this.module = module;
        this.kind = kind;
        this.address = module.lent(ADDRESS, (out) => {
            lookAt(module, maker, make(out));
            return new DataView(module.calls.memory.buffer).getBigUint64(Number(out), true);
        });
        FORGOTTEN.register(this, { module, kind, at: this.address }, this);
    }

    /** Its address; fails where it was given back. */
    get at() {
        if (!this.address) throw new Error(`the ${this.kind} was given back`);
        return this.address;
    }

    /**
     * Calls `yz_KIND_NAME`.
     *
     * @param {string} name
     * @param {...(bigint | number)} given
     */
    call(name, ...given) {
        const call = `${this.kind}_${name}`;
        lookAt(this.module, call, this.module.objects[`yz_${call}`](this.at, ...given));
    }

    giveBack() {
        if (!this.address) return;
        FORGOTTEN.unregister(this);
        this.module.objects[`yz_${this.kind}_destroy`](this.address);
        this.address = 0n;
    }
}

/**
 * Throws where a call was refused.
 *
 * @param {Module} module
 * @param {string} call
 * @param {number} result
 */
function lookAt(module, call, result) {
    if (!result) return;
    const [name, text] = [module.calls.yz_result_name(result), module.calls.yz_result_text(result)].map(
        (at) => module.text(at));
    throw new CallRefused(result, name, `${call}: ${text}`);
}

/** A list that a deferred context finished. Nothing changes it, and any device executes it, as often as wanted. */
export class CommandList {
    /** @param {Held} held */
    constructor(held) {
        this.held = held;
    }

    /** Gives its memory back. */
    dispose() {
        this.held.giveBack();
    }
}

/** The calls that both kinds of context have. */
export class Context {
    /** @param {Held} held */
    constructor(held) {
        this.held = held;
    }

    /**
     * Sets the vertices, at most 65,536.
     *
     * @param {Vertices} vertices
     */
    iaSetVertices(vertices) {
        const bytes = vertexBytes(vertices);
        this.lentBytes(bytes, (area) => this.held.call("set_vertices", area, BigInt(bytes.length / 16)));
    }

    /**
     * Sets the indices, at most 65,536.
     *
     * @param {Iterable<number>} indices
     */
    iaSetIndices(indices) {
        const words = indices instanceof Uint16Array
            ? indices
            : Uint16Array.from(Array.from(indices, (it) => whole("index", it, 0xffff)));
        const bytes = new Uint8Array(words.buffer, words.byteOffset, words.byteLength);
        this.lentBytes(bytes, (area) => this.held.call("set_indices", area, BigInt(words.length)));
    }

    /**
     * Says how vertices make triangles; nothing can be drawn before.
     *
     * @param {number} topology a PrimitiveTopology
     */
    iaSetTopology(topology) {
        this.held.call("set_topology", whole("topology", topology));
    }

    /**
     * Says which triangles are drawn, whether the scissor rectangle acts, and what is added to stored depths.
     *
     * @param {Raster} state
     */
    rsSetState({
        cullMode = CullMode.BACK,
        frontCounterClockwise = false,
        scissorEnable = false,
        depthBias = 0,
    } = {}) {
        const flags = [frontCounterClockwise, scissorEnable].map(Number);
        this.described("set_raster", RASTER_DESC,
            [whole("cullMode", cullMode), ...flags, signed("depthBias", depthBias)]);
    }

    /**
     * Sets the scissor rectangle; right and bottom are the first pixels outside.
     *
     * @param {number} left
     * @param {number} top
     * @param {number} right
     * @param {number} bottom
     */
    rsSetScissor(left, top, right, bottom) {
        this.lentWords(wholes({ left, top, right, bottom }), (area) => this.held.call("set_scissor", area));
    }

    /**
     * Says how depth and stencil are tested and changed.
     *
     * @param {DepthStencil} state
     * @param {number} [stencilRef]
     */
    omSetDepthStencil({
        depthEnable = true,
        depthWrite = true,
        depthFunc = ComparisonFunc.LESS,
        stencilEnable = false,
        stencilReadMask = 255,
        stencilWriteMask = 255,
        frontFace = {},
        backFace = {},
    } = {}, stencilRef = 0) {
        const tests = [...[depthEnable, depthWrite].map(Number), whole("depthFunc", depthFunc), Number(stencilEnable)];
        const masks = whole("stencilReadMask", stencilReadMask, 255) |
            whole("stencilWriteMask", stencilWriteMask, 255) << 8;
        this.described("set_depth_stencil", DEPTH_STENCIL_DESC,
            [...tests, ...faceNumbers(frontFace), ...faceNumbers(backFace), masks], whole("stencilRef", stencilRef, 255));
    }

    /**
     * Says what is written of a triangle's colour.
     *
     * @param {Blend} state
     */
    omSetBlend({ logicOpEnable = false, logicOp = LogicOp.NOOP, writeMask = ColorWriteEnable.ALL } = {}) {
        this.described("set_blend", BLEND_DESC, [Number(logicOpEnable), ...wholes({ logicOp, writeMask })]);
    }

    /**
     * Leaves out draws and clears where a query's result, whether anything passed, is the value; null ends that.
     *
     * @param {number | null} query
     * @param {boolean} [value]
     */
    setPredication(query, value = false) {
        if (query === null) this.held.call("clear_predication");
        else this.held.call("set_predication", whole("query", query), Number(value));
    }

    /**
     * Draws so many vertices.
     *
     * @param {number} count
     * @param {number} [start]
     */
    draw(count, start = 0) {
        this.held.call("draw", ...wholes({ count, start }));
    }

    /**
     * Draws by so many indices, with `base` added to each.
     *
     * @param {number} count
     * @param {number} [start]
     * @param {number} [base]
     */
    drawIndexed(count, start = 0, base = 0) {
        this.held.call("draw_indexed", ...wholes({ count, start }), signed("base", base));
    }

    /**
     * Gives every pixel this colour.
     *
     * @param {Colour} colour
     */
    clearColor(colour) {
        this.held.call("clear_color", ...channels(colour));
    }

    /**
     * Gives every pixel a depth, 0 to 1, and a stencil.
     *
     * @param {number} [depth]
     * @param {number} [stencil]
     */
    clearDepthStencil(depth = 1, stencil = 0) {
        this.held.call("clear_depth_stencil", storedDepth(depth), whole("stencil", stencil, 255));
    }

    /**
     * Begins to count, under a query, the pixels that pass both tests.
     *
     * @param {number} query
     */
    begin(query) {
        this.held.call("begin", whole("query", query));
    }

    /**
     * Ends to count under a query.
     *
     * @param {number} query
     */
    end(query) {
        this.held.call("end", whole("query", query));
    }

    /**
     * @param {string} name
     * @param {number} size that of the description
     * @param {number[]} numbers
     * @param {...number} more
     */
    described(name, size, numbers, ...more) {
        this.lentWords([size, 0, ...numbers], (area) => this.held.call(name, area, ...more));
    }

    /**
     * @param {number[]} words
     * @param {(area: bigint) => void} use
     */
    lentWords(words, use) {
        this.held.module.lentWords(words, use);
    }

    /**
     * @param {Uint8Array} bytes
     * @param {(area: bigint) => void} use
     */
    lentBytes(bytes, use) {
        const { module } = this.held;
        module.lent(bytes.length, (area) => {
            module.bytes(area, bytes.length).set(bytes);
            use(area);
        });
    }
}

/**
 * Numbers by their names, each a whole one of 32 bits.
 *
 * @param {Record<string, number>} named
 */
function wholes(named) {
    return Object.entries(named).map(([name, value]) => whole(name, value));
}

/** @param {Face} face */
function faceNumbers({
    stencilFailOp = StencilOp.KEEP,
    stencilDepthFailOp = StencilOp.KEEP,
    stencilPassOp = StencilOp.KEEP,
    stencilFunc = ComparisonFunc.ALWAYS,
}) {
    return wholes({ stencilFailOp, stencilDepthFailOp, stencilPassOp, stencilFunc });
}

/** A context that records lists, which immediate contexts execute. */
export class DeferredContext extends Context {
    /** @param {Module} module */
    constructor(module) {
        super(new Held(module, "context", "context_create", (out) => module.objects.yz_context_create(out)));
    }

    /**
     * The list that was recorded. The next one begins in the state of this one where that is restored, else in the
     * default state.
     *
     * @param {{restore?: boolean}} options
     */
    finishCommandList({ restore = false } = {}) {
        const { module, at } = this.held;
        const finish = (/** @type {bigint} */ out) => module.objects.yz_context_finish(at, Number(restore), out);
        return new CommandList(new Held(module, "list", "context_finish", finish));
    }
}

/** The context that draws, executes lists and answers. */
export class ImmediateContext extends Context {
    /** Runs all that is pending. */
    flush() {
        this.held.call("flush");
    }

    /**
     * Executes a list. The context goes on in its own state where that is restored, else in the default state.
     *
     * @param {CommandList} list
     * @param {{restore?: boolean}} options
     */
    execute(list, { restore = false } = {}) {
        if (list.held.module !== this.held.module) throw new Error("the list is one of another module");
        this.held.call("execute", list.held.at, Number(restore));
    }

    /**
     * How many pixels the last begin and end of a query counted.
     *
     * @param {number} query
     */
    getData(query) {
        const { module } = this.held;
        return module.lent(COUNT, (area) => {
            this.held.call("get_data", whole("query", query), area);
            return Number(new DataView(module.calls.memory.buffer).getBigUint64(Number(area), true));
        });
    }

    /**
     * What a pixel holds; its depth as it is stored, 0 to 16,777,215.
     *
     * @param {number} x
     * @param {number} y
     * @returns {PixelValue}
     */
    pixel(x, y) {
        const { module } = this.held;
        return module.lent(PIXEL, (area) => {
            this.held.call("pixel", ...wholes({ x, y }), area);
            const told = new DataView(module.calls.memory.buffer, Number(area), PIXEL);
            const colour = [4, 5, 6, 7].map((at) => told.getUint8(at));
            return { x, y, colour, depth: told.getUint32(0, true), stencil: told.getUint8(8) };
        });
    }

    /**
     * What each clear and triangle that is pending does to a pixel that it touches. None of them runs for it; what runs
     * or executes leaves none pending. An event has line 0; `item` counts what is pending and `command` the calls, of
     * which a state that is kept is the first.
     *
     * @param {number} x
     * @param {number} y
     * @param {number} [room] how many events are expected
     * @returns {Event[]}
     */
    history(x, y, room = EXPECTED_EVENTS) {
        const { module, at } = this.held;
        return module.lent(COUNT + module.layout.event.size * room, (area) => {
            const events = area + BigInt(COUNT);
            const result = module.objects.yz_device_history(at, ...wholes({ x, y }), events, BigInt(room), area);
            const count = Number(new DataView(module.calls.memory.buffer).getBigUint64(Number(area), true));
            if (result === EVENTS_TOO_SMALL) return this.history(x, y, count);
            lookAt(module, "device_history", result);
            return module.eventsIn(events, count);
        });
    }
}

/** A target of `width` by `height` pixels, 1 to 4,096 each: `immediate` draws on it, those of `deferred` record lists. */
export class Device {
    /**
     * @param {Module} module
     * @param {number} width
     * @param {number} height
     */
    constructor(module, width, height) {
        const words = [DEVICE_DESC, 0, ...wholes({ width, height })];
        this.width = width;
        this.height = height;
        this.held = new Held(module, "device", "device_create",
            (out) => module.lentWords(words, (desc) => module.objects.yz_device_create(desc, out)));
        this.immediate = new ImmediateContext(this.held);
        this.deferred = Array.from({ length: CONTEXTS }, () => new DeferredContext(module));
    }

    /**
     * Reads a rectangle of a plane, the whole target where none is told, row by row without gaps: into an array of
     * bytes, for depths of words, a new one where none is told. The array is the answer.
     *
     * @param {number} plane a Plane
     * @param {Reading} options
     * @returns {any}
     */
    read(plane, { left = 0, top = 0, right = this.width, bottom = this.height, into } = {}) {
        const rect = wholes({ left, top, right, bottom });
        const row = Math.max(0, right - left) * (plane === Plane.STENCIL8 ? 1 : 4);
        const size = row * Math.max(0, bottom - top);
        // (what is outside is refused before there is memory for it)
        if (size && (right > this.width || bottom > this.height)) this.immediate.pixel(right - 1, bottom - 1);
        const Words = plane === Plane.DEPTH32 ? Uint32Array : Uint8Array;
        const made = into || new Words(size / Words.BYTES_PER_ELEMENT);
        if (made.BYTES_PER_ELEMENT !== Words.BYTES_PER_ELEMENT || made.byteLength < size)
            throw new RangeError(`into: a ${Words.name} of ${size} bytes is wanted`);
        const { module } = this.held;
        module.lent(rect.length * 4 + size, (area) => {
            new Uint32Array(module.calls.memory.buffer, Number(area), rect.length).set(rect);
            const at = area + BigInt(rect.length * 4);
            this.held.call("read", whole("plane", plane), area, at, BigInt(size), BigInt(row));
            const bytes = module.bytes(at, size);
            new Uint8Array(made.buffer, made.byteOffset, size).set(bytes);
        });
        return made;
    }

    /**
     * Plays lines of a script, as they stand behind its target; yields each answer line as it comes. Its deferred
     * contexts, with the lists that they finish, are others than `deferred`: the device keeps them for scripts. A line
     * that has a fault or is refused throws a CallRefused and changes nothing.
     *
     * @param {string} lines
     * @returns {Generator<string, void, void>}
     */
    *play(lines) {
        const { module } = this.held, bytes = new TextEncoder().encode(lines);
        const area = module.taken(BigInt(PLAYED + bytes.length)), text = area + BigInt(PLAYED);
        try {
            module.bytes(text, bytes.length).set(bytes);
            for (let begin = 0; begin < bytes.length;) {
                const rest = [text + BigInt(begin), BigInt(bytes.length - begin)];
                lookAt(module, "play", module.objects.yz_play(this.held.at, ...rest, area));
                const told = new DataView(module.calls.memory.buffer, Number(area), PLAYED);
                begin += Number(told.getBigUint64(0, true));
                const size = Number(told.getBigUint64(2 * COUNT, true));
                if (size) yield new TextDecoder().decode(module.bytes(area + BigInt(3 * COUNT), size - 1));
            }
        } finally {
            module.calls.free(area);
        }
    }

    /**
     * The target's colours as they are now, as ImageData takes them.
     *
     * @returns {Picture}
     */
    picture() {
        const { width, height } = this;
        const pixels = new Uint8ClampedArray(4 * width * height);
        this.read(Plane.RGBA8, { into: pixels });
        return { width, height, pixels };
    }

    /**
     * Depth and stencil of the target as they are now.
     *
     * @returns {{width: number, height: number, depth: Uint32Array, stencil: Uint8Array}}
     */
    planes() {
        const { width, height } = this;
        const depth = new Uint32Array(width * height), stencil = new Uint8Array(width * height);
        this.read(Plane.DEPTH32, { into: depth });
        this.read(Plane.STENCIL8, { into: stencil });
        return { width, height, depth, stencil };
    }

    /** Gives the memory of the target and of the contexts back; lists stay. */
    dispose() {
        for (const { held } of [this, ...this.deferred]) held.giveBack();
    }
}

// (`using` of newer engines calls it)
const DISPOSE = /** @type {{dispose?: symbol}} */ (Symbol).dispose;
if (DISPOSE) {
    for (const { prototype } of [Device, CommandList])
        Object.defineProperty(prototype, DISPOSE, { value: prototype.dispose, configurable: true, writable: true });
}
