// What browsers have and the compiler's own list of names lacks.

declare class CompressionStream {
    constructor(format: "deflate" | "deflate-raw" | "gzip");
    readonly readable: ReadableStream<Uint8Array>;
    readonly writable: WritableStream<Uint8Array>;
}

declare class DecompressionStream extends CompressionStream {}
