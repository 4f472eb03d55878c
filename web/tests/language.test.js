// Words of a script: what each is, what may stand where, and which letters are to blame.

import assert from "assert/strict";
import test from "node:test";

import { blame } from "../engine/blame.js";
import { Language } from "../engine/language.js";
import { tables } from "./tables.js";

const language = new Language(tables);

/** The kinds of a line's words. */
function kinds(text, line = 2) {
    return language.tokens(text, line).map(({ kind }) => kind).join(" ");
}

test("each word of a line is an actor, a word, a number or wrong", () => {
    assert.equal(kinds("target 4 4", 1), "word number number");
    assert.equal(kinds("i clearc 1 2 3 255"), "actor word number number number number");
    assert.equal(kinds("i clearc 1 2 3 256 0"), "actor word number number number wrong wrong");
    assert.equal(kinds("i exec d0 0 1"), "actor word actor number number");
    assert.equal(kinds("d0 exec d0 0 1"), "actor wrong wrong wrong wrong");
    assert.equal(kinds("d8 flush"), "wrong wrong");
    assert.equal(kinds("i raster 3 0 0 0"), "actor word number number number wrong");
    assert.equal(kinds("i vb 0 -5 0 1 2 3 4 0 0 -1"),
        "actor word number number number number number number number number number wrong");
    assert.equal(kinds("i target 4 4"), "actor wrong wrong wrong");
    assert.equal(kinds(""), "wrong");
    assert.deepEqual(language.tokens("i draw 30 0", 2)[2], { text: "30", start: 7, end: 9, kind: "number" });
});

/** What is offered behind a text, as the texts that are put in. */
function offered(text, line = 2, column = text.length) {
    return language.completions({ text, line, column }).items.map((item) => item.text);
}

test("what may stand where the caret is", () => {
    assert.deepEqual(offered("t", 1), ["target"]);
    assert.deepEqual(offered("d"), ["d0", "d1", "d2", "d3", "d4", "d5", "d6", "d7"]);
    assert.deepEqual(offered("i dr"), ["draw", "drawi"]);
    assert.deepEqual(offered("d0 fi"), ["finish"]);
    assert.deepEqual(offered("i fi"), []);
    assert.deepEqual(offered("i exec "), ["d0", "d1", "d2", "d3", "d4", "d5", "d6", "d7"]);
    assert.deepEqual(offered("i topology TRIANGLES"), ["5"]);
    assert.deepEqual(offered("i ds 1 1 less"), ["2", "4"]);
    assert.deepEqual(offered("i clearc 1"), []);
    assert.deepEqual(offered("i topology 4"), []);
    assert.deepEqual(language.completions({ text: "i topo 4", line: 2, column: 4 }), {
        start: 2, end: 6, items: [{ text: "topology", label: "topology" }],
    });
});

const SIZE = { width: 8, height: 4 };

/** The letters that are to blame. */
function blamed(text, number, line = 2) {
    const place = blame(language, text, { line, number }, SIZE);
    return place && (place.start === place.end ? `at ${place.start}` : text.slice(place.start, place.end));
}

test("the letters of a fault", () => {
    assert.equal(blamed("i clearc  1 2 3 4", 101), "  ");
    assert.equal(blamed(" i flush", 101), " ");
    assert.equal(blamed("i flush ", 101), " ");
    assert.equal(blamed("i\tflush", 101), "\t");
    assert.equal(blamed("i flüsh", 101), "ü");
    assert.equal(blamed("", 101), "at 0");
    assert.equal(blamed("targe 4 4", 102, 1), "targe");
    assert.equal(blamed("clearc 1 2 3 4", 103), "clearc");
    assert.equal(blamed("i topologie 4", 104), "topologie");
    assert.equal(blamed("i", 104), "at 1");
    assert.equal(blamed("i clearc 1 2 3", 105), "at 14");
    assert.equal(blamed("i clearc 1 2 3 4 5", 105), "5");
    assert.equal(blamed("i vb 1 2 3 4 5 6 7 8 9", 105), "8");
    assert.equal(blamed("i clearc 1 2 256 999", 106), "256");
    assert.equal(blamed("i clearc 1 02 3 4", 106), "02");
    assert.equal(blamed("i raster 3 0 0 0", 106), "0");
    assert.equal(blamed("i exec i 0 1", 106), "i");
    assert.equal(blamed("i exec d0 7 1", 107), "7");
    assert.equal(blamed("target 4 x", 106, 1), "x");
});

test("the letters of a refusal", () => {
    assert.equal(blamed("target 4 4097", 2, 1), "4097");
    assert.equal(blamed("target 0 4", 2, 1), "0");
    assert.equal(blamed("i vb 0 0 0 1 1 1 1 0 268435457 0 1 1 1 1", 3), "268435457");
    assert.equal(blamed("i vb 0 268435457 0 1 1 1 1 268435458 0 0 1 1 1 1", 3), "268435458");
    assert.equal(blamed("i cleards 16777216 0", 3), "16777216");
    assert.equal(blamed("i draw 30 0", 5), "30");
    assert.equal(blamed("i drawi 3 0 99", 6), "99");
    assert.equal(blamed("i draw 3 0", 7), "draw");
    assert.equal(blamed("i scissor 5 0 4 4", 8), "5");
    assert.equal(blamed("i scissor 0 5 4 4", 8), "5");
    assert.equal(blamed("i scissor 0 0 4097 4", 8), "4097");
    assert.equal(blamed("i scissor 0 0 4 4097", 8), "4097");
    assert.equal(blamed("i begin 3", 9), "3");
    assert.equal(blamed("i flush", 9), "flush");
    assert.equal(blamed("i end 3", 10), "3");
    assert.equal(blamed("i pixel 8 0", 15), "8");
    assert.equal(blamed("i pixel 0 4", 15), "4");
    assert.equal(blamed("i query 5", 17), "5");
    assert.equal(blamed("i flush", 1), null);
});
