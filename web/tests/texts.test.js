// Scripts that the browser keeps.

import assert from "assert/strict";
import test from "node:test";

import { Texts, YOURS } from "../page/texts.js";

/** A store as browsers have it, with room for so many letters. */
function storeOf(room = Infinity) {
    const values = new Map();
    return {
        get length() {
            return values.size;
        },
        key: (at) => [...values.keys()][at] ?? null,
        getItem: (key) => values.get(key) ?? null,
        removeItem: (key) => values.delete(key),
        setItem(key, value) {
            if (value.length > room) throw new Error("no room");
            values.set(key, value);
        },
    };
}

const GALLERY = [{ group: "pictures", name: "fan", text: "target 1 1\n" }];

test("what is edited is there again", () => {
    const storage = storeOf();
    const texts = new Texts([...GALLERY], storage, assert.fail);
    const entry = texts.add({ group: YOURS, name: texts.unique("fan, edited"), text: "a" });
    texts.change(entry, "b");
    texts.flush();
    const again = new Texts([...GALLERY], storage, assert.fail);
    assert.deepEqual(
        again.entries.map(({ name, text }) => `${name}: ${text}`), ["fan, edited: b", "fan: target 1 1\n"]);
    again.remove(again.find("fan, edited"));
    assert.equal(storage.length, 0);
    assert.equal(new Texts([...GALLERY], storage, assert.fail).entries.length, 1);
});

test("each has a name of its own, that of another tab too", () => {
    const storage = storeOf();
    const texts = new Texts([...GALLERY], storage, assert.fail);
    assert.equal(texts.unique("fan"), "fan 2");
    texts.add({ group: YOURS, name: "fan 2", text: "" });
    assert.equal(texts.unique("fan"), "fan 3");
    storage.setItem("yuzuratchet:fan 3", "{}");
    assert.equal(texts.unique("fan"), "fan 4");
    texts.flush();
});

test("where there is no room that is told, and without a store nothing is kept", () => {
    let told = 0;
    const small = new Texts([...GALLERY], storeOf(40), () => told++);
    small.add({ group: YOURS, name: "large", text: "x".repeat(100) });
    small.flush();
    assert.equal(told, 1);
    const none = new Texts([...GALLERY], null, assert.fail);
    none.add({ group: YOURS, name: none.unique("fan"), text: "x" });
    none.flush();
    assert.equal(none.entries.length, 2);
});

test("what others write to the store is left alone", () => {
    const storage = storeOf();
    storage.setItem("another", "{}");
    storage.setItem("yuzuratchet:broken", "{");
    assert.equal(new Texts([...GALLERY], storage, assert.fail).entries.length, 1);
});
