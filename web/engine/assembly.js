// The triangles of a draw: which vertices each has.

const LIST = 4;

/**
 * The places of each triangle, the leading vertex first, which gives its colour.
 *
 * @param {number[]} places
 * @param {number} topology
 * @param {number | null} cut the index that cuts a strip, where the places are indices
 */
export function triangles(places, topology, cut) {
    /** @type {number[][]} */
    const found = [];
    if (topology === LIST) {
        for (let at = 0; at + 2 < places.length; at += 3) found.push(places.slice(at, at + 3));
        return found;
    }
    let begun = 0;
    for (let at = 0; at < places.length; at++) {
        if (places[at] === cut) {
            begun = at + 1;
        } else if (at - begun >= 2) {
            const [first, second, third] = places.slice(at - 2, at + 1);
            found.push((at - begun) % 2 === 0 ? [first, second, third] : [first, third, second]);
        }
    }
    return found;
}
