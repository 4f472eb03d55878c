// The tables that the Python package writes into the page, for the tests.

import { execFileSync } from "child_process";
import path from "path";
import { fileURLToPath } from "url";

const top = path.join(path.dirname(fileURLToPath(import.meta.url)), "..", "..");
const code = `
import json, sys
sys.path.insert(0, "python/src")
from yuzuratchet import page
print(json.dumps(page.tables()))
`;

/** @type {import("../engine/language.js").Tables} */
export const tables = JSON.parse(execFileSync("python3", ["-B", "-c", code], { cwd: top, encoding: "utf8" }));
