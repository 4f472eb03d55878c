// The WebAssembly module that YUZURATCHET_MODULE names, for the tests that want it.

import fs from "fs";

import { Module } from "../engine/module.js";
import { tables } from "./tables.js";

const path = process.env.YUZURATCHET_MODULE;

/** Why there is no module, or false. */
export const missing = path ? false : "YUZURATCHET_MODULE names no module";

export const module = path ? await Module.of(fs.readFileSync(path), tables.library) : null;
