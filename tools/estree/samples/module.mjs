import a, { b, default as c, "a string" as d } from "m";
import * as e from "n";
import f, * as g from "o";
import "p";
import {} from "q";
import h from "r" with { type: "json", "other-key": "text" };
export { b, c as x, d as "another string" };
export default (function () {})() + class {};
export { i, j as k, "a string" as l } from "s";
export {};
export * from "t" with { type: "json" };
export * as m from "u";
export * as "all of it" from "v";
export var n = 1, o;
export let p;
export const q = 2;
export function r() {}
export class S {}
{ using t = a, u = b; }
for (using v of w) ;
import.meta.url;
