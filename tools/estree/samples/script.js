"use strict";
'a "quoted" directive';
var a, b = 1, { c, d: e, f = 2, [g]: h = 3, ...i } = j, [k, , l = 4, ...[m]] = n;
let o;
const p = null, q = true, r = false;
function s(t, u = 5, { v }, [w], ...x) { 'only directives'; return new.target; }
class A extends B {
  #private = 1; static #shared; field; static = 2; static static = 3; get; [computed]; 'text' = 4; 5 = 6;
  constructor() { super(); super.method(); this.#private = #private in this; }
  get accessor() { return this; } static set accessor(value) {} method() {} #hidden() {} [`computed`]() {} get get() {} static async() {}
  static { var local; local; }
  static { function twice() {} function twice() {} var twice; }
}
if (a) b; else if (c) { d; } else ;
if (a) if (b) c; else d;
for (;;) break;
for (var y = 0, z = 1; y < z; y++) continue;
for (let y = (a in b); ; ) { debugger; }
for (a, b; c, d; e, f) ;
for (const y in z) ;
for (a.b of c) ;
for ([a, b.c] of d) ;
while (a) do b; while (c);
label: for (;;) { continue label; }
switch (a) { case 1: case b, c: d; break; default: }
switch (a) {}
try { throw a, b; } catch { } finally { }
try { } catch ({ a }) { }
0x10; 1_000; 2.5.a; 1..a; 1 .a; .5; 1e400; 0n; 0b11n; 'a\n\u2028\0"'; "'"; /[/\]]\//gu; `a${b}c\u{61}${`${d}`}`; tag`\unfinished${e}`;
[a, , ...b, ,]; [,]; ({ a, b: c, 'd': e, 6: f, [g]: h, get i() {}, set i(j) {}, k() {}, [l]() {}, ...m, get: 1, set() {}, async: 2, __proto__: 3 });
+a - -b + +c - --d + ++e - f-- + !g + ~h; - -a; + +a; - --a; !!a; typeof void delete a.b;
a < !--b; a-- > b; a ** b ** c; a ?? b ?? c; a || b && c | d ^ e & f == g < h << i + j * k; a instanceof b in c;
a = b += c -= d *= e /= f %= g **= h <<= i >>= j >>>= k &= l ^= m |= n &&= o ||= p ??= q;
a ? b : c ? d : e; a, b; (a); ((b));
[a.b, c[d] = 1, , ...e.f] = g; ({ a, b: c.d, e = 1, f: g = 2, [h]: i[j], ...k.l } = m); [[a], { b }] = c;
a.b[c]?.d?.[e]?.(f).g(...h, i); (a?.b).c; delete a?.b; new a; new b.c(d, ...e); new new f()();
() => a; (a) => { b; }; (a, { b } = {}, ...[c]) => ({}); x = function () {}; x = function y() {}; x = class {}; x = class Y extends Z {};
