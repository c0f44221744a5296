// Programs of every kind that a run takes, a line each.
a; b.c; d[e]; f(g, h); i.j(k); l[m](n); new o(p);
a = b; c.d = e; f[g] = h; i = j = k;
a += b; c.d -= e; f[g] *= h; i **= j; k.l %= m;
a ||= b; c.d &&= e; f[g] ??= h; let i = j; i ||= k; i &&= l; i ??= m;
a++; --b; c.d++; --e[f]; let g = h; g++; --g;
x = a++; x = --b; x = c.d++; x = ++e[f]; let g = h; x = g--; x = ++g;
x = a += b; x = c.d ||= e; x = f[g] = h; x = (i, j); x = k && l; x = m ? n : o; x = !p; x = void q; x = delete r.s;
a ?? b; c || d; e && f; g ? h : i; (j, k); !l; void m;
a + b; c - d; e * f; g / h; i % j; k ** l;
a < b; c <= d; e > f; g >= h; i << j; k >> l; m >>> n; o & p; q | r; s ^ t;
-a; +b; ~c; typeof d; typeof e.f; let g = h; typeof g;
a === b; c !== d; e == f; g != h; i === null; j !== void 0; k == null; l != void 0;
delete a.b; delete c[d]; delete (e?.f); delete g?.h.i;
a?.b; a?.[b]; a?.(b); a.b?.c.d; a?.b.c?.(d).e; (a?.b).c; (a?.b)(c); a?.b(c)?.[d];
`x`; `a${b}c${d}e`; a`b${c}d`; e.f`g`; h?.i;
[a, , b]; [c, [d]]; x = [e, f]; y = { a: 1, b: c, [d]: e, "f": g, "h": i }; z = {};
x = { ...a }; y = { b: c, ...d, e: f }; z = { ...{ g: h }, i: j };
f(...a); g(b, ...c, d); h.i(...j); x = [...k, l, ...m];
x = /a/g; y = [/b/]; z = { c: /d/ };
({ a, b: c, [d]: e } = f);
({ a = b, c: d = e, f: { g } } = h);
({ a: b.c, d: e[f], ...g } = h);
({ ...a.b } = c);
[a, b] = c; [d.e, f[g]] = h;
[a = b, [c] = d, ...e] = f;
[, a, , b.c, ,] = d;
[, , ...a] = b; [, ...c.d] = e; var [, f, ...g] = h;
[...a.b] = c;
({} = a); [] = b;
var { a, b: c, ...d } = e; a; c; d;
let [a, b = c, ...d] = e; a; b; d;
const { a: [b], [c]: d = e } = f; b; d;
for (var a = b, c = d; e; f) g;
for (let a = b; a; a = c) a();
for (; a; ) { b; break; c; }
for (;;) { if (a) break; if (b) continue; c; }
while (a) b; do c; while (d);
l: while (a) { while (b) { if (c) continue l; if (d) break l; if (e) break; f; } g; } h;
l: { a; if (b) break l; c; } d;
l: m: for (;;) { if (a) continue l; if (b) break m; c; break; }
for (const a of b) c;
for (let a of b) { if (c) continue; if (d) break; a(); }
for (a.b of c) { d; }
for ([a, b.c] of d) e;
for (const { a, b = c } of d) { a; e(b); }
l: for (const a of b) for (const c of d) { if (e) continue l; if (f) break l; g; }
for (const a in b) c(a);
for (a.b in c) d;
for (var a in b) { if (c) break; if (d) continue; e; } f(a);
switch (a) { case b: c; case d: e; break; default: f; case g: h; }
switch (a) { default: b; case c: d; }
switch (a) { case 1: let b = c; b(); case 2: b; }
l: switch (a) { case b: switch (c) { case d: break l; default: e; } f; default: g; }
try { a; b(); } catch (c) { d(c); } e;
try { a; } finally { b; } c;
try { a(); } catch { b; } finally { c; }
try { throw a; } catch ({ b, c = d }) { e; }
try { throw a; } catch ([b, ...c]) { d; } e;
l: while (a) { try { b; if (c) continue l; break; } finally { d; } e; }
l: { try { a; throw b; } catch (c) { if (d) break l; throw c; } finally { if (e) break l; } f; }
for (const a of b) { try { c; break; } finally { d; } }
for (const a of b) { try { throw c; } catch (d) { continue; } finally { e; } }
try { for (const a of b) { c(); } } catch (d) { e; }
try { [a, b.c] = d; } catch (e) { f; }
try { ({ a, ...b } = c); } finally { d; }
if (a) b; else if (c) d; else { e; }
throw a;
let a = b; { let a = c; { let a = d; a(); } a(); } a();
var a = b; { var a = c; a(); } let d = e; { let d = a; d(); } d();
let a; a; a = b; a(); { let a; a = c; a; }
const a = b; { const c = a; c(a); } a(d);
var a, b; a; b = a; if (c) var d = e; d;
for (let i = a; b; c) { let i = d; i(); } i;
for (let a of b) { let a = c; a(); }
switch (a) { case b: { let a = c; a(); } }
a: b: c: d; ; ; debugger; e;
"a directive"; a;
x = y.z = [a.b, { c: d.e }]; f[g.h](i?.j, ...k);
a.b.c = d; a.b.c.e(f)(g).h; (a, b.c)(d); (a.b)(c);
a ? b.c : d; (a ? b : c)(d); (a || b).c; (a = b).c; (a = b)(c);
x = a.b ?? (c.d ||= e); y = a?.[b ?? c];
typeof a.b === "function" ? a.b(c) : d; typeof e === "undefined" || e(f);
new a.b(c); new (a?.b)(c); new a(...b).c;
var a = b, c = { a, d: a }; [c.d] = e; ({ d: c.d } = f);
