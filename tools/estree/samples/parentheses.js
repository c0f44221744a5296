("no directive");
(function () {})(); (function () {}).a; (class {}).a; (function () {}) ? a : b; (function () {})`a`; ({}).a; ({} = a); ({ a } = b), c; ({ a }) + b; [function () {}, class {}, {}];
(let)[a] = 1; let.a; x = let[a];
for ((let)[a];;) break;
for ((let).a of b) ;
for ((let) of b) ;
for ((async) of b) ;
for (async.a of b) ;
for ((let)[a] in b) ;
for (async in b) ;
for (var a = (b in c); d in e; f in g) ;
for (var a = (b in c) ? d in e : (f in g); ; ) ;
for (var a = () => (b in c), d = () => { e in f; }, g = [h in i], j = k(l in m), { n = o in p } = q, r = !(s in t); ; ) ;
for (a = (b in c), (d in e) ? f : g; ; ) ;
for (a of (b, c)) ;
for (a in b, c) ;
(a ?? b) || c; a ?? (b || c); (a && b) ?? c; a ?? (b ?? c); (a || b) && c; a || (b || c); a && (b && c); (a ?? b) && c;
(-a) ** b; (a ** b) ** c; (typeof a) ** b; ++a ** b; a++ ** b; a ** -b; -(a ** b); (a * b) ** c; a ** (b * c);
(-a).b; -a.b; (a + b).c; a + (b + c); a - (b - c); (a + b) * c; a * (b % c); (a, b).c; (a = b).c; (a ? b : c).d; (a++).b; (a => b).c; typeof (a + b); -(-a + b); !(a, b);
a !== b === c < (d < e) << f >>> (g >> h) + i % (j * k); a == (b == c); a & (b & c); (a | b) & c; a ^ (b | c); a instanceof (b in c);
(a => b)(); (() => {})(); (() => {}) || a; a || (() => {}); a ? () => {} : b; (() => {}) ? a : b; () => ({}); () => ({}).a; () => ({} = a); () => (a, b); () => function () {}; () => ({ a }) ? b : c; x = () => {};
(a?.b).c; (a?.b)(); (a?.b)`c`; new (a?.b)(); (a?.b.c)[d]; (a?.b)?.c; (a?.())(); a?.b.c(d)[e];
new (a())(); new (a().b)(); new (a.b())(); new a.b(); new (a()[b])(); new (a())().b; new (f()`x`)(); new f`x`(); new (a ? b : c)(); new (() => {})(); new function () {}(); new (a, b)(); new (-a)(); new new a()(); new (new a().b())();
a = b = c; a = (b, c); a = b ? (c, d) : e; (a = b) ? c : d; (a ? b : c) ? d : e; a ? b : c ? d : e; a ? (b, c) : (d, e); a + (b = c); a || (b = c);
f((a, b), ...(c, d)); [(a, b), ...(c, d)]; a[b, c]; ({ a: (b, c), [(d, e)]: f, ...(g, h) }); `${a, b}`; x = (a, b); [c = (d, e)] = f;
class A extends (a, b) {} class C extends (a ? b : c) {} class D extends a.b {} class E extends f() {} class F extends {} {} class G extends (() => {}) {} class H extends (-a) {} class I { [(a, b)] = (c, d); #e; f() { return #e in this && (a, #e in b); } }
var a = (b, c), { [(d, e)]: f = (g, h) } = i; switch (a) { case b, c: d; } do a, b; while (c, d);
function g(a = (b, c)) { return a, b; }
function h() { ("no directive"); } function i() { "a directive"; "another"; a; "no directive"; }
1 .a; 1..a; 1.5.a; 0x10.a; 010 .a; 08.5.a; 1[a]; 1n.a;
