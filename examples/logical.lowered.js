var _a;
const o = p;
o.x && (o.x = y);
(_a = a).b || (_a.b = c);
