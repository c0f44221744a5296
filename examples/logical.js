const o = p;
o.x &&= y;
a.b ||= c;
