let x = 1;
x **= y;
x.p = z ** 2;
