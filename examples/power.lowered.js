let x = 1;
x = Math.pow(x, y);
x.p = Math.pow(z, 2);
