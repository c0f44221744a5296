let Math = 1;
x ** 2;
