big = 2n ** k;
small = 3 ** k;
