big = 2n ** k;
small = Math.pow(3, k);
