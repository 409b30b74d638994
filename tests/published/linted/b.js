let b = 1;
if (b == 1) unknown();
