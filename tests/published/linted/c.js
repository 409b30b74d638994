let c = 1;
if (c == 1) unknown();
