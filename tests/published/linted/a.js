let a = 1;
if (a == 1) unknown();
