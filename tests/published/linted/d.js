let d = 1;
if (d == 1) unknown();
