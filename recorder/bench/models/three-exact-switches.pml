/* three-exact-switches.mjs, by hand: each call of `work` is a step on a word of the agent's own. */
byte x, y, z;

proctype zero() {
  byte time, own, found;
  for (time : 1 .. 30) { own = own }
  x = 1; x = 0;
  for (time : 1 .. 30) { own = own }
  found = y; z = found; z = 0;
  for (time : 1 .. 35) { own = own }
}

proctype one() {
  byte time, own, found;
  for (time : 1 .. 30) { own = own }
  found = x; y = found; y = 0;
  for (time : 1 .. 30) { own = own }
  found = z; assert(found != 1);
  for (time : 1 .. 35) { own = own }
}

init { atomic { run zero(); run one() } }
