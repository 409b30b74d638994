/* lost-wake-up.mjs, by hand: a wait joins a line, and unlocking wakes those in the line. */
byte lock, count;
bool waits[2];

proctype agent(byte self) {
  byte time, old;
  for (time : 1 .. 2) {
    do
    :: atomic { old = lock; lock = 1 }
       if
       :: old == 0 -> break
       :: else -> waits[self] = true; !waits[self]
       fi
    od;
    count++;
    lock = 0;
    waits[1 - self] = false
  }
}

init { atomic { run agent(0); run agent(1) } }
