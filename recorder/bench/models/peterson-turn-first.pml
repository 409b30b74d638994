/* peterson-turn-first.mjs, by hand. */
byte flag[2], turn, inside;

proctype agent(byte self) {
  byte time, found;
  short look;
  for (time : 1 .. 3) {
    turn = 1 - self;
    flag[self] = 1;
    look = 0;
    do
    :: flag[1 - self] == 0 -> break
    :: else ->
       if
       :: turn != 1 - self -> break
       :: else -> look++
       fi;
       if
       :: look > 300 -> goto end
       :: else
       fi
    od;
    atomic { found = inside; inside = 1 }
    assert(found == 0);
    inside = 0;
    flag[self] = 0
  }
end: skip
}

init { atomic { run agent(0); run agent(1) } }
