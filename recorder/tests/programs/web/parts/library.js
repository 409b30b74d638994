"use strict";
class Lock { name = "a lock"; }
const LIMIT = 7, [...pair] = [1, 2];
{ let inner = 3; }
function helper() { return `helps ${LIMIT}`; }
