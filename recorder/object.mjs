// What a module of an object can import: `blocked`, which a method of its `Model` returns if it has to wait.

export const blocked = Symbol.for("sabsim.blocked");
