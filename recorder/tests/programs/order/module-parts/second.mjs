// Two modules import it.
console.log("second");
export const second = 2;
