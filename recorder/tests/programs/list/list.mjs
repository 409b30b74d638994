// A list of numbers: each has the next one in it.
export function listOf(count) {
  let list = null;
  for (let number = count; number > 0; number -= 1) list = { number, next: list };
  return list;
}

export function sumOf(list) {
  let sum = 0;
  for (let each = list; each !== null; each = each.next) sum += each.number;
  return sum;
}
