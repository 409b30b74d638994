// It reads a table under the lock in its shared mode, or writes it.
onmessage = async ({ data: { table, writes, mode } }) => {
  await navigator.locks.request("table", { mode }, async () => {
    if (writes) for (let at = 0; at < table.length; at += 1) table[at] += 1;
    else if (table.some((each) => each !== table[0])) throw new Error("the table is torn");
    await null;
  });
  postMessage("is done");
};
