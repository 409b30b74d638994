// Its export is there after a timer.
export default await new Promise((done) => { setTimeout(() => done([1, 2, 3]), 5); });
