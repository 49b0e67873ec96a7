// The loops of machine_bench as JavaScript: blocks that enter each other through a trampoline, on wrapped 64-bit numbers.
const turns = BigInt(process.argv[2]);
const wrap = (n) => BigInt.asIntN(64, n);
const work = [
  () => null,
  (e, a, n, m) => { for (let i = 0; i < 10; i++) { const x = wrap(n + m); const y = wrap(m * m); if (x === y) kept = x; } },
  (e) => { for (let i = 0; i < 10; i++) { const x = e[0]; if (x === 1n) kept = x; } },
  (e, a, n, m) => { for (let i = 0; i < 10; i++) { const x = n < m; const y = n === m; if (x === y) kept = n; } },
  (e, a, n, m) => { const pair = [n, m]; const x = pair[0]; const y = pair[1]; if (x === y) kept = pair; },
  (e, a, n, m) => { const x = String(m); const y = x + x; if (x === y) kept = y; },
];
let kept = null;
let next = null;
const go = (closure, value) => { next = [closure, value]; };
for (let kind = 0; kind < work.length; kind++) {
  const block = (e, a) => {
    const one = 1n;
    const less = wrap(a - one);
    const more = one < a;
    work[kind](e, a, one, less);
    if (more) { return go(e, less); } else { return null; }
  };
  const from = process.hrtime.bigint();
  next = [[0n], turns];
  while (next !== null) {
    const [closure, value] = next;
    next = null;
    block(closure, value);
  }
  console.log(`nodeloop${kind} ${turns} ${process.hrtime.bigint() - from}`);
}
