// The lists and texts of message_bench by v8.serialize and v8.deserialize: an array of BigInts for a list, since chains of
// objects that are so long do not fit its stack; and a string.
const v8 = require('v8');
const rounds = Number(process.argv[2]);

function time(name, size, value) {
  const serialized = v8.serialize(value);
  let least = [Infinity, Infinity];
  for (let round = 0; round < rounds; round++) {
    const from = process.hrtime.bigint();
    const bytes = v8.serialize(value);
    const middle = process.hrtime.bigint();
    v8.deserialize(bytes);
    const end = process.hrtime.bigint();
    least = [Math.min(least[0], Number(middle - from)), Math.min(least[1], Number(end - middle))];
  }
  console.log(`node ${name} ${size} ${serialized.length} ${least[0]} ${least[1]}`);
}

for (const size of [1, 1000, 5000, 10000, 20000]) {
  time('list', size, Array.from({ length: size }, (_, item) => BigInt.asIntN(64, BigInt(item) * 0x0123456789abn)));
}
for (const size of [200000, 400000]) {
  time('text', size, Array.from({ length: size }, (_, place) => String.fromCharCode(97 + (place % 26))).join(''));
}
