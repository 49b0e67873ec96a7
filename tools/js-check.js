// Runs the codes that the program code_forms prints by this engine, and compares what it makes of them with what the machine of
// homes and panels made: the end of the run, each value by its structure, the cells and the threads that wait.
"use strict";

const { readFileSync } = require("node:fs");

const PRIMITIVES = ["say", "set_text", "get_text", "on", "read", "write", "watch", "show"];
const WORLDS = ["home", "server", "panel"];

// The cases: a name, the lines of the code, and what the machine left.
function readCases(lines) {
  const cases = [];
  for (const line of lines) {
    const [word, ...rest] = line.split(" ");
    if (word === "case") cases.push({ name: rest.join(" "), code: [], left: [] });
    else if (word === "const") cases.at(-1).code.push(line);
    else cases.at(-1).left.push([word, rest]);
  }
  return cases;
}

// The values of the region's objects, in order: kinds are a byte a unit, content eight.
function readObjects(kinds, content) {
  const bytes = Buffer.from(content, "hex");
  const kindOf = (unit) => parseInt(kinds.slice(2 * unit, 2 * unit + 2), 16);
  const numberOf = (unit) => bytes.readBigInt64BE(8 * unit);
  const objects = [];
  const valueOf = (unit) => {
    switch (kindOf(unit)) {
      case 0: return null;
      case 1: return numberOf(unit) === 1n;
      case 2: return numberOf(unit);
      default: return objects[Number(numberOf(unit))];
    }
  };
  for (let unit = 0; unit < kinds.length / 2; ) {
    const count = Number(numberOf(unit));
    if (kindOf(unit) === 5) {
      objects.push(Array.from({ length: count }, (_, place) => valueOf(unit + 1 + place)));
      unit += 1 + count;
    } else {
      objects.push(bytes.toString("latin1", 8 * (unit + 1), 8 * (unit + 1) + count));
      unit += 1 + Math.ceil(count / 8);
    }
  }
  return objects;
}

// What the machine left, as values of the language.
function readLeft(left) {
  const words = new Map(left);
  const objects = readObjects(words.get("kinds")[0], words.get("content")[0]);
  const valueOf = (word) => {
    if (word === "null") return null;
    if (word === "true" || word === "false") return word === "true";
    return word[0] === "i" ? BigInt(word.slice(1)) : objects[Number(word.slice(1))];
  };
  const [out, operands] = left[0];
  const names = { asks: PRIMITIVES, sends: WORLDS }[out];
  const ended = names ? [out, names[Number(operands[0])], ...operands.slice(1).map(valueOf)] : [out, ...operands];
  return { ended, cells: words.get("cells").map(valueOf), threads: words.get("threads").map(valueOf) };
}

// What the engine makes of the code's block 0, entered with null.
function run(code) {
  const cells = [];
  const threads = [];
  const page = {
    go: (closure, argument) => ["go", closure, argument],
    ask: (name, argument, next) => ["asks", name, argument, next],
    send: (world, closure, argument) => ["sends", world, closure, argument],
    done: () => ["ended"],
    cell: (value) => BigInt(cells.push(value) - 1),
    load: (place) => cells[Number(place)],
    store: (place, value) => ((cells[Number(place)] = value), null),
    spawn: (closure) => (threads.push(closure, null), null),
  };
  const labels = code.map((line) => /^const L(\d+) /.exec(line)[1]);
  const source = `"use strict"; ${code.join("\n")}\nreturn new Map([${labels.map((label) => `[${label}n, L${label}]`)}]);`;
  const blocks = new Function(...Object.keys(page), source)(...Object.values(page));
  let ended = ["go", [0n], null];
  while (ended[0] === "go") ended = blocks.get(ended[1][0])(ended[1], ended[2]);
  return { ended, cells, threads };
}

// A value's text: one for each value.
function shown(value) {
  if (typeof value === "bigint") return `${value}n`;
  if (Array.isArray(value)) return `[${value.map(shown).join(", ")}]`;
  if (value !== null && typeof value === "object") return shown(Object.values(value));
  return value === undefined ? "undefined" : JSON.stringify(value);
}

// The statements and endings of the subset: what stands in no code is no check of it.
const FORMS = [
  "= null;", "= true;", "= false;", /= \d+n;/, '= "', "= [", /= \w+\[\d+\];/, / \+ \w+\);/, / - \w+\);/, / \* \w+\);/, / \/ \w+\);/,
  /= \w+ \+ \w+;/, "String(", " === ", " < ", "cell(", "load(", "store(", "spawn(", "if (", "go(", "done(",
  'send("home"', 'send("server"', 'send("panel"', 'ask("say"', 'ask("set_text"', 'ask("get_text"', 'ask("on"', 'ask("show"',
];

const cases = readCases(readFileSync(process.argv[2], "utf8").trimEnd().split("\n"));
let failed = 0;
for (const form of FORMS) {
  if (cases.some(({ code }) => code.some((line) => (form instanceof RegExp ? form.test(line) : line.includes(form))))) continue;
  console.log(`js-check: no code has ${form}`);
  failed += 1;
}
for (const { name, code, left } of cases) {
  const engine = shown(run(code));
  const machine = shown(readLeft(left));
  if (engine === machine) continue;
  console.log(`js-check: ${name}: the engine has ${engine}, the machine ${machine}`);
  failed += 1;
}
console.log(`js-check: ${cases.length} codes, ${FORMS.length} forms, ${failed} failed`);
process.exit(failed === 0 ? 0 : 1);
