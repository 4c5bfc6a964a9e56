// node viewer/wasm/compare.mjs MULTICS LAB FOLDER: runs the modules of a folder and the programs themselves over the same
// words and inputs, and compares what they print and their statuses, byte for byte. The programs get no second thread where
// that can be had, for a page has none. Then one instruction of each module is changed, again and again, and the comparison must see it.
import { spawnSync } from "node:child_process";
import { chmodSync, copyFileSync, mkdtempSync, readFileSync, readdirSync, rmSync } from "node:fs";
import { tmpdir } from "node:os";
import { dirname, join } from "node:path";
import { fileURLToPath } from "node:url";
import vm from "node:vm";

const here = dirname(fileURLToPath(import.meta.url));
const root = dirname(dirname(here));
const folder = process.argv[4];
const CHANGES = 24, FEW = 24, SLOWER = 3, LONGEST = 20_000;
const page = readFileSync(join(root, "viewer/index.html"), "utf8");
vm.runInThisContext(/<script id="host"[^>]*>([^]*?)<\/script>/.exec(page)[1], { filename: "host" });

/** All files below the labs and the examples whose names end so. */
function files(kind) {
  const folders = ["examples", ...readdirSync(join(root, "labs"), { withFileTypes: true })
    .filter((it) => it.isDirectory()).map((it) => join("labs", it.name))];
  return folders.flatMap((it) => readdirSync(join(root, it)).filter((name) => name.endsWith(kind)).map((name) => join(it, name)));
}

const textOf = (path) => readFileSync(join(root, path), "utf8");

/** A listing with its script, as `check` reads them. */
function judged(path) {
  const script = path.replace(/(\.[a-z]+)*$/, ".script");
  return `${textOf(script)}book\n${textOf(path)}`;
}

/** The inputs of a form among the cases of a program. A case with lines `-- NAME` is a front and parts: one for each. */
function casesOf(crate, word) {
  const cases = textOf(`crates/${crate}/stdin`).split(/^== .*\n/m).slice(1);
  const asked = new RegExp(`^\\[${word}\\].*\\n`);
  const inputs = cases.filter((it) => asked.test(it)).map((it) => it.replace(asked, "").replace(/\n$/, ""));
  return inputs.flatMap((it) => {
    const [front, ...parts] = it.split(/^-- .*\n/m);
    return parts.length ? parts.map((part) => `${front}${part}`) : [front];
  });
}

/** A judged listing spoiled: without one of its entries, at a few places. */
function without(input) {
  const lines = input.split("\n"), first = lines.indexOf("book") + 1, all = lines.length - first;
  return [0.3, 0.6].map((part) => lines.filter((_, at) => at !== first + Math.floor(part * all)).join("\n"));
}

/** What is run: a program, its words, and its input. */
function* calls() {
  const scripts = files(".script").map(textOf), schedules = files(".schedule").map(textOf);
  const listings = [...files(".listing"), ...files(".book")].filter((it) => textOf(it).startsWith("online")).map(judged);
  const inputs = [...listings, ...files(".spoiled").map(judged), ...casesOf("cases", "check")];
  for (const it of [...scripts, ...casesOf("cases", "run")]) yield ["multics", ["run"], it];
  for (const it of inputs) yield ["multics", ["check"], it];
  for (const it of [...inputs, ...listings.flatMap(without), ...casesOf("lab_cases", "why")]) yield ["lab", ["why"], it];
  for (const it of [...schedules, ...scripts]) yield ["lab", ["steps"], it];
  for (const it of schedules) yield ["lab", ["trace"], it];
  for (const it of scripts) yield ["lab", ["outcomes", "5", "1"], it];
  for (const it of [["make", "7"], ["make", "0"], ["make"], ["make", "x"], ["drill"]]) yield ["multics", it, ""];
}

/** The programs, where a user without any right can run them. */
const room = mkdtempSync(join(tmpdir(), "programs-"));
chmodSync(room, 0o755);
const programs = Object.fromEntries(["multics", "lab"].map((name, at) => {
  const copy = join(room, name);
  copyFileSync(process.argv[2 + at], copy);
  chmodSync(copy, 0o755);
  return [name, copy];
}));

/** The words that run a program as a user who may be told to have one thread. */
const user = process.getuid() === 0 ? ["setpriv", "--reuid=65534", "--regid=65534", "--clear-groups"] : ["env"];
const isAlone = spawnSync(user[0], [...user.slice(1), "true"]).status === 0;

/** A program of this machine without a second thread, where that can be had. */
function native(program, words, input) {
  const alone = [...user.slice(1), "bash", "-c", 'ulimit -u 1; exec "$0" "$@"', programs[program], ...words];
  const ran = isAlone ? spawnSync(user[0], alone, { input, maxBuffer: 1 << 28 })
    : spawnSync(programs[program], words, { input, maxBuffer: 1 << 28 });
  return { status: ran.status, wrote: ran.stdout };
}

/** Whether what a call prints is the same with threads: all but runs of several processors. */
const isSettled = ({ program, words, input }) => program !== "multics" || words[0] !== "run" || /^ *machine +0*1 /m.test(input);

const isSame = (one, other) => one.status === other.status && Buffer.compare(Buffer.from(one.wrote), other.wrote) === 0;

/** Whether a call comes out as it is due. A module that stops in another way, or doesn't end in a time, comes out wrong. */
function isAlike(modules, { program, words, input, answer }) {
  try {
    globalThis.call = () => runs(modules[program], words, input);
    return isSame(vm.runInThisContext("call()", { timeout: LONGEST }), answer);
  } catch {
    return false;
  }
}

/** The places of a module at which 1 is added to a number. */
function additions(bytes) {
  const found = [];
  for (let at = bytes.indexOf(Buffer.from([0x42, 1, 0x7c])); at >= 0; at = bytes.indexOf(Buffer.from([0x42, 1, 0x7c]), at + 1)) found.push(at);
  return found;
}

/** A module in which 1 is taken away at one place in which it was added; null where that is no module. */
function changed(bytes, place) {
  const other = Buffer.from(bytes);
  other[place + 2] = 0x7d;
  try {
    return new WebAssembly.Module(other);
  } catch {
    return null;
  }
}

/** Of modules with one instruction changed, how many the comparison refuses. */
function refusedChanges(name, bytes, modules, due) {
  const places = additions(bytes), apart = Math.max(1, Math.floor(places.length / CHANGES));
  const few = due.filter((it) => it.program === name).filter((_, at, all) => at % Math.ceil(all.length / FEW) === 0);
  const tried = places.filter((_, at) => at % apart === 0).map((place) => changed(bytes, place)).filter(Boolean);
  const refused = tried.filter((module) => !few.every((it) => isAlike({ ...modules, [name]: module }, it))).length;
  console.log(`wasm: of ${tried.length} modules of ${name} with one instruction changed ${refused} are refused`);
  return refused;
}

/** A day's run, by the program and by the module: the least times of a few turns, of more where other work disturbs. */
function dayTook(module) {
  const day = native("multics", ["make", "7"], "").wrote, took = [Infinity, Infinity];
  for (let turn = 0; turn < 5 || (turn < 40 && took[1] > SLOWER * took[0]); turn++) {
    [() => native("multics", ["run"], day), () => runs(module, ["run"], day)].forEach((call, at) => {
      const start = performance.now();
      call();
      took[at] = Math.min(took[at], performance.now() - start);
    });
  }
  console.log(`wasm: a day's run takes ${took[0].toFixed(0)} ms by the program and ${took[1].toFixed(0)} by the module`);
  return took[1] <= SLOWER * took[0];
}

const bytes = Object.fromEntries(["multics", "lab"].map((name) => [name, readFileSync(join(folder, `${name}.wasm`))]));
const modules = Object.fromEntries(Object.entries(bytes).map(([name, it]) => [name, new WebAssembly.Module(it)]));
const asked = [...calls()].map(([program, words, input]) => ({ program, words, input: Buffer.from(input, "utf8") }));
const due = asked.filter((it) => isAlone || isSettled(it)).map((it) => ({ ...it, answer: native(it.program, it.words, it.input) }));
if (!isAlone) console.log(`wasm: the programs can't be kept to one thread here, so ${asked.length - due.length} runs are left out`);
const wrong = due.filter((it) => !isAlike(modules, it));
for (const it of wrong.slice(0, 5)) console.log(`wasm: ${it.program} ${it.words.join(" ")} differs over ${JSON.stringify(it.input.toString().slice(0, 80))}`);
console.log(`wasm: ${due.length - wrong.length} of ${due.length} calls give what the programs give`);
const refused = Object.keys(bytes).map((name) => refusedChanges(name, bytes[name], modules, due));
const isQuick = dayTook(modules.multics);
rmSync(room, { recursive: true });
process.exit(wrong.length === 0 && refused.every((it) => it > 0) && isQuick ? 0 : 1);
