// Tries the viewer's logic, and its page over a document of no browser: node viewer/test.mjs
import assert from "node:assert/strict";
import { readFileSync, readdirSync } from "node:fs";
import { dirname, join } from "node:path";
import { fileURLToPath } from "node:url";
import vm from "node:vm";
import { inflateRawSync } from "node:zlib";

const here = dirname(fileURLToPath(import.meta.url));
const root = dirname(here);
const html = readFileSync(join(here, "index.html"), "utf8");

/** The text of one of the page's scripts. */
function scriptOf(id) {
  return new RegExp(`<script id="${id}"[^>]*>([^]*?)</script>`).exec(html)[1];
}

for (const id of ["logic", "host", "machine"]) vm.runInThisContext(scriptOf(id), { filename: id });
const { multics, machine, runs } = globalThis;

/** The text of a file of the repository. */
const read = (path) => readFileSync(join(root, path), "utf8");

/** Each script with all its listings of entries. */
function* listings() {
  for (const folder of ["examples", ...readdirSync(join(root, "labs")).map((it) => join("labs", it))]) {
    let names = [];
    try {
      names = readdirSync(join(root, folder));
    } catch {
      continue;
    }
    for (const name of names.filter((it) => /\.(listing|book)$/.test(it))) {
      const listing = read(join(folder, name));
      if (listing.startsWith("online")) {
        yield [join(folder, name), listing, read(join(folder, `${name.split(".")[0]}.script`))];
      }
    }
  }
}

/** What a state has, as plain data. */
function plain(state) {
  return JSON.stringify([state.frames, [...state.descriptors], state.processors, [...state.active], state.ready,
    [...state.known], [...state.nodes], [...state.stored].map(([uid, pages]) => [uid, [...pages].sort()])]);
}

/** At the end of each listing the accounts are those of its summary, and each entry has a meaning. */
function accountsAreTheSummary() {
  let many = 0;
  for (const [name, listing, script] of listings()) {
    const run = multics.openListing(listing, script);
    assert.deepEqual(multics.summaryOf(run, multics.stateAfter(run, run.count)), run.summary, name);
    for (let at = 0; at < run.count; at++) assert.doesNotMatch(multics.meaningOf(run, at), /undefined|no entry/, name);
    assert.equal(multics.differsAtEnd(run), false, name);
    many += 1;
  }
  assert.ok(many > 5);
}

/** What is no listing of all entries is refused, with its line and what to do. */
function othersAreRefused() {
  const script = read("labs/1-page/life.script"), listing = read("labs/1-page/life.listing");
  const cases = [
    ["", "", 0, /no text/],
    [read("examples/first.listing"), "", 1, /"process 0 Smith" is no entry.*print all/],
    [script, "", 1, /looks like a script/],
    [`${script}book\n`, "", 0, /no entry/],
    ["script refused at line 3: fields\n", "", 1, /refused the script/],
    ["accepted 85 entries\n", "", 1, /answer of a judge/],
    ["> quota 4 used 1\n", "", 0, /accounts alone/],
    ["online 0\nin 400000000 2 0\n", "", 2, /frame 400000000; they go up to 1023/],
    ["online 8\n", "", 1, /processor 8; they go up to 7/],
    ["online 0\nin 9 2 0\n", script, 2, /frame 9; the script's go up to 3.*another script/],
    ["online 0\nload 0 1\n", script, 2, /process 1; the script's go up to 0/],
    ["online 00\n", "", 1, /is no entry/],
    ["fill 0 seg 256\n", "", 1, /number 256/],
    ["do 0.0 0 - word 8\n", "", 1, /is no entry/],
    [listing, "machine 9 4 12 1 1 1\n", 0, /1 to 8 processors/],
    [listing, "machine 1 400000000 12 1 1 1\n", 0, /4 to 1024 frames/],
    [`${script}book\nonline 0\nend\n`, "", script.split("\n").length + 2, /is no entry/],
  ];
  for (const [text, its, line, why] of cases) {
    const { fault } = multics.openListing(text, its);
    assert.ok(fault, text);
    assert.equal(fault.line, line, `${text}: ${fault.why}`);
    assert.match(`${fault.why} ${fault.advice}`, why);
  }
  const other = multics.openListing(listing, script.replace(/^quota .*$/m, "quota 77"));
  assert.equal(other.fault, null);
  assert.equal(multics.differsAtEnd(other), true);
  assert.equal(multics.differsAtEnd(multics.openListing(listing, script)), false);
}

/** Each entry leads to the one that it comes from. */
function causesAreFound() {
  const run = multics.openListing(read("labs/3-revocation/access.listing"), read("labs/3-revocation/access.script"));
  const from = (text, last = false) => {
    let at = multics.find(run, 0, text);
    for (let next = at; last && next >= 0; next = multics.find(run, next + 1, text)) at = next;
    const cause = multics.causeOf(run, at);
    return cause < 0 ? "" : multics.lineOf(run, cause);
  };
  assert.equal(from("do 2.2 1 - noaccess"), "do 1.3 0 - done");
  assert.equal(from("do 1.4"), "do 1.1 0 - done");
  assert.equal(from("clear 1 seg 2"), "signal 0 seg 2");
  assert.equal(from("gone seg 2 0"), "cut 2 0");
  assert.equal(from("do 2.0"), "do 0.0 0 - made 2");
  assert.equal(from("do 2.2"), "");
  const life = multics.openListing(read("labs/1-page/life.listing"), read("labs/1-page/life.script"));
  const back = multics.find(life, 0, "in 1 2 0");
  assert.equal(multics.lineOf(life, multics.causeOf(life, back)), "take 0");
}

/** A text is found anywhere in an entry, forth and back, round the ends. */
function textsAreFound() {
  const run = multics.openListing(read("labs/3-revocation/access.listing"), read("labs/3-revocation/access.script"));
  const at = (from, text, forth) => multics.lineOf(run, multics.search(run, from, text, forth));
  assert.equal(at(-1, "noaccess"), "do 2.2 1 - noaccess");
  assert.equal(at(multics.search(run, -1, "noaccess"), "noaccess"), "do 2.3 1 - noaccess");
  assert.equal(at(run.count - 1, "online"), "online 0");
  assert.equal(at(0, "gone page", false), "gone page 0");
  assert.equal(multics.search(run, 0, "quota"), -1);
  assert.equal(multics.lineOf(run, multics.nextAnswer(run, 2, 2)), "do 2.0 1 - known 0");
}

/** The clock's hand and marks go as the lab has them; a pager with another rule has none. */
function clockIsShown() {
  const run = multics.openListing(read("labs/1-page/clock.listing"), read("labs/1-page/clock.script"));
  const after = (text) => multics.stateAfter(run, multics.find(run, 0, text) + 1).clock;
  assert.deepEqual(after("take 0"), { hand: 1, marks: [false, false, false, false] });
  assert.notEqual(multics.stateAfter(run, run.count).clock, null);
  const fifo = multics.openListing(read("labs/7-pager/walk.fifo.book"), read("labs/7-pager/walk.script"));
  assert.equal(fifo.fault, null);
}

/** What is shown as access is taken away: who holds what up to the cut, after the clear, and once it is gone. */
function revocationIsShown() {
  const run = multics.openListing(read("labs/3-revocation/access.listing"), read("labs/3-revocation/access.script"));
  const after = (text) => multics.stateAfter(run, multics.find(run, 0, text) + 1);
  assert.deepEqual(after("do 2.1").processors[1].segments, [0]);
  const cut = after("cut 2 0");
  assert.equal(cut.descriptors.get("2 0").going, true);
  assert.deepEqual([cut.processors[1].segments, cut.processors[1].frames], [[0], [0]]);
  assert.equal(after("signal 0 seg 2").processors[1].due, "seg 2");
  assert.deepEqual(after("signal 0 seg 2").processors[0].segments, []);
  const cleared = after("clear 1 seg 2").processors[1];
  assert.deepEqual([cleared.segments, cleared.frames, cleared.due], [[], [], null]);
  assert.equal(after("gone seg 2 0").descriptors.has("2 0"), false);
  assert.equal(multics.meaningOf(run, multics.find(run, 0, "do 1.3")),
    "On processor 0, command 3 of process 1 (Smith), acl >s Jones n, was answered done.");
}

/** What is in the frames as a page leaves one and another comes back. */
function framesAreShown() {
  const run = multics.openListing(`${read("labs/1-page/life.script")}book\n${read("labs/1-page/life.listing")}`, "");
  const after = (text) => multics.stateAfter(run, multics.find(run, 0, text) + 1).frames;
  assert.deepEqual(after("take 0")[0], { uid: 2, page: 0, how: "going" });
  assert.equal(after("gone page 0")[0], null);
  assert.deepEqual(after("start 1")[1], { uid: 2, page: 0, how: "read" });
  assert.deepEqual(after("in 1 2 0")[1], { uid: 2, page: 0, how: "here" });
  assert.equal(multics.stateAfter(run, multics.find(run, 0, "release") + 1).stored.get(2).has(2), false);
  assert.equal(run.script.processes[0].who, "Smith");
}

/** A segment that moves is counted on its new volume from then on. */
function movesAreCounted() {
  const script = ["machine 1 4 12 1 1 1", "quota 9", "volume alpha 1 4", "volume beta 4 4", "process Smith",
    "mkseg >s 2 alpha", "initiate >s", "write 0 0 1", "write 0 1024 1", "end", "book", ""].join("\n");
  const listing = ["online 0", "load 0 0", "do 0.0 0 - made 2", "do 0.1 0 - known 0", "activate 1", "activate 2",
    "connect 0 0 2", "in 0 2 0", "do 0.2 0 - done", "moved 0 2 1", ""].join("\n");
  const run = multics.openListing(`${script}${listing}`, "");
  assert.deepEqual(multics.summaryOf(run, multics.stateAfter(run, run.count)), ["> quota 9 used 1",
    "volume alpha records 1 taken 0 entries 4 taken 1", "volume beta records 4 taken 1 entries 4 taken 1"]);
  assert.equal(multics.meaningOf(run, run.count - 1),
    "No record was free for process 0 (Smith)'s write: >s (2) has moved to volume beta.");
}

/** A listing of a million entries: the same entries again and again, between a load and a leave. */
function longListing() {
  const turn = ["load 0 0", "fill 0 seg 0", "fill 0 page 0", "do 0.0 0 0 word 000000000000", "take 0", "signal 0 all",
    "gone page 0", "start 0 2 1", "in 0 2 1", "leave 0"];
  const front = ["online 0", "activate 1", "activate 2", "connect 0 0 2", "in 0 2 0"];
  return [...front, ...Array.from({ length: 100000 }, () => turn).flat(), "> quota 4 used 1", ""].join("\n");
}

/** The milliseconds of processor time that a piece of work takes. */
function taken(work) {
  const start = process.cpuUsage();
  work();
  const { user, system } = process.cpuUsage(start);
  return Math.round((user + system) / 1000);
}

/** It opens in seconds, and any place of it is shown in less once its end was seen. */
function longListingIsQuick() {
  const text = longListing();
  let run = null;
  const opened = taken(() => { run = multics.openListing(text, ""); });
  assert.equal(run.count, 1000005);
  const ended = taken(() => multics.stateAfter(run, run.count));
  const inside = taken(() => multics.statesBetween(run, 500000, 500150));
  console.log(`viewer: a million entries: opened in ${opened} ms, at the end in ${ended}, in the middle in ${inside}`);
  assert.ok(opened < 3000 && ended < 15000 && inside < 500);
}

/** A step back gives what a run from the start gives, over more entries than lie between two states that are kept. */
function backIsAsForth() {
  const run = multics.openListing(longListing().slice(0, 400000), "");
  multics.stateAfter(run, 9000);
  for (const at of [8999, 8191, 4097, 4096, 4095, 2048, 17, 0, 6000]) {
    const fresh = multics.openListing(longListing().slice(0, 400000), "");
    assert.equal(plain(multics.stateAfter(run, at)), plain(multics.stateAfter(fresh, at)), `after ${at}`);
  }
}

/** Steps in a row are one line of a schedule, and are taken back one by one. */
function schedulesAreKept() {
  let lines = [];
  for (const line of ["step 0", "step 0", "step 1", "until 0 cut 2", "step 1", "step 1", "step 1"]) lines = machine.withLine(lines, line);
  assert.deepEqual(lines, ["step 0 2", "step 1", "until 0 cut 2", "step 1 3"]);
  const back = [];
  while (lines.length) back.push((lines = machine.withoutLast(lines)).join(", "));
  assert.deepEqual(back, ["step 0 2, step 1, until 0 cut 2, step 1 2", "step 0 2, step 1, until 0 cut 2, step 1",
    "step 0 2, step 1, until 0 cut 2", "step 0 2, step 1", "step 0 2", "step 0", ""]);
}

/** What the programs print is read: a trace, outcomes, and refusals with their line and what to look for. */
function printsAreRead() {
  const trace = machine.readTrace("step 0 -> moved online\n  online 0\nstep 1 -> waits owner 0\nfinish\n  load 0 1\nshutdown\n> quota 4 used 0\n");
  assert.deepEqual([...trace.answers], [[0, "moved online"], [1, "waits owner 0"]]);
  assert.deepEqual([trace.entries, trace.after, trace.summary], [["online 0"], ["load 0 1"], ["> quota 4 used 0"]]);
  const { found, last } = machine.readOutcomes("outcome 1: 3 of 4, first by seed 1\nprocess 0 Smith\n0 done\n" +
    "outcome 2: 1 of 4, first by seed 3\nprocess 0 Smith\n0 noaccess\naccounts alike\n");
  assert.deepEqual(found.map((it) => [it.times, it.of, it.seed, it.replies[1]]), [[3, 4, 1, "0 done"], [1, 4, 3, "0 noaccess"]]);
  assert.deepEqual(last, ["accounts alike"]);
  const hints = JSON.parse(scriptOf("hints")), refusal = machine.refusalIn("script refused at line 2: order\n");
  assert.match(machine.refusalText(refusal, "machine 1 4 12 1 1 1\nquotas 4\n", hints), /The line reads: quotas 4\nLook for: a word is misspelt/);
  const part = machine.refusalIn("refused at line 9: part\n");
  assert.match(machine.refusalText(part, "", hints), /^refused at line 9: part\nThat is the line after the last[.]/);
  assert.equal(machine.refusalIn("accepted 3 entries\n"), null);
  const told = "refused at line 80: clean\nwhy: processor 0 has process 1, not process 0, since line 62\n";
  assert.deepEqual(machine.refusalIn(told), { what: "refused", line: 80, cause: "clean" });
  assert.deepEqual(machine.reasonIn(told), { text: "processor 0 has process 1, not process 0", since: 62 });
  assert.deepEqual(machine.reasonIn("refused at line 9: entry\nwhy: field 2 is missing\n"), { text: "field 2 is missing", since: null });
  assert.equal(machine.reasonIn("accepted 3 entries\n"), null);
  assert.equal(machine.processorsOf("# a comment\nmachine 3 4 12 1 1 1\n"), 3);
  assert.ok(hints.length > 8);
}

/** The programs in the page run: lab 1 to the byte, a listing is judged, and steps are made. */
function programsRun() {
  const packed = JSON.parse(scriptOf("modules"));
  const run = (program, words, text) => {
    const module = new WebAssembly.Module(inflateRawSync(Buffer.from(packed[program], "base64")));
    const { status, wrote } = runs(module, words, new TextEncoder().encode(text));
    return [status, new TextDecoder().decode(wrote)];
  };
  const script = read("labs/1-page/life.script"), listing = read("labs/1-page/life.listing");
  assert.deepEqual(run("multics", ["run"], script), [0, listing]);
  assert.deepEqual(run("multics", ["check"], machine.judgedText(script, listing)),
    [0, `accepted ${listing.split("\n").findIndex((line) => line.startsWith("> "))} entries\n`]);
  const spoiled = machine.judgedText(read("labs/7-pager/walk.script"), read("labs/7-pager/walk.first.spoiled"));
  assert.deepEqual(run("lab", ["why"], spoiled), [6, read("labs/7-pager/walk.first.why")]);
  const [status, text] = run("lab", ["trace"], machine.withSchedule(script, ["step 0 2"]));
  assert.equal(status, 0);
  assert.deepEqual(machine.readTrace(text).entries, listing.split("\n").slice(0, machine.readTrace(text).entries.length));
  assert.equal(run("multics", ["sing"], "")[0], 2);
}

/** An element of no browser: it keeps its text and its children. */
class Element {
  constructor(tag) {
    Object.assign(this, { tagName: tag, children: [], own: "", width: 1200, height: 0, files: [], value: "", max: 0 });
  }
  set textContent(text) {
    this.own = String(text);
    this.children = [];
  }
  get textContent() {
    return this.own + this.children.map((it) => it.textContent).join(" ");
  }
  appendChild(it) {
    this.children.push(it);
    return it;
  }
  focus() {}
  setSelectionRange(from, to) {
    this.selected = this.value.slice(from, to);
  }
  getContext() {
    return { clearRect() {}, fillText() {}, fillRect: () => { this.drawn = (this.drawn || 0) + 1; } };
  }
}

/** A worker of no browser: it answers at once. */
class Worker {
  postMessage({ module, words, input }) {
    this.onmessage({ data: runs(module, words, input) });
  }
  terminate() {}
}

/** A document of no browser, with the elements of the page. */
function documentOf() {
  const ids = new Map([...html.matchAll(/id="([a-z-]+)"/g)].map((it) => [it[1], new Element("div")]));
  for (const id of ["samples", "scripts-given", "hints", "modules"]) ids.get(id).textContent = scriptOf(id);
  return { getElementById: (id) => ids.get(id), createElement: (tag) => new Element(tag) };
}

/** The page draws what it should, step by step. */
function pageDraws() {
  globalThis.document = documentOf();
  for (const id of ["page", "maker"]) vm.runInThisContext(scriptOf(id), { filename: id });
  const text = (id) => document.getElementById(id).textContent;
  assert.match(text("entries"), /online 0/, "a run of the labs is there as the page opens");
  const listing = read("labs/3-revocation/access.listing"), script = read("labs/3-revocation/access.script");
  globalThis.page.open(listing, script);
  assert.equal(text("meaning"), "Nothing has happened yet.");
  const at = listing.split("\n").indexOf("cut 2 0");
  globalThis.page.go(at + 1);
  assert.match(text("meaning"), /^Descriptor 0 of process 2 \(Jones\) is on its way out/);
  assert.match(text("descriptors"), /going/);
  assert.match(text("accounts"), /> quota 4 used 1/);
  document.getElementById("on").onclick();
  assert.match(text("meaning"), /processor 1, command 2 of process 2 \(Jones\), await 0 2 7 5000,/);
  document.getElementById("back").onclick();
  assert.match(text("meaning"), /^Descriptor 0 of process 2/);
  document.getElementById("wanted").value = "seg 2 0";
  document.getElementById("find").onclick();
  assert.match(text("meaning"), /^Descriptor 0 of process 2 \(Jones\) is no more/);
  document.getElementById("find").onclick();
  assert.match(text("found"), /past the end/);
  document.getElementById("wanted").value = "nowhere";
  document.getElementById("find").onclick();
  assert.match(text("found"), /isn't found/);
  document.getElementById("because").onclick();
  assert.match(text("meaning"), /^Descriptor 0 of process 2 \(Jones\) is on its way out/);
  assert.match(text("cause"), /gone seg 2 0/);
  const press = (key) => document.onkeydown({ key, target: { tagName: "BODY" }, preventDefault() {} });
  press("Home");
  assert.equal(text("meaning"), "Nothing has happened yet.");
  press("c");
  assert.match(text("meaning"), /command 0 of process 0/);
  press("End");
  assert.match(text("differs"), /^$/);
  document.getElementById("filter").value = "2";
  document.getElementById("filter").onchange();
  assert.match(text("entries"), /do 2[.]3/);
  assert.doesNotMatch(text("entries"), /do 1[.]/);
  assert.match(globalThis.page.under(60, 20).text, /^after entry 0, frame 0: free/);
  for (const option of JSON.parse(scriptOf("samples"))) globalThis.page.openSample(option.name);
  globalThis.page.open(listing, read("labs/8-full-volume/grows.script"));
  assert.ok(document.getElementById("picture").drawn > 50);
  globalThis.page.open("", "");
  assert.equal(text("said"), "There is no text.");
  globalThis.maker.give("3-revocation/access");
  assert.match(document.getElementById("source").value, /^# Access is taken away/);
  assert.match(text("steppers"), /step 0.*step 1/);
  assert.match(document.getElementById("schedule").value, /^until 0 load 0 1\n/);
}

/** A listing that is judged: the verdict with its reason, its line, and the line since which the reason is so. */
async function listingsAreJudged() {
  globalThis.document = documentOf();
  globalThis.Worker = Worker;
  for (const id of ["page", "maker"]) vm.runInThisContext(scriptOf(id), { filename: id });
  const [judged, verdict] = ["judged", "verdict"].map((id) => document.getElementById(id));
  globalThis.maker.give("7-pager/walk");
  judged.value = read("labs/7-pager/walk.first.spoiled");
  await globalThis.maker.judge();
  assert.match(verdict.textContent, /^refused at line 80: clean\nThe line reads: gone page 0/);
  assert.match(verdict.textContent, /Why: processor 0 holds frame 0 *, *since line 62 *, which reads: fill 0 page 0$/);
  assert.equal(judged.selected, "gone page 0");
  verdict.children.find((it) => it.tagName === "a").onclick({ preventDefault() {} });
  assert.equal(judged.selected, "fill 0 page 0");
  judged.value = read("labs/7-pager/walk.listing").replace("online 0", "leave 0");
  await globalThis.maker.judge();
  assert.match(verdict.textContent, /Why: processor 0 has no process *, *since line [0-9]+ *, which reads: book$/);
  verdict.children.find((it) => it.tagName === "a").onclick({ preventDefault() {} });
  assert.equal(judged.selected, "");
  judged.value = read("labs/7-pager/walk.second.spoiled");
  await globalThis.maker.judge();
  assert.match(verdict.textContent, /Why: command 15 of process 0 is answered word 000000000006$/);
  judged.value = read("labs/7-pager/walk.listing");
  await globalThis.maker.judge();
  assert.equal(verdict.textContent, "");
  assert.match(document.getElementById("printed").textContent, /^accepted [0-9]+ entries/);
}

const TESTS = [accountsAreTheSummary, othersAreRefused, revocationIsShown, causesAreFound, textsAreFound, framesAreShown,
  clockIsShown, movesAreCounted, longListingIsQuick, backIsAsForth,
  schedulesAreKept, printsAreRead, programsRun, pageDraws, listingsAreJudged];
for (const test of TESTS) {
  await test();
  console.log(`viewer: ${test.name}: ok`);
}
