"use strict";

// Tests inside.js and the module in node, for exhibit/test_engine: in_node.js MODULE CASES FOLDER..
//
// MODULE is the module of the page, and CASES a file of bindings/cases.py. A FOLDER has the same module with more and more
// memory to grow to, or more and more stack, in the order of the files' names. Prints a line for each thing that differs,
// and last how many cases there were and how many differ.

const { readFileSync, readdirSync } = require("fs");
const { basename } = require("path");
const { gzipSync } = require("zlib");
const threads = require("worker_threads");

const OUT_OF_MEMORY = 5;
const ROWS = Buffer.from("J,0,1,D,3041\nS,0,128,,\n"), KINDS = Buffer.from("XX");
const SILENT = { error() {} };
const SCRIPT = readFileSync(`${__dirname}/inside.js`, "utf8");

let cases = 0, differ = 0;

function check(name, holds) {
    cases++;
    if (holds) return;
    differ++;
    if (differ <= 20) console.log(`differs: ${name}`);
}

// The functions of inside.js with this module, as a page has them, but for what is given here.
function inside(module, { Worker, URL, console = globalThis.console } = {}) {
    const text = SCRIPT.replace("@@MODULE@@", gzipSync(module).toString("base64"));
    return new Function("Worker", "URL", "console", `${text}\nreturn { callsOfModule, openEngine };`)(Worker, URL, console);
}

// The cases of a file, as bindings/cases.py writes them.
function* casesIn(file) {
    const data = readFileSync(file);
    let at = 0;
    const part = (length) => data.subarray(at, at += length);
    while (at < data.length) {
        const words = part(data.indexOf(10, at) - at).toString().split(" ");
        at++;
        const [task, status, ...lengths] = words.slice(0, 6).map(Number);
        const [kinds, plan, input, text] = lengths.map(part);
        yield { name: words.slice(6).join(" "), task, status, kinds, plan, input, text };
    }
}

const same = (bytes, wanted) => Buffer.compare(Buffer.from(bytes), wanted) === 0;

async function testCases(module, all) {
    const calls = inside(module).callsOfModule(module);
    for (const it of all) {
        const { status, bytes } = await calls.answerBytes(it.task, it.plan, it.kinds, it.input);
        check(it.name, status === it.status && same(bytes, it.text));
    }
}

// One call with room of this size, on an instance of the module. `kept` says whether the room behind the text, or all of
// it if the text doesn't fit, is as it was.
function callWithRoom(exports, task, given, room) {
    const take = (size) => Number(exports.exhibit_take(BigInt(size)));
    const put = (bytes) => {
        const place = take(bytes.length);
        new Uint8Array(exports.memory.buffer).set(bytes, place);
        return place;
    };
    const places = given.map(put), out = put(Buffer.alloc(room, 0xaa)), answered = take(16);
    const words = [...places.flatMap((place, i) => [place, given[i].length]), out, room, answered];
    exports.crossbar5_answer(task, ...words.map(BigInt));
    const view = new DataView(exports.memory.buffer, answered), made = Buffer.from(exports.memory.buffer, out, room);
    const length = Number(view.getBigUint64(0, true)), text = Buffer.from(made.subarray(0, length <= room ? length : 0));
    const kept = made.subarray(text.length).every((byte) => byte === 0xaa);
    for (const place of [...places, out, answered]) exports.exhibit_give_back(BigInt(place));
    return { length, status: view.getUint32(8, true), text, kept };
}

async function testRooms(module, plan) {
    const { exports } = await WebAssembly.instantiate(await WebAssembly.compile(module), {});
    for (let task = 0; task <= 10; task++) {
        const given = [plan, KINDS, task >= 4 && task <= 7 ? Buffer.from("") : ROWS];
        const whole = callWithRoom(exports, task, given, 1 << 20);
        for (const room of [0, 1, whole.length - 1, whole.length, whole.length + 1]) {
            const made = callWithRoom(exports, task, given, room);
            const fits = room >= whole.length;
            check(`task ${task} with room for ${room} bytes`, made.length === whole.length && made.status === whole.status &&
                made.kept && same(made.text, fits ? whole.text : Buffer.from("")));
        }
    }
}

async function testGrowth(module, plan) {
    const { exports } = await WebAssembly.instantiate(await WebAssembly.compile(module), {});
    const call = (k) => callWithRoom(exports, k % 12, [plan, KINDS, k % 3 ? ROWS : Buffer.from("")], 1 << 16);
    for (let k = 0; k < 100; k++) call(k);
    const before = exports.memory.buffer.byteLength;
    for (let k = 0; k < 10_000; k++) call(k);
    check(`memory grew from ${before} to ${exports.memory.buffer.byteLength} in 10,000 calls`,
        exports.memory.buffer.byteLength === before);
}

// Modules with little memory or stack. Each answer is the right one, or says that memory ran out. With the least some run
// out, with the most none, and a module goes on after a call that ran out.
async function testLittle(folder, all) {
    const short = all.filter((it) => it.input.length < 100_000 && it.plan.length < 100_000 && it.status !== 1);
    const some = short.filter((_, k) => k % Math.ceil(short.length / 100) === 0);
    const counts = [];
    let wentOn = 0;
    for (const file of readdirSync(folder).sort()) {
        const module = readFileSync(`${folder}/${file}`), calls = inside(module, { console: SILENT }).callsOfModule(module);
        const refused = [];
        for (const it of some) {
            const { status, bytes } = await calls.answerBytes(it.task, it.plan, it.kinds, it.input);
            const ranOut = status === OUT_OF_MEMORY;
            wentOn += !ranOut && refused.at(-1) === true;
            refused.push(ranOut);
            check(`${it.name} with ${file}`, ranOut ? bytes.length === 0 : status === it.status && same(bytes, it.text));
        }
        counts.push(refused.filter((it) => it).length);
    }
    console.log(`of ${some.length} calls each, ${counts.join(", ")} ran out of ${basename(folder)}`);
    check(`with the least ${basename(folder)} some run out`, counts[0] > 0);
    check(`with the most ${basename(folder)} none runs out`, counts.at(-1) === 0);
    check(`calls after others that ran out of ${basename(folder)}`, wentOn > 0);
}

// A browser's worker, made of node's.
class Worker {
    static all = [];
    constructor(blob) {
        const before = 'const port = require("worker_threads").parentPort, postMessage = (it) => port.postMessage(it);' +
            'let onmessage; port.on("message", (data) => onmessage({ data }));\n';
        this.started = blob.text().then((text) => {
            const worker = new threads.Worker(before + text, { eval: true });
            worker.on("message", (data) => this.onmessage?.({ data }));
            worker.on("error", (error) => this.onerror(error));
            return worker;
        });
        Worker.all.push(this);
    }
    postMessage(data) {
        this.started = this.started.then((worker) => (worker.postMessage(data), worker));
    }
    terminate() {
        return this.started.then((worker) => worker.terminate());
    }
}

// One that never begins.
class DeadWorker {
    postMessage() {}
    terminate() {}
}

const AS_OBJECTS = { createObjectURL: (blob) => blob };

async function testEngine(name, engine, plan, records) {
    const order = [], rows = ROWS.toString();
    const much = Array.from({ length: 3000 }, (_, k) => `J,0,${k},${"DR"[k % 2]},3041\nS,0,128,,\n`).join("");
    const given = [[1, plan, "XX", much], [0, plan, "XX", rows], [NaN, plan, "XX", rows], [2 ** 32, plan, "XX", rows],
        [0, plan, "X\ud800", rows], [4, plan, "", records], [0, plan, "XX", "\ufeffJ\ud800"]];
    const answers = await Promise.all(given.map(async (it, k) => {
        const answer = await engine.answer(...it);
        order.push(k);
        return answer;
    }));
    check(`${name}: the order of the answers`, order.join() === given.map((_, k) => k).join());
    check(`${name}: the statuses`, answers.map((it) => it.status).join() === "0,0,1,1,2,0,4");
    check(`${name}: the texts`, answers[1].text === records && answers[5].text.startsWith("AUDIT,LEGAL,1\n") &&
        answers[2].text === "" && answers[6].text === "FAULT,T1,1\n");
}

async function testEngines(module, plan) {
    const text = plan.toString(), records = "0,1,0,D,3041,-,DIALTONE,1,3041-0-417,-\nPATHS,1\nCLOSED,4\n";
    for (const [name, given, key] of [
        ["without a worker", {}, "page"],
        ["with a worker that doesn't begin", { Worker: DeadWorker, URL: AS_OBJECTS }, "page"],
        ["with a worker", { Worker, URL: AS_OBJECTS }, "worker"],
    ]) {
        const engine = await inside(module, given).openEngine();
        check(`${name}: its name`, engine.name === "inside");
        check(`${name}: what it says of itself`, engine.about.key === key && engine.about.bytes === module.length);
        await testEngine(name, engine, text, records);
        if (key === "worker") await testLost(engine, text, records);
    }
}

// The last engine's worker is lost while it works.
async function testLost(engine, plan, records) {
    const worker = Worker.all.at(-1);
    const long = ROWS.toString() + "\n".repeat(100_000);
    const waiting = engine.answer(0, plan, "XX", long).then(() => "kept", () => "failed");
    for (let turns = 0; turns < 20; turns++) await null;
    worker.onerror({ message: "gone" });
    check("a call whose worker is lost", await waiting === "failed");
    await testEngine("after a worker was lost", engine, plan, records);
    check("after a worker was lost: where it works", engine.about.key === "page");
    await worker.terminate();
}

async function main() {
    const [modulePath, casesPath, ...folders] = process.argv.slice(2);
    const module = readFileSync(modulePath), all = [...casesIn(casesPath)];
    const { plan } = all.find((it) => it.task === 0 && it.status === 0);
    await testCases(module, all);
    await testRooms(module, plan);
    await testGrowth(module, plan);
    for (const folder of folders) await testLittle(folder, all);
    await testEngines(module, plan);
    console.log(`${cases} ${differ}`);
}

main();
