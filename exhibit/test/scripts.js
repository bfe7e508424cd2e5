"use strict";

// The tests of exhibit/test_page: the page's scripts in node, with stand-ins for what a browser has.

const { execFileSync } = require("child_process");
const { readFileSync, readdirSync } = require("fs");
const vm = require("vm");

const EXHIBIT = `${__dirname}/..`;
const NEVER = new Promise(() => {});
const read = (name) => readFileSync(`${EXHIBIT}/${name}`, "utf8");
const TEXTS = Object.fromEntries(["en", "de"].map((name) => [name, JSON.parse(read(`page/texts/${name}.json`))]));

const SCRIPT = execFileSync("python3", [`${EXHIBIT}/bundle.py`, "--script"], { encoding: "utf8" });

let passed = 0, failed = 0;
const tests = [];
const test = (name, act) => tests.push({ name, act });

function check(holds, sentence) {
    if (!holds) throw new Error(sentence);
}

function same(found, wanted, what) {
    const [one, other] = [found, wanted].map((it) => JSON.stringify(it));
    check(one === other, `${what}: ${one}, not ${other}`);
}

// What a test needs of an element: its attributes, its contents, and the text of both it and them.
class Element {
    constructor(name) {
        Object.assign(this, { name, attributes: {}, contents: [], listeners: {}, dataset: {}, style: {} });
        this.classList = { add() {}, remove() {}, toggle() {} };
        this.className = "";
    }

    get textContent() { return this.contents.map((it) => it.textContent ?? it).join(""); }
    set textContent(text) { this.contents = [text]; }

    get children() { return this.contents.filter((it) => it instanceof Element); }

    append(...all) { this.contents.push(...all); }
    replaceChildren(...all) { this.contents = all; }
    setAttribute(name, value) { this.attributes[name] = value; }
    addEventListener(name, listener) { this.listeners[name] = listener; }
    remove() {}
    querySelectorAll() { return []; }
    querySelector() { return new Element("found"); }

    click() {
        this.clicked?.();
        this.listeners.click?.();
    }
}

class Document extends Element {
    constructor() {
        super("document");
        this.body = new Element("body");
        this.documentElement = new Element("html");
        this.byId = new Map();
        this.made = [];
    }

    getElementById(id) {
        if (!this.byId.has(id)) this.byId.set(id, new Element(id));
        return this.byId.get(id);
    }

    createElement(name) {
        this.made.push(new Element(name));
        return this.made.at(-1);
    }

    createElementNS(_, name) { return this.createElement(name); }
}

// A clock that goes on when a test says so.
class Clock {
    constructor() { Object.assign(this, { now: 0, next: 1, timers: new Map() }); }

    setTimeout(act, wait = 0) {
        this.timers.set(this.next, { act, at: this.now + wait });
        return this.next++;
    }

    clearTimeout(timer) { this.timers.delete(timer); }

    async run(time) {
        const end = this.now + time;
        for (;;) {
            await settled();
            const ready = [...this.timers].filter(([, it]) => it.at <= end);
            const [due] = ready.sort(([, one], [, other]) => one.at - other.at);
            if (!due) break;
            this.timers.delete(due[0]);
            this.now = Math.max(this.now, due[1].at);
            due[1].act();
        }
        this.now = end;
        await settled();
    }
}

// Until what promises have led to is done.
const settled = () => new Promise((done) => setImmediate(done));

// The page's scripts in a world of their own, in this language. `get(name)` is what a script declares.
function world({ language = "en", hash = "" } = {}) {
    const clock = new Clock(), document = new Document(), saved = [];
    class Blob { constructor(parts, { type }) { Object.assign(this, { text: parts.join(""), type }); } }
    const URL = { createObjectURL: (blob) => { saved.push(blob); return "blob:it"; }, revokeObjectURL() {} };
    const films = [1, 2, 3].map((number) => ({ name: `film${number}`, plan: "", kinds: "XX", rows: "" }));
    const context = vm.createContext({
        document, TEXTS, URL, Blob, console, performance, structuredClone, TextDecoder, TextEncoder,
        PLANS: { example: "plan", rush_hour: "rush" }, FILMS: films, openEngine: () => NEVER,
        navigator: { language }, location: { hash, href: "http://127.0.0.1:8045/" },
        matchMedia: () => ({ matches: false }), ResizeObserver: class { observe() {} },
        requestAnimationFrame: (act) => clock.setTimeout(act, 16),
        setTimeout: clock.setTimeout.bind(clock), clearTimeout: clock.clearTimeout.bind(clock),
    });
    context.window = context;
    vm.runInContext(SCRIPT, context, { filename: "page" });
    return { clock, document, saved, get: (name) => vm.runInContext(name, context) };
}

// A call of `answer` gives this, or throws it if it is an error.
const engineOf = (answer) => ({ answer: async () => { if (answer instanceof Error) throw answer; return answer; } });
const GONE = new Error("Failed to fetch");

// An audit.

async function verdictOn(answer, language) {
    const it = world({ language }), verdict = new Element("output"), Session = it.get("Session");
    const session = new Session(engineOf(answer));
    await it.get("judge")(session, "records", verdict);
    return { kind: verdict.className, text: verdict.textContent };
}

test("an audit that says so is legal or illegal", async () => {
    const legal = await verdictOn({ status: 0, text: "AUDIT,LEGAL,3\nPATHS,1\nCLOSED,4\n" });
    same(legal.kind, "legal", "three legal turns");
    check(legal.text.startsWith("AUDIT,LEGAL,3 These are 3 legal turns"), legal.text);
    const wrong = await verdictOn({ status: 7, text: "AUDIT,REPLY,0\nas it is\nas it must be\n" });
    same(wrong.kind, "illegal", "a wrong turn");
    check(wrong.text.startsWith("AUDIT,REPLY,0 Turn 0 is wrong."), wrong.text);
    check(wrong.text.endsWith("as it is\nas it must be"), wrong.text);
    same((await verdictOn({ status: 7, text: "AUDIT,TURNS,2\n" })).kind, "illegal", "a wrong number");
});

const UNJUDGED = [
    [{ status: 5, text: "" }, "There is not enough memory for this.", "Dafür reicht der Speicher nicht."],
    [GONE, "The engine gave no answer: Failed to fetch", "Das Programm gab keine Antwort: Failed to fetch"],
    [{ status: 4, text: "FAULT,U1,1\n" }, "These are not records.", "Das sind keine Aufzeichnungen."],
    [{ status: 3, text: "FAULT,P2\n" }, "The engine ended with status 3. FAULT,P2",
        "Das Programm endete mit Status 3. FAULT,P2"],
    [{ status: 6, text: "" }, "The engine ended with status 6.", "Das Programm endete mit Status 6."],
];

test("an audit without an answer is neither, and the page says why", async () => {
    for (const [answer, english, german] of UNJUDGED) {
        const wanted = { en: `This could not be judged. ${english}`, de: `Das konnte nicht geprüft werden. ${german}` };
        for (const language of ["en", "de"]) {
            same(await verdictOn(answer, language), { kind: "unjudged", text: wanted[language] }, english);
        }
    }
});

// A drawing, and files.

function filesOf(it, answer, session = {}) {
    const told = [], page = { stage: { kinds: "XX", session: { plan: "plan", ...session } }, refresh() {}, stages: {} };
    const engine = engineOf(answer), files = new (it.get("Files"))(page);
    const stage = { session: { engine, plan: "plan", kinds: "XX", recordsText: () => "records" } };
    const tell = files.tell.bind(files);
    files.tell = (...words) => { told.push(words[0]); tell(...words); };
    return { files, page, told, stage };
}

async function savedDrawing(answer, language) {
    const it = world({ language }), { files, stage, told } = filesOf(it, answer);
    await files.saveDrawing(stage);
    return { saved: it.saved.map(({ type, text }) => [type, text]), told };
}

test("a drawing is saved", async () => {
    const { saved, told } = await savedDrawing({ status: 0, text: "<svg/>" });
    same([saved, told], [[["image/svg+xml", "<svg/>"]], []], "a drawing");
});

test("a text that is no drawing is told, and not saved", async () => {
    const wrong = [{ status: 7, text: "AUDIT,COUNTS\nPATHS,1\n" }, "The engine ended with status 7. AUDIT,COUNTS",
        "Das Programm endete mit Status 7. AUDIT,COUNTS"];
    const others = UNJUDGED.filter(([answer]) => answer.status !== 4);
    for (const [answer, english, german] of [wrong, ...others]) {
        same(await savedDrawing(answer), { saved: [], told: [`There is no drawing. ${english}`] }, english);
        same(await savedDrawing(answer, "de"), { saved: [], told: [`Es gibt keine Zeichnung. ${german}`] }, german);
    }
});

// The kinds with which rows are tried while the engine refuses them so, and those with which they are taken.
async function triedWith(kinds, faults) {
    const it = world(), { files, page, told } = filesOf(it), tried = [], taken = [];
    page.stage.kinds = kinds;
    page.faultOf = async (plan, these) => {
        tried.push(these);
        const line = faults(these);
        return line ? { status: 4, line } : null;
    };
    page.choose = async () => {};
    page.stages.film = { film: { rows: [] }, bring: async (name, plan, these) => taken.push(these) };
    await files.openRows("rows.csv", "J,0,1,R,3041\n");
    return { tried, taken, told };
}

const ALL = "X".repeat(48);

test("rows that a marker of another kind takes are tried with markers for all jobs", async () => {
    const wrongKind = (kinds) => kinds === "DC" ? "FAULT,T5,1,C3" : null;
    const { tried, taken } = await triedWith("DC", wrongKind);
    same([tried, taken], [["DC", "XX"], ["XX"]], "rows refused with C3");
    const more = (kinds) => kinds === "DC" ? "FAULT,T5,1,C3" : kinds === "XX" ? "FAULT,T5,2,C1" : null;
    same((await triedWith("DC", more)).taken, [ALL], "rows refused with C3, then with C1");
});

test("rows that need more markers are tried with 48, and others are refused at once", async () => {
    const few = (kinds) => kinds === ALL ? null : "FAULT,T5,1,C1";
    same((await triedWith("XX", few)).taken, [ALL], "rows refused with C1");
    const { tried, taken, told } = await triedWith("DC", () => "FAULT,T5,1,C2");
    same([tried, taken, told.length], [["DC"], [], 1], "rows refused with C2");
    same((await triedWith("XX", () => "FAULT,T5,1,C3")).taken, [], "rows refused with C3 by all");
});

test("a file is told when the engine gives no answer", async () => {
    const it = world(), { files, page, told } = filesOf(it);
    page.faultOf = async () => { throw GONE; };
    await files.open([{ name: "rows.csv", size: 3, arrayBuffer: async () => new Uint8Array([74, 44, 48]).buffer }]);
    same(told, ["The engine gave no answer: Failed to fetch"], "what is told");
});

// The kiosk.

// A page whose films begin when a test lets them. `plays` are the films that were asked for, `done` what the kiosk had
// the page do.
function kiosk({ lifted = false } = {}) {
    const it = world({ hash: "#kiosk=1" }), plays = [], done = [];
    const play = (name) => new Promise((begin) => plays.push({ name, begin }));
    const film = { films: ["one", "two", "three"], isOver: false, play };
    const session = { visitor: { phones: lifted ? { 3041: { lifted, digits: "", job: null } } : {} } };
    const day = { lines: ["3041"], chosen: "3041", session, lift: async (line) => { done.push(`lift ${line}`); } };
    const page = { stages: { film, day } };
    page.choose = async (name) => { done.push(name); page.stage = page.stages[name]; };
    page.reset = async () => { done.push("reset"); page.stage = day; };
    page.stage = day;
    const made = new (it.get("Kiosk"))(page);
    page.sound = { mute() {} };
    const sign = (type, more = {}) => made.noticed({ type, preventDefault() {}, stopPropagation() {}, ...more });
    return { ...it, film, plays, done, sign, touch: () => sign("pointerdown") };
}

test("after a touch one film plays at a time, even if an earlier one has still to begin", async () => {
    const { clock, film, plays, touch } = kiosk();
    await clock.run(1000);
    same(plays.map((it) => it.name), ["one"], "the films after the rest");
    touch();
    await clock.run(1000);
    same(plays.map((it) => it.name), ["one", "one"], "the films after a touch and another rest");
    for (const it of plays) it.begin();
    await clock.run(1000);
    film.isOver = true;
    await clock.run(5000);
    same(plays.map((it) => it.name), ["one", "one", "two"], "the films when the first is over");
});

test("a touch that comes again and again leaves no film behind", async () => {
    const { clock, plays, done, touch } = kiosk();
    for (let time = 0; time < 5; time++) {
        await clock.run(1000);
        touch();
    }
    plays.forEach((it) => it.begin());
    same(plays.length, 5, "the films that were begun");
    await clock.run(900);
    same(plays.length, 5, "the films without a rest");
    same(done.slice(-2), ["reset", "lift 3041"], "what is done after a touch");
});

test("films that no touch ends play one after another, each once", async () => {
    const { clock, film, plays } = kiosk();
    await clock.run(1000);
    film.isOver = true;
    for (let time = 0; time < 4; time++) {
        plays.at(-1).begin();
        await clock.run(3400);
    }
    same(plays.map((it) => it.name), ["one", "two", "three", "one", "two"], "the films");
});

test("a film that was chosen during the last step of another plays", async () => {
    const it = world(), film = new (it.get("FilmStage"))(engineOf({ status: 0, text: "{}" }), () => {});
    film.film = { plan: "", kinds: "XX", rows: [{}] };
    film.session.visitor = { rows: 1, steps: 0 };
    film.auto = true;
    film.one = async () => { film.film = { plan: "", kinds: "XX", rows: [{}] }; };
    await film.autoStep();
    same(film.auto, true, "whether the new film plays");
});

// What was asked for ahead of a server. `replies` are what it answers, in order: a status of HTTP with a body, or an
// error.
async function served(replies) {
    const asked = [], context = vm.createContext({
        location: { href: "http://127.0.0.1:8045/" }, URL, TextDecoder, TextEncoder, AbortController,
        fetch: (place, { body, signal }) => {
            const { input } = JSON.parse(body), next = replies[asked.length] ?? { status: 0, text: "?" };
            const { wait, fails, code = 200, ...answer } = next;
            asked.push(input);
            const stopped = (fail) => () => setImmediate(fail, new Error("aborted"));
            const gone = new Promise((_, fail) => signal?.addEventListener("abort", stopped(fail)));
            const reply = async () => {
                await wait;
                if (fails) throw GONE;
                const text = async () => "The server has too much to do.\n";
                return { ok: code === 200, json: async () => answer, text };
            };
            return Promise.race([reply(), gone]);
        },
    });
    vm.runInContext(read("engine/served.js"), context);
    return { asked, engine: await vm.runInContext("openEngine()", context) };
}

const callOf = (input) => [9, "plan", "XX", input];

test("a good answer that was asked for ahead is taken", async () => {
    const { asked, engine } = await served([{ status: 0, text: "ahead" }]);
    engine.prepare([callOf("one")]);
    await settled();
    same(await engine.answer(...callOf("one")), { status: 0, text: "ahead" }, "the answer");
    same(asked, ["one"], "what the server was asked");
    same(await engine.answer(...callOf("one")), { status: 0, text: "?" }, "the answer to a second call");
});

test("what was asked for ahead in vain is asked for again", async () => {
    for (const first of [{ fails: true }, { code: 503 }, { code: 500 }, { status: 5, text: "" }]) {
        for (const isLate of [false, true]) {
            let go;
            const wait = isLate ? new Promise((done) => { go = done; }) : null;
            const { asked, engine } = await served([{ ...first, wait }, { status: 0, text: "again" }]);
            engine.prepare([callOf("one")]);
            if (!isLate) await settled();
            const answer = engine.answer(...callOf("one"));
            if (isLate) setImmediate(go);
            same(await answer, { status: 0, text: "again" }, `the answer after ${JSON.stringify(first)}`);
            same(asked, ["one", "one"], "what the server was asked");
        }
    }
});

test("what fails twice is told", async () => {
    const { asked, engine } = await served([{ fails: true }, { code: 503 }]);
    engine.prepare([callOf("one")]);
    const error = await engine.answer(...callOf("one")).catch((it) => it);
    same([error.message, asked.length], ["The server has too much to do.", 2], "the error, and how often it was asked");
});

test("what is asked for ahead anew isn't forgotten when the earlier one is given up", async () => {
    const { asked, engine } = await served([{ wait: NEVER }, { wait: NEVER }, { status: 0, text: "ahead" }]);
    engine.prepare([callOf("one")]);
    engine.prepare([callOf("two")]);
    engine.prepare([callOf("one")]);
    await settled();
    await settled();
    same(await engine.answer(...callOf("one")), { status: 0, text: "ahead" }, "the answer");
    same(asked, ["one", "two", "one"], "what the server was asked");
});

test("everything is as at the beginning before the films, and for whoever ends them", async () => {
    const { clock, done, touch } = kiosk();
    await clock.run(1000);
    same(done, ["reset", "film"], "what is done after a rest");
    touch();
    await settled();
    same(done, ["reset", "film", "reset", "lift 3041"], "what is done after a touch");
});

test("a pointer that moves, a wheel and a slider show that somebody is there; a pointer that rests doesn't", async () => {
    for (const [type, more, isThere] of [["pointermove", { movementX: 2, movementY: 0 }, true], ["wheel", {}, true],
        ["input", {}, true], ["pointermove", { movementX: 0, movementY: 0 }, false]]) {
        const { clock, plays, sign } = kiosk();
        await clock.run(600);
        sign(type, more);
        await clock.run(600);
        same(plays.length, isThere ? 0 : 1, `the films after ${type} ${JSON.stringify(more)}`);
    }
});

test("films don't begin while a receiver is lifted, but for a long rest", async () => {
    const { clock, plays } = kiosk({ lifted: true });
    await clock.run(1500);
    same(plays.length, 0, "the films after one rest");
    await clock.run(1000);
    same(plays.length, 1, "the films after two rests");
});

// What all scripts share.

test("no style is an attribute, which the server's policy forbids", async () => {
    const it = world(), made = it.get("element")("p", { style: "--own:red", class: "a", hidden: true, title: null });
    same([made.attributes, made.style.cssText], [{ class: "a", hidden: "" }, "--own:red"], "the element");
    const scripts = readdirSync(`${EXHIBIT}/page`).filter((name) => /\.(js|html)$/.test(name));
    const inAttribute = /\sstyle=|setAttribute\('style'|innerHTML|\son\w+="/;
    const wrong = scripts.filter((name) => inAttribute.test(read(`page/${name}`)));
    same(wrong, [], "files with a style or a listener in an attribute");
});

test("each language has the texts that the scripts name", async () => {
    const names = readdirSync(`${EXHIBIT}/page`).filter((name) => name.endsWith(".js"));
    const keys = names.flatMap((name) => [...read(`page/${name}`).matchAll(/\bt\('([^']+)'/g)].map((it) => it[1]));
    for (const [language, all] of Object.entries(TEXTS)) {
        same(keys.filter((key) => !(key in all)), [], `texts that ${language} lacks`);
    }
    same(Object.keys(TEXTS.de).sort(), Object.keys(TEXTS.en).sort(), "the keys of both languages");
});

require("./units.js")({ test, same, check, world, settled });

async function main() {
    for (const { name, act } of tests) {
        try {
            await act();
            passed++;
        } catch (error) {
            failed++;
            console.log(`FAILED  ${name}\n        ${error.message ?? error}`);
        }
    }
    console.log(`${passed} passed, ${failed} failed`);
    process.exitCode = Number(failed > 0);
}

process.on("unhandledRejection", (error) => {
    failed++;
    console.log(`FAILED  a promise that nobody awaits: ${error.message}`);
});
main();
