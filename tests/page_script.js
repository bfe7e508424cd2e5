#!/usr/bin/env node
"use strict";

// Tests the script of a page that `crossbar5 page` writes, in node: page_script.js
//
// The page is examples/inside_call.html, in a stand-in for what the script needs of a browser. Each test runs twice:
// with the readable script, crates/xbar_page/script/page.js, and with the packed one that the page has. Prints what
// fails, and last `N passed, M failed`.

const { readFileSync } = require("fs");
const vm = require("vm");

const ROOT = `${__dirname}/..`;
const read = (name) => readFileSync(`${ROOT}/${name}`, "utf8");
const PAGE = read("examples/inside_call.html");
const SCRIPTS = {
    "crates/xbar_page/script/page.js": read("crates/xbar_page/script/page.js"),
    "examples/inside_call.html": PAGE.match(/<script>(.*?)<\/script>/s)[1],
};

const tests = [];
const test = (name, act) => tests.push({ name, act });

function same(found, wanted, what) {
    const [one, other] = [found, wanted].map((it) => JSON.stringify(it));
    if (one !== other) throw new Error(`${what}: ${one}, not ${other}`);
}

// An element of the page, with what the script asks of one.
class Element {
    constructor(name, attributes, parentNode) {
        Object.assign(this, { name, attributes, parentNode, contents: [], style: {}, scrollTop: 0, offsetTop: 0 });
        this.classList = {
            contains: (name) => this.classes.has(name),
            add: (...names) => { this.classes = [...this.classes, ...names]; },
            remove: (...names) => { this.classes = [...this.classes].filter((it) => !names.includes(it)); },
        };
    }

    get id() { return this.getAttribute("id"); }
    get dataset() { return { from: this.attributes["data-from"], until: this.attributes["data-until"] }; }

    get classes() { return new Set((this.attributes.class ?? "").split(" ").filter((it) => it)); }
    set classes(names) { this.attributes.class = [...new Set(names)].join(" "); }

    get textContent() { return this.contents.map((it) => it.textContent ?? it).join(""); }
    set textContent(text) { this.contents = [String(text)]; }

    getAttribute(name) { return this.attributes[name] ?? null; }
    setAttribute(name, value) { this.attributes[name] = String(value); }
    removeAttribute(name) { delete this.attributes[name]; }

    // The elements within, in order; the script makes none and moves none.
    get all() {
        this.within ??= this.contents.flatMap((it) => it instanceof Element ? [it, ...it.all] : []);
        return this.within;
    }

    fits(word) {
        if (word.startsWith("#")) return this.id === word.slice(1);
        return word.startsWith("[") ? word.slice(1, -1) in this.attributes : this.name === word;
    }

    // A selector is one or more words, each for an element within that of the word before.
    querySelectorAll(selector) {
        let found = [this];
        for (const word of selector.split(" ")) found = found.flatMap((it) => it.all.filter((one) => one.fits(word)));
        return found;
    }

    querySelector(selector) { return this.querySelectorAll(selector)[0] ?? null; }

    // Null unless just one element has this id.
    getElementById(id) {
        const found = this.querySelectorAll(`#${id}`);
        return found.length === 1 ? found[0] : null;
    }
}

// The elements of a page, which is well-formed XML.
function parsed(text) {
    const document = new Element("document", {}, null);
    let at = document;
    for (const [, closing, name, attributes, empty, words] of text.matchAll(/<([/!]?)([\w-]+)(.*?)(\/?)>|([^<]+)/gs)) {
        if (words !== undefined) at.contents.push(words);
        else if (closing === "/") at = at.parentNode;
        else if (!closing) {
            const pairs = [...attributes.matchAll(/([\w-]+)="(.*?)"/gs)].map(([, key, value]) => [key, value]);
            at.contents.push(new Element(name, Object.fromEntries(pairs), at));
            if (!empty) at = at.contents.at(-1);
        }
    }
    same(at.name, "document", "the element that isn't closed");
    return document;
}

// A page that was opened with this address. `text` is the page's, `width` that of the window.
class Opened {
    constructor(script, { hash = "", text = PAGE, width = 1200 } = {}) {
        Object.assign(this, { timers: new Map(), count: 0, listeners: {}, location: { hash }, addresses: 0 });
        this.document = parsed(text);
        this.get("speed").value = this.all("option").find((it) => "selected" in it.attributes).attributes.value;
        // The list is 400 below the top of the window, its first link 500, and each link 27 high.
        this.all("#turns a").forEach((it, index) => { it.parentNode.offsetTop = 500 + 27 * index; });
        this.get("turns").offsetTop = 400;
        vm.runInNewContext(script, {
            document: this.document, location: this.location, innerWidth: width,
            history: { replaceState: (state, title, address) => this.readdress(address) },
            addEventListener: (name, act) => { this.listeners[name] = act; },
            setInterval: (act, time) => { this.timers.set(++this.count, { act, time }); return this.count; },
            clearInterval: (number) => this.timers.delete(number),
        });
    }

    get(id) { return this.document.getElementById(id); }
    all(selector) { return this.document.querySelectorAll(selector); }

    readdress(address) {
        if (this.isRefusing) throw new Error("too many changes of the address");
        this.location.hash = address;
        this.addresses++;
    }

    click(id) { this.get(id).onclick(); }

    choose(id, value) {
        this.get(id).value = String(value);
        (this.get(id).oninput ?? this.get(id).onchange)();
    }

    // A link, or what the reader writes into the address.
    follow(hash) {
        this.location.hash = hash;
        this.listeners.hashchange();
    }

    // Presses a key, and says whether the script did something with it.
    press(key, more = {}) {
        let isTaken = false;
        this.listeners.keydown({ key, target: this.get("frames"), preventDefault() { isTaken = true; }, ...more });
        return isTaken;
    }

    // Lets the time come at which the turns go on.
    tick() { [...this.timers.values()].forEach((it) => it.act()); }

    // The time between two turns that play, in milliseconds, for each timer.
    get times() { return [...this.timers.values()].map((it) => it.time); }

    // The sections and the links of the list that are marked; there is to be one of each.
    get sections() { return this.all("section").filter((it) => it.classes.has("now")).map((it) => it.id); }
    get links() {
        const marked = this.all("#turns a").filter((it) => it.getAttribute("aria-current") === "true");
        return marked.map((it) => it.attributes.href);
    }

    paths(name) {
        const groups = this.all("[data-from]").filter((it) => it.classes.has(name));
        return groups.map((it) => it.querySelector("title").textContent.split(":")[0]);
    }

    // The places of the names of the paths that stand, by their rows: null for a name that is hidden.
    get names() {
        const found = {};
        for (const group of this.all("[data-from]").filter((it) => it.classes.has("stands"))) {
            for (const { attributes, style, textContent } of group.querySelectorAll("text")) {
                const row = `${textContent} ${attributes.y}`;
                (found[row] ??= []).push(style.display === "none" ? null : +(+attributes.x).toFixed(3));
            }
        }
        return found;
    }

    // All that shows one turn.
    sameAs({ id, told, standing, fresh = [] }, what) {
        same([this.sections, this.links], [[id], [`#${id}`]], `${what}, the section and the link`);
        same([this.get("told").textContent, this.get("at").value].map(String), [told, String(this.indexOf(id))],
            `${what}, what is told, and the slider`);
        same([this.paths("stands"), this.paths("new")], [standing, fresh], `${what}, the paths`);
        const count = `paths: ${standing.length}, crosspoints closed: ${4 * standing.length}`;
        same(this.get("count").textContent, count, `${what}, the count`);
        const heading = this.get(id).querySelector("h2").textContent;
        same(this.get("at").attributes["aria-valuetext"], heading, `${what}, the slider's text`);
    }

    indexOf(id) { return this.all("section").findIndex((it) => it.id === id); }
}

// What examples/inside_call.out says of the office after each turn.
const START = { id: "start", told: "start", standing: [] };
const TURNS = [
    { standing: ["3041-0-417"], fresh: ["3041-0-417"] },
    { standing: ["3041-0-600", "3100-1-601"], fresh: ["3041-0-600", "3100-1-601"] },
    { standing: ["3041-0-600", "3100-1-601", "1000-0-417"], fresh: ["1000-0-417"] },
    { standing: ["1000-0-417"] },
    { standing: ["1000-0-417"] },
].map((it, turn) => ({ id: `turn${turn}`, told: `turn ${turn}, last 4`, ...it }));
const ALL = [START, ...TURNS];
const LAST = TURNS.at(-1);

test("a page opens at the start, with its controls", (open) => {
    const page = open();
    page.sameAs(START, "at first");
    same([page.get("controls").hidden, page.get("at").max], [false, 5], "the controls, and the slider's end");
    same(page.get("status").textContent, "The office before all turns", "the status");
    same([page.times, page.addresses, page.location.hash], [[], 0, ""], "timers and the address");
});

test("the address names the turn", (open) => {
    for (const it of ALL) open({ hash: `#${it.id}` }).sameAs(it, `#${it.id}`);
    for (const hash of ["#turn5", "#frames", "#"]) open({ hash }).sameAs(START, hash);
    const page = open();
    for (const it of [TURNS[3], TURNS[0], START, LAST, TURNS[1]]) {
        page.follow(`#${it.id}`);
        page.sameAs(it, `#${it.id}, followed`);
        same(page.get("status").textContent, page.get(it.id).querySelector("h2").textContent, "the status");
    }
    page.follow("#nothing");
    page.sameAs(START, "an address that names none");
});

test("buttons lead from turn to turn, and to both ends", (open) => {
    const page = open();
    const goes = (id, it) => {
        page.click(id);
        page.sameAs(it, id);
        same(page.location.hash, `#${it.id}`, `the address after ${id}`);
    };
    TURNS.forEach((it) => goes("after", it));
    goes("after", LAST);
    ALL.slice(0, -1).reverse().forEach((it) => goes("before", it));
    goes("before", START);
    goes("final", LAST);
    goes("first", START);
});

test("keys lead from turn to turn, and to both ends", (open) => {
    const page = open();
    const keys = [["ArrowRight", TURNS[0]], ["ArrowRight", TURNS[1]], ["ArrowLeft", TURNS[0]], ["End", LAST],
        ["ArrowRight", LAST], ["Home", START], ["ArrowLeft", START]];
    for (const [key, it] of keys) {
        same(page.press(key), true, `whether ${key} is taken`);
        page.sameAs(it, key);
        same(page.location.hash, `#${it.id}`, `the address after ${key}`);
    }
});

test("other keys, and keys of the slider and the speed, are left alone", (open) => {
    const page = open({ hash: "#turn1" });
    for (const key of ["ArrowUp", "Enter", " ", "a"]) same(page.press(key), false, key);
    for (const more of ["altKey", "ctrlKey", "metaKey", "shiftKey"]) {
        same(page.press("ArrowRight", { [more]: true }), false, more);
    }
    for (const id of ["at", "speed"]) same(page.press("End", { target: page.get(id) }), false, `a key of ${id}`);
    page.sameAs(TURNS[1], "after all of them");
    same(page.addresses, 0, "changes of the address");
});

test("the slider leads to its turn", (open) => {
    const page = open();
    for (const it of [TURNS[2], LAST, START]) {
        page.choose("at", page.indexOf(it.id));
        page.sameAs(it, "the slider");
        same(page.location.hash, `#${it.id}`, "the address after the slider");
    }
});

test("turns play again and again, and the status isn't told of them", (open) => {
    const page = open({ hash: "#play" });
    same([page.times, page.get("play").textContent], [[3000], "stop"], "the timer and the button");
    for (const it of [...ALL, ...ALL, START]) {
        page.sameAs(it, "while the turns play");
        same(page.get("status").textContent, "The office before all turns", "the status while the turns play");
        page.tick();
    }
    same([page.location.hash, page.addresses], ["#play", 0], "the address while the turns play");
});

test("the button plays the turns from the one that is shown, and stops them", (open) => {
    const page = open({ hash: "#turn3" }), play = page.get("play");
    same([play.textContent, play.attributes["aria-pressed"]], ["play", "false"], "the button at first");
    page.click("play");
    same([play.textContent, play.attributes["aria-pressed"]], ["stop", "true"], "the button while the turns play");
    same([page.location.hash, page.times], ["#play", [3000]], "the address and the timer");
    page.sameAs(TURNS[3], "before a turn has played");
    page.tick();
    page.sameAs(TURNS[4], "after a turn has played");
    page.click("play");
    page.sameAs(TURNS[4], "after they were stopped");
    same([play.textContent, play.attributes["aria-pressed"]], ["play", "false"], "the button when they were stopped");
    same([page.location.hash, page.times], ["#turn4", []], "the address and the timer when they were stopped");
    same(page.get("status").textContent, page.get("turn4").querySelector("h2").textContent, "the status");
});

test("whatever leads to a turn stops those that play", (open) => {
    const ways = { button: (page) => page.click("after"), key: (page) => page.press("ArrowRight"),
        slider: (page) => page.choose("at", 3), address: (page) => page.follow("#turn2") };
    for (const [way, act] of Object.entries(ways)) {
        const page = open({ hash: "#play" });
        page.tick();
        page.tick();
        act(page);
        same([page.times, page.get("play").textContent], [[], "play"], `the timer and the button after the ${way}`);
        page.sameAs(TURNS[2], `the ${way}`);
    }
});

test("the speed is that of the turns that play", (open) => {
    const page = open();
    page.choose("speed", 0.5);
    same(page.times, [], "the timer before they play");
    page.click("play");
    same(page.times, [500], "the timer at half a second");
    page.choose("speed", 8);
    same(page.times, [8000], "the timer at eight seconds");
    page.follow("#play");
    same(page.times, [8000], "the timer when they begin again");
    page.sameAs(START, "when they begin again");
});

test("a turn is shown even if the browser refuses its address", (open) => {
    const page = open();
    const refused = (act) => {
        page.isRefusing = true;
        try { act(); } catch (error) { same(error.message, "too many changes of the address", "the error"); }
        page.isRefusing = false;
    };
    refused(() => page.press("ArrowRight"));
    page.sameAs(TURNS[0], "the key");
    refused(() => page.choose("at", 3));
    page.sameAs(TURNS[2], "the slider");
    refused(() => page.click("play"));
    same([page.times, page.get("play").textContent], [[3000], "stop"], "the timer and the button");
});

test("names stand side by side in their row, new ones first and wider", (open) => {
    const page = open({ hash: "#turn0" });
    same(page.names, { "0001 324": [204], "REG 0 407": [1260] }, "one path");
    page.follow("#turn1");
    same(page.names, { "0001 324": [204], "INTRA 0 573": [1260, 1408.2], "0004 324": [144.2] }, "two new paths");
    page.follow("#turn2");
    same(page.names, { "0001 324": [204], "INTRA 0 573": [1260, 1374], "0004 324": [158], "0003 158": [204],
        "REG 0 407": [1260] }, "a new path in rows of its own");
    const inOneRow = PAGE.replace('y="158" class="line">0003', 'y="324" class="line">0003');
    same(open({ hash: "#turn2", text: inOneRow }).names, { "0001 324": [144.2], "INTRA 0 573": [1260, 1374], "0004 324": [98.2],
        "0003 324": [204], "REG 0 407": [1260] }, "a new path in the row of others");
    const atOneHeight = PAGE.replace('y="407" class="trunk">REG 0', 'y="324" class="trunk">REG 0');
    same(open({ hash: "#turn0", text: atOneHeight }).names, { "0001 324": [204], "REG 0 324": [1260] },
        "names at both sides of the frames");
});

test("names for which a row has no room are hidden until it has", (open) => {
    const group = PAGE.match(/<g data-from="1".*?<\/g>\n/s)[0], text = PAGE.replace(group, group.repeat(4));
    const page = open({ hash: "#turn1", text });
    same(page.names, { "0001 324": [204, 144.2, null, null], "INTRA 0 573": [1260, 1408.2, null, null, null],
        "0004 324": [null] }, "five new paths");
    page.follow("#turn2");
    same(page.names, { "0001 324": [204, 158, 112, null], "INTRA 0 573": [1260, 1374, null, null, null],
        "0004 324": [null], "0003 158": [204], "REG 0 407": [1260] }, "five paths a turn later");
});

test("an open list is scrolled to the turn", (open) => {
    for (const [width, isOpen] of [[1099, false], [1100, true]]) {
        const page = open({ width, hash: "#turn3" });
        same([page.get("list").open, page.get("turns").scrollTop], [isOpen, isOpen ? 148 : 0], `the list at ${width}`);
        page.press("ArrowRight");
        same(page.get("turns").scrollTop, isOpen ? 175 : 0, `the list at ${width} a turn later`);
    }
});

function main() {
    let passed = 0, failed = 0;
    for (const [file, script] of Object.entries(SCRIPTS)) {
        for (const { name, act } of tests) {
            try {
                act((more) => new Opened(script, more));
                passed++;
            } catch (error) {
                failed++;
                console.log(`FAILED  ${file}: ${name}\n        ${error.message ?? error}`);
            }
        }
    }
    console.log(`${passed} passed, ${failed} failed`);
    process.exitCode = Number(failed > 0);
}

main();
