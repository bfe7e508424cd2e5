"use strict";

// The engine behind the page: exhibit/serve runs the proved native program for each call.
//
// openEngine() gives the same object as in inside.js, with the name "served", and about as {key: "served"}. A promise
// fails with the server's sentence if it refuses a call or can't do it. After a click a browser may draw the screen
// before it hands over what a server answered; so the page names the calls that are likely to come next to `prepare`.
// What was asked for ahead in vain is asked for again: the server may have had too much to do at that moment.

async function openEngine() {
    const NO_SUCH_TASK = 1, OUT_OF_MEMORY = 5;
    const place = new URL("answer", location.href);
    let last = Promise.resolve();

    // What was asked for ahead, by the body of its call.
    const ahead = new Map();

    // The text as it is in UTF-8, so that half a surrogate pair becomes the same character as in inside.js.
    function inUtf8(text) {
        return new TextDecoder("utf-8", { ignoreBOM: true }).decode(new TextEncoder().encode(text));
    }

    function bodyOf(task, plan, kinds, input) {
        return JSON.stringify({ task, plan: inUtf8(plan), kinds: inUtf8(kinds), input: inUtf8(input) });
    }

    async function ask(body, signal) {
        const headers = { "Content-Type": "application/json" };
        const response = await fetch(place, { method: "POST", headers, body, signal });
        if (!response.ok) throw new Error((await response.text()).trim());
        return response.json();
    }

    function askAhead(body) {
        const stop = new AbortController(), answer = ask(body, stop.signal), asked = { answer, stop };
        ahead.set(body, asked);
        answer.catch(() => { if (ahead.get(body) === asked) ahead.delete(body); });
    }

    // What was asked for ahead, or null if that failed.
    async function answerAhead({ answer }) {
        const found = await answer.catch(() => null);
        return found?.status === OUT_OF_MEMORY ? null : found;
    }

    async function answerNow(task, ...given) {
        if (!Number.isInteger(task) || task < 0 || task >= 2 ** 32) return { status: NO_SUCH_TASK, text: "" };
        const body = bodyOf(task, ...given), prepared = ahead.get(body);
        ahead.delete(body);
        return (prepared && await answerAhead(prepared)) ?? ask(body);
    }

    return {
        name: "served",
        about: { key: "served" },
        // One call after the other.
        answer(...call) {
            last = last.catch(() => {}).then(() => answerNow(...call));
            return last;
        },
        // Asks ahead for the answers to these calls, one of which is likely to come next, and no longer for others.
        prepare(calls) {
            const bodies = new Set(calls.map((call) => bodyOf(...call)));
            for (const [body, { stop }] of ahead) if (!bodies.has(body)) { stop.abort(); ahead.delete(body); }
            for (const body of bodies) if (!ahead.has(body)) askAhead(body);
        },
    };
}
