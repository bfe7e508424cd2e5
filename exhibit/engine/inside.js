"use strict";

// The engine inside the page: the module of exhibit/wasm, for large calls in a worker, so that the page goes on while it
// works. Where the browser gives no worker to the page, as some do to a page from a file, it works in the page's own
// thread.
//
// openEngine() gives an object with
//   answer(task, plan, kinds, input)  a promise of {status, text}. Numbers and statuses are those of docs/FORMATS.md,
//                                     plan, kinds and input are strings. Answers come in the order of the calls
//   name                              "inside"
//   about                             {key, bytes}: "worker" or "page", and how large the module is

// The module, packed by gzip, in base64. exhibit/bundle.py puts it here.
const PACKED_MODULE = "@@MODULE@@";

async function unpackedModule() {
    const packed = Uint8Array.from(atob(PACKED_MODULE), (letter) => letter.charCodeAt(0));
    const unpacked = new Blob([packed]).stream().pipeThrough(new DecompressionStream("gzip"));
    return new Uint8Array(await new Response(unpacked).arrayBuffer());
}

// Calls of the engine in a module of these bytes. `ready` is kept when the module is compiled. This function uses no
// other, because its text is also what a worker runs.
//
// A module that ran out of memory, was stopped or has grown large is given up, and the next call begins with a new one:
// nothing is kept from one call to the next.
function callsOfModule(module) {
    const NO_SUCH_TASK = 1, OUT_OF_MEMORY = 5;
    const FIRST_ROOM = 1 << 20, LARGE = 1 << 28;
    const encoder = new TextEncoder(), decoder = new TextDecoder("utf-8", { ignoreBOM: true });
    const ready = WebAssembly.compile(module);
    let exports = null;
    let last = Promise.resolve();

    function take(size) {
        const place = exports.exhibit_take(BigInt(size));
        if (place === 0n) throw new RangeError("the module has no more memory");
        return Number(place);
    }

    function bytesAt(place, size) {
        return new Uint8Array(exports.memory.buffer, place, size);
    }

    function put(bytes) {
        const place = take(bytes.length);
        bytesAt(place, bytes.length).set(bytes);
        return { place, size: bytes.length };
    }

    // Makes room for a text of this size and calls the engine once.
    function callOnce(task, given, size) {
        const out = { place: take(size), size }, answered = take(16);
        const places = [...given, out].flatMap((it) => [BigInt(it.place), BigInt(it.size)]);
        exports.crossbar5_answer(task, ...places, BigInt(answered));
        const view = new DataView(exports.memory.buffer, answered, 16);
        const length = Number(view.getBigUint64(0, true)), status = view.getUint32(8, true);
        const bytes = length <= size ? bytesAt(out.place, length).slice() : null;
        for (const place of [out.place, answered]) exports.exhibit_give_back(BigInt(place));
        return { length, status, bytes };
    }

    function call(task, given) {
        const parts = given.map(put);
        let answer = callOnce(task, parts, FIRST_ROOM);
        if (answer.bytes === null) answer = callOnce(task, parts, answer.length);
        for (const part of parts) exports.exhibit_give_back(BigInt(part.place));
        return answer;
    }

    // What a browser throws if memory or the stack runs out in a module. Of a module that was stopped it is also said on
    // the console, since that may have another cause.
    function isOutOfMemory(error) {
        const stopped = error instanceof WebAssembly.RuntimeError;
        if (stopped) console.error("the engine's module was stopped:", error);
        return stopped || error instanceof RangeError || error.name === "InternalError";
    }

    async function answerNow(task, given, read) {
        const compiled = await ready, nothing = new Uint8Array();
        if (!Number.isInteger(task) || task < 0 || task >= 2 ** 32) return { status: NO_SUCH_TASK, made: read(nothing) };
        try {
            exports ??= (await WebAssembly.instantiate(compiled, {})).exports;
            const { status, bytes } = call(task, given());
            if (status === OUT_OF_MEMORY || exports.memory.buffer.byteLength > LARGE) exports = null;
            return { status, made: read(bytes) };
        } catch (error) {
            exports = null;
            if (!isOutOfMemory(error)) throw error;
            return { status: OUT_OF_MEMORY, made: read(nothing) };
        }
    }

    // One call after the other.
    function inOrder(task, given, read) {
        last = last.catch(() => {}).then(() => answerNow(task, given, read));
        return last;
    }

    return {
        ready,
        async answer(task, plan, kinds, input) {
            const given = () => [plan, kinds, input].map((text) => encoder.encode(text));
            const { status, made } = await inOrder(task, given, (bytes) => decoder.decode(bytes));
            return { status, text: made };
        },
        // The same with bytes.
        async answerBytes(task, plan, kinds, input) {
            const { status, made } = await inOrder(task, () => [plan, kinds, input], (bytes) => bytes);
            return { status, bytes: made };
        },
    };
}

// What a worker does: it is sent the module, then calls, and sends their answers.
function workInWorker() {
    let calls;
    const begin = (module) => {
        calls = callsOfModule(module);
        return calls.ready.then(() => ({ ready: true }), (error) => ({ failed: String(error) }));
    };
    const answer = ({ id, given }) =>
        calls.answer(...given).then((answer) => ({ id, answer }), (error) => ({ id, failed: String(error) }));
    onmessage = ({ data }) => (data.module ? begin(data.module) : answer(data)).then((said) => postMessage(said));
    postMessage({ begun: true });
}

// Calls of the engine in a worker. It fails if there is no worker, or it doesn't begin. If the worker is lost later, the
// calls that wait fail, and `lost` is called.
function callsInWorker(module, lost) {
    const PATIENCE = 5000;
    const text = `"use strict";\n${callsOfModule}\n(${workInWorker})();`;
    const waiting = new Map();
    let worker, next = 0;

    function answer(...given) {
        return new Promise((kept, failed) => {
            waiting.set(next, { kept, failed });
            worker.postMessage({ id: next++, given });
        });
    }

    function settle({ id, answer, failed }) {
        const call = waiting.get(id);
        waiting.delete(id);
        if (failed) call.failed(new Error(failed));
        else call.kept(answer);
    }

    function loseAll(error) {
        worker.onmessage = null;
        worker.terminate();
        lost();
        for (const call of waiting.values()) call.failed(error);
        waiting.clear();
    }

    return new Promise((kept, failed) => {
        worker = new Worker(URL.createObjectURL(new Blob([text], { type: "text/javascript" })));
        const fail = (why) => { worker.terminate(); failed(new Error(why)); };
        const timer = setTimeout(() => fail("the worker doesn't begin"), PATIENCE);
        worker.onerror = (event) => { clearTimeout(timer); fail(event.message); };
        worker.onmessage = ({ data }) => {
            clearTimeout(timer);
            if (data.begun) return;
            if (data.failed) return fail(data.failed);
            worker.onerror = (event) => loseAll(new Error(`the worker was lost: ${event.message}`));
            worker.onmessage = ({ data }) => settle(data);
            kept({ answer });
        };
        worker.postMessage({ module });
    });
}

async function callsInPage(module) {
    const calls = callsOfModule(module);
    await calls.ready;
    return calls;
}

// Calls with so many letters or fewer are answered in the page: they take a few milliseconds, and a browser may let a
// worker's answer wait until it has drawn the screen.
const SMALL = 1 << 16;

async function openEngine() {
    const module = await unpackedModule();
    const about = { key: "worker", bytes: module.length };
    const small = await callsInPage(module);
    const moveToPage = () => {
        about.key = "page";
        large = Promise.resolve(small);
        return large;
    };
    let large = callsInWorker(module, moveToPage);
    await large.catch(moveToPage);
    let last = Promise.resolve();

    async function answerNow(task, plan, kinds, input) {
        const isSmall = plan.length + kinds.length + input.length <= SMALL;
        return (isSmall ? small : await large).answer(task, plan, kinds, input);
    }

    // One call after the other, so that answers come in the order of the calls.
    function answer(...given) {
        last = last.catch(() => {}).then(() => answerNow(...given));
        return last;
    }

    return { name: "inside", about, answer };
}
