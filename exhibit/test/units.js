"use strict";

// Tests of what the page works out without an engine, for exhibit/test_page: dials, phases, the line that leads, sounds,
// the address of a kiosk.

module.exports = ({ test, same, world }) => {
    const get = (name) => world().get(name);

    test("a hole is turned from its place to the stop, and 0 gives ten pulses", () => {
        const wayOf = get("wayOf"), pulsesOf = get("pulsesOf");
        same([0, 1, 9].map(wayOf), [52, 82, 322], "the ways of 1, 2 and 0");
        same([1, 9, 0].map(pulsesOf), [1, 9, 10], "the pulses of 1, 9 and 0");
    });

    test("a dial turns with the hand, no further than the stop, and never to the left", () => {
        const turnedBy = get("turnedBy");
        for (const [from, to, way, far] of [[-30, -10, 52, 20], [-30, 60, 52, 52], [-30, -31, 52, 0], [-30, -100, 52, 0],
            [60, -160, 322, 140], [60, 20, 322, 320], [60, 50, 322, 0], [170, -170, 322, 20]]) {
            same(turnedBy(from, to, way), far, `from ${from} to ${to} on a way of ${way}`);
        }
    });

    const step = (act, kind, number = 0, more = {}) => ({ act, object: kind && { kind, frame: 3, number }, ...more });
    const frame = "line link frame", trunkFrame = "trunk link frame";
    const DIAL = [step("request", frame), step("seize", frame), step("test", "line switch"), step("request", "group"),
        step("seize", "group"), step("test", "group"), step("request", trunkFrame), step("seize", trunkFrame),
        step("test", "trunk switch"), step("test", "line junctor switch"), step("turn"), step("close", "line switch"),
        step("free", frame)];
    const shown = (phases) => phases.map((it) => `${it.phase} ${it.steps.length}${it.isNow ? " now" : it.isDone ? " done" : ""}`);

    test("a dial tone job has four phases", () => {
        const phasesOf = get("phasesOf");
        same(shown(phasesOf("D", [], DIAL[0])), ["line 0 now", "register 0", "path 0", "close 0"], "at its beginning");
        same(shown(phasesOf("D", DIAL.slice(0, 3), DIAL[3])), ["line 3 done", "register 0 now", "path 0", "close 0"], "after its line");
        same(shown(phasesOf("D", DIAL.slice(0, 9), DIAL[9])), ["line 3 done", "register 3 done", "path 3 now", "close 0"], "in its tests");
        same(shown(phasesOf("D", DIAL, null)), ["line 3 done", "register 3 done", "path 4 done", "close 3 done"], "at its end");
    });

    test("a job that gives back before its turn begins its phases anew", () => {
        const phasesOf = get("phasesOf"), denied = [...DIAL.slice(0, 4), step("withdraw", "group"), step("free", frame)];
        same(shown(phasesOf("D", denied, DIAL[0])), ["line 5 now", "register 1", "path 0", "close 0"], "after it gave back");
    });

    test("a completing job has five phases", () => {
        const phasesOf = get("phasesOf");
        const steps = [...["request", "seize"].map((act) => step(act, frame)), step("test", "line switch"),
            step("test", "line junctor switch"), ...["request", "seize"].map((act) => step(act, trunkFrame)),
            step("test", "trunk switch"), step("request", "group", 0), step("seize", "group", 0), step("test", "line switch", 1),
            step("request", "group", 1), step("seize", "group", 1), step("test", "group", 1), step("request", trunkFrame, 6),
            step("test", "line junctor switch", 1), step("turn"), step("open", "line switch"), step("close", "group", 1)];
        same(shown(phasesOf("C", steps, null)),
            ["digits 9 done", "called 1 done", "trunk 3 done", "paths 2 done", "connect 3 done"], "all its steps");
    });

    test("a trail has the steps of a marker's job, and forgets what is undone", () => {
        const trail = new (get("Trail"))(), at = (...jobs) => jobs.map((number) => ({ job: number && { number } }));
        const assigned = { event: "assignment", marker: 0, job: { number: 7 } }, made = { event: "step", marker: 0, act: "test" };
        trail.add({ events: [{ event: "step", marker: 0, act: "free" }], markers: at(null) });
        trail.add({ events: [assigned], markers: at(7) });
        trail.add({ events: [made], markers: at(7) });
        trail.add({ events: [made, made], markers: at(7) });
        same(trail.stepsOf(0, 7).length, 3, "the steps of job 7");
        trail.cut(3);
        same(trail.stepsOf(0, 7).length, 1, "the steps after an undo");
        same(trail.stepsOf(0, 8).length, 0, "the steps of another job");
    });

    test("the address tells the volume and a kiosk's rest", () => {
        const volumeIn = get("volumeIn"), restIn = get("restIn");
        same(["", "#volume=40", "#kiosk=60&volume=0", "#volume=900"].map(volumeIn), [null, 0.4, 0, 1], "volumes");
        same(["", "#kiosk", "#kiosk=60", "#volume=1&kiosk=5", "#kiosks"].map(restIn), [null, 90, 60, 5, null], "rests");
    });

    test("what a receiver sounds like follows from its state", () => {
        const toneOf = get("toneOf");
        same(["tone", "ringing", "CALLEDBUSY", "TRUNKSBUSY", "idle", "talking"].map(toneOf),
            ["dial", "bell", "busy", "fast", null, null], "tones");
    });

    test("a hall's own texts and language are taken, and its plan is told", async () => {
        const it = world(), readOwn = it.get("readOwn"), texts = it.get("texts");
        same(await readOwn(Promise.resolve({})), null, "the plan of a hall that has none");
        const own = { plan: "version = 1", language: "fr", texts: { fr: { name: "Français", title: "Un central" } } };
        same(await readOwn(Promise.resolve(own)), "version = 1", "the plan");
        same([texts.language, texts.atFirst, texts.say("title"), texts.say("mode.film")], ["fr", "fr", "Un central", "Film"], "the texts");
        same(texts.languages.includes("fr"), true, "the list of languages");
    });
};
