// What a visitor sees on the page: each shown text with its size and contrast, and what is wider than the window.
// texts.py runs this file, then one of its functions.

// Any CSS colour as red, green, blue (0 to 255) and how much it covers (0 to 1), by way of a canvas.
const colours = new Map(), canvas = document.createElement("canvas").getContext("2d", {willReadFrequently: true});
function colourOf(text) {
    if (!colours.has(text)) {
        canvas.clearRect(0, 0, 1, 1);
        canvas.fillStyle = "#000";
        canvas.fillStyle = text;
        canvas.fillRect(0, 0, 1, 1);
        const [red, green, blue, cover] = canvas.getImageData(0, 0, 1, 1).data;
        colours.set(text, [red, green, blue, cover / 255]);
    }
    return colours.get(text);
}

function over(top, bottom) {
    return [0, 1, 2].map(part => top[part] * top[3] + bottom[part] * (1 - top[3])).concat(1);
}

function brightness(colour) {
    const [red, green, blue] = colour.map(part => part / 255)
        .map(part => part <= 0.04045 ? part / 12.92 : ((part + 0.055) / 1.055) ** 2.4);
    return 0.2126 * red + 0.7152 * green + 0.0722 * blue;
}

// The contrast of two colours as WCAG defines it.
function contrast(one, other) {
    const [dark, bright] = [brightness(one), brightness(other)].sort((a, b) => a - b);
    return (bright + 0.05) / (dark + 0.05);
}

// How much an element covers, with all that it stands in.
function opacityOf(element) {
    let opacity = 1;
    for (let part = element; part; part = part.parentElement) opacity *= +getComputedStyle(part).opacity;
    return opacity;
}

function withOpacity(colour, opacity) {
    return [...colour.slice(0, 3), colour[3] * opacity];
}

// The colours that an element paints at a point: none, one, or all those of a gradient.
function paintedBy(element, x, y) {
    const style = getComputedStyle(element), opacity = opacityOf(element);
    if (element instanceof SVGGeometryElement) {
        const point = new DOMPoint(x, y).matrixTransform(element.getScreenCTM().inverse());
        if (style.fill === "none" || !element.isPointInFill(point)) return [];
        return [withOpacity(colourOf(style.fill), opacity * style.fillOpacity)];
    }
    if (element instanceof SVGElement && !(element instanceof SVGSVGElement)) return [];
    const gradient = style.backgroundImage.match(/(?:rgba?|color|oklab|oklch)\([^()]*\)/g);
    return (gradient ?? [style.backgroundColor]).map(text => withOpacity(colourOf(text), opacity));
}

// The colours that can be behind an element's text at a point, or null if the element isn't to be seen there.
function behind(element, x, y) {
    const stack = document.elementsFromPoint(x, y), own = stack.indexOf(element);
    if (own < 0) return null;
    let found = [[255, 255, 255, 1]];
    for (const part of stack.slice(own).reverse()) {
        if (part instanceof SVGTextContentElement) continue;
        const painted = paintedBy(part, x, y);
        if (painted.length) found = painted.flatMap(colour => found.map(bottom => over(colour, bottom)));
        found = [...new Map(found.map(colour => [colour.map(Math.round).join(), colour])).values()].slice(0, 16);
    }
    return found;
}

// Whether a text is there for screen readers alone: clipped to next to nothing.
function unseen(element) {
    for (let part = element; part && part !== document.body; part = part.parentElement) {
        const style = getComputedStyle(part), box = part.getBoundingClientRect();
        if (style.overflow !== "visible" && (box.width <= 2 || box.height <= 2)) return true;
        if (/inset\(50%|inset\(100%/.test(style.clipPath)) return true;
    }
    return !element.checkVisibility({visibilityProperty: true, opacityProperty: true});
}

// The text nodes that are shown, each with its element and the box of its first line.
function shownTexts() {
    const walker = document.createTreeWalker(document.body, NodeFilter.SHOW_TEXT), found = [];
    while (walker.nextNode()) {
        const node = walker.currentNode, element = node.parentElement;
        if (!node.data.trim() || element.closest("script, style, noscript, template, option, title, desc, defs, symbol"))
            continue;
        const range = document.createRange();
        range.selectNodeContents(node);
        const box = [...range.getClientRects()].find(rect => rect.width > 0 && rect.height > 0);
        if (box && !unseen(element)) found.push({node, element, range, text: node.data.trim().replace(/\s+/g, " ")});
    }
    return found;
}

// The size of a text's letters in pixels of the window.
function sizeOf(element) {
    const size = parseFloat(getComputedStyle(element).fontSize);
    if (!(element instanceof SVGElement)) return size;
    const m = element.getScreenCTM();
    return size * Math.sqrt(Math.abs(m.a * m.d - m.b * m.c));
}

function inkOf(element) {
    const style = getComputedStyle(element), opacity = opacityOf(element);
    if (element instanceof SVGElement) return withOpacity(colourOf(style.fill), opacity * style.fillOpacity);
    return withOpacity(colourOf(style.color), opacity);
}

// The least contrast that a text has with what can be behind it, or null if nobody can see it.
function contrastOf(text) {
    const grounds = groundsOf(text) ?? (text.element.scrollIntoView(MIDDLE), groundsOf(text));
    if (!grounds) return null;
    const ink = inkOf(text.element);
    return Math.min(...grounds.map(ground => contrast(over(ink, ground), ground)));
}

const MIDDLE = {block: "center", inline: "center", behavior: "instant"};

function groundsOf(text) {
    const box = text.range.getClientRects()[0];
    return behind(text.element, box.left + box.width / 2, box.top + box.height / 2);
}

function nameOf(element) {
    const name = part => part.tagName.toLowerCase() + (part.id && "#" + part.id)
        + [...part.classList].map(word => "." + word).join("");
    return (element.parentElement ? name(element.parentElement) + " > " : "") + name(element);
}

// Every shown text: what it says, where, its size, and its contrast.
function measureTexts() {
    const every = document.createElement("style");
    every.textContent = "* { pointer-events: auto !important; transition: none !important; animation: none !important }";
    document.head.append(every);
    const found = shownTexts().map(text => ({text: text.text.slice(0, 60), where: nameOf(text.element),
        size: sizeOf(text.element), contrast: contrastOf(text), isSpoken: !text.element.closest("[aria-hidden=true]")}));
    every.remove();
    scrollTo(0, 0);
    return found;
}

// What reaches beyond the window's sides, but for what a visitor can scroll or what is cut off on purpose.
function measureWidths() {
    const wide = [], most = document.documentElement.clientWidth + 1;
    if (document.documentElement.scrollWidth > most)
        wide.push({where: "the page", right: document.documentElement.scrollWidth});
    for (const element of document.body.querySelectorAll("*")) {
        if (element.closest("svg") && !(element instanceof SVGSVGElement)) continue;
        const box = element.getBoundingClientRect();
        if (box.right <= most && box.left >= -1 || !box.width || unseen(element)) continue;
        if (!cutByParent(element)) wide.push({where: nameOf(element), right: Math.round(box.right)});
    }
    return wide;
}

function cutByParent(element) {
    for (let part = element.parentElement; part && part !== document.body; part = part.parentElement)
        if (getComputedStyle(part).overflowX !== "visible") return true;
    return false;
}

// What covers a path or a text in the pictures of offices: badges, frames' numbers, labels, names of links.
function measureOverlaps() {
    const parts = [...document.querySelectorAll(".badge, .number, .more, .label, .caption, .name.met")];
    const boxes = parts.map(element => ({element, box: inner(element)}));
    const covers = boxes.flatMap(({element, box}, at) => boxes.slice(at + 1)
        .filter(other => meet(box, other.box)).map(other => `${labelOf(element)} and ${labelOf(other.element)}`));
    for (const path of document.querySelectorAll(".link:is(.register, .call, .partial)"))
        for (const {element, box} of boxes)
            if (pointsOf(path).some(point => meet(box, point))) covers.push(`${labelOf(element)} and a path`);
    return covers;
}

// An element's box, of a text that of its letters alone.
function inner(element) {
    const {left, right, top, bottom, height} = element.getBoundingClientRect();
    const spare = element instanceof SVGTextContentElement ? height * 0.18 : 0;
    return {left, right, top: top + spare, bottom: bottom - spare};
}

function meet(one, other) {
    return one.left < other.right && other.left < one.right && one.top < other.bottom && other.top < one.bottom;
}

const labelOf = element => `${nameOf(element)} ${element.textContent}`;

// The points of a path in the window, three pixels apart.
function pointsOf(path) {
    if (!path.points) {
        const matrix = path.getScreenCTM(), length = path.getTotalLength();
        path.points = Array.from({length: Math.floor(length / 3) + 1}, (_, at) => {
            const {x, y} = path.getPointAtLength(3 * at).matrixTransform(matrix);
            return {left: x - 0.5, right: x + 0.5, top: y - 0.5, bottom: y + 0.5};
        });
    }
    return path.points;
}

// All strings that a visitor sees or a screen reader says, but for those in a language of their own.
function strings() {
    const own = element => element.closest("[translate=no], code, pre")
        || element.closest("[lang]") !== document.documentElement && element.closest("[lang]");
    const found = new Set([document.title.trim()]);
    for (const text of shownTexts()) if (!own(text.element)) found.add(text.text);
    for (const name of ["aria-label", "title", "placeholder", "alt", "aria-valuetext", "aria-roledescription"])
        for (const element of document.querySelectorAll(`[${name}]`))
            if (element.checkVisibility() && !own(element)) found.add(element.getAttribute(name).trim());
    found.delete("");
    return [...found];
}
