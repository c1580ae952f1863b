// Drawings: two sets of members and what they share, who signed which certificate, and weights as bars.

import { many } from "./fault.js";

const MOST_DOTS = 40;

function drawn(tag, attributes, ...parts) {
    const element = document.createElementNS("http://www.w3.org/2000/svg", tag);
    for (const [name, value] of Object.entries(attributes)) {
        element.setAttribute(name, value);
    }
    element.append(...parts);
    return element;
}

/** Draws n members in a row, the first `size` of them as one set and the last `size` as another. */
export function pictureOf(n, size) {
    const width = 720;
    const isDots = n <= MOST_DOTS;
    const step = width / n;
    const words = `Of ${many(n, "member")} the first ${size} and the last ${size}: they share ${Math.max(0, 2 * size - n)}.`;
    const picture = drawn("svg", { viewBox: `0 0 ${width} 92`, role: "img", "aria-label": words });
    const bar = (type, y, from, text, x, anchor) => picture.append(
        drawn("rect", { class: type, x: from * step, y, width: Math.max(0, size * step), height: 8, rx: 4 }),
        drawn("text", { x, y: type === "first" ? y - 6 : y + 24, "text-anchor": anchor }, text),
    );
    bar("first", 20, 0, `one set of ${size}`, 0, "start");
    bar("second", 64, n - size, `another set of ${size}`, width, "end");
    if (!isDots) {
        picture.append(drawn("rect", { class: "alone", x: 0, y: 34, width, height: 24 }));
        const shared = Math.max(0, 2 * size - n);
        picture.append(drawn("rect", { class: "shared", x: (n - size) * step, y: 34, width: shared * step, height: 24 }));
        return picture;
    }
    const radius = Math.min(11, step / 2 - 1);
    for (let index = 0; index < n; index++) {
        const type = index < size && index >= n - size ? "shared" : "alone";
        const at = (index + 0.5) * step;
        picture.append(drawn("circle", { class: type, cx: at, cy: 46, r: radius }));
        if (radius >= 9) {
            picture.append(drawn("text", { x: at, y: 50.5, "text-anchor": "middle", style: "font-size: 12px" }, String(index)));
        }
    }
    return picture;
}

/** Returns the members that signed, each with what it signed. */
export function chipsOf(count, first, second) {
    const all = [...new Set([...first, ...second])].sort((one, other) => one - other);
    const shown = count <= MOST_DOTS ? [...new Set([...Array(count).keys(), ...all])].sort((one, other) => one - other) : all;
    const items = shown.slice(0, 200).map((index) => {
        const signed = [first.includes(index), second.includes(index)];
        const words = { "true,true": "both", "true,false": "the first", "false,true": "the second", "false,false": "neither" }[signed];
        const type = { both: "both", "the first": "first", "the second": "second" }[words] ?? "";
        const outside = index >= count ? ", no member" : "";
        const chip = document.createElement("span");
        chip.className = `member ${type}`;
        chip.textContent = `${index}: ${words}${outside}`;
        const item = document.createElement("li");
        item.append(chip);
        return item;
    });
    const list = document.createElement("ul");
    list.className = "chips";
    list.setAttribute("aria-label", "Which certificate each member signed");
    list.append(...items);
    return list;
}

/** Returns the weights as bars in a table, below them what a quorum and the faulty may weigh. */
export function barsOf(weights, { total, tolerated, quorum }, table, made) {
    const widest = total > 0n ? total : 1n;
    const bar = (weight) => made("td", {}, made("span", { class: "bar", style: `width: ${Number((weight * 10000n) / widest) / 100}%` }));
    const share = (weight) => `${(Number((weight * 100000n) / widest) / 1000).toFixed(1)} %`;
    const rows = weights.slice(0, 200).map((it, index) => [`member ${index}`, it, share(it), bar(it)]);
    rows.push(["may be faulty", tolerated, share(tolerated), bar(tolerated)], ["a quorum", quorum, share(quorum), bar(quorum)]);
    return table("Weights, and their part of all", ["Who", "Weight", "Part", "Bar"], rows, "bars");
}
