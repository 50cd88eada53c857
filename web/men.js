// The men, drawn for this page: outlines in a square of 45 units, and the strokes inside them.

const MEN = {
    p: {
        outline: ["M22.5 8.5a5.6 5.6 0 0 1 3.6 9.9c2.9 1.3 4.6 3.6 4.6 5.6h-4.3c.4 4.6 2.4 8.2 6.1 10.6 1.2.8 1.8 2 1.8 3.9H10.7c0-1.9.6-3.1 1.8-3.9 3.7-2.4 5.7-6 6.1-10.6h-4.3c0-2 1.7-4.3 4.6-5.6a5.6 5.6 0 0 1 3.6-9.9z"],
        strokes: [],
    },
    n: {
        outline: ["M15.2 7l4.2 3.4c10.4-.9 17.1 7.2 17.1 19.4 0 3-.2 6-.6 8.7H13.6c.2-6.4 3.3-10 7.6-14.6-3.1.7-5.3 1.6-6.9 3.6l-3.6 2.6c-2.2-.1-4-1.9-4.2-4.2 2.3-3.2 3.9-6.3 5.4-10.3.5-1.5 1.4-2.6 2.7-3.4z"],
        strokes: ["M19.8 14.2c6.6.4 11.2 5.6 11.8 14", "M9.6 26.3l1.4-1.2"],
        dots: [[17.6, 17, 1.3]],
    },
    b: {
        outline: ["M22.5 6.2a3 3 0 0 1 2.4 4.8c5 3.4 7.9 7.7 7.9 12 0 3.2-1.5 5.7-3.8 7.4H16c-2.3-1.7-3.8-4.2-3.8-7.4 0-4.3 2.9-8.6 7.9-12a3 3 0 0 1 2.4-4.8z", "M15 32.4h15c.2 1.6 1.8 2.5 5.8 3 .9.1 1.2.7 1.2 1.5v1.6H8v-1.6c0-.8.3-1.4 1.2-1.5 4-.5 5.6-1.4 5.8-3z"],
        strokes: ["M22.5 16v9.4", "M18.2 20.2h8.6"],
    },
    r: {
        outline: ["M11 8.5h5v3.6h4.2V8.5h4.6v3.6H29V8.5h5v8.2l-3.6 3.1.9 11.4 3.4 2.6v4.7H10.3v-4.7l3.4-2.6.9-11.4-3.6-3.1z"],
        strokes: ["M14.6 19.8h15.8", "M13.7 31.2h17.6"],
    },
    q: {
        outline: ["M12.2 30.4L7.4 15.8l7 6.3 2-12.2 6.1 11.1 6.1-11.1 2 12.2 7-6.3-4.8 14.6z", "M12 32.2h21l2 6.3H10z"],
        strokes: [],
        knobs: [[6.9, 13.8, 2.3], [16.2, 8.2, 2.3], [28.8, 8.2, 2.3], [38.1, 13.8, 2.3]],
    },
    k: {
        outline: ["M20.9 5.4h3.2v2.8h2.9v3.1h-2.9v3.5c2.3.6 3.6 2.3 4 4.2 5-2 9.4.7 9.4 5.3 0 2.8-1.7 5-4.3 6.9H11.8c-2.6-1.9-4.3-4.1-4.3-6.9 0-4.6 4.4-7.3 9.4-5.3.4-1.9 1.7-3.6 4-4.2v-3.5H18V8.200h2.900z", "M11.800 33h21.400l1.400 5.500H10.400z"],
        strokes: ["M22.500 18.500v12"],
    },
};

const SVG = "http://www.w3.org/2000/svg";

/** An element of SVG with attributes. */
function drawn(name, attributes, ...inside) {
    const made = document.createElementNS(SVG, name);
    for (const [key, value] of Object.entries(attributes)) made.setAttribute(key, value);
    made.append(...inside);
    return made;
}

/** A man, by its letter in a FEN. */
function drawnMan(man) {
    const { outline, strokes, dots = [], knobs = [] } = MEN[man.toLowerCase()];
    const circle = (of) => ([cx, cy, r]) => drawn("circle", { class: of, cx, cy, r });
    return drawn(
        "g",
        { class: `man ${sideOfMan(man)}` },
        ...knobs.map(circle("outline")),
        ...outline.map((d) => drawn("path", { class: "outline", d })),
        ...strokes.map((d) => drawn("path", { class: "stroke", d })),
        ...dots.map(circle("dot")),
    );
}
