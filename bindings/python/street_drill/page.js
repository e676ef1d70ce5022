"use strict";
// Values at the pointer, lines switched off in every picture, long tables, and tables to the clipboard. The page is
// complete without this script, but for the rows of a long table.
const told = JSON.parse(document.getElementById("values").textContent);
const figures = [...document.querySelectorAll("figure[data-column]")];

const duration = (seconds) => {
    if (seconds < 59.5) return `${Math.round(seconds)} s`;
    const minutes = Math.round(seconds / 60);
    if (minutes < 60) return `${minutes} min`;
    return `${Math.floor(minutes / 60).toLocaleString("en")} h ${String(minutes % 60).padStart(2, "0")} min`;
};

const make = (parent, name, text = "", kind = "") => {
    const element = parent.appendChild(document.createElement(name));
    element.textContent = text;
    element.className = kind;
    return element;
};

const draw = (parent, name, attributes) => {
    const element = parent.appendChild(document.createElementNS(parent.namespaceURI, name));
    for (const [key, value] of Object.entries(attributes)) element.setAttribute(key, value);
};

// ---- the pictures

const viewOf = (figure) => told.views[figure.dataset.view];
const isOn = (number) => !document.querySelector(`[data-line="${number}"]:not(:checked)`);
const xOf = (view, place) => told.left + (place / view.last) * (told.right - told.left);
const longest = (view) => view.courses.reduce((one, other) => (other.cost.length > one.cost.length ? other : one));

// Half a week has no number, as a mean of infinite costs has none.
const shown = (value, figure) => {
    if (value === null) return figure.dataset.view === "day" ? "no number" : `no whole ${figure.dataset.view}`;
    return figure.dataset.column === "cost" ? duration(value) : String(Math.round(value * 10) / 10);
};

const nameOf = (figure, place) => {
    const kind = figure.dataset.view;
    const columns = longest(viewOf(figure));
    const from = kind === "day" ? "" : `, from day ${columns.day[place]}`;
    return `${kind} ${columns[kind][place]}${from}${columns.date ? `, ${columns.date[place]}` : ""}`;
};

// The place of a day, week or month in one picture, and each line's value there.
const mark = (figure, place) => {
    const pointer = figure.querySelector(".pointer");
    pointer.replaceChildren();
    if (place === null) return;
    const view = viewOf(figure);
    draw(pointer, "line", { x1: xOf(view, place), x2: xOf(view, place), y1: told.top, y2: told.bottom });
    view.courses.forEach((columns, number) => {
        const value = columns[figure.dataset.column]?.[place] ?? null;
        if (value === null || !isOn(number)) return;
        const y = told.bottom - (value / figure.dataset.top) * (told.bottom - told.top);
        draw(pointer, "circle", { class: `dot c${number % told.colours}`, cx: xOf(view, place), cy: y, r: 4 });
    });
};

const tellCourse = (tip, figure, columns, number, place) => {
    const { column } = figure.dataset;
    const [line, low, high, first] = ["", "_p10", "_p90", "_first"].map((added) => columns[column + added]);
    if (!line || place >= line.length || !isOn(number)) return;
    const row = make(tip, "div");
    if (told.names.length > 1) {
        make(row, "i", "", `c${number % told.colours}`);
        row.append(`${told.names[number]} `);
    }
    make(row, "strong", shown(line[place], figure));
    if (!low || line[place] === null) return;
    const [from, to, one] = [low, high, first].map((values) => shown(values[place], figure));
    make(row, "small", ` ${from} to ${to}, first run ${one}`);
};

// Above the lines, on that side of the place that has more room.
const tell = (figure, tip, place) => {
    tip.replaceChildren();
    make(tip, "div", nameOf(figure, place));
    viewOf(figure).courses.forEach((columns, number) => tellCourse(tip, figure, columns, number, place));
    const picture = figure.querySelector(":scope > svg");
    const [box, frame] = [picture.getBoundingClientRect(), figure.getBoundingClientRect()];
    const scale = box.width / picture.viewBox.baseVal.width;
    const x = box.left - frame.left + xOf(viewOf(figure), place) * scale;
    tip.hidden = false;
    const left = x < frame.width / 2 ? x + 10 : x - 10 - tip.offsetWidth;
    tip.style.left = `${Math.max(0, Math.min(left, frame.width - tip.offsetWidth))}px`;
    const top = box.top + told.top * scale - tip.offsetHeight;
    tip.style.top = `${Math.max(top, 0) - frame.top}px`;
};

for (const figure of figures) {
    const view = viewOf(figure);
    const alike = figures.filter((each) => each.dataset.view === figure.dataset.view);
    const picture = figure.querySelector(":scope > svg");
    const tip = make(figure, "div", "", "tip");
    tip.hidden = true;
    let place = 0;
    const show = (wanted) => {
        place = Math.min(longest(view).cost.length - 1, Math.max(0, wanted));
        alike.forEach((each) => mark(each, place));
        tell(figure, tip, place);
    };
    const hide = () => {
        alike.forEach((each) => mark(each, null));
        tip.hidden = true;
    };
    const follow = (event) => {
        const box = picture.getBoundingClientRect();
        const x = ((event.clientX - box.left) / box.width) * picture.viewBox.baseVal.width;
        show(Math.round(((x - told.left) / (told.right - told.left)) * view.last));
    };
    picture.addEventListener("pointermove", follow);
    picture.addEventListener("pointerdown", follow);
    picture.addEventListener("pointerleave", hide);
    picture.addEventListener("blur", hide);
    picture.addEventListener("keydown", (event) => {
        const step = { ArrowLeft: -1, ArrowRight: 1 }[event.key];
        if (!step) return;
        event.preventDefault();
        show(tip.hidden ? place : place + step);
    });
}

// Each picture's legend has its own switches; those of a line go together.
document.addEventListener("change", ({ target }) => {
    const { line } = target.dataset;
    if (line) document.querySelectorAll(`[data-line="${line}"]`).forEach((each) => (each.checked = target.checked));
});

// ---- the tables

// So many rows of a long table at once.
const PART = 1000;

const cell = (value, head) => {
    if (value === null) return "no number";
    return head.dataset.digits ? value.toFixed(head.dataset.digits) : String(value);
};

// Time is read in hours and minutes, and copied in seconds.
const read = (value, head) => ("time" in head.dataset && value !== null ? duration(value) : cell(value, head));

const fill = (table, columns, start) => {
    const heads = [...table.tHead.rows[0].cells];
    const body = table.tBodies[0];
    body.replaceChildren();
    for (let row = start; row < Math.min(start + PART, columns[0].length); row++) {
        const line = body.insertRow();
        columns.forEach((column, number) => (line.insertCell().textContent = read(column[row], heads[number])));
    }
};

for (const rows of document.querySelectorAll("details[data-table]")) {
    const lay = () => {
        const [table, columns] = [rows.querySelector("table"), told.tables[rows.dataset.table]];
        const [kind, names] = [table.tHead.rows[0].cells[0].textContent, columns[0]];
        const choice = document.createElement("select");
        for (let start = 0; start < names.length; start += PART) {
            const last = names[Math.min(start + PART, names.length) - 1];
            make(choice, "option", `${kind} ${names[start]} to ${last}`).value = start;
        }
        choice.addEventListener("change", () => fill(table, columns, Number(choice.value)));
        rows.querySelector(".scroll").before(choice);
        fill(table, columns, 0);
    };
    rows.addEventListener("toggle", lay, { once: true });
}

// Paper has all tables but the long ones.
addEventListener("beforeprint", () => {
    for (const rows of document.querySelectorAll("details.rows:not([data-table])")) rows.open = true;
});

// All rows, also those that are not laid out.
const asText = (rows) => {
    const table = rows.querySelector("table");
    const lines = [...table.rows].map((row) => [...row.cells].map((each) => each.dataset.seconds ?? each.textContent));
    if (!rows.dataset.table) return lines;
    const columns = told.tables[rows.dataset.table];
    const heads = [...table.tHead.rows[0].cells];
    return [lines[0], ...columns[0].map((_, row) => columns.map((column, number) => cell(column[row], heads[number])))];
};

// A copy by selection works without a server too, and pastes as columns.
for (const rows of document.querySelectorAll(".rows")) {
    const button = make(rows.querySelector("summary"), "button", "Copy");
    const put = (event) => {
        event.clipboardData.setData("text/plain", asText(rows).map((line) => line.join("\t")).join("\n"));
        event.preventDefault();
    };
    button.addEventListener("click", (event) => {
        // The table stays as it is, open or not.
        event.preventDefault();
        getSelection().selectAllChildren(rows.querySelector("table"));
        document.addEventListener("copy", put, { once: true });
        button.textContent = document.execCommand("copy") ? "Copied" : "Selected";
        document.removeEventListener("copy", put);
    });
}
