// a page of as much as filter.js looks at: rows with their cells, labels of calls, and what is chosen; tells what is left
const {rows, labels, chosen} = JSON.parse(require("fs").readFileSync(0, "utf8"));
const faint = labels.map(() => false), heard = {};
const lines = rows.map(cells => ({cells: cells.map(textContent => ({textContent})), hidden: false}));
const calls = labels.map((label, i) => ({getAttribute: () => label, classList: {toggle: (name, is) => { faint[i] = is; }}}));
const elements = Object.fromEntries([...Object.entries(chosen).map(([name, value]) => [name, {value}]), ["shown", {value: ""}]]);
const form = {elements, hidden: true, addEventListener: (name, does) => { heard[name] = does; }};
globalThis.document = {querySelector: () => form, querySelectorAll: name => name.startsWith("tbody") ? lines : calls};
require(process.argv[2]);
heard.input();
const left = list => list.flatMap((is, i) => is ? [] : [i]);
console.log(JSON.stringify({rows: left(lines.map(it => it.hidden)), calls: left(faint), told: elements.shown.value, hidden: form.hidden}));
