"use strict";
(() => {
  // what is looked for: other rows of the table are hidden, and other calls of the charts are faint
  const form = document.querySelector(".filter");
  const rows = [...document.querySelectorAll("tbody tr")], calls = [...document.querySelectorAll(".chart .call")];
  const known = new Map();
  // a row tells its parts in its cells; a call in the lines of its label, and a sum or some getters tell many
  const ofRow = row => {
    const cells = [...row.cells].map(cell => cell.textContent);
    return {actor: cells[1], ops: [cells[3].split(" ")[0]], codes: [cells[4]], text: cells.join(" ")};
  };
  const ofCall = call => {
    const text = call.getAttribute("aria-label") ?? "", [front, ...lines] = text.split(". ");
    const many = /^places|getters of/.test(front), told = many ? lines : lines.slice(0, 2);
    const ops = told.map(line => line.replace(/^[\d,]+ \u00d7 /, "").split(" ")[0]);
    const actor = /(?:\u00b7|getters of) ([^,]+)/.exec(front)?.[1];
    return {actor, ops: many ? ops : ops.slice(0, 1), codes: told.flatMap(line => line.match(/XR_\w+/g) ?? []), text};
  };
  const partsOf = it => known.get(it) ?? known.set(it, it.cells ? ofRow(it) : ofCall(it)).get(it);
  const choose = () => {
    const [actor, op, code, search] = ["actor", "op", "code", "search"].map(name => form.elements[name].value);
    const words = search.toLowerCase();
    const fits = it => {
      const parts = partsOf(it);
      const isIt = (!actor || parts.actor === actor) && (!op || parts.ops.includes(op)) && (!code || parts.codes.includes(code));
      return isIt && parts.text.toLowerCase().includes(words);
    };
    let shown = 0;
    for (const row of rows) shown += !(row.hidden = !fits(row));
    for (const call of calls) call.classList.toggle("faint", !fits(call));
    form.elements.shown.value = `${shown.toLocaleString("en")} of ${rows.length.toLocaleString("en")} rows`;
  };
  form.addEventListener("input", choose);
  form.addEventListener("submit", event => event.preventDefault());
  form.hidden = false;
})();
