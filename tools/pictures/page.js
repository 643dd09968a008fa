"use strict";
// Sorts the table of cycles by the column whose button is pressed, and turns its leaves. The cycles stand in the page as
// lists of numbers, one for each cycle, in the order of the columns.
(() => {
  const table = document.getElementById("cycles");
  const leaf = document.getElementById("leaf");
  if (!table || !leaf) return;
  const cycles = JSON.parse(document.getElementById("cycles-data").textContent);
  const heads = [...table.tHead.rows[0].cells];
  const size = Number(table.dataset.leaf);
  let first = 0;

  function show() {
    const body = document.createElement("tbody");
    for (const cycle of cycles.slice(first, first + size)) {
      const row = body.insertRow();
      cycle.forEach((number, at) => {
        const cell = at === 0 ? document.createElement("th") : document.createElement("td");
        if (at === 0) cell.scope = "row";
        cell.textContent = number.toLocaleString("en-US");
        row.append(cell);
      });
    }
    table.tBodies[0].replaceWith(body);
    const last = Math.min(first + size, cycles.length);
    leaf.textContent = `${(first + 1).toLocaleString("en-US")} to ${last.toLocaleString("en-US")} of ${cycles.length.toLocaleString("en-US")}`;
    back.disabled = first === 0;
    on.disabled = last === cycles.length;
  }

  function sort(at) {
    const falls = heads[at].getAttribute("aria-sort") !== "descending";
    heads.forEach((head, other) => head.setAttribute("aria-sort", other === at ? (falls ? "descending" : "ascending") : "none"));
    cycles.sort((a, b) => (falls ? b[at] - a[at] : a[at] - b[at]) || a[0] - b[0]);
    first = 0;
    show();
  }

  function turner(words, step) {
    const button = document.createElement("button");
    button.type = "button";
    button.textContent = words;
    button.addEventListener("click", () => {
      first = Math.max(0, Math.min(first + step, cycles.length - 1));
      show();
    });
    return button;
  }

  const back = turner(`Previous ${size} cycles`, -size);
  const on = turner(`Next ${size} cycles`, size);
  if (cycles.length > size) {
    leaf.before(back, " ");
    leaf.after(" ", on);
  }
  heads.forEach((head, at) => {
    const button = document.createElement("button");
    button.type = "button";
    button.textContent = head.textContent;
    button.addEventListener("click", () => sort(at));
    head.replaceChildren(button);
  });
  show();
})();
