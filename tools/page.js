"use strict";
const faults = JSON.parse(document.getElementById("data").textContent);
const step = 1000;
const search = document.getElementById("search"), body = document.querySelector("#faults tbody"), count = document.getElementById("count"), more = document.getElementById("more");
const heads = [...document.querySelectorAll("#faults th")], names = heads.map(head => head.textContent);
let most = step, order = null, rising = true;
function before(one, other) {
  const [a, b] = [one[order], other[order]];
  const found = typeof a === "number" ? a - b : a < b ? -1 : a > b ? 1 : 0;
  return rising ? found : -found;
}
function found() {
  const words = search.value.toLowerCase().split(/\s+/).filter(word => word);
  const classes = new Set([...document.querySelectorAll("label input")].filter(box => box.checked).map(box => box.value));
  const some = faults.filter(it => classes.has(it[0]) && words.every(word => (it[0] + " " + it[1] + " " + it[2] + " " + it[4]).toLowerCase().includes(word)));
  return order === null ? some : some.sort(before);
}
function show() {
  const some = found(), weight = some.reduce((sum, it) => sum + it[3], 0);
  body.textContent = "";
  for (const it of some.slice(0, most)) {
    const row = body.insertRow();
    for (const text of [it[0], it[1], it[2], (it[3] / 1e6).toString(), it[4]]) row.insertCell().textContent = text;
    named(row, names);
  }
  count.textContent = some.length + " faults, " + (weight / 1e6).toFixed(6) + " FIT" + (some.length > most ? ", the first " + most + " shown" : "");
  more.hidden = some.length <= most;
  fit();
}
function named(row, columns) {
  [...row.cells].forEach((cell, column) => { if (column && columns[column]) cell.dataset.head = columns[column]; });
}
// Of a table that is wider than the screen a row stands as lines, each cell with the name of its column.
function fit() {
  for (const table of document.querySelectorAll(".wide table")) {
    table.classList.remove("stacked");
    table.classList.toggle("stacked", table.offsetWidth > table.parentElement.clientWidth);
  }
}
function anew() {
  most = step;
  show();
}
heads.forEach((head, column) => {
  const button = document.createElement("button");
  button.type = "button";
  button.textContent = head.textContent;
  button.addEventListener("click", () => {
    rising = order === column ? !rising : column !== 3;
    order = column;
    heads.forEach(it => it.removeAttribute("aria-sort"));
    head.setAttribute("aria-sort", rising ? "ascending" : "descending");
    show();
  });
  // Buttons aren't drawn again at the head of each sheet of paper, and words are.
  const printed = document.createElement("span");
  printed.className = "printed";
  printed.textContent = head.textContent;
  head.replaceChildren(button, printed);
});
search.addEventListener("input", anew);
document.querySelectorAll("label input").forEach(box => box.addEventListener("change", anew));
more.addEventListener("click", () => { most += step; show(); });
document.addEventListener("keydown", event => {
  if (event.key === "/" && document.activeElement !== search && !event.ctrlKey && !event.metaKey) { event.preventDefault(); search.focus(); }
  if (event.key === "Escape" && document.activeElement === search) { search.value = ""; anew(); }
});
document.querySelectorAll(".wide table").forEach(table => [...table.tBodies[0].rows].forEach(row => named(row, [...table.tHead.rows[0].cells].map(cell => cell.textContent))));
addEventListener("resize", fit);
let closed = [];
addEventListener("beforeprint", () => { closed = [...document.querySelectorAll("#tree details:not([open])")]; closed.forEach(it => { it.open = true; }); });
addEventListener("afterprint", () => closed.forEach(it => { it.open = false; }));
const asked = decodeURIComponent(location.hash.slice(1));
search.value = document.getElementById(asked) ? "" : asked;
show();
