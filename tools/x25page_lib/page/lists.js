"use strict";
// Sorts a table by the column whose head is clicked: numbers by their value, texts by their letters.

function orderOf(row, at) {
  const cell = row.children[at];
  return cell.dataset.order ?? cell.textContent;
}

function compare(a, b) {
  const [left, right] = [Number(a), Number(b)];
  if (a !== "" && b !== "" && !Number.isNaN(left) && !Number.isNaN(right)) return left - right;
  return a.localeCompare(b, "en", { numeric: true });
}

function sort(head) {
  const at = [...head.parentElement.children].indexOf(head);
  const falls = head.getAttribute("aria-sort") ? head.getAttribute("aria-sort") === "ascending" : head.className === "number";
  for (const other of head.parentElement.children) other.removeAttribute("aria-sort");
  head.setAttribute("aria-sort", falls ? "descending" : "ascending");
  const body = head.closest("table").tBodies[0];
  const rows = [...body.rows].sort((a, b) => (falls ? -1 : 1) * compare(orderOf(a, at), orderOf(b, at)));
  body.append(...rows);
}

for (const head of document.querySelectorAll("th")) head.addEventListener("click", () => sort(head));
document.documentElement.dataset.ready = "yes";
