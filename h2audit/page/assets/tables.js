// The list of connections can be sorted by each of its heads.

const ORDER = new Intl.Collator("en", { numeric: true });

function makeSortable(table) {
  table.querySelectorAll("thead th").forEach((head, column) => {
    const button = make("button", head.textContent, { type: "button", onclick: () => sortBy(table, head, column) });
    head.replaceChildren(button);
  });
}

// The last row, which tells of those that are left out, stays the last.
function sortBy(table, head, column) {
  const isDown = head.getAttribute("aria-sort") === "ascending";
  table.querySelectorAll("th").forEach(one => one.removeAttribute("aria-sort"));
  head.setAttribute("aria-sort", isDown ? "descending" : "ascending");
  const keyOf = row => row.cells[column].textContent.replaceAll(",", "");
  const keyed = [...table.tBodies[0].rows].map(row => ({ row, key: keyOf(row) }));
  const isRest = ({ row }) => !row.querySelector("a") && row.cells[0].textContent.endsWith(" more");
  keyed.sort((one, other) => isRest(one) - isRest(other) || (isDown ? -1 : 1) * ORDER.compare(one.key, other.key));
  table.tBodies[0].replaceChildren(...keyed.map(({ row }) => row));
}
