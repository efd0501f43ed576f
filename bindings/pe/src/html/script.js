"use strict";
// Shows the rows that have each word of the field, and how many; a table without such a row is hidden. A link to the page
// may carry the words: ?q=WORDS.
// A label of the map is shown where it has room.
(() => {
  const labels = [...document.querySelectorAll(".lanes a text")];
  const fit = () => {
    for (const label of labels) {
      const room = label.parentNode.querySelector("rect").getBoundingClientRect().width - 8;
      label.style.visibility = label.getComputedTextLength() > room ? "hidden" : "visible";
    }
  };
  fit();
  addEventListener("resize", fit);
  const field = document.getElementById("filter"), found = document.getElementById("found");
  if (!field) return;
  const tables = [...document.querySelectorAll("details")].map(details => {
    const count = details.querySelector(".count");
    return { details, count, all: count.textContent, isOpen: details.open, rows: null };
  });
  const rowsOf = table => table.rows ||= [...table.details.querySelectorAll("tbody tr")].map(row => ({
    row, text: [...row.cells].map(cell => cell.textContent).join(" ").toLowerCase(),
  }));
  let words = [];
  const filter = () => {
    const before = words.length;
    words = field.value.toLowerCase().split(/\s+/).filter(word => word);
    let sum = 0;
    for (const table of tables) {
      if (before === 0) table.isOpen = table.details.open;
      let shown = 0;
      for (const { row, text } of rowsOf(table)) {
        const matches = words.every(word => text.includes(word));
        row.hidden = !matches;
        shown += matches;
      }
      sum += shown;
      table.count.textContent = words.length ? `${shown} of ${table.all}` : table.all;
      table.details.hidden = words.length > 0 && shown === 0;
      table.details.open = words.length > 0 || table.isOpen;
    }
    for (const part of document.querySelectorAll("main .list, main .map")) {
      part.hidden = words.length > 0 && !words.every(word => part.textContent.toLowerCase().includes(word));
    }
    found.textContent = words.length ? (sum === 1 ? "1 row" : `${sum} rows`) : "";
  };
  field.addEventListener("input", filter);
  document.addEventListener("keydown", event => {
    if (event.key === "/" && document.activeElement !== field) {
      event.preventDefault();
      field.focus();
    } else if (event.key === "Escape" && document.activeElement === field) {
      field.value = "";
      filter();
    }
  });
  const asked = new URLSearchParams(location.search).get("q");
  if (asked) {
    field.value = asked;
    filter();
  }
})();
