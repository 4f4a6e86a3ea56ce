// A table that is sorted by its headings, of which a row can be picked with the mouse or by Enter, as both pages have
// it. It is one stop for Tab, and arrows lead from row to row.

const MOST_ROWS = 300;
export const mostRows = MOST_ROWS;

export class Table {
  // `columns` are `{name, label, title, of, text, small, up, kind}`: what a row is sorted by and shown as, with a small
  // text behind it, whether that begins with the least, and the class of a cell. `pick(row)` is called for a row;
  // `isChosen(row)` says which is marked.
  constructor(table, columns, order, { pick, isChosen }) {
    Object.assign(this, { table, columns, order, pick, isChosen, rows: [] });
    this.own = columns;
    this.down = !this.column(order).up;
    this.drawHead();
    table.select("tbody").node().addEventListener("keydown", event => this.key(event));
  }

  drawHead() {
    const sort = one => this.sortBy(d3.select(one).datum().name), row = this.table.select("thead tr");
    this.head = row.html("").selectAll("th").data(this.columns).join("th").attr("scope", "col");
    this.head.attr("title", column => column.title || null);
    this.buttons = this.head.append("button").attr("type", "button").on("click", function () { sort(this); });
  }

  // Has more columns behind its own.
  setMore(columns) {
    this.columns = [...this.own, ...columns];
    if (!this.column(this.order)) this.order = this.own[0].name;
    this.drawHead();
    this.draw();
  }

  column(name) {
    return this.columns.find(column => column.name === name);
  }

  sortBy(name) {
    this.down = this.order === name ? !this.down : !this.column(name).up;
    this.order = name;
    this.draw();
  }

  show(rows) {
    this.rows = rows;
    this.draw();
  }

  draw() {
    const { of } = this.column(this.order), compare = this.down ? d3.descending : d3.ascending;
    const rows = [...this.rows].sort((a, b) => compare(of(a), of(b))).slice(0, MOST_ROWS);
    const direction = this.down ? "descending" : "ascending", sign = this.down ? " ▾" : " ▴";
    this.head.attr("aria-sort", column => column.name === this.order ? direction : null);
    this.buttons.text(column => column.label + (column.name === this.order ? sign : ""));
    const pick = this.pick, lines = this.table.select("tbody").selectAll("tr").data(rows).join("tr")
      .attr("tabindex", (_, index) => index ? -1 : 0).on("click", function () { pick(d3.select(this).datum()); });
    const cellOf = (row, column) => ({ text: column.text(row), small: column.small ? column.small(row) : "",
      kind: column.kind ? column.kind(row) : null });
    lines.selectAll("td").data(row => this.columns.map(column => cellOf(row, column))).join("td")
      .attr("title", (cell, index) => index === 0 ? `${cell.text} ${cell.small}`.trim() : null)
      .attr("class", cell => cell.kind).each(function (cell, index) {
        this.textContent = "";
        this.append(index === 0 ? Object.assign(document.createElement("bdi"), { textContent: cell.text }) : cell.text);
        if (cell.small) this.append(Object.assign(document.createElement("small"), { textContent: ` ${cell.small}` }));
      });
    this.mark();
  }

  // The row that stands first.
  first() {
    return this.table.select("tbody tr").data()[0];
  }

  key(event) {
    const row = event.target.closest("tr");
    const steps = { ArrowDown: "nextElementSibling", ArrowUp: "previousElementSibling" };
    if (event.key === "Enter" && row) this.pick(d3.select(row).datum());
    const next = row && steps[event.key] && row[steps[event.key]];
    if (!next) return;
    event.preventDefault();
    row.tabIndex = -1;
    next.tabIndex = 0;
    next.focus();
  }

  mark() {
    this.table.selectAll("tbody tr").classed("chosen", this.isChosen);
  }
}
