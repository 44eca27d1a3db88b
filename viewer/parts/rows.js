// ---- Rows that are put into the page as they come into sight -------------------------------------

class Rows {
  constructor(box, make, role) {
    Object.assign(this, { box, make, count: 0, all: false, drawn: new Map() });
    this.sheet = document.createElement("div");
    Object.assign(this.sheet, { className: "sheet", role });
    box.append(this.sheet);
    this.height = 20;
    box.addEventListener("scroll", () => this.draw(), { passive: true });
    new ResizeObserver(() => this.draw()).observe(box);
  }
  set(count) {
    this.count = count;
    this.sheet.style.height = `${count * this.height}px`;
    this.redraw();
  }
  redraw() {
    const focused = this.box.contains(document.activeElement);
    this.sheet.replaceChildren();
    this.drawn.clear();
    this.draw();
    if (focused) this.box.focus({ preventScroll: true });
  }
  draw() {
    const seen = Math.ceil(this.box.clientHeight / this.height);
    const top = Math.floor(this.box.scrollTop / this.height);
    const low = this.all ? 0 : Math.max(0, top - seen);
    const high = this.all ? this.count : Math.min(this.count, top + 2 * seen + 1);
    for (const [k, row] of this.drawn) {
      if (k >= low && k < high) continue;
      if (row.contains(document.activeElement)) this.box.focus({ preventScroll: true });
      row.remove();
      this.drawn.delete(k);
    }
    const fresh = document.createDocumentFragment();
    for (let k = low; k < high; k += 1) if (!this.drawn.has(k)) fresh.append(this.place(k));
    this.sheet.append(fresh);
  }
  place(k) {
    const row = this.make(k);
    row.style.top = `${k * this.height}px`;
    this.drawn.set(k, row);
    return row;
  }
  /** Scrolls so that a row is seen, a third from the top where it wasn't in sight. */
  show(k) {
    const top = k * this.height;
    const { scrollTop, clientHeight } = this.box;
    if (top < scrollTop || top + this.height > scrollTop + clientHeight) {
      this.box.scrollTop = Math.max(0, top - clientHeight / 3);
    }
    this.redraw();
  }
  first() {
    return Math.ceil(this.box.scrollTop / this.height);
  }
}
