'use strict';

const ROW = 24;
const NUMBER = 72;
const LANE = 168;
const BESIDE = 640;
const SVG = 'http://www.w3.org/2000/svg';

// The lanes: one for each activity, and a row for each entry that the filters show. Only rows in
// sight are elements of the page.
class History {
  constructor(model, choose) {
    this.model = model;
    this.choose = choose;
    this.chosen = 0;
    this.box = byId('history');
    this.rows = byId('rows');
    this.arrows = byId('arrows');
    this.width = NUMBER + LANE * model.activities.length;
    this.drawHead();
    this.show(null);
    this.box.addEventListener('scroll', () => this.later());
    window.addEventListener('resize', () => this.later());
    this.rows.addEventListener('click', (event) => this.clicked(event));
    this.box.addEventListener('keydown', (event) => this.pressed(event));
  }

  drawHead() {
    const head = byId('head');
    const add = (text, width) => {
      const cell = element('span', text);
      cell.style.width = `${width}px`;
      cell.title = text;
      head.append(cell);
    };
    add('entry', NUMBER);
    for (const word of this.model.activities) add(word, LANE);
    add('', BESIDE - LANE);
  }

  // The entries of these numbers, or all of them.
  show(numbers) {
    const count = this.model.count;
    this.order = numbers || Int32Array.from({ length: count }, (_, at) => at + 1);
    this.rowOf = new Int32Array(count + 1).fill(-1);
    this.order.forEach((entry, row) => { this.rowOf[entry] = row; });
    const field = byId('field');
    field.style.height = `${this.order.length * ROW + 8}px`;
    field.style.width = `${this.width + BESIDE}px`;
    byId('shown').textContent = `${this.order.length} of ${count} entries are shown.`;
    this.draw();
  }

  later() {
    if (this.waits) return;
    this.waits = true;
    requestAnimationFrame(() => { this.waits = false; this.draw(); });
  }

  inSight() {
    const top = Math.max(0, this.box.scrollTop - ROW);
    const first = Math.max(0, Math.floor(top / ROW) - 4);
    const last = Math.min(this.order.length, Math.ceil((top + this.box.clientHeight) / ROW) + 4);
    return [first, last];
  }

  draw() {
    const [first, last] = this.inSight();
    const made = [];
    for (let row = first; row < last; row++) made.push(this.rowElement(row));
    this.rows.replaceChildren(...made);
    this.drawArrows(first, last);
    if (this.rowOf[this.chosen] >= first && this.rowOf[this.chosen] < last) {
      this.box.setAttribute('aria-activedescendant', `entry-${this.chosen}`);
    } else {
      this.box.removeAttribute('aria-activedescendant');
    }
  }

  rowElement(row) {
    const entry = this.order[row];
    const made = element('div', undefined, 'row');
    made.id = `entry-${entry}`;
    made.dataset.entry = entry;
    made.style.top = `${row * ROW}px`;
    made.setAttribute('role', 'option');
    made.setAttribute('aria-selected', String(entry === this.chosen));
    made.setAttribute('aria-posinset', String(row + 1));
    made.setAttribute('aria-setsize', String(this.order.length));
    const number = element('span', String(entry), 'number');
    number.style.left = `${this.box.scrollLeft}px`;
    made.append(this.entryElement(entry), number);
    const beside = this.beside(entry);
    if (beside) made.append(beside);
    return made;
  }

  entryElement(entry) {
    const actor = this.model.actor(entry);
    const family = /^(app|loop|twin):/.exec(actor);
    const text = this.model.text(entry);
    const made = element('span', text, `entry ${family ? family[1] : 'other'}`);
    made.style.left = `${NUMBER + LANE * this.model.lane[entry] + 6}px`;
    made.style.width = `${LANE - 24}px`;
    made.title = `${actor} ${text}`;
    return made;
  }

  // A row has one entry, so its command and what was noted of it stand in the lanes beside it.
  beside(entry) {
    const command = this.model.command(entry);
    const noted = this.model.noted(entry);
    if (!command && !noted.length) return null;
    const made = element('span', [command, ...noted].filter(Boolean).join('  \u00b7  '), 'beside');
    made.style.left = `${NUMBER + LANE * (this.model.lane[entry] + 1)}px`;
    made.style.width = `${BESIDE}px`;
    return made;
  }

  drawArrows(first, last) {
    const model = this.model;
    const links = new Set();
    for (let row = first; row < last; row++) {
      const entry = this.order[row];
      if (model.into[entry] >= 0) links.add(model.into[entry]);
      for (const link of model.linksFrom(entry)) links.add(link);
    }
    const made = [];
    for (const link of links) {
      const from = this.rowOf[model.data.links.from[link]];
      const to = this.rowOf[model.data.links.to[link]];
      if (from >= 0 && to >= 0) made.push(this.arrow(link, from, to, first));
    }
    this.arrows.style.top = `${first * ROW}px`;
    this.arrows.setAttribute('width', this.width + BESIDE);
    this.arrows.setAttribute('height', (last - first) * ROW);
    this.arrows.replaceChildren(History.heads(), ...made);
  }

  // Drawn in the coordinates of the rows in sight; an end that is far away is drawn nearer.
  arrow(link, from, to, first) {
    const links = this.model.data.links;
    const y = (row) => Math.max(-4000, Math.min(8000, (row - first) * ROW + ROW / 2));
    const edge = (entry) => NUMBER + LANE * this.model.lane[entry] + LANE - 18;
    const start = edge(links.from[link]);
    const goesRight = this.model.lane[links.to[link]] > this.model.lane[links.from[link]];
    const end = goesRight ? edge(links.to[link]) - LANE + 24 : edge(links.to[link]);
    const bend = goesRight ? Math.max(start + 14, end - 40) : Math.max(start, end) + 28;
    const made = document.createElementNS(SVG, 'path');
    const kind = this.model.linkKind(link);
    made.setAttribute('d', `M${start} ${y(from)} C${bend} ${y(from)} ${goesRight ? end - 30 : bend} ${
      y(to)} ${goesRight ? end - 2 : end + 2} ${y(to)}`);
    const isChosen = links.from[link] === this.chosen || links.to[link] === this.chosen;
    made.setAttribute('class', isChosen ? `${kind} chosen` : kind);
    made.setAttribute('marker-end', `url(#head-${kind})`);
    made.setAttribute('data-from', links.from[link]);
    made.setAttribute('data-to', links.to[link]);
    return made;
  }

  static heads() {
    const defs = document.createElementNS(SVG, 'defs');
    for (const kind of ['letter', 'command', 'answer']) {
      const marker = document.createElementNS(SVG, 'marker');
      for (const [name, value] of Object.entries({
        id: `head-${kind}`, viewBox: '0 0 8 8', refX: 7, refY: 4, markerWidth: 7, markerHeight: 7,
        orient: 'auto', markerUnits: 'userSpaceOnUse',
      })) marker.setAttribute(name, value);
      const head = document.createElementNS(SVG, 'path');
      head.setAttribute('d', 'M0 0 L8 4 L0 8 z');
      head.setAttribute('class', kind);
      marker.append(head);
      defs.append(marker);
    }
    return defs;
  }

  clicked(event) {
    const row = event.target.closest('.row');
    if (row) this.choose(Number(row.dataset.entry));
  }

  pressed(event) {
    const page = Math.max(1, Math.floor(this.box.clientHeight / ROW) - 2);
    const here = Math.max(0, this.rowOf[this.chosen]);
    const rows = {
      ArrowDown: this.rowOf[this.chosen] < 0 ? 0 : here + 1, ArrowUp: here - 1,
      PageDown: here + page, PageUp: here - page, Home: 0, End: this.order.length - 1,
    };
    const links = this.model.data.links;
    let entry = 0;
    if (event.key in rows && this.order.length) {
      entry = this.order[Math.max(0, Math.min(this.order.length - 1, rows[event.key]))];
    } else if (event.key === 'ArrowLeft' && this.model.into[this.chosen] >= 0) {
      entry = links.from[this.model.into[this.chosen]];
    } else if (event.key === 'ArrowRight' && this.model.firstOut[this.chosen] >= 0) {
      entry = links.to[this.model.firstOut[this.chosen]];
    }
    if (entry) this.choose(entry);
    if (event.key in rows || /^Arrow(Left|Right)$/.test(event.key)) event.preventDefault();
  }

  // Marks an entry, and brings its row into sight.
  mark(entry) {
    this.chosen = entry;
    const row = this.rowOf[entry];
    if (row >= 0) {
      const top = row * ROW;
      const height = this.box.clientHeight - 2 * ROW;
      if (top < this.box.scrollTop) this.box.scrollTop = Math.max(0, top - ROW);
      if (top > this.box.scrollTop + height) this.box.scrollTop = top - height / 2;
      const left = NUMBER + LANE * this.model.lane[entry];
      if (left - NUMBER < this.box.scrollLeft || left + LANE > this.box.scrollLeft + this.box.clientWidth) {
        this.box.scrollLeft = Math.max(0, left - this.box.clientWidth / 2);
      }
    }
    this.draw();
  }
}
