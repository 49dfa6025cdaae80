'use strict';

const PRINTED = 4000;
const LEGEND = {
  letter: 'from what accepted a letter to its take',
  command: 'from a command\u2019s draw to its execution',
  answer: 'from an answer to its claim',
};

// The filters, the chosen entry, and what is printed.
class Page {
  constructor(model) {
    this.model = model;
    this.choose = this.choose.bind(this);
    this.history = new History(model, this.choose);
    this.picture = new Picture(model, this.choose);
    this.summarize();
    this.addFilters();
    byId('filters').addEventListener('submit', (event) => event.preventDefault());
    byId('goto').max = model.count;
    byId('goto').addEventListener('change', (event) => this.go(Number(event.target.value)));
    window.addEventListener('beforeprint', () => this.print());
    window.addEventListener('afterprint', () => byId('printed').replaceChildren());
  }

  summarize() {
    const { count, activities, width, height } = this.model;
    byId('summary').textContent =
      `${count} entries of ${activities.length} activities, and a screen of ${width} by ${height}.`;
    for (const [kind, text] of Object.entries(LEGEND)) {
      byId('legend').append(element('b', '\u2192 ', kind), `${text}. `);
    }
  }

  addFilters() {
    this.windowBoxes = this.boxes('windows', [...this.model.windows, 'no window']);
    this.kindBoxes = this.boxes('kinds', this.model.kinds);
  }

  boxes(id, names) {
    const field = byId(id);
    const boxes = names.map((name) => {
      const label = element('label');
      const box = element('input');
      box.type = 'checkbox';
      box.checked = true;
      box.dataset.name = name;
      box.addEventListener('change', () => this.filter());
      label.append(box, ` ${name}`);
      field.append(label);
      return box;
    });
    for (const [text, checked] of [['all', true], ['none', false]]) {
      const button = element('button', text);
      button.type = 'button';
      button.addEventListener('click', () => {
        for (const box of boxes) box.checked = checked;
        this.filter();
      });
      field.append(button, ' ');
    }
    return boxes;
  }

  filter() {
    const { model, windowBoxes, kindBoxes } = this;
    let bits = 0;
    model.windows.forEach((_, at) => { if (windowBoxes[at].checked) bits |= 1 << at; });
    const others = windowBoxes[model.windows.length].checked;
    const kinds = kindBoxes.map((box) => box.checked);
    const shown = [];
    for (let entry = 1; entry <= model.count; entry++) {
      const own = model.windowBits[entry];
      if (kinds[model.kind[entry]] && (own ? own & bits : others)) shown.push(entry);
    }
    this.history.show(Int32Array.from(shown));
  }

  go(entry) {
    if (entry >= 1 && entry <= this.model.count) this.choose(Math.floor(entry));
  }

  choose(entry) {
    this.history.mark(entry);
    this.detail(entry, this.picture.mark(entry));
  }

  detail(entry, pixels) {
    const { model } = this;
    const parts = [element('h2', `Entry ${entry}`),
      element('code', `${model.actor(entry)} ${model.text(entry)}`)];
    if (model.command(entry)) parts.push(element('p', `The command: ${model.command(entry)}`));
    if (pixels) parts.push(element('p', `It is the last that changed ${pixels} pixels.`));
    const noted = model.noted(entry);
    if (noted.length) {
      const list = element('ul');
      list.append(...noted.map((line) => element('li', line)));
      parts.push(element('p', 'Noted of it:'), list);
    }
    const { from, to } = model.data.links;
    if (model.into[entry] >= 0) parts.push(this.step('From', from[model.into[entry]]));
    for (const link of model.linksFrom(entry)) parts.push(this.step('To', to[link]));
    byId('detail').replaceChildren(...parts);
  }

  step(word, entry) {
    const line = element('p', `${word} `);
    const button = element('button',
      `${entry} ${this.model.actor(entry)} ${this.model.text(entry)}`);
    button.type = 'button';
    button.addEventListener('click', () => this.choose(entry));
    line.append(button);
    return line;
  }

  // On paper the shown entries are a table, as many as fit a thick pile.
  print() {
    const { model } = this;
    const table = element('table');
    const line = (name, texts) => {
      const row = element('tr');
      row.append(...texts.map((text) => element(name, text)));
      table.append(row);
    };
    line('th', ['', 'by', 'entry', 'from', 'noted']);
    for (const entry of this.history.order.slice(0, PRINTED)) {
      const from = model.into[entry] >= 0 ? model.data.links.from[model.into[entry]] : '';
      line('td', [entry, model.actor(entry), `${model.text(entry)}  ${model.command(entry)}`, from,
        model.noted(entry).join('; ')].map(String));
    }
    const rest = this.history.order.length - PRINTED;
    byId('printed').replaceChildren(table);
    if (rest > 0) byId('printed').append(element('p', `${rest} more entries aren\u2019t printed.`));
  }
}

const page = new Page(new Model(JSON.parse(byId('data').textContent)));
requestAnimationFrame(() => {
  document.documentElement.dataset.ready = String(Math.round(performance.now()));
});
