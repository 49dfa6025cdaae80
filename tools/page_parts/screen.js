'use strict';

// The screen as a picture: whole pixels, the place under the pointer, and who changed it last.
class Picture {
  constructor(model, choose) {
    this.model = model;
    this.choose = choose;
    this.canvas = byId('picture');
    this.marks = byId('marks');
    this.cursor = byId('cursor');
    this.x = 0;
    this.y = 0;
    const fits = Math.min(Math.floor(448 / model.width), Math.floor(360 / model.height));
    this.scale = Math.max(1, Math.min(16, fits));
    this.paint();
    this.canvas.addEventListener('pointermove', (event) => this.pointed(event));
    this.canvas.addEventListener('click', (event) => { this.pointed(event); this.enter(); });
    this.canvas.addEventListener('keydown', (event) => this.pressed(event));
  }

  paint() {
    const { width, height, palette, pixels } = this.model;
    for (const canvas of [this.canvas, this.marks]) {
      canvas.width = width;
      canvas.height = height;
      canvas.style.width = `${width * this.scale}px`;
      canvas.style.height = `${height * this.scale}px`;
    }
    this.canvas.setAttribute('aria-label', `The screen of ${width} by ${height} pixels`);
    const context = this.canvas.getContext('2d');
    const image = context.createImageData(width, height);
    const colors = palette.map((color) => parseInt(color, 16));
    for (let at = 0; at < pixels.length; at++) {
      const color = colors[pixels[at]];
      image.data[4 * at] = color >> 16;
      image.data[4 * at + 1] = color >> 8 & 255;
      image.data[4 * at + 2] = color & 255;
      image.data[4 * at + 3] = 255;
    }
    context.putImageData(image, 0, 0);
  }

  pointed(event) {
    const box = this.canvas.getBoundingClientRect();
    const at = (place, size, count) =>
      Math.max(0, Math.min(count - 1, Math.floor(place / size * count)));
    this.move(at(event.clientX - box.left, box.width, this.model.width),
      at(event.clientY - box.top, box.height, this.model.height));
  }

  pressed(event) {
    const steps = { ArrowLeft: [-1, 0], ArrowRight: [1, 0], ArrowUp: [0, -1], ArrowDown: [0, 1] };
    const step = steps[event.key];
    if (event.key === 'Enter') this.enter();
    if (!step) return;
    event.preventDefault();
    const size = event.shiftKey ? 10 : 1;
    this.move(Math.max(0, Math.min(this.model.width - 1, this.x + step[0] * size)),
      Math.max(0, Math.min(this.model.height - 1, this.y + step[1] * size)));
  }

  changedBy() {
    const { changed, width } = this.model;
    return changed ? changed[this.y * width + this.x] : -1;
  }

  enter() {
    if (this.changedBy() > 0) this.choose(this.changedBy());
  }

  move(x, y) {
    this.x = x;
    this.y = y;
    const model = this.model;
    const color = model.palette[model.pixels[y * model.width + x]];
    const place = byId('place');
    const square = element('i');
    square.style.background = `#${color}`;
    place.replaceChildren(`${x} ${y}  ${color} `, square, element('br'), this.told());
    const box = this.cursor.style;
    this.cursor.hidden = false;
    box.left = `${x * this.scale}px`;
    box.top = `${y * this.scale}px`;
    box.width = box.height = `${Math.max(2, this.scale)}px`;
  }

  told() {
    const entry = this.changedBy();
    if (entry < 0) return '';
    if (entry === 0) return 'no entry changed it';
    const command = this.model.command(entry);
    return `changed last by entry ${entry}: ${this.model.actor(entry)} ${this.model.text(entry)}${
      command ? ` (${command})` : ''}`;
  }

  // Marks the pixels that an entry changed last.
  mark(entry) {
    const { changed, width, height } = this.model;
    const context = this.marks.getContext('2d');
    context.clearRect(0, 0, width, height);
    if (!changed) return 0;
    const image = context.createImageData(width, height);
    let count = 0;
    for (let at = 0; at < changed.length; at++) {
      if (changed[at] === entry) {
        image.data.set([214, 0, 143, 110], 4 * at);
        count++;
      }
    }
    context.putImageData(image, 0, 0);
    return count;
  }
}
