'use strict';

// What the page knows of the report: entries, links between them, notes and pixels. An entry is
// named by its number, from 1 on.
class Model {
  constructor(data) {
    this.data = data;
    this.activities = data.activities;
    this.windows = data.windows;
    this.lines = data.entries === '' ? [] : data.entries.split('\n');
    this.count = this.lines.length;
    this.kinds = [];
    this.sortEntries();
    this.joinLinks();
    this.spreadPixels();
  }

  // Lane, kind and windows of each entry. A line is a lane's number and the words of the entry.
  sortEntries() {
    const kindNumbers = new Map();
    const windowNumbers = new Map(this.windows.map((name, at) => [name, at]));
    const lanes = this.activities.map((word) => windowNumbers.get(word.replace(/^(loop|twin):/, '')));
    this.lane = new Uint8Array(this.count + 1);
    this.kind = new Uint8Array(this.count + 1);
    this.windowBits = new Uint32Array(this.count + 1);
    this.lines.forEach((line, at) => {
      const words = line.split(' ');
      const lane = Number(words[0]);
      if (!kindNumbers.has(words[1])) kindNumbers.set(words[1], kindNumbers.size);
      this.lane[at + 1] = lane;
      this.kind[at + 1] = kindNumbers.get(words[1]);
      this.windowBits[at + 1] = this.bitsOf(words, lanes[lane], windowNumbers);
    });
    this.kinds = [...kindNumbers.keys()];
  }

  bitsOf(words, own, windowNumbers) {
    let bits = own === undefined || this.activities[words[0]].startsWith('app:') ? 0 : 1 << own;
    if (words[1] !== 'note') {
      for (let at = 2; at < words.length; at++) {
        const window = windowNumbers.get(words[at]);
        const isName = words[1] === 'event' ? at > 2 : at === 2;
        if (window !== undefined && isName) bits |= 1 << window;
      }
    }
    return bits >>> 0;
  }

  // For each entry the link that leads to it, and a chain of those that lead from it.
  joinLinks() {
    const links = this.data.links;
    this.into = new Int32Array(this.count + 1).fill(-1);
    this.firstOut = new Int32Array(this.count + 1).fill(-1);
    this.nextOut = new Int32Array(links.from.length).fill(-1);
    for (let at = links.from.length - 1; at >= 0; at--) {
      this.into[links.to[at]] = at;
      this.nextOut[at] = this.firstOut[links.from[at]];
      this.firstOut[links.from[at]] = at;
    }
  }

  linksFrom(entry) {
    const found = [];
    for (let at = this.firstOut[entry]; at >= 0; at = this.nextOut[at]) found.push(at);
    return found;
  }

  linkKind(link) {
    return this.data.linkKinds[this.data.links.kind.charCodeAt(link) - 48];
  }

  // The colour of each pixel, and the entry that changed it last, from runs of a count and a value.
  spreadPixels() {
    const { width, height, palette, colors, changed } = this.data.screen;
    this.width = width;
    this.height = height;
    this.pixels = Model.spread(colors, width * height);
    this.palette = palette;
    this.changed = changed ? Model.spread(changed, width * height) : null;
  }

  static spread(runs, size) {
    const out = new Int32Array(size);
    let at = 0;
    for (let run = 0; run < runs.length; run += 2) {
      out.fill(runs[run + 1], at, at + runs[run]);
      at += runs[run];
    }
    return out;
  }

  text(entry) {
    const line = this.lines[entry - 1];
    return line.slice(line.indexOf(' ') + 1);
  }

  actor(entry) {
    return this.activities[this.lane[entry]];
  }

  noted(entry) {
    return this.data.noted[entry] || [];
  }

  command(entry) {
    return this.data.commands[entry] || '';
  }
}

// A new element with text in it, which is never read as HTML.
function element(name, text, className) {
  const made = document.createElement(name);
  if (text !== undefined) made.textContent = text;
  if (className) made.className = className;
  return made;
}

function byId(id) {
  return document.getElementById(id);
}
