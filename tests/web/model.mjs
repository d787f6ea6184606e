const EDITS = ["insert", "delete", "edit"];

// A reference model of a pad: the tree of insertions in preorder, newest sibling first. Each character hangs on the one
// that stood before it, and knows the revision that inserted it and the one that erased it.
export class ModelPad {
  constructor() {
    this.root = { children: [], born: 0, died: 1 };
    this.entries = [];
    this.remarks = [];
    this.replica = 1;
  }

  get now() { return this.entries.length; }

  // All characters in preorder, erased ones too.
  order() {
    const out = [], open = [this.root];
    while (open.length) {
      const cell = open.pop();
      if (cell !== this.root) out.push(cell);
      for (const child of cell.children) open.push(child); // the newest is the last, and is looked at first
    }
    return out;
  }

  shows(cell, rev) { return cell.born <= rev && (!cell.died || cell.died > rev); }
  at(rev) { return this.order().filter((cell) => this.shows(cell, rev)); }
  text(rev) { return this.at(rev).map((cell) => cell.character).join(""); }
  authors(rev) { return this.at(rev).map((cell) => cell.author).join(); }

  // An operation has the number of its server, and is so many of that server's operations.
  note(author, kind) {
    const number = this.entries.filter(({ name }) => name[0] === this.replica).length + 1, name = [this.replica, number];
    this.entries.push({ author, kind, name, rev: this.now + 1 });
    return name;
  }

  edit(author, rev, parts) {
    const seen = this.at(rev), born = this.now + 1;
    for (const { at, text } of parts.filter((part) => part.text !== undefined)) {
      let parent = at ? seen[at - 1] : this.root;
      for (const character of text) {
        const cell = { character, author, born, died: 0, children: [] };
        parent.children.push(cell);
        parent = cell;
      }
    }
    for (const { at, len } of parts.filter((part) => part.len !== undefined)) {
      for (const cell of seen.slice(at, at + len)) cell.died ||= born;
    }
    return this.note(author, parts.length > 1 ? "edit" : parts[0].len ? "delete" : "insert");
  }

  // A comment on characters of a revision, or on nothing.
  remark(author, rev = 0, at = 0, len = 0, text = "") {
    const seen = this.at(rev).slice(at, at + len), name = this.note(author, "comment");
    if (len) this.remarks.push({ name, author, text, born: this.now, resolved: 0, first: seen[0], last: seen[len - 1] });
    return name;
  }

  resolve(author, name) {
    const remark = this.remarks.find((one) => one.name.join() === name.join());
    if (!remark) return null; // a store that was restored has lost it
    const made = this.note(author, "resolve");
    remark.resolved ||= this.now;
    return made;
  }

  // The comments of a revision. Their words are what is shown from the first to the last of their characters.
  comments(rev) {
    const order = this.order();
    const shown = (cells) => cells.filter((cell) => this.shows(cell, rev)).length;
    return this.remarks.filter(({ born }) => born <= rev).map(({ name, author, text, resolved, first, last }) => {
      const from = order.indexOf(first), to = order.indexOf(last) + 1;
      return { name, author, text, at: shown(order.slice(0, from)), len: shown(order.slice(from, to)), resolved: resolved > 0 && resolved <= rev };
    });
  }

  runs(rev) {
    const runs = [];
    for (const { author } of this.at(rev)) {
      const last = runs[runs.length - 1];
      if (last?.[0] === author) last[1]++;
      else runs.push([author, 1]);
    }
    return runs;
  }

  changes(rev, to) {
    const out = [];
    const put = (kind, what, author) => {
      const last = out[out.length - 1];
      if (last && last[0] === kind && last[2] === author) last[1] += what;
      else out.push(author === undefined ? [kind, what] : [kind, what, author]);
    };
    for (const cell of this.order()) {
      const was = this.shows(cell, rev), is = this.shows(cell, to);
      if (was) put(is ? "keep" : "drop", 1);
      else if (is) put("insert", cell.character, cell.author);
    }
    return out;
  }

  // Goes back to a revision, as a store does that is restored from a copy.
  restore(rev) {
    this.entries.length = rev;
    this.remarks = this.remarks.filter(({ born }) => born <= rev);
    for (const remark of this.remarks) if (remark.resolved > rev) remark.resolved = 0;
    for (const cell of [this.root, ...this.order()]) {
      if (cell.died > rev && cell !== this.root) cell.died = 0;
      cell.children = cell.children.filter(({ born }) => born <= rev);
    }
  }

  reply(author, request) {
    const { rev, to = this.now, at, text, len, from, count } = request;
    const made = (name) => ({ ok: true, now: this.now, name });
    if (EDITS.includes(request.do) || request.do === "comment") {
      const size = this.at(rev).length, isWithin = (part) => part.at + (part.len ?? 0) <= size;
      if (!(request.parts ?? [request]).every(isWithin)) return { ok: false, code: 321, error: "OutOfRange" };
    }
    switch (request.do) {
      case "revs": return { ok: true, now: this.now, cells: this.order().length, length: this.at(this.now).length };
      case "who": return { ok: true, now: this.now, who: [] };
      case "text": return { ok: true, now: this.now, rev: rev ?? this.now, text: this.text(rev ?? this.now) };
      case "runs": return { ok: true, now: this.now, rev: rev ?? this.now, runs: this.runs(rev ?? this.now) };
      case "comments": return { ok: true, now: this.now, rev: rev ?? this.now, comments: this.comments(rev ?? this.now) };
      case "entries": return { ok: true, now: this.now, entries: this.entries.slice(from - 1, from - 1 + count) };
      case "insert": return made(this.edit(author, rev, [{ at, text }]));
      case "delete": return made(this.edit(author, rev, [{ at, len }]));
      case "edit": return made(this.edit(author, rev, request.parts));
      case "comment": return made(this.remark(author, rev, at, len, text));
      case "resolve": {
        const name = this.resolve(author, request.comment);
        return name ? made(name) : { ok: false, code: 326, error: "NoComment" };
      }
      case "changes": {
        const notes = this.entries.slice(rev, to).filter(({ kind }) => ["comment", "resolve"].includes(kind)).length;
        return { ok: true, now: this.now, rev, to, notes, changes: this.changes(rev, to) };
      }
    }
    return { ok: false, code: 102, error: "NotRequest" };
  }
}
