// The blocks of lines in the document, in groups of some hundred. A browser lays out a whole list of blocks again when one
// of them changes, and a text can have tens of thousands; each group is laid out by itself, and only near what is
// seen (`contain` and `content-visibility` in style.css). All are in the document, for find, print, copies and screen readers.
// Between the blocks there can be nodes that the browser has made itself, in a group or beside it.
const SIZE = 100;

export class Groups {
  constructor(root) { Object.assign(this, { root, near: [] }); }

  clear() {
    this.near = [];
    this.root.replaceChildren();
  }

  isGroup(node) { return node?.parentNode === this.root && node.className === "group"; }

  // Whether a node stands where blocks stand.
  holds(node) { return this.isGroup(node.parentNode) || (node.parentNode === this.root && !this.isGroup(node)); }

  // The caret is in this node of the document. A browser moves it only to lines that it has laid out, so its group is laid out
  // wherever it is, and beside it as many as have the lines of a group.
  keepNear(node) {
    const own = this.blockOf(node)?.parentNode, near = [own];
    if (!this.isGroup(own)) return;
    for (const way of ["previousElementSibling", "nextElementSibling"]) {
      let lines = 0;
      for (let group = own[way]; this.isGroup(group) && lines < SIZE; group = group[way]) {
        near.push(group);
        lines += group.childNodes.length;
      }
    }
    for (const group of this.near) if (!near.includes(group)) group.removeAttribute("data-near");
    for (const group of near) if (!group.hasAttribute("data-near")) group.setAttribute("data-near", "");
    this.near = near;
  }

  // The block, or the node in its place, that has a node of the document in it, or null.
  blockOf(node) {
    let block = node;
    while (block && block !== this.root && !this.holds(block)) block = block.parentNode;
    return block && block !== this.root ? block : null;
  }

  get first() { return this.inside(this.root.firstChild); }

  // Between blocks of a group there are no groups. This is asked for each line whenever one is drawn.
  next(block) {
    const { nextSibling, parentNode } = block;
    if (parentNode === this.root) return this.inside(nextSibling);
    return nextSibling ?? this.inside(parentNode.nextSibling);
  }

  // The first block from a child of the root on, or a block itself.
  inside(node) {
    let block = node;
    while (this.isGroup(block)) block = block.firstChild ?? block.nextSibling;
    return block ?? null;
  }

  // Puts blocks before another one, or at the end: into its group, or into groups of their own if they are many. A group
  // that has grown is split, if its blocks `mayMove`.
  insert(blocks, next, mayMove) {
    const near = next ? next.parentNode : this.root.lastChild, isNear = this.isGroup(near);
    if (isNear && (blocks.length <= SIZE || !mayMove)) {
      const made = document.createDocumentFragment();
      for (const block of blocks) made.append(block);
      near.insertBefore(made, next);
      if (mayMove && near.childNodes.length > 2 * SIZE) this.cut(near.childNodes[SIZE]);
    } else if (blocks.length) this.root.insertBefore(this.groupsOf(blocks), isNear && next ? this.cut(next) : next);
  }

  // Begins a group with a block. Answers that group.
  cut(block) {
    const group = block.parentNode, all = [...group.childNodes], at = all.indexOf(block);
    if (at) this.root.insertBefore(this.groupsOf(all.slice(at)), group.nextSibling);
    return block.parentNode;
  }

  remove(blocks) {
    for (const block of blocks) {
      const group = block.parentNode;
      block.remove();
      if (this.isGroup(group) && !group.firstChild) group.remove();
    }
  }

  // Groups of blocks, which are about as high as they will be once they are laid out: that takes rows of characters half an em wide,
  // less what a word leaves at a row's end.
  groupsOf(blocks) {
    const { clientWidth } = this.root, { fontSize, paddingLeft, paddingRight } = getComputedStyle(this.root), groups = document.createDocumentFragment();
    const width = (clientWidth || 800) - parseFloat(paddingLeft) - parseFloat(paddingRight), row = Math.max(10, 2 * width / parseFloat(fontSize) - 3);
    for (let at = 0; at < blocks.length; at += SIZE) {
      const group = Object.assign(document.createElement("div"), { className: "group" }), some = blocks.slice(at, at + SIZE);
      const rows = some.reduce((sum, { textContent }) => sum + Math.max(1, Math.ceil(textContent.length / row)), 0);
      group.style.containIntrinsicHeight = `auto ${1.7 * rows}em`;
      group.append(...some);
      groups.append(group);
    }
    return groups;
  }
}
