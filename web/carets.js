// Others' carets over the text, each with a name that fades a while after it was moved.
import { hint, named } from "./authors.js";
import { colourOf } from "./colours.js";

const NAME_ROOM = 90; // pixels to the right of a caret that its name may need

export class Carets {
  constructor(layer) {
    this.layer = layer;
    this.nodes = new Map();
  }

  // Puts a caret at each person's place. `rectAt` gives the place of a unit on the screen.
  draw(people, rectAt) {
    const here = new Set(people.map(({ visit }) => visit)), home = this.layer.getBoundingClientRect();
    for (const [visit, { node }] of this.nodes) if (!here.has(visit)) { node.remove(); this.nodes.delete(visit); }
    for (const person of people) {
      if (person.at === null) continue;
      const { left, top, height } = rectAt(person.at), known = this.nodes.get(person.visit);
      const caret = known?.moves === person.moves ? known : this.make(person, known);
      const place = `translate(${Math.round(left - home.left)}px, ${Math.round(top - home.top)}px)`;
      if (caret.place !== place) { caret.place = place; caret.node.style.transform = place; }
      if (!caret.node.classList.contains(colourOf(person.author))) caret.node.className = `caret ${colourOf(person.author)}`;
      if (caret.name.textContent !== named(person.author)) Object.assign(caret.name, { textContent: named(person.author), title: hint(person.author) });
      caret.node.classList.toggle("is-flipped", left - home.left > home.width - NAME_ROOM);
      if (caret.height !== height) { caret.height = height; caret.node.style.height = `${height}px`; }
    }
  }

  // A caret that was moved is a new node, so that its name is seen again.
  make({ author, visit, moves }, known) {
    known?.node.remove();
    const node = document.createElement("div"), name = document.createElement("span");
    node.className = `caret ${colourOf(author)}`;
    node.dataset.author = author;
    node.append(name);
    this.layer.append(node);
    const caret = { node, name, moves, place: "", height: 0 };
    this.nodes.set(visit, caret);
    return caret;
  }

  clear() {
    this.layer.replaceChildren();
    this.nodes.clear();
  }
}
