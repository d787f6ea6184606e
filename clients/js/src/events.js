// Who listens to what, by names that are given at the start.
export class Events {
  constructor(names) { this.listeners = new Map(names.map((name) => [name, new Set()])); }

  // Returns a function that ends this.
  on(name, listener) {
    const listeners = this.listeners.get(name);
    if (!listeners) throw new RangeError(`there is no event ${name}: there are ${[...this.listeners.keys()].join(", ")}`);
    const one = (...given) => listener(...given); // a listener that is given twice is told twice
    listeners.add(one);
    return () => { listeners.delete(one); };
  }

  tell(name, ...given) { for (const listener of [...this.listeners.get(name)]) listener(...given); }
}
