// Pseudo-random numbers with a seed, so that a failing round can be played again.
export function dice(seed) {
  let state = (Math.imul(seed, 2654435761) + 12345) >>> 0;
  return (sides) => {
    state = (Math.imul(state, 1664525) + 1013904223) >>> 0;
    return Math.floor(((state >>> 4) / 268435456) * sides);
  };
}
