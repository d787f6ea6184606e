"""Checks of what a window shows: names of controls, contrast, and lines that were drawn in parts."""

CONTROLS = ("button", "textbox", "slider", "spinbutton", "combobox", "link", "dialog", "DisclosureTriangle")

# Words and their background, each as the browser would paint it, and those whose contrast is below 4.5.
CONTRASTS = """
const context = document.createElement('canvas').getContext('2d', { willReadFrequently: true });
const paint = (colours) => {
  context.globalCompositeOperation = 'source-over';
  context.clearRect(0, 0, 1, 1);
  for (const colour of colours) { context.fillStyle = colour; context.fillRect(0, 0, 1, 1); }
  return [...context.getImageData(0, 0, 1, 1).data].slice(0, 3);
};
const light = (rgb) => {
  const [r, g, b] = rgb.map((one) => one / 255).map((one) => (one <= 0.04045 ? one / 12.92 : ((one + 0.055) / 1.055) ** 2.4));
  return 0.2126 * r + 0.7152 * g + 0.0722 * b;
};
const ratio = (a, b) => (Math.max(light(a), light(b)) + 0.05) / (Math.min(light(a), light(b)) + 0.05);
const behind = (node) => {
  const out = [];
  for (let one = node; one; one = one.parentElement) out.unshift(getComputedStyle(one).backgroundColor);
  return [getComputedStyle(document.documentElement).colorScheme.includes('dark') ? '#000' : '#fff', ...out];
};
const out = [], seen = { words: 0 };
// Each of the twelve colours is looked at, whoever has it.
const probe = document.createElement('div');
probe.className = 'words';
for (let k = 0; k < 12; k++) {
  for (const kind of ['run', 'run marked', 'run marked lit']) {
    probe.append(Object.assign(document.createElement('span'), { className: `${kind} colour-${k}`, textContent: kind }));
  }
  const caret = Object.assign(document.createElement('div'), { className: `caret colour-${k}` });
  caret.append(Object.assign(document.createElement('span'), { textContent: 'caret' }));
  probe.append(caret);
}
document.getElementById('paper').append(probe);
const walker = document.createTreeWalker(document.body, NodeFilter.SHOW_TEXT);
while (walker.nextNode()) {
  const node = walker.currentNode.parentElement;
  if (!walker.currentNode.data.trim() || !node.checkVisibility() || node.closest(':disabled, noscript')) continue;
  const back = behind(node), found = ratio(paint([...back, getComputedStyle(node).color]), paint(back));
  seen.words++;
  if (found < 4.5) out.push([node.className || node.id || node.nodeName, walker.currentNode.data.slice(0, 20), found.toFixed(2)]);
}
probe.remove();
return seen.words > 5 ? out : ['only ' + seen.words];
"""

# Lines that are changed at random, compared with lines that are drawn as a whole.
LINES = """
const done = arguments[0];
(async () => {
  const { Lines } = await import('/lines.js'), { splice, compose, apply, applyRuns, move } = await import('/clients/js/src/delta.js');
  let state = 7;
  const dice = (sides) => { state = (Math.imul(state, 1664525) + 1013904223) >>> 0; return Math.floor((state >>> 4) / 268435456 * sides); };
  const moved = (marks, delta) => marks.map((mark) => {
    const from = move(mark.from, delta, true);
    return { ...mark, from, to: Math.max(from, move(mark.to, delta)) };
  });
  const part = new Lines(document.createElement('div'));
  let text = '', runs = [];
  part.show(text, runs, []);
  for (let round = 0; round < 600; round++) {
    let delta = [], next = text;
    for (let k = dice(4); k >= 0; k--) {
      const at = dice(next.length + 1), words = Array.from({ length: dice(5) }, () => 'ab \\n\\nc'[dice(6)]).join('');
      const one = splice(at, Math.min(next.length - at, dice(7)), words, 'u' + dice(3));
      next = apply(next, one);
      delta = compose(delta, one);
    }
    text = apply(text, delta);
    runs = applyRuns(runs, delta);
    const from = dice(text.length + 1), marks = [{ id: 'm', from, to: Math.min(text.length, from + dice(9)) }];
    part.change(delta, { text, runs, marks: moved(part.marks, delta) });
    part.setMarks(marks);
    const whole = new Lines(document.createElement('div'));
    whole.show(text, runs, marks);
    const lines = (one) => [...one.root.querySelectorAll('.group > .line')], html = (one) => lines(one).map((line) => line.outerHTML).join('');
    const isGrouped = [...part.root.childNodes].every((group) => group.className === 'group' && group.firstChild && group.childNodes.length <= 200);
    if (!isGrouped || html(part) !== html(whole) || lines(part).map((line) => line.textContent).join('\\n') !== text) { done(`round ${round}: ${part.root.innerHTML} | ${whole.root.innerHTML}`); return; }
  }
  done('');
})().catch((error) => done(String(error)));
"""


def control_names(window):
    """The controls that have no name for a screen reader."""
    tree = window.driver.execute_cdp_cmd("Accessibility.getFullAXTree", {})["nodes"]
    return [
        node["role"]["value"] for node in tree
        if not node.get("ignored") and node.get("role", {}).get("value") in CONTROLS and not node.get("name", {}).get("value")
    ]


def contrasts(window):
    return window.run(CONTRASTS)


def drawn_lines(window):
    return window.driver.execute_async_script(LINES)


def plain(test, window, where):
    """What is shown now can be named and read, in both modes."""
    bare, poor = control_names(window), []
    for is_dark in (True, False):
        window.dark(is_dark)
        poor += contrasts(window)
    test.check(f"{where}: every control has a name, and all words a contrast of at least 4.5", not bare and not poor, (bare, poor))
