// Makes elements of the page and of its pictures.

const SVG = "http://www.w3.org/2000/svg";

function filled(element, attributes, children) {
  for (const [name, value] of Object.entries(attributes)) {
    if (value !== null && value !== false) {
      element.setAttribute(name, value === true ? "" : value);
    }
  }
  element.append(...children);
  return element;
}

/** An element of HTML with attributes and children. */
export function html(name, attributes = {}, ...children) {
  return filled(document.createElement(name), attributes, children);
}

/** An element of SVG with attributes and children. */
export function svg(name, attributes = {}, ...children) {
  return filled(document.createElementNS(SVG, name), attributes, children);
}

/** A rectangle as part of a path. */
export function box(x, y, width, height) {
  return `M${x.toFixed(1)} ${y.toFixed(1)}h${width.toFixed(1)}v${height.toFixed(1)}h${(-width).toFixed(1)}z`;
}

/** About how wide a letter of a picture is, in pixels. */
export const LETTER = 7;

/** A text of a picture. */
export function label(className, x, y, words) {
  return svg("text", { class: className, x: x.toFixed(1), y: y.toFixed(1) }, words);
}

/** The room round a text with a ground, in pixels. */
const ROOM_OF_GROUND = 4;

/** A text of a picture on a ground of its own, which can be read over bars. It begins or ends at `x`. */
export function grounded(isToTheLeft, x, y, words) {
  const width = words.length * LETTER + 2 * ROOM_OF_GROUND;
  const left = isToTheLeft ? x - width + ROOM_OF_GROUND : x - ROOM_OF_GROUND;
  return [area("halo", left, y - 12, width, 16), label(isToTheLeft ? "end" : "begin", x, y, words)];
}

/** A rectangle of a picture. */
export function area(className, x, y, width, height) {
  const numbers = { x, y, width: Math.max(0, width), height: Math.max(0, height) };
  const attributes = Object.fromEntries(Object.entries(numbers).map(([name, at]) => [name, at.toFixed(1)]));
  return svg("rect", { class: className, ...attributes });
}

/** Rectangles of one kind as a single part of a picture, which takes far less time than a part for each. */
export function areas(className, boxes) {
  const d = boxes.map(([x, y, width, height]) => box(x, y, Math.max(0, width), Math.max(0, height))).join("");
  return svg("path", { class: className, d });
}

/** The element of the page with this id. */
export function byId(id) {
  return document.getElementById(id);
}

/** Gives an element words, if it has others: what stays needs no layout. */
export function tellIn(element, words) {
  if (element.textContent !== words) {
    element.textContent = words;
  }
}

/** Has a screen reader say words. */
export function announce(words) {
  tellIn(byId("told"), words);
}

/** Gives an element an attribute, if it has another. */
export function mark(element, name, value) {
  if (element.getAttribute(name) !== value) {
    element.setAttribute(name, value);
  }
}

/** Gives an element a property that is a word, if it has another. */
export function put(element, name, value) {
  if (element[name] !== String(value)) {
    element[name] = value;
  }
}

/** Makes a node what a new one of the same kind is. */
function become(old, made) {
  if (old.nodeType === Node.TEXT_NODE) {
    put(old, "data", made.data);
    return;
  }
  [...old.attributes].filter(({ name }) => !made.hasAttribute(name)).forEach(({ name }) => old.removeAttribute(name));
  [...made.attributes].forEach(({ name, value }) => mark(old, name, value));
  renew(old, ...made.childNodes);
}

/**
 * Puts new nodes in a place as `replaceChildren` does, but old ones of the same kind stay and become like them: so a
 * button keeps its focus, and words that the user has selected stay so. Nothing in the place may listen by itself.
 */
export function renew(place, ...parts) {
  const olds = [...place.childNodes];
  const nodes = parts.map((part) => (typeof part === "string" ? document.createTextNode(part) : part));
  nodes.forEach((made, at) => {
    const old = olds[at];
    if (!old) {
      place.append(made);
    } else if (old.nodeName === made.nodeName) {
      become(old, made);
    } else {
      old.replaceWith(made);
    }
  });
  olds.slice(nodes.length).forEach((old) => old.remove());
}

/** Whether a key is pressed with another that makes it a command of the browser. */
export function isCommand({ ctrlKey, metaKey, altKey }) {
  return ctrlKey || metaKey || altKey;
}

/** Changes the page, and if what has the focus goes with it, gives the focus to what `after` returns. */
export function keepFocus(act, after) {
  const { activeElement } = document;
  act();
  const isLost = !activeElement?.isConnected || activeElement.closest("[hidden]") || activeElement.disabled;
  if (activeElement !== document.body && isLost) {
    after()?.focus({ preventScroll: true });
  }
}

/** Calls `act` in the next frame, once for all calls before it. */
export function oncePerFrame(act) {
  let isPending = false;
  return () => {
    if (isPending) {
      return;
    }
    isPending = true;
    requestAnimationFrame(() => {
      isPending = false;
      act();
    });
  };
}
