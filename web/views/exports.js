// Pictures and tables as files: PNG, SVG and CSV, made in the page and saved by the browser.

import { html, svg } from "./elements.js";
import { Slice } from "../engine/slices.js";

/** What a picture's own file needs of the page's style, as attributes: the page's policy allows no others. */
const OF_SHAPES = ["fill", "fill-opacity", "stroke", "stroke-width", "opacity"];
const OF_TEXTS = ["fill", "font-family", "font-size", "font-weight", "text-anchor"];

/** What a part has if no attribute says else. */
const DEFAULTS_OF_PARTS = new Map([["fill-opacity", "1"], ["stroke", "none"], ["stroke-width", "1px"], ["opacity", "1"],
  ["font-weight", "400"], ["text-anchor", "start"]]);

/** How many pixels of a PNG one of the page is. */
const FINENESS = 2;

/** Where what is above a picture in its own file begins, its lines, and the room between its items, in pixels. */
const ABOVE_LEFT = 12;
const ABOVE_LINE = 22;
const ABOVE_GAP = 16;

/** For how long a file is kept for the browser to save it, in milliseconds. */
const KEPT = 60_000;

function save(name, parts, type) {
  const address = URL.createObjectURL(new Blob(parts, { type }));
  html("a", { href: address, download: name }).click();
  setTimeout(() => URL.revokeObjectURL(address), KEPT);
}

/** What is in a picture only while it is looked at. */
const PASSING = ".looked, .moment, .brush";

/** Gives a copy of a picture's part the style of the part, in place of its class. */
function dress(copy, part) {
  const style = getComputedStyle(part);
  copy.removeAttribute("class");
  for (const name of part.matches("text") ? OF_TEXTS : OF_SHAPES) {
    const value = style.getPropertyValue(name);
    if (value !== DEFAULTS_OF_PARTS.get(name)) {
      copy.setAttribute(name, value);
    }
  }
}

/** A copy of a picture's parts that needs no style of the page. */
function styledParts(picture) {
  const copy = picture.cloneNode(true);
  copy.querySelectorAll(PASSING).forEach((part) => part.remove());
  const parts = [...picture.querySelectorAll("*")].filter((part) => !part.matches(PASSING));
  [...copy.querySelectorAll("*")].forEach((each, place) => dress(each, parts[place]));
  return [...copy.childNodes];
}

/** A text above a picture, in the style of an element of the page. */
function textAbove(element, x, y, words) {
  const { color, fontFamily, fontSize, fontWeight } = getComputedStyle(element);
  const style = { fill: color, "font-family": fontFamily, "font-size": fontSize, "font-weight": fontWeight };
  return svg("text", { x, y, ...style }, words);
}

/** What a picture is of: its section, and its plan if there are more. */
function pictureName(picture) {
  const caption = picture.closest("figure")?.querySelector("figcaption");
  const words = [picture.closest("section").querySelector("h2"), caption].map((element) => element?.textContent.trim());
  return words.filter(Boolean).join(": ");
}

/** What a colour of a picture means, as its parts, from `x` on in the line that begins at `y`. */
function legendItem(item, x, y) {
  if (!item.querySelector(".key")) {
    return [textAbove(item, x, y + ABOVE_LINE / 2 + 4.5, item.textContent.trim())];
  }
  const { width, height, backgroundColor } = getComputedStyle(item.querySelector(".key"));
  const [wide, high] = [width, height].map(parseFloat);
  const key = { x, y: y + (ABOVE_LINE - high) / 2, width: wide, height: high, fill: backgroundColor };
  return [svg("rect", key), textAbove(item, x + wide + 6, y + ABOVE_LINE / 2 + 4.5, item.textContent.trim())];
}

/** What is above a picture in its own file, its name and the legend of its section, and how high that is. */
function aboveOf(picture, width) {
  const section = picture.closest("section");
  const parts = [textAbove(section.querySelector("h2"), ABOVE_LEFT, ABOVE_LINE - 4, pictureName(picture))];
  let [x, y] = [ABOVE_LEFT, ABOVE_LINE + 4];
  for (const item of section.querySelectorAll(".legend li:not([hidden])")) {
    const room = Math.ceil(item.getBoundingClientRect().width);
    if (x > ABOVE_LEFT && x + room > width) {
      [x, y] = [ABOVE_LEFT, y + ABOVE_LINE];
    }
    parts.push(...legendItem(item, x, y));
    x += room + ABOVE_GAP;
  }
  return { parts, height: y + ABOVE_LINE + 6 };
}

/** A picture as one of a file of its own, with its name, its legend, its styles and the page's ground. */
function pictureAlone(picture) {
  const [width, height] = ["width", "height"].map((name) => Number(picture.getAttribute(name)));
  const above = aboveOf(picture, width);
  const all = { width, height: above.height + height };
  const paper = getComputedStyle(picture.closest("section")).backgroundColor;
  return svg("svg", { ...all, viewBox: `0 0 ${all.width} ${all.height}` }, svg("rect", { ...all, fill: paper }),
    ...above.parts, svg("g", { transform: `translate(0 ${above.height})` }, ...styledParts(picture)));
}

function svgText(picture) {
  return new XMLSerializer().serializeToString(picture);
}

/** A picture as the pixels of a file. */
async function pixelsOf(picture) {
  const image = new Image();
  image.src = `data:image/svg+xml;charset=utf-8,${encodeURIComponent(svgText(picture))}`;
  await image.decode();
  const canvas = html("canvas", {
    width: FINENESS * Number(picture.getAttribute("width")), height: FINENESS * Number(picture.getAttribute("height")),
  });
  const pen = canvas.getContext("2d");
  pen.scale(FINENESS, FINENESS);
  pen.drawImage(image, 0, 0);
  return new Promise((resolve) => canvas.toBlob(resolve, "image/png"));
}

/** Columns and rows as the parts of a file, a slice of time after another: there may be a million rows. */
async function csvParts(columns, rows) {
  const parts = [];
  const slice = new Slice();
  let lines = [columns.join(",")];
  for (const cells of rows) {
    lines.push(cells.join(","));
    if (slice.isOver()) {
      parts.push(new Blob([`${lines.join("\n")}\n`]));
      lines = [];
      await slice.next();
    }
  }
  return [...parts, ...lines.map((line) => `${line}\n`)];
}

/**
 * Buttons that save a picture and a table under a name. `picture` returns the element, `table` columns and rows; each
 * returns null if there is none.
 */
export function saveButtons(name, title, { picture, table }) {
  const button = (kind, act) => {
    const made = html("button", { type: "button", class: "small", "aria-label": `Save ${title} as ${kind}` }, kind);
    made.addEventListener("click", act);
    return made;
  };
  const alone = () => picture() && pictureAlone(picture());
  const ofPicture = picture ? [
    button("PNG", async () => picture() && save(`${name}.png`, [await pixelsOf(alone())], "image/png")),
    button("SVG", () => picture() && save(`${name}.svg`, [svgText(alone())], "image/svg+xml")),
  ] : [];
  const ofTable = table ? [
    button("CSV", async () => table() && save(`${name}.csv`, await csvParts(...table()), "text/csv")),
  ] : [];
  return html("span", { class: "saves" }, "Save as ", ...ofPicture, ...ofTable);
}
