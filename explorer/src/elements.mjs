// @ts-check
// Makes elements of the page. All text comes in as text, so no name of a file can pass for markup.

const SVG = "http://www.w3.org/2000/svg";

/**
 * The element of this name, a field or any other.
 * @returns {any}
 */
export const byId = id => document.getElementById(id);

/** An attribute that is false, null or undefined is left out, and so is such a child. */
function filled(node, attributes, children) {
  const isGiven = it => it !== false && it !== null && it !== undefined;
  for (const [name, value] of Object.entries(attributes)) if (isGiven(value)) node.setAttribute(name, value);
  node.append(...children.filter(isGiven));
  return node;
}

export const element = (name, attributes = {}, ...children) =>
  filled(document.createElement(name), attributes, children);

export const drawing = (name, attributes = {}, ...children) =>
  filled(document.createElementNS(SVG, name), attributes, children);

export const icon = name => drawing("svg", { "aria-hidden": "true" }, drawing("use", { href: `#icon-${name}` }));

/** A button that can do nothing now. Hands leave it alone; if it were disabled, it would lose the keyboard. */
export const turnOff = (button, isOff) => button.setAttribute("aria-disabled", String(isOff));
export const isOff = button => button.getAttribute("aria-disabled") === "true";

/** Puts other children into a box. If one of the old had the keyboard, the first of the new that matches gets it. */
export function refill(box, children, matching = "button") {
  const hasKeyboard = box.querySelector(":focus-visible") !== null;
  box.replaceChildren(...children);
  if (hasKeyboard) box.querySelector(matching)?.focus({ preventScroll: true });
}

export function button(attributes, action, ...children) {
  const made = element("button", { type: "button", ...attributes }, ...children);
  made.addEventListener("click", action);
  return made;
}
