// @ts-check
import { say } from "./texts.js";

/** @typedef {import("./texts.js").TextName} TextName */

// The element of the page that has this id.
/** @param {string} id */
export function byId(id) {
  const found = document.getElementById(id);
  if (!found) throw new Error(id);
  return found;
}

/**
 * The element of the page of this tag and id.
 * @template {keyof HTMLElementTagNameMap} T
 * @param {T} tag
 * @param {string} id
 */
export function find(tag, id) {
  return /** @type {HTMLElementTagNameMap[T]} */ (byId(id));
}

/**
 * A new element with these properties and children. Texts go in as texts, never as HTML.
 * @template {keyof HTMLElementTagNameMap} T
 * @param {T} tag
 * @param {Partial<HTMLElementTagNameMap[T]>} [properties]
 * @param {(Node | string)[]} children
 */
export function make(tag, properties = {}, ...children) {
  const made = Object.assign(document.createElement(tag), properties);
  made.append(...children);
  return made;
}

/**
 * A button.
 * @param {string} text
 * @param {() => void} onclick
 */
export function makeButton(text, onclick) {
  return make("button", { type: "button", textContent: text, onclick });
}

/** Puts the texts where the page names them, in `data-text` and `data-label`. */
export function putTexts() {
  for (const element of document.querySelectorAll("[data-text], [data-label]")) {
    const { text, label } = /** @type {{ [name: string]: TextName }} */ (
      /** @type {HTMLElement} */ (element).dataset
    );
    if (text) element.textContent = say(text);
    if (label) element.setAttribute("aria-label", say(label));
  }
}

/**
 * Offers bytes as a download.
 * @param {string} name
 * @param {Blob} content
 */
export function save(name, content) {
  const url = URL.createObjectURL(content);
  make("a", { href: url, download: name }).click();
  setTimeout(() => URL.revokeObjectURL(url), 60_000);
}

// Why something did not come about.
/** @param {unknown} error */
export const whyOf = (error) => (error instanceof Error ? error.message : String(error));
