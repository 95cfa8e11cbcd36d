/** The place of a picture: as wide as there is room, and scrolled where the picture would be too small to read. */

import { html } from "../dom.js";
import { t } from "../text.js";
import { SIZES } from "./layout.js";
import { beginning } from "./sight.js";

/** The smallest scale at which texts can be read. */
const SMALLEST = 0.64;

export class Frame {
  element = html("div", { class: "picture", tabindex: 0, role: "region", "aria-label": t`Picture of the genealogy`, "data-wide": t`The picture is too wide for a sheet. The table has all lots.` });
  #picture = null;
  #layout = null;
  #asked = null;
  #room = { width: 0, height: 0 };

  /** `changed()` is called where the picture has become larger or smaller than its place. */
  constructor(changed) {
    new ResizeObserver(() => {
      const { width, height } = this.#roomNow();
      if (this.#picture === null || (width === this.#room.width && height === this.#room.height)) return;
      const isNew = this.#room.width === 0;
      this.#fit();
      if (isNew) this.show();
      changed();
    }).observe(this.element);
  }

  /** Draws a picture, and shows the box that is asked for. */
  draw(picture, layout, asked) {
    [this.#picture, this.#layout, this.#asked] = [picture, layout, asked];
    this.element.replaceChildren(picture);
    this.#fit();
    this.show();
  }

  /** Whether the picture is larger than its place. */
  get isLarge() {
    const { scrollWidth, scrollHeight, clientWidth, clientHeight } = this.element;
    return scrollWidth > clientWidth || scrollHeight > clientHeight;
  }

  /** How large a picture may be; nothing as long as the place isn't in the document. */
  #roomNow() {
    if (!this.element.isConnected) return { width: 0, height: 0 };
    const { paddingLeft, paddingRight, paddingTop, paddingBottom, maxHeight } = getComputedStyle(this.element);
    const [left, right, top, bottom, most] = [paddingLeft, paddingRight, paddingTop, paddingBottom, maxHeight].map(parseFloat);
    return { width: this.element.clientWidth - left - right, height: Number.isNaN(most) ? Infinity : most - top - bottom };
  }

  get #scale() {
    const { width, height } = this.#layout;
    return Math.min(1, Math.max(SMALLEST, Math.min(this.#room.width / width, this.#room.height / height)));
  }

  #fit() {
    this.#room = this.#roomNow();
    const { width, height } = this.#layout;
    this.#picture.setAttribute("width", Math.floor(width * this.#scale));
    this.#picture.setAttribute("height", Math.floor(height * this.#scale));
  }

  /** Brings the asked lot into sight, with those that it is joined to, where the picture is larger than its place. */
  show() {
    const { boxes, edges } = this.#layout;
    const scale = this.#scale;
    const ends = (mine, others) => edges.filter(edge => edge[mine] === this.#asked).map(edge => boxes.get(edge[others]));
    const [ins, outs] = [ends("to", "from"), ends("from", "to")];
    const [frame, drawn] = [this.element.getBoundingClientRect(), this.#picture.getBoundingClientRect()];
    const place = (length, corner, size, shift) => {
      const range = box => [box[corner] * scale, (box[corner] + size) * scale];
      return shift + beginning(length, range(boxes.get(this.#asked)), ins.map(range), outs.map(range));
    };
    const { scrollLeft, scrollTop, clientWidth, clientHeight } = this.element;
    this.element.scrollTo({
      left: place(clientWidth, "x", SIZES.width, drawn.left - frame.left + scrollLeft),
      top: place(clientHeight, "y", SIZES.height, drawn.top - frame.top + scrollTop),
      behavior: "instant",
    });
  }
}
