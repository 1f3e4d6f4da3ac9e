/** A list of rows of one height of which only those in sight are elements. The focus stays on the list itself, which names its active row. */
import {make} from "./dom.js";

const AROUND = 12;

export class VirtualList {
  /**
   * @param {HTMLElement} box the element that scrolls
   * @param {number} tall the height of a row in pixels
   * @param {(index: number) => HTMLElement} draws
   */
  constructor(box, tall, draws) {
    this.box = box; this.tall = tall; this.draws = draws; this.count = 0; this.active = -1;
    this.inner = make("div", {role: "presentation", class: "rows"});
    box.replaceChildren(this.inner);
    box.addEventListener("scroll", () => this.scrolled());
  }
  /** @param {number} count */
  fill(count) {
    this.count = count;
    this.inner.style.height = `${count * this.tall}px`;
    this.draw();
  }
  range() {
    const first = Math.max(0, Math.floor(this.box.scrollTop / this.tall) - AROUND);
    return [first, Math.min(this.count, first + Math.ceil(this.box.clientHeight / this.tall) + 2 * AROUND)];
  }
  scrolled() {
    const [first, last] = this.range(), [from, to] = this.drawn ?? [0, 0];
    // Rows are drawn again only when those in sight come near the end of what is drawn.
    if (Math.abs(first - from) >= AROUND / 2 || Math.abs(last - to) >= AROUND / 2) this.draw();
  }
  draw() {
    const [first, last] = this.drawn = this.range(), rows = [];
    for (let index = first; index < last; index++) {
      const row = this.draws(index);
      row.style.top = `${index * this.tall}px`;
      row.id ||= `${this.box.id}-${index}`;
      rows.push(row);
    }
    this.inner.replaceChildren(...rows);
    this.name();
  }
  /** Names the active row for those who hear the page. */
  name() {
    const isDrawn = this.drawn && this.active >= this.drawn[0] && this.active < this.drawn[1];
    if (isDrawn) this.box.setAttribute("aria-activedescendant", `${this.box.id}-${this.active}`); else this.box.removeAttribute("aria-activedescendant");
  }
  /** Brings a row into sight: as far as needed, or to the middle if it is far. @param {number} index */
  bring(index) {
    const top = index * this.tall, {scrollTop, clientHeight} = this.box, margin = Math.min(2 * this.tall, clientHeight / 4);
    if (top < scrollTop - clientHeight || top > scrollTop + 2 * clientHeight) this.box.scrollTop = top - clientHeight / 3;
    else if (top < scrollTop + margin) this.box.scrollTop = top - margin;
    else if (top + this.tall > scrollTop + clientHeight - margin) this.box.scrollTop = top + this.tall + margin - clientHeight;
    this.scrolled();
  }
}
