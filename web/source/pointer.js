// The image by pointer: a drag moves it, or the line between both; two fingers and the wheel zoom; a click selects a block.
import { isOnLine, splitAt } from "./overlays.js";
import { part } from "./parts.js";

const STILL = 4;
const WHEEL_STEP = 60;

class Pointers {
  constructor(page) {
    Object.assign(this, { page, canvas: part("view"), down: new Map(), held: null, turned: 0 });
  }

  place(event) {
    const scale = this.canvas.width / this.canvas.clientWidth;
    return [event.offsetX * scale, event.offsetY * scale];
  }

  isLine(at) {
    return this.page.view.mode === "split" && !this.page.state.making && isOnLine(this.page.view, ...at);
  }

  press(event) {
    if (!this.page.view.subject) {
      return;
    }
    this.canvas.setPointerCapture(event.pointerId);
    const at = this.place(event);
    this.down.set(event.pointerId, at);
    const { left, top, zoom } = this.page.state;
    this.held = { at, left, top, zoom, moved: this.down.size > 1, line: this.down.size === 1 && this.isLine(at), apart: this.apart() };
  }

  // How far two fingers are apart.
  apart() {
    const [one, other] = [...this.down.values()];
    return other ? Math.hypot(one[0] - other[0], one[1] - other[1]) : 0;
  }

  move(event) {
    const at = this.place(event);
    if (!this.page.view.subject) {
      return;
    }
    if (!this.down.has(event.pointerId)) {
      this.canvas.style.cursor = this.isLine(at) ? "ew-resize" : "";
      this.page.showUnder(this.page.view.blockUnder(...at));
      return;
    }
    this.down.set(event.pointerId, at);
    this.drag(at);
  }

  drag(at) {
    const { view } = this.page;
    const { held } = this;
    if (this.down.size > 1) {
      const [one, other] = [...this.down.values()];
      view.zoomNear((held.zoom * this.apart()) / Math.max(1, held.apart), (one[0] + other[0]) / 2, (one[1] + other[1]) / 2);
    } else if (held.line) {
      held.moved = true;
      this.page.change({ split: splitAt(view, at[0]) });
    } else {
      held.moved ||= Math.hypot(at[0] - held.at[0], at[1] - held.at[1]) > STILL;
      if (held.moved) {
        view.change({ left: held.left - (at[0] - held.at[0]) / held.zoom, top: held.top - (at[1] - held.at[1]) / held.zoom });
      }
    }
  }

  release(event) {
    if (this.down.delete(event.pointerId) && this.held && !this.held.moved && event.type === "pointerup") {
      this.page.view.select(this.page.view.blockUnder(...this.place(event)));
    }
    const [left] = this.down.values();
    this.held = left ? { ...this.held, at: left, left: this.page.state.left, top: this.page.state.top, zoom: this.page.state.zoom, moved: true, line: false } : null;
  }

  // A notch of a wheel is a step, and many small turns of a pad are one.
  wheel(event) {
    event.preventDefault();
    if (!this.page.view.subject) {
      return;
    }
    this.turned = Math.sign(this.turned) === Math.sign(event.deltaY) ? this.turned + event.deltaY : event.deltaY;
    if (Math.abs(this.turned) >= WHEEL_STEP) {
      this.page.view.zoomAbout(this.turned < 0 ? 1 : -1, ...this.place(event));
      this.turned = 0;
    }
  }
}

export function wirePointer(page) {
  const pointers = new Pointers(page);
  const { canvas } = pointers;
  canvas.onpointerdown = (event) => pointers.press(event);
  canvas.onpointermove = (event) => pointers.move(event);
  canvas.onpointerup = canvas.onpointercancel = (event) => pointers.release(event);
  canvas.onpointerleave = () => page.state.selected && page.showSelected(page.state.selected);
  canvas.addEventListener("wheel", (event) => pointers.wheel(event), { passive: false });
}
