// What was made here: each texture with how it was made, how near it is and how long it took, to go back to and compare.
import { bitsOf, isSrgb, sidesOf } from "./formats.js";
import { decibels } from "./numbers.js";
import { fillSelect, made, part, show } from "./parts.js";
import { writeKtx } from "./files.js";

const MOST_RESULTS = 8;

const fileName = (texture) => `${texture.name.replace(/\.[^.]*$/, "")}.ktx`;

// An address of a texture's file, for a row that is dragged out of the page.
const fileOf = (texture) => URL.createObjectURL(new Blob([writeKtx(texture)], { type: "application/octet-stream" }));

// A name as one field of a table with tabs.
const fieldOf = (text) => text.replace(/[\t\r\n]/g, " ");

export class Results {
  constructor(onChosen) {
    Object.assign(this, { onChosen, all: [], count: 0 });
  }

  add(result) {
    this.count += 1;
    this.all.push({ ...result, number: this.count });
    this.all.splice(0, this.all.length - MOST_RESULTS);
  }

  // Adds a texture that was opened with its source, unless it is in the list.
  addOpened(texture, picture) {
    const known = this.all.find((result) => result.texture === texture);
    if (known && known.picture !== picture) {
      Object.assign(known, { picture, ratio: undefined });
    } else if (!known) {
      this.add({ texture, picture, title: texture.name, seconds: null });
    }
  }

  named({ texture, number, title }) {
    return `${number}: ${sidesOf(texture.format).join("x")}${isSrgb(texture.format) ? " sRGB" : ""} ${title}`;
  }

  // The results that can be shown beside a texture: those of its sides.
  partners(current) {
    const suits = ({ texture }) => texture !== current && texture.width === current.width && texture.height === current.height && texture.images === current.images && texture.levels === current.levels;
    return current ? this.all.filter(suits) : [];
  }

  // Another result as the view takes it, or null.
  partner(current, number) {
    const [own, other] = [this.all.find(({ texture }) => texture === current), this.partners(current).find((result) => result.number === number)];
    return other ? { texture: other.texture, number, name: this.named(other), ownName: own ? this.named(own) : "texture" } : null;
  }

  // The results as lines with tabs, for a spreadsheet.
  table() {
    const head = ["result", "block size", "flavour", "PSNR RGB", "bits per texel", "bytes", "seconds"];
    const rows = this.all.map(({ texture, number, title, seconds, ratio }) => [
      fieldOf(`${number}: ${title}`), sidesOf(texture.format).join("x"), isSrgb(texture.format) ? "sRGB" : "linear", ratio === undefined ? "" : ratio.toFixed(2), bitsOf(texture.format).toFixed(2),
      texture.bytes.length, seconds === null ? "" : seconds.toFixed(1),
    ]);
    return [head, ...rows].map((row) => row.join("\t")).join("\n");
  }

  // Takes the ratio of the first image of a result.
  measured({ texture, level, image }, measure) {
    const own = this.all.find((result) => result.texture === texture);
    if (own && level === 0 && image === 0) {
      own.ratio = measure.ratios().colours;
    }
  }

  // The result after the one that is shown.
  after(texture) {
    const at = this.all.findIndex((result) => result.texture === texture);
    return this.all[(at + 1) % this.all.length];
  }

  // The rows again; one that has the focus keeps it.
  show(current, other) {
    const partners = this.partners(current);
    show({ made: this.all.length > 0, "other-choice": partners.length > 0 });
    fillSelect(part("other"), [["", "source"], ...partners.map((result) => [result.number, this.named(result)])], other?.number ?? "");
    const list = part("made-list");
    const focused = [...list.children].indexOf(document.activeElement);
    list.replaceChildren(...this.all.map((result) => this.row(result, current)));
    list.children[focused]?.focus();
  }

  row(result, current) {
    const { texture, seconds, ratio } = result;
    const own = made("button", "", "made");
    own.type = "button";
    own.title = "Show this texture at the same position (R shows the next). PSNR is of its first image. Chromium can drag the file out of the page.";
    own.setAttribute("aria-pressed", String(texture === current));
    const told = [this.named(result), ratio === undefined ? "…" : decibels(ratio), `${texture.bytes.length.toLocaleString("en")} B`, seconds === null ? "" : `${seconds.toFixed(1)} s`];
    told.forEach((text) => own.append(made("span", text), " "));
    own.onclick = () => this.onChosen(result);
    own.draggable = true;
    let address = null;
    own.ondragstart = ({ dataTransfer }) => {
      address = fileOf(texture);
      dataTransfer.setData("DownloadURL", `application/octet-stream:${fileName(texture)}:${address}`);
    };
    own.ondragend = () => {
      document.body.classList.remove("over");
      setTimeout(() => URL.revokeObjectURL(address), 60_000);
    };
    return own;
  }
}
