// The page: what is open, how the page shows it, and the controls around it.
import { Fault, isSrgb, nameOf } from "./formats.js";
import { showBlock, showTexel } from "./inspect.js";
import { auditJob, packJob, polishJob, sumsJob, weightsOf } from "./jobs.js";
import { followLink } from "./link.js";
import { Measures } from "./measures.js";
import { imageName, shapeRows, showLegend, showMeasures, tellReport } from "./numbers.js";
import { readFiles, sidesText, suits } from "./opening.js";
import { ask, fillSelect, part, show, terms } from "./parts.js";
import { zoomText } from "./places.js";
import { Pool } from "./pool.js";
import { Results } from "./results.js";
import { inFormOf, suggestFlavour } from "./kinds.js";
import { sampleScene } from "./sample.js";
import { makeWorker } from "./start.js";
import { Tiles } from "./tiles.js";
import { View } from "./view.js";

const MOST_SHOWERS = 4;
const UNJUDGED = { marks: null, bettered: null, audited: null, other: null };
const COMPARING = ["split", "side", "difference", "errors"];

export class Page {
  constructor(proved, compiled) {
    const cores = navigator.hardwareConcurrency || 2;
    Object.assign(this, { proved, serial: 0, opening: 0, busy: false, linked: null, onMoved: null });
    this.shower = new Pool(compiled, makeWorker, Math.min(MOST_SHOWERS, cores));
    this.workers = new Pool(compiled, makeWorker, cores);
    this.measures = new Measures(this.shower, (subject, measure) => this.takeMeasure(subject, measure));
    this.tiles = new Tiles(this.shower, () => this.view.draw(), (cause) => this.complain(cause));
    this.results = new Results((result) => this.busy || this.showResult(result));
    this.view = new View(part("view"), {
      tiles: this.tiles, measures: this.measures, onSelect: (block) => this.showSelected(block), onPlaced: () => this.follow(), onMoved: () => this.onMoved?.(),
    });
  }

  get state() {
    return this.view.state;
  }

  // The text that is read aloud and shown.
  tell(text) {
    part("status").textContent = text;
  }

  complain(cause) {
    part("fault").textContent = cause instanceof Error ? cause.message : String(cause);
  }

  open(blob, name, how) {
    return this.openAll([{ blob, name }], how);
  }

  // Opens files together. Where a texture is open, a picture of its sides becomes its source.
  async openAll(files, { asSource = false } = {}) {
    if (this.busy) {
      this.complain("a job is running: stop it first");
      return;
    }
    const own = ++this.opening;
    part("fault").textContent = "";
    try {
      const { texture, picture } = await readFiles(this.proved, files);
      if (own === this.opening) {
        await this.take(texture, picture, asSource);
      }
    } catch (cause) {
      if (own === this.opening) {
        this.complain(cause);
        this.tell(`could not open ${files.map(({ name }) => name).join(", ")}`);
      }
    }
  }

  async take(texture, picture, asSource) {
    try {
      if (texture) {
        this.takeTexture(texture);
      }
      if (picture && this.state.texture && (texture || asSource || suits(picture, this.state.texture))) {
        this.takeSource(picture);
      } else if (picture && (!this.state.texture || await this.mayReplace(picture))) {
        this.takePicture(picture);
      }
      if (this.state.texture && this.state.source) {
        this.results.addOpened(this.state.texture, this.state.source);
      }
    } finally {
      this.refresh();
      followLink(this);
    }
  }

  // A picture of other sides would close the texture.
  mayReplace(picture) {
    const { texture } = this.state;
    const told = ({ width, height, images }) => `${width} by ${height}, ${images === 1 ? "one image" : `${images} images`}`;
    const text = `${picture.name} (${told(picture)}) can't be the source of ${texture.name} (${told(texture)}). Replace the texture with it?`;
    return ask(text, "Close the texture, open the picture", "Keep the texture");
  }

  numbered(subject) {
    subject.serial ??= ++this.serial;
    return subject;
  }

  takeTexture(texture) {
    const { source } = this.state;
    const kept = source && suits(source, texture) ? source : null;
    const first = { level: 0, image: 0, mode: kept ? "split" : "texture", ...UNJUDGED, selected: null };
    this.view.change({ texture: this.numbered(texture), source: kept, ...first });
    this.settleAs(texture);
    this.arrive(`${texture.name}: ${nameOf(texture.format)}, ${texture.width} by ${texture.height}`);
  }

  // A texture that is opened sets block size and flavour, so that a pack of its source is like it.
  settleAs({ format }) {
    if (!this.keepsFlavour) {
      Object.entries({ footprint: format & 15, flavour: isSrgb(format) ? "srgb" : "linear", kind: "" }).forEach(([id, value]) => (part(id).value = String(value)));
    }
  }

  takeSource(picture) {
    if (!suits(picture, this.state.texture)) {
      throw new Fault(sidesText(picture, this.state.texture));
    }
    this.view.change({ source: this.numbered(picture), mode: "split", ...UNJUDGED });
    this.settingsFor(picture);
    this.tell(`${picture.name} is the source now`);
  }

  takePicture(picture) {
    const first = { level: 0, image: 0, mode: "source", ...UNJUDGED, selected: null };
    this.view.change({ texture: null, source: this.numbered(picture), ...first });
    this.settingsFor(picture);
    const hint = picture.isDecoded && !this.keepsFlavour ? suggestFlavour(picture.name) : "";
    this.keepsFlavour = false;
    this.takeForm(part("kind").value);
    const images = picture.told ?? (picture.images === 1 ? "one image" : `${picture.images} images`);
    this.arrive(`${picture.name}: ${picture.width} by ${picture.height}, ${images}${hint}`);
  }

  arrive(text) {
    show({ welcome: false });
    document.body.classList.remove("empty");
    show({ under: true, edge: part("fold").ariaPressed !== "true" });
    document.querySelector("aside").hidden = part("fold").ariaPressed === "true";
    this.view.resize();
    this.view.zoomToFit();
    tellReport([]);
    this.tell(text);
  }

  // Settings that say what the picture is.
  settingsFor(picture) {
    part("images").value = picture.isCube ? "cube" : picture.images > 1 ? "array" : "one";
    part("flip").checked = picture.isFlipped;
  }

  // Turns the picture over as the setting says, at once if no texture is open; else the next pack does.
  flip(isFlipped) {
    const { texture, source } = this.state;
    if (!texture && source && source.isFlipped !== isFlipped) {
      this.view.change({ source: this.numbered(source.flipped()) });
      this.refresh();
    }
    this.tell(isFlipped ? `${texture ? "the next pack has" : "the picture now has"} the bottom row first` : `${texture ? "the next pack has" : "the picture has"} the top row first`);
  }

  // Converts the open picture to the form that a kind packs, at once if no texture is open; else the next pack does.
  takeForm(kind) {
    const { texture, source } = this.state;
    const form = source ? inFormOf(source, kind) : null;
    if (form === source) {
      return;
    }
    if (!texture) {
      this.view.change({ source: this.numbered(form) });
      this.refresh();
    }
    const who = texture ? "the next pack has" : "the picture now has";
    this.tell(kind === "normal" ? `${who} X in red, green and blue, and Y in alpha` : `${who} the channels of its file`);
  }

  // Shows another result, or the source, beside the texture.
  compareWith(number) {
    const other = this.results.partner(this.state.texture, number);
    if (other) {
      this.numbered(other.texture);
    }
    this.change({ other, mode: other && !["split", "side"].includes(this.state.mode) ? "side" : this.state.mode });
  }

  async copy(text, told) {
    if (!navigator.clipboard) {
      this.complain("this browser copies only on pages from https or localhost");
      return;
    }
    try {
      await navigator.clipboard.writeText(text);
      this.tell(told);
    } catch (cause) {
      this.complain(cause);
    }
  }

  async openSample() {
    this.tell("rendering the sample …");
    this.takePicture(await sampleScene(this.shower));
    this.refresh();
    await this.pack();
  }

  // Shows, judges and saves the open texture in a flavour, for a file that has none.
  showAs(flavour) {
    const texture = this.numbered(this.state.texture.inFlavour(flavour === "srgb"));
    this.view.change({ texture, ...UNJUDGED });
    this.tell(`${texture.name}: ${nameOf(texture.format)}`);
    this.refresh();
  }

  // Opens what was made, with its source beside it.
  showMade(result) {
    const { texture, picture } = result;
    this.results.add(result);
    this.measures.pin({ texture: this.numbered(texture), picture: this.numbered(picture), level: 0, image: 0 });
    this.showResult(result);
  }

  // Shows a texture that was made here, at the same position if it has the same sides.
  showResult({ texture, picture }) {
    const { subject, state } = this.view;
    const isSame = subject && subject.width === texture.width && subject.height === texture.height && subject.images === texture.images;
    const selected = isSame && subject.blockWidth === texture.blockWidth && subject.blockHeight === texture.blockHeight ? state.selected : null;
    const mode = COMPARING.includes(state.mode) || (isSame && state.texture) ? state.mode : "split";
    const [level, image] = isSame && state.level < texture.levels ? [state.level, state.image] : [0, 0];
    const other = state.other && this.results.partner(texture, state.other.number);
    this.view.change({ texture, source: this.numbered(picture), level, image, mode, ...UNJUDGED, other, selected });
    this.settingsFor(picture);
    if (!isSame || this.view.isFitted || level !== state.level) {
      this.view.zoomToFit();
    }
    tellReport([]);
    this.tell(`${texture.name}: ${nameOf(texture.format)}`);
    this.refresh();
    followLink(this);
  }

  takeMeasure(subject, measure) {
    this.results.measured(subject, measure);
    this.view.draw();
    this.showAround();
    this.showSelected(this.state.selected);
  }

  // Updates the controls around the canvas for the open files.
  refresh() {
    const { texture, source, level, image } = this.state;
    const { subject } = this.view;
    if (!subject) {
      return;
    }
    fillSelect(part("level"), Array.from({ length: subject.levels }, (_, k) => [k, `${k}: ${subject.sidesAt(k).join(" x ")}`]), level);
    fillSelect(part("image"), Array.from({ length: subject.images }, (_, k) => [k, imageName(subject, k)]), image);
    part("image-word").textContent = subject.faces === 6 ? "Face" : "Element";
    part("shape").replaceChildren(...terms(shapeRows(texture, source)));
    part("shown-as").value = texture && isSrgb(texture.format) ? "srgb" : "linear";
    const both = Boolean(texture && source);
    show({
      viewing: true, "open-source": texture, "level-choice": subject.levels > 1, "image-choice": subject.images > 1, "mode-choice": both, "grid-choice": texture,
      "pack-form": source, wanted: texture && !source, pack: source, polish: both, audit: both, sums: both, "save-ktx": texture, "save-astc": texture,
      "flavour-choice": texture && !texture.tellsFlavour,
    });
    this.follow();
    this.showAround();
    this.showSelected(this.state.selected);
  }

  // Brings the controls up to the view's state.
  follow() {
    const { level, image, zoom, channel, grid, gain, split } = this.state;
    const { mode, subject } = this.view;
    Object.entries({ level, image, channel, mode, gain, split: Math.round(100 * split) }).forEach(([id, value]) => (part(id).value = String(value)));
    part("grid").checked = grid;
    part("zoom").textContent = zoomText(zoom);
    show({ "split-choice": mode === "split", "gain-choice": mode === "difference" });
    if (subject) {
      const [width, height] = subject.sidesAt(level);
      part("view").setAttribute("aria-label", `${subject.name}, level ${level}, image ${image}, ${width} by ${height} texels, shown ${zoomText(zoom)}, ${mode}, channels: ${channel}`);
    }
  }

  // The numbers, the legend and the list of what was made.
  showAround() {
    showMeasures(this.view);
    showLegend(this.view);
    const isMarked = this.state.audited?.sums.bad > 0;
    show({ "next-bad": isMarked, "least-choice": isMarked });
    this.results.show(this.state.texture, this.state.other);
  }

  change(more) {
    this.view.change(more);
    this.follow();
    this.showAround();
  }

  // Side by side each half has less room, so a view of the whole image is fitted again.
  changeMode(mode) {
    const wasFitted = this.view.isFitted;
    this.change({ mode });
    if (wasFitted) {
      this.view.zoomToFit();
    }
  }

  // Errors are weighted by the settings.
  weigh() {
    this.change({ weights: weightsOf() ?? this.state.weights });
    this.showSelected(this.state.selected);
  }

  // Chooses a level or an image, and shows all of it.
  changeImage(more) {
    this.view.change({ ...more, ...("level" in more ? { selected: null } : {}) });
    this.view.zoomToFit();
    this.follow();
    this.showAround();
    this.showSelected(this.state.selected);
  }

  showSelected(block) {
    showBlock(this, block);
    showTexel(this, block);
  }

  // What is under the pointer; the selected block's panel stays, and beside the image the latest.
  showUnder(block) {
    const { selected } = this.state;
    if (block ?? selected) {
      showBlock(this, selected ?? block);
      showTexel(this, block ?? selected);
    }
  }

  pack() {
    return packJob(this);
  }

  polish() {
    return polishJob(this);
  }

  audit() {
    return auditJob(this);
  }

  sums() {
    return sumsJob(this);
  }
}
