// A texture while its blocks are made: the finished blocks, bright over the picture beneath.
import { coloursOf } from "./colours.js";
import { inTurn } from "./parts.js";
import { placesOf } from "./places.js";

const LONGEST_LAYER = 2048;

export class Making {
  // Beneath is the source, or the texture that is polished, or nothing if the picture is turned over.
  constructor(texture, level, { image, channel, beneath, name, onPiece }) {
    const [width, height] = texture.sidesAt(level);
    const unit = Math.max(1, Math.ceil(Math.max(width, height) / LONGEST_LAYER));
    const layer = new OffscreenCanvas(Math.ceil(width / unit), Math.ceil(height / unit));
    Object.assign(this, { level, image, width, height, unit, layer, channel, beneath, name, onPiece: inTurn(onPiece) });
    this.context = layer.getContext("2d", { willReadFrequently: true });
  }

  // Whether the image is the one in view.
  isOf({ level, image }) {
    return level === this.level && image === this.image;
  }

  // Takes the texels of an area.
  put(area, texels) {
    const piece = new OffscreenCanvas(area.across, area.down);
    piece.getContext("2d", { willReadFrequently: true }).putImageData(coloursOf(texels, area, this.channel), 0, 0);
    const { unit } = this;
    this.context.drawImage(piece, area.left / unit, area.top / unit, area.across / unit, area.down / unit);
    this.onPiece();
  }

  paint(context, view, pane) {
    const { zoom } = view.state;
    const [x, y] = view.cornerIn(pane);
    const [across, down] = [placesOf(this.width, zoom), placesOf(this.height, zoom)];
    context.fillStyle = "rgba(0, 0, 0, 0.55)";
    context.fillRect(x, y, across, down);
    context.imageSmoothingEnabled = this.unit > 1 || zoom < 1;
    context.drawImage(this.layer, x, y, across, down);
    context.imageSmoothingEnabled = false;
  }
}
