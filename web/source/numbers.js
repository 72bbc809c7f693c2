// The numbers of the image and of the files: differences between texture and source, shapes, legends, and reports as the program writes them.
import { auditSums, auditText, causesText } from "./audits.js";
import { HEAT_MEANS, heatColour } from "./colours.js";
import { FACES, bitsOf, nameOf } from "./formats.js";
import { made, part, show, terms } from "./parts.js";

const CHANNEL_NAMES = ["red", "green", "blue", "alpha"];

export const percent = (share) => `${Number((100 * share).toPrecision(2))} %`;

export const decibels = (ratio) => (ratio === Infinity ? "identical" : `${ratio.toFixed(2)} dB`);

// The name of an image in a report, as the program has it.
function placeName(texture, image) {
  return `element ${Math.floor(image / texture.faces)} face ${image % texture.faces}`;
}

// The name of an image, as people have it.
export function imageName(subject, image) {
  const element = Math.floor(image / subject.faces);
  const face = subject.faces === 6 ? FACES[image % 6] : "";
  return subject.faces === 6 && subject.images === 6 ? face : `${element}${face && `, ${face}`}`;
}

// The numbers of the image in view; null is a number that isn't measured yet.
function measureRows(texture, measure, weights, place) {
  if (!measure) {
    return [...place, ["PSNR RGB", "…"], ["PSNR RGBA", "…"], ["largest difference", "…"], ["error", "…"], ["bits per texel", bitsOf(texture.format).toFixed(2)]];
  }
  const { colours, all } = measure.ratios();
  const [apart, channel, x, y] = measure.largest;
  const largest = apart === 0 ? "none" : `${apart}, ${CHANNEL_NAMES[channel]} at ${x}, ${y}`;
  const isEven = weights.every((weight) => weight === weights[0]);
  return [
    ...place, ["PSNR RGB", decibels(colours)], ["PSNR RGBA", decibels(all)], ...(isEven ? [] : [["PSNR by weights", decibels(measure.ratioBy(weights))]]), ["largest difference", largest], ["error", measure.errors(weights).total.toLocaleString("en")],
    ["bits per texel", bitsOf(texture.format).toFixed(2)],
  ];
}

export function shapeRows(texture, source) {
  const rows = [];
  const imagesOf = ({ elements, faces }) => [elements > 0 ? `${elements} elements` : "", faces === 6 ? "six faces" : ""].filter(Boolean).join(", ") || "one";
  if (texture) {
    rows.push(["texture", texture.name], ["format", `${nameOf(texture.format)}, ${bitsOf(texture.format).toFixed(2)} bits per texel`], ["size", `${texture.width} x ${texture.height}`]);
    rows.push(["levels", String(texture.levels)], ["images", imagesOf(texture)], ["bytes", texture.bytes.length.toLocaleString("en")]);
  }
  if (source) {
    rows.push([texture ? "source" : "picture", source.name], [texture ? "source size" : "size", `${source.width} x ${source.height}`], [texture ? "source images" : "images", imagesOf(source)]);
  }
  return rows;
}

// Lines as the program prints them of a pack.
export function sumLines(texture, sums) {
  const lines = [];
  let total = 0;
  sums.forEach((own, level) => {
    const [columns, rows] = texture.gridAt(level);
    own.forEach((sum, image) => {
      lines.push(`level ${level} ${placeName(texture, image)} blocks ${columns * rows} error ${sum}`);
      total += sum;
    });
  });
  return [...lines, `total ${total}`];
}

// Lines as the program prints them of an audit.
export function auditLines(texture, found) {
  const lines = [];
  found.forEach((own, level) => own.forEach((judged, image) => {
    const { blocks, error, bad } = auditSums([[judged]], null);
    lines.push(`level ${level} ${placeName(texture, image)} blocks ${blocks} error ${error} bad ${bad}`);
  }));
  const { error, bad } = auditSums(found, null);
  return [...lines, `total ${error} bad ${bad}`];
}

export function tellReport(lines) {
  part("report").textContent = lines.join("\n");
  show({ "report-box": lines.length > 0 });
}

function heatLegend() {
  const scale = made("div", "", "scale");
  const stops = HEAT_MEANS.map((mean, k) => `rgb(${heatColour(mean).join(" ")}) ${(100 * k) / (HEAT_MEANS.length - 1)}%`);
  scale.style.backgroundImage = `linear-gradient(to right, ${stops.join(", ")})`;
  const ticks = made("div", "", "ticks");
  ticks.append(...HEAT_MEANS.map((mean) => made("span", String(mean))));
  return [made("p", "Mean squared difference of the texels of a block, over four channels"), scale, ticks];
}

function markLegend(least) {
  const row = (className, text) => {
    const own = made("p");
    own.append(made("span", "", `mark ${className}`), ` ${text}`);
    return own;
  };
  const rows = [row("unreadable", "invalid"), row("much", `could be improved by ${Math.max(20, Math.round(100 * least))} % or more`)];
  return least < 0.2 ? [...rows, row("some", `by ${Math.round(100 * least)} % or more`)] : rows;
}

// Beside the image: what the colours of the heat map, or the marks, say.
export function showLegend({ mode, state: { audited, least } }) {
  const told = mode === "errors" ? heatLegend() : audited?.sums.bad > 0 ? markLegend(least) : [];
  part("legend").replaceChildren(...told);
  show({ legend: told.length > 0 });
}

const NEXT_STEP = "Polish improves these blocks and keeps the block size. For less error, pack the source with a smaller block size.";

// What an audit has found of all images, and what to do.
function auditedText(audited) {
  if (!audited) {
    return "";
  }
  const { sums, preset } = audited;
  return [`Audit: ${auditText(sums, preset)}.`, causesText(sums), sums.bad > 0 ? NEXT_STEP : ""].filter(Boolean).join(" ");
}

// Which image the numbers are of, if there are others.
function placeRows(texture, level, image) {
  const told = [texture.levels > 1 ? `level ${level}` : "", texture.images > 1 ? `${texture.faces === 6 ? "face" : "element"} ${imageName(texture, image)}` : ""].filter(Boolean);
  return told.length > 0 ? [["image", told.join(", ")]] : [];
}

export function showMeasures(view) {
  const { texture, source, weights, audited, level, image } = view.state;
  const both = Boolean(texture && source);
  show({ numbers: both });
  if (both) {
    part("measures").replaceChildren(...terms(measureRows(texture, view.measure(), weights, placeRows(texture, level, image))));
    part("audited").textContent = auditedText(audited);
  }
}
