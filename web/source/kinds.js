// Kinds of pictures: a kind sets the usual settings, and gives a normal map the form that packs best.
import { KINDS, placeOfSides } from "./formats.js";
import { fillSelect, part } from "./parts.js";

const NORMAL_NAME = /(^|[_\-. ])(n|nrm|nor|normals?)(gl|dx)?\.\w+$/i;
const MASK_NAME = /(^|[_\-. ])(mask|rough(ness)?|metal(lic|ness)?|ao|height|orm|arm|m|r)\.\w+$/i;

export function fillKinds() {
  fillSelect(part("kind"), [["", "custom"], ...Object.entries(KINDS).map(([kind, { name }]) => [kind, name])], "");
}

// The kind that a file's name suggests.
export function kindOfName(name) {
  return NORMAL_NAME.test(name) ? "normal" : MASK_NAME.test(name) ? "mask" : "colour";
}

// A picture in the form that a kind packs: a normal map with X in red, green and blue and Y in alpha; another kind as it was opened.
export function inFormOf(picture, kind) {
  return kind === "normal" ? (picture.isGrey ? picture : picture.forNormals()) : kind === "" ? picture : picture.plain ?? picture;
}

// Sets the settings of a kind, and turns the open picture into or out of the form for normals.
export function chooseKind(page, kind) {
  const settings = KINDS[kind];
  if (!settings) {
    return;
  }
  const { sides, preset, flavour, weights } = settings;
  const values = { footprint: placeOfSides(...sides), preset, flavour };
  Object.entries(values).forEach(([id, value]) => (part(id).value = String(value)));
  weights.forEach((weight, k) => (part(`weight-${k}`).value = String(weight)));
  part("fitted").checked = true;
  page.takeForm(kind);
  page.weigh();
}

// Whether the settings are those of a kind.
function isKind({ sides, preset, flavour, weights }) {
  const values = { footprint: String(placeOfSides(...sides)), preset, flavour };
  return part("fitted").checked && Object.entries(values).every(([id, value]) => part(id).value === value) && weights.every((weight, k) => part(`weight-${k}`).value === String(weight));
}

// The flavour that a decoded picture has by its name: sRGB for colours, linear for normals and masks. The kind is named if all else is as it sets it. A normal map
// gets another form only if the user chooses that kind: the answer is a hint to do so.
export function suggestFlavour(name) {
  const [kind, chosen] = [kindOfName(name), part("kind").value];
  part("flavour").value = KINDS[kind].flavour;
  if (["", "colour", "mask"].includes(chosen)) {
    part("kind").value = kind !== "normal" && isKind(KINDS[kind]) ? kind : "";
  }
  return kind === "normal" && chosen !== "normal" ? ". By its name it is a normal map: choose that kind to pack it with less error" : "";
}
