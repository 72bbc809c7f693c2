// Six pictures as the faces of a cube.
import { FACES, Fault } from "./formats.js";
import { Picture } from "./pictures.js";

// How the files of faces are called, each face's own words at the end of a name. A name that ends with "left" ends with "ft" too, so the words of -X come first.
const WORDS = [["px", "posx", "+x", "right", "rt"], ["nx", "negx", "-x", "left", "lf"], ["py", "posy", "+y", "top", "up"], ["ny", "negy", "-y", "bottom", "down", "dn"],
  ["pz", "posz", "+z", "front", "ft"], ["nz", "negz", "-z", "back", "bk"]];

function faceOf(name) {
  const own = name.replace(/\.[^.]*$/, "").toLowerCase();
  return WORDS.findIndex((words) => words.some((word) => own.endsWith(word)));
}

// In the order of faces if each name has one; else in the order of names, which is a guess.
function inFaceOrder(pictures) {
  const faces = pictures.map(({ name }) => faceOf(name));
  if (FACES.every((_, face) => faces.includes(face))) {
    return { isGuess: false, ordered: FACES.map((_, face) => pictures[faces.indexOf(face)]) };
  }
  return { isGuess: true, ordered: [...pictures].sort((a, b) => a.name.localeCompare(b.name, "en", { numeric: true })) };
}

export function cubeOf(pictures, folder = "cube") {
  const [{ width }] = pictures;
  const other = pictures.find((picture) => picture.images !== 1 || picture.width !== width || picture.height !== width);
  if (other) {
    const sides = other.images === 1 ? `${other.width} by ${other.height}` : `${other.images} images`;
    const first = other === pictures[0] ? "" : `${pictures[0].name} is ${width} by ${pictures[0].height}, and `;
    throw new Fault(`six pictures make a cube if each is one square image and all have the same size: ${first}${other.name} has ${sides}`);
  }
  const { isGuess, ordered } = inFaceOrder(pictures);
  const cube = new Picture(width, width, ordered.map(({ chains }) => chains[0][0]), folder, { isCube: true });
  cube.isDecoded = pictures.every(({ isDecoded }) => isDecoded);
  const faces = ordered.map(({ name }, k) => `${FACES[k]} ${name}`).join(", ");
  cube.told = isGuess ? `six faces in the order of their names: ${faces}. To choose the faces, end the names with px, nx, py, ny, pz, nz` : `six faces: ${faces}`;
  return cube;
}
