// Files as they are handed over: each read by what it is, and sorted into a texture and a picture.
import { cubeOf } from "./cubes.js";
import { isAstc, isKtx, readAstc, readKtx } from "./files.js";
import { Fault } from "./formats.js";
import { isPam, readByBrowser, readPam } from "./pictures.js";

const MOST_FILE_BYTES = 600_000_000;

// Kinds of files by their first bytes, as the program names them, and what makes a file that the page opens.
const LOOKS = [
  ["\x89PNG\r\n\x1a\n", "a PNG picture"], ["\xff\xd8\xff", "a JPEG picture"], ["RIFF", "a WebP picture"], ["P7", "a PAM picture"], ["\xabKTX 11\xbb", "a KTX file"],
  ["\xabKTX 20\xbb", "a KTX 2 file: write KTX 1, or open its picture"], ["DDS ", "a DDS file: convert it to PNG"], ["GIF8", "a GIF picture: convert it to PNG"],
  ["BM", "a BMP picture: convert it to PNG"], ["II*\0", "a TIFF picture: convert it to PNG"], ["MM\0*", "a TIFF picture: convert it to PNG"], ["8BPS", "a Photoshop file: save it as PNG"],
  ["\x76\x2f\x31\x01", "an OpenEXR picture: convert it to PNG"],
  ["\x13\xab\xa1\x5c", "an .astc file"],
];

function lookOf(front) {
  const text = String.fromCharCode(...front);
  return LOOKS.find(([begin]) => text.startsWith(begin))?.[1];
}

// A file as a texture or a picture. The fault of a file under a wrong name says what the file looks like.
async function readFile(proved, file) {
  if (file.blob.size > MOST_FILE_BYTES) {
    throw new Fault(`the page opens files of up to ${MOST_FILE_BYTES.toLocaleString("en")} bytes, and ${file.name} has ${file.blob.size.toLocaleString("en")}: use the program`);
  }
  const front = new Uint8Array(await file.blob.slice(0, 16).arrayBuffer());
  try {
    return await readByFront(proved, file, front);
  } catch (cause) {
    throw cause instanceof Fault ? withHint(cause, file.name, front) : cause;
  }
}

// The fault of a file that is of another kind than its name says, or of no kind that the page opens, with what to do.
function withHint(fault, name, front) {
  const look = lookOf(front);
  const isOther = look && look !== "a KTX file" && look !== "an .astc file" && !isPam(front);
  if (isOther && /^(KTX|not a texture|\.astc)/.test(fault.message)) {
    return new Fault(`${fault.message}; ${name} looks like ${look}`);
  }
  return fault.message.startsWith("not a texture") ? new Fault(`${fault.message}: convert ${name} to PNG`) : fault;
}

async function readByFront(proved, { blob, name }, front) {
  const whole = async () => new Uint8Array(await blob.arrayBuffer());
  if (isPam(front)) {
    return readPam(await whole(), name);
  }
  if (isKtx(front) || /\.ktx$/i.test(name)) {
    return readKtx(proved, await whole(), name);
  }
  if (isAstc(front) || /\.astc$/i.test(name)) {
    return readAstc(await whole(), name);
  }
  return readByBrowser(blob, name);
}

// What files are together: a texture, a picture, both, or six pictures as a cube.
function sorted(subjects, folder) {
  const textures = subjects.filter((subject) => !subject.chains);
  const pictures = subjects.filter((subject) => subject.chains);
  if (textures.length > 1 || ![0, 1, 6].includes(pictures.length)) {
    throw new Fault(`${subjects.length} files: open a texture, a picture, both, or six square pictures for a cube`);
  }
  return { texture: textures[0] ?? null, picture: pictures.length === 6 ? cubeOf(pictures, folder) : pictures[0] ?? null };
}

export async function readFiles(proved, files) {
  const subjects = [];
  for (const file of files) {
    subjects.push(await readFile(proved, file));
  }
  return sorted(subjects, files[0]?.folder);
}

export function suits(picture, texture) {
  return picture.width === texture.width && picture.height === texture.height && picture.images === texture.images;
}

export function sidesText(picture, texture) {
  const told = ({ width, height, images }) => `${width} x ${height} texels and ${images === 1 ? "one image" : `${images} images`}`;
  return `the source has ${told(picture)}, and the texture has ${told(texture)}: open the picture that the texture was made from`;
}
