// The colours in which texels are shown. All are opaque, so that a canvas keeps them byte for byte.

const CHECK = 8;
const LIGHT = 204;
const DARK = 153;

export const CHANNELS = { red: 0, green: 1, blue: 2, alpha: 3 };

function paintChannel(out, texels, channel) {
  for (let at = 0; at < texels.length; at += 4) {
    out[at] = out[at + 1] = out[at + 2] = texels[at + channel];
    out[at + 3] = 255;
  }
}

function paintOpaque(out, texels) {
  out.set(texels);
  for (let at = 3; at < out.length; at += 4) {
    out[at] = 255;
  }
}

// Over checks that don't move with the image.
function paintOverChecks(out, texels, area) {
  paintOpaque(out, texels);
  for (let at = 0; at < texels.length; at += 4) {
    const alpha = texels[at + 3];
    if (alpha === 255) {
      continue;
    }
    const y = Math.floor(at / 4 / area.across);
    const x = at / 4 - y * area.across;
    const under = (((area.left + x) / CHECK) ^ ((area.top + y) / CHECK)) & 1 ? DARK : LIGHT;
    for (let c = 0; c < 3; c++) {
      out[at + c] = Math.round((texels[at + c] * alpha + under * (255 - alpha)) / 255);
    }
  }
}

// The normal that a shader rebuilds: X from red, Y from alpha, Z from both, as red, green and blue.
function paintNormal(out, texels) {
  for (let at = 0; at < texels.length; at += 4) {
    const [x, y] = [texels[at] / 127.5 - 1, texels[at + 3] / 127.5 - 1];
    out[at] = texels[at];
    out[at + 1] = texels[at + 3];
    out[at + 2] = Math.round(127.5 * (1 + Math.sqrt(Math.max(0, 1 - x * x - y * y))));
    out[at + 3] = 255;
  }
}

export function coloursOf(texels, area, channel) {
  const image = new ImageData(area.across, area.down);
  if (channel in CHANNELS) {
    paintChannel(image.data, texels, CHANNELS[channel]);
  } else if (channel === "opaque") {
    paintOpaque(image.data, texels);
  } else if (channel === "normal") {
    paintNormal(image.data, texels);
  } else {
    paintOverChecks(image.data, texels, area);
  }
  return image;
}

// How far two are apart, this many times as bright. Where all channels are shown, alpha's distance is added to each.
export function differencesOf(texels, others, area, channel, gain) {
  const image = new ImageData(area.across, area.down);
  const own = CHANNELS[channel];
  const apart = (at) => Math.min(255, gain * Math.abs(texels[at] - others[at]));
  for (let at = 0; at < texels.length; at += 4) {
    const more = channel === "over" ? apart(at + 3) : 0;
    for (let c = 0; c < 3; c++) {
      image.data[at + c] = own === undefined ? Math.min(255, apart(at + c) + more) : apart(at + own);
    }
    image.data[at + 3] = 255;
  }
  return image;
}

// Adds up to `unit` texels of a row to each place's three sums.
function addRow(sums, data, from, width, unit) {
  for (let to = 0, at = from, x = 0; x < width; to += 3) {
    let [red, green, blue] = [0, 0, 0];
    for (const end = Math.min(width, x + unit); x < end; x++, at += 4) {
      red += data[at];
      green += data[at + 1];
      blue += data[at + 2];
    }
    sums[to] += red;
    sums[to + 1] += green;
    sums[to + 2] += blue;
  }
}

// Each `unit` by `unit` texels as the mean of their colours; at the right and lower end of those that there are.
export function averaged({ data, width, height }, unit) {
  const image = new ImageData(Math.ceil(width / unit), Math.ceil(height / unit));
  const sums = new Uint32Array(3 * image.width);
  for (let row = 0; row < image.height; row++) {
    const down = Math.min(unit, height - row * unit);
    sums.fill(0);
    for (let y = 0; y < down; y++) {
      addRow(sums, data, 4 * width * (row * unit + y), width, unit);
    }
    for (let column = 0; column < image.width; column++) {
      const count = down * Math.min(unit, width - column * unit);
      const to = 4 * (row * image.width + column);
      for (let c = 0; c < 3; c++) {
        image.data[to + c] = Math.floor((sums[3 * column + c] + count / 2) / count);
      }
      image.data[to + 3] = 255;
    }
  }
  return image;
}

const HEAT_STEPS = 12;

// From black over red and yellow to white, by the logarithm of the mean squared difference of a texel.
export function heatColour(mean) {
  const t = Math.min(1, Math.log2(1 + mean) / HEAT_STEPS);
  const part = (from) => Math.round(255 * Math.min(1, Math.max(0, 3 * t - from)));
  return [part(0), part(1), part(2)];
}

// The means of the legend, in equal steps of colour.
export const HEAT_MEANS = [0, 2, 4, 6, 8, 10, HEAT_STEPS].map((power) => 2 ** power - 1);
