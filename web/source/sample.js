// The sample: three balls on a chequered floor, traced ray by ray, as examples/make_scene has it.
import { Picture } from "./pictures.js";

const [SCENE_WIDTH, SCENE_HEIGHT, SAMPLES] = [288, 192, 2];
const BALLS = [
  { middle: [-1.3, 0.75, 1.2], radius: 0.75, own: [0.85, 0.25, 0.2], mirror: 0.15 },
  { middle: [0.35, 1.0, 2.1], radius: 1.0, own: [0.9, 0.9, 0.92], mirror: 0.65 },
  { middle: [1.2, 0.4, 0.4], radius: 0.4, own: [0.2, 0.45, 0.85], mirror: 0.25 },
];

const dot = (a, b) => a[0] * b[0] + a[1] * b[1] + a[2] * b[2];
const unit = (a) => {
  const length = Math.sqrt(dot(a, a));
  return a.map((value) => value / length);
};
const along = (start, ray, far) => start.map((value, k) => value + ray[k] * far);
const LIGHT_FROM = unit([0.45, 0.8, -0.4]);

// The nearest ball on a ray, with its distance.
function hitBall(start, ray) {
  let best = null;
  for (const ball of BALLS) {
    const away = start.map((value, k) => value - ball.middle[k]);
    const half = dot(away, ray);
    const root = half * half - (dot(away, away) - ball.radius ** 2);
    const far = -half - Math.sqrt(root);
    if (root > 0 && far > 1e-4 && (best === null || far < best.far)) {
      best = { far, ball };
    }
  }
  return best;
}

// To the nearest whole number, halves to even ones.
function rounded(value) {
  const low = Math.floor(value);
  return value - low === 0.5 ? low + (low & 1) : Math.round(value);
}

// A fine pattern that no light makes, as of stone.
function grain(x, z) {
  const value = Math.sin(x * 12.9898 + z * 78.233) * 43758.5453;
  return 0.9 + 0.1 * (value - Math.floor(value));
}

function skyColour(ray) {
  const up = Math.max(0, ray[1]) ** 0.6;
  return [0.75 - 0.5 * up, 0.82 - 0.35 * up, 0.95 - 0.1 * up];
}

function floorAt(start, ray) {
  const point = along(start, ray, -start[1] / ray[1]);
  const isOdd = (Math.floor(point[0] * 1.2) + Math.floor(point[2] * 1.2)) & 1;
  const shade = grain(rounded(point[0] * 40), rounded(point[2] * 40));
  return { point, normal: [0, 1, 0], own: (isOdd ? [0.82, 0.76, 0.66] : [0.28, 0.3, 0.33]).map((value) => value * shade), mirror: 0.08 };
}

function ballAt(start, ray, { far, ball }) {
  const point = along(start, ray, far);
  return { point, normal: unit(point.map((value, k) => value - ball.middle[k])), own: ball.own, mirror: ball.mirror };
}

function rayColour(start, ray, depth) {
  const found = hitBall(start, ray);
  if (found === null && ray[1] >= -1e-6) {
    return skyColour(ray);
  }
  const { point, normal, own, mirror } = found === null ? floorAt(start, ray) : ballAt(start, ray, found);
  const above = along(point, normal, 1e-3);
  const lit = hitBall(above, LIGHT_FROM) === null ? Math.max(0, dot(normal, LIGHT_FROM)) : 0;
  const made = own.map((value) => value * (0.25 + 0.75 * lit));
  if (mirror === 0 || depth >= 3) {
    return made;
  }
  const seen = rayColour(above, unit(along(ray, normal, -2 * dot(ray, normal))), depth + 1);
  return made.map((value, k) => value * (1 - mirror) + seen[k] * mirror);
}

function sceneTexel(x, y) {
  const total = [0, 0, 0];
  for (let j = 0; j < SAMPLES; j++) {
    for (let i = 0; i < SAMPLES; i++) {
      const across = (x + (i + 0.5) / SAMPLES - SCENE_WIDTH / 2) / SCENE_HEIGHT;
      const down = (y + (j + 0.5) / SAMPLES - SCENE_HEIGHT / 2) / SCENE_HEIGHT;
      const colour = rayColour([0, 1.3, -4.2], unit([across * 1.1, -down * 1.1 - 0.12, 1]), 0);
      colour.forEach((value, c) => (total[c] += value));
    }
  }
  return [...total.map((value) => Math.min(255, rounded(255 * (value / SAMPLES ** 2) ** (1 / 2.2)))), 255];
}

export function sceneTexels() {
  const texels = new Uint8Array(4 * SCENE_WIDTH * SCENE_HEIGHT);
  for (let k = 0; k < SCENE_WIDTH * SCENE_HEIGHT; k++) {
    texels.set(sceneTexel(k % SCENE_WIDTH, Math.floor(k / SCENE_WIDTH)), 4 * k);
  }
  return texels;
}

// The scene as a picture; a worker makes it.
export async function sampleScene(pool) {
  const { texels } = await pool.run("scene", {});
  return new Picture(SCENE_WIDTH, SCENE_HEIGHT, [texels], "scene");
}
