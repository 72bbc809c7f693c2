// The parts of the page's document, and small things done with them.

export const part = (id) => document.getElementById(id);

// Takes parts away, or brings them back.
export function show(wanted) {
  Object.entries(wanted).forEach(([id, is]) => (part(id).hidden = !is));
}

export function fillSelect(select, pairs, value) {
  select.replaceChildren(...pairs.map(([own, text]) => new Option(text, own)));
  select.value = String(value);
}

export function made(tag, text = "", className = "") {
  const own = document.createElement(tag);
  own.textContent = text;
  own.className = className;
  return own;
}

// Terms, each with its description: a text, or parts.
export function terms(rows) {
  return rows.flatMap(([name, told]) => {
    const cell = made("dd");
    cell.append(...[told].flat());
    return [made("dt", name), cell];
  });
}

// A small square of a colour, over checks if the colour isn't opaque.
export function swatch([red, green, blue, alpha = 255]) {
  const own = made("span", "", "swatch");
  const colour = `rgb(${red} ${green} ${blue} / ${alpha / 255})`;
  own.style.backgroundImage = `linear-gradient(${colour}, ${colour}), repeating-conic-gradient(#999 0 25%, #ccc 0 50%)`;
  return own;
}

export function saveBlob(blob, name) {
  const link = document.createElement("a");
  link.href = URL.createObjectURL(blob);
  link.download = name;
  link.click();
  setTimeout(() => URL.revokeObjectURL(link.href), 10_000);
}

// Paints that follow each other soon would take time from the workers. The first are soon there.
const [SOON, LATER, EARLY] = [40, 250, 8];

// An act that is done once for all calls of a short while, with what the latest says.
export function inTurn(act) {
  let [timer, latest, count] = [null, null, 0];
  return (value) => {
    latest = value;
    timer ??= setTimeout(() => {
      timer = null;
      act(latest);
    }, count++ < EARLY ? SOON : LATER);
  };
}

// Asks a question of yes and no.
export function ask(text, yes, no) {
  const dialog = part("ask");
  part("ask-text").textContent = text;
  part("ask-yes").textContent = yes;
  part("ask-no").textContent = no;
  dialog.showModal();
  return new Promise((resolve) => {
    const end = (answer) => () => {
      dialog.close();
      resolve(answer);
    };
    part("ask-yes").onclick = end(true);
    part("ask-no").onclick = end(false);
    dialog.oncancel = end(false);
  });
}
