// The beginning: the module is compiled once, for the page and for all workers, and the page is wired.
import { wireControls } from "./controls.js";
import { wireKeys } from "./keys.js";
import { lacking } from "./lacks.js";
import { wireLink } from "./link.js";
import { ProvedModule } from "./module.js";
import { Page } from "./page.js";
import { part, show } from "./parts.js";
import { wirePointer } from "./pointer.js";
import { NoModule, compile, keepPage } from "./start.js";

async function begin() {
  const lack = lacking();
  if (lack) {
    throw new Error(`this browser lacks ${lack}`);
  }
  const compiled = await compile();
  const page = new Page(await ProvedModule.from(compiled), compiled);
  [wireControls, wirePointer, wireKeys, wireLink].forEach((wire) => wire(page));
  show({ welcome: true });
  page.view.resize();
  page.tell("ready");
  keepPage();
  window.astcPage = page;
}

part("unserved").remove();
begin().catch((cause) => {
  part("fault").textContent = cause instanceof NoModule ? cause.message : `The page can't start: ${cause.message}`;
});
