// The tabs of the page, and the file that is opened in each.
import { byId, grouped } from "./text.js";

const TABS = ["recording", "report", "heights", "samples"];
const MOST_BYTES = 512 * 1024 * 1024;
const LONG_BYTES = 1024 * 1024; // from here on the reader is told that a file is being read

export function shownTab() {
  return TABS.find((tab) => !byId(`${tab}-panel`).hidden);
}

export function showTab(name) {
  for (const tab of TABS) {
    byId(`${tab}-panel`).hidden = tab !== name;
    byId(`${tab}-tab`).setAttribute("aria-selected", String(tab === name));
    byId(`${tab}-tab`).tabIndex = tab === name ? 0 : -1;
  }
}

// openers has for each tab a function of a file's bytes and name.
export function startTabs(openers) {
  for (const tab of TABS) {
    byId(`${tab}-tab`).addEventListener("click", () => showTab(tab));
    byId(`${tab}-tab`).addEventListener("keydown", moveTab);
    byId(`${tab}-file`).addEventListener("change", (event) => {
      const [file] = event.target.files;
      if (!file) return;
      openFile(file, openers[tab]);
      event.target.value = ""; // so that the same file, changed meanwhile, can be opened again
    });
  }
  addEventListener("dragover", (event) => { event.preventDefault(); document.body.classList.add("over"); });
  addEventListener("dragleave", (event) => { if (!event.relatedTarget) document.body.classList.remove("over"); });
  addEventListener("drop", (event) => {
    event.preventDefault();
    document.body.classList.remove("over");
    const [file] = event.dataTransfer.files;
    if (file) openFile(file, openers[shownTab()]);
  });
}

function moveTab(event) {
  const move = { ArrowLeft: -1, ArrowRight: 1 }[event.key];
  if (!move) return;
  event.preventDefault();
  const next = TABS[(TABS.indexOf(shownTab()) + move + TABS.length) % TABS.length];
  showTab(next);
  byId(`${next}-tab`).focus();
}

// Reads a file and gives it to the opener; what is wrong is said at the top of the page.
async function openFile(file, opener) {
  byId("problem").textContent = "";
  if (file.size > MOST_BYTES) {
    byId("problem").textContent = `${file.name} has ${grouped(file.size)} bytes; this page takes files of up to 512 MiB. `
      + "The command tarnoklej decode reads a stream of any length.";
    return;
  }
  if (file.size > LONG_BYTES) {
    byId("reading").textContent = `Reading ${file.name} \u2026`;
    await nextPaint();
  }
  try {
    opener(new Uint8Array(await file.arrayBuffer()), file.name);
  } catch (error) {
    byId("problem").textContent = `${file.name} can\u2019t be shown: ${error.message}`;
  }
  byId("reading").textContent = "";
  document.body.dataset.opened = String(Number(document.body.dataset.opened ?? 0) + 1);
}

// Waits until what was changed is painted, or a little while where the page is not in sight.
function nextPaint() {
  return new Promise((resolve) => {
    setTimeout(resolve, 100);
    requestAnimationFrame(() => setTimeout(resolve, 0));
  });
}
