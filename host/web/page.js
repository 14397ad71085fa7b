"use strict";

// ---- gdos: one call. Words and files go in; status, text and files come out. src/lib.rs says how they are packed. ----

const compiled = WebAssembly.compile(Uint8Array.from(atob(byId("wasm").textContent), (c) => c.charCodeAt(0)));
const fromText = (text) => new TextEncoder().encode(text);
const toText = (bytes) => new TextDecoder().decode(bytes);

function packed(parts) {
  const all = new Uint8Array(parts.reduce((sum, part) => sum + 4 + part.length, 0));
  let at = 0;
  for (const part of parts) {
    new DataView(all.buffer).setUint32(at, part.length, true);
    all.set(part, at + 4);
    at += 4 + part.length;
  }
  return all;
}

function unpacked(all) {
  const parts = [];
  for (let at = 0; at < all.length; ) {
    const end = at + 4 + new DataView(all.buffer).getUint32(at, true);
    parts.push(all.slice(at + 4, end));
    at = end;
  }
  return parts;
}

// Runs a command on files, each {name, bytes}. Each run has a memory of its own, so the files lent stay as they are.
async function gdos(words, files) {
  const { exports } = await WebAssembly.instantiate(await compiled);
  const lent = files.flatMap(({ name, bytes }) => [fromText(name), bytes]);
  const question = packed([String(words.length), ...words].map(fromText).concat(lent));
  const at = exports.room(question.length);
  new Uint8Array(exports.memory.buffer, at, question.length).set(question);
  const answer = exports.run(at, question.length);
  const length = new DataView(exports.memory.buffer).getUint32(answer, true);
  const [status, out, err, ...rest] = unpacked(new Uint8Array(exports.memory.buffer, answer + 4, length).slice());
  const written = new Map();
  for (let i = 0; i < rest.length; i += 2) written.set(toText(rest[i]), rest[i + 1]);
  return { status: Number(toText(status)), out, lines: toText(err).trimEnd().split("\n").filter(Boolean), written };
}

// The same for commands that answer in JSON; `json` is their answer, whatever their status.
async function asked(words, files) {
  const answer = await gdos([words[0], "--json", ...words.slice(1)], files);
  return { ...answer, json: JSON.parse(toText(answer.out)) };
}

// ---- The document ----

function byId(id) {
  return document.getElementById(id);
}

function element(tag, attributes = {}, ...children) {
  const made = document.createElement(tag);
  for (const [name, value] of Object.entries(attributes)) made.setAttribute(name, value);
  made.append(...children);
  return made;
}

function section(id, title, ...children) {
  const heading = element("h2", { id: `${id}-title`, tabindex: "-1" }, title);
  return element("section", { id, "aria-labelledby": `${id}-title` }, heading, ...children);
}

function button(label, act, attributes = {}) {
  const made = element("button", { type: "button", ...attributes }, label);
  made.addEventListener("click", () => inTurn(act));
  return made;
}

// A table that scrolls by itself where it is too wide. A column is [title, class]; a cell is text or an element.
function table(caption, columns, rows) {
  const head = columns.map(([title, kind]) => element("th", { scope: "col", class: kind }, title));
  const cell = (content, i) => element(i ? "td" : "th", { ...(i ? {} : { scope: "row" }), class: columns[i][1] }, content);
  const body = rows.map((row) => element("tr", {}, ...row.map(cell)));
  const whole = element("table", {}, element("caption", {}, caption),
    element("thead", {}, element("tr", {}, ...head)), element("tbody", {}, ...body));
  return element("div", { class: "wide", tabindex: "0", role: "region", "aria-label": caption }, whole);
}

function list(items, attributes = {}) {
  return element("ul", attributes, ...items.map((item) => element("li", {}, item)));
}

function tell(text, ill = false) {
  byId("told").textContent = text;
  byId("told").classList.toggle("trouble", ill);
}

// What gdos says of itself, without its name.
const said = (line) => line.replace(/^gdos: (note: )?/, "");

function complain(lines) {
  byId("trouble").replaceChildren(...(lines.length ? [element("p", {}, lines.map(said).join(" "))] : []));
}

// What people ask for is done one after the other, so that nothing of one disk is shown with another's. What goes wrong is told.
let last = Promise.resolve();
function inTurn(act) {
  last = last.then(act).catch((error) => complain([`The page's program stopped: ${error}. Nothing was changed.`]));
}

function download(name, bytes) {
  const link = element("a", { download: name, href: URL.createObjectURL(new Blob([bytes])) });
  link.click();
  setTimeout(() => URL.revokeObjectURL(link.href), 10000);
}

const slotText = (slot) => `${slot.toString(16).toUpperCase().padStart(2, "0")}H`;
const codeText = (code) => `${code.toString(16).toUpperCase().padStart(4, "0")}H`;
const counted = (number, noun) => `${number} ${noun}${number === 1 ? "" : "s"}`;
const hostName = (name) => name.replace("/", ".");

// disk.img and "mended" make disk-mended.img.
function copyName(name, word) {
  const dot = name.lastIndexOf(".");
  return dot > 0 ? `${name.slice(0, dot)}-${word}${name.slice(dot)}` : `${name}-${word}`;
}

// ---- The disk that is looked at: {name, bytes, beside}, the options that were stated for it, and the geometry that it is read by ----

const MOST_BYTES = 192 * 8 * 20 * 256;
let disk = null;
let stated = [];
let geometry = null;

// One byte more than any image has is enough to be refused.
async function fileOf(file) {
  return { name: file.name, bytes: new Uint8Array(await file.slice(0, MOST_BYTES + 1).arrayBuffer()) };
}

// The disk's file, and the one beside it that states its geometry, if that came too.
const lent = () => [disk, ...(disk.beside ?? [])];
const onDisk = (command, ...options) => asked([command, ...options, ...stated, "--", disk.name], lent());

function optionsOf({ blocks, units, start, granule_sectors: granule, open_code: code }) {
  return ["--blocks", blocks, "--units", units, "--start", start, "--granule", granule, "--open-code", code].map(String);
}

// That a granule has 5 sectors nobody has to be told.
const inWords = ({ blocks, units, start, granule_sectors: granule, open_code: code, preset }) =>
  `${counted(blocks, "block")} of ${counted(units, "unit")}${granule === 5 ? "" : ` with granules of ${granule} sectors`}, ` +
  `directory at sector ${start}${preset ? ` (preset ${preset})` : ""}, open code ${codeText(code)}`;

const evidence = ({ names, nearly, against, beyond }) =>
  `${counted(names, "name")} for it, ${nearly} nearly${beyond ? `, ${beyond} beyond its length` : ""}, ${counted(against, "slot")} against`;

const faultWords = ({ number, kind, slot, sector, byte, image_byte: at, name, message }) =>
  `${number} (${kind}): ` + (slot === null ? message
    : `slot ${slotText(slot)}, directory sector ${sector}, byte ${byte}, image byte ${at}${name ? ` (${name})` : ""}: ${message}`);

// Reads the disk anew, under these options or what is found, and shows all of it. The focus goes there if what had it is gone.
async function look(image, options) {
  const goes = ["disk", "told"].some((id) => byId(id).contains(document.activeElement));
  await show(image, options);
  if (goes) byId("disk").querySelector("h2")?.focus({ preventScroll: true });
}

async function show(image, options) {
  [disk, stated, geometry] = [image, options, null];
  complain([]);
  byId("differences").replaceChildren();
  byId("disk").replaceChildren();
  byId("comparing").hidden = true;
  const found = await onDisk("geometry");
  const { json: probed } = await asked(["probe", "--", disk.name], [disk]);
  const ranking = probed.ranking ?? [];
  if (!found.json.geometry) {
    byId("stating").open = true;
    complain([found.lines[0]]);
    tell(`${disk.name} is not read: its geometry is to be stated.`, true);
    byId("disk").replaceChildren(choices(ranking));
    return;
  }
  geometry = found.json.geometry;
  const [checked, drawn] = [await onDisk("check", "--all"), await map()];
  const state = checked.json.images[0];
  const notes = found.lines.map(said).filter((line) => !line.includes("not consistent under it"));
  const parts = [geometrySection(found.json.geometry_from, ranking, notes), checkSection(state), mapSection(drawn)];
  if (state.consistent) parts.push(await filesSection(), await removedSection());
  else parts.push(await rescueSection(), await mendSection());
  byId("disk").replaceChildren(...parts, reportSection());
  byId("comparing").hidden = !state.consistent;
  if (state.consistent) tell(`${disk.name}: consistent, ${counted(state.files, "file")}, ${counted(state.free, "granule")} free.`);
  else tell(`${disk.name}: not consistent, ${counted(state.faults.length, "fault")}.`, true);
}

// Where the search takes nothing: what speaks for each place, and a button that states it.
function choices(ranking) {
  const rows = ranking.flatMap((place) => place.readings.map((reading) => {
    const { geometry: read, consistent, files, free, fault } = reading;
    const state = consistent ? `consistent, ${counted(files, "file")}, ${counted(free, "granule")} free` : faultWords(fault);
    const say = button("Read it so", () => look(disk, optionsOf(read)), { "aria-label": `Read it with ${inWords(read)}` });
    return [inWords(read), say, evidence(place), state];
  }));
  if (!rows.length) return section("choices", "Nothing speaks for any directory", element("p", {}, "State the geometry above."));
  return section("choices", "What speaks for each directory",
    element("p", {}, "Nothing is guessed. If you know that one of these is right, say so:"),
    table("Readings, the strongest first", [["Geometry"], ["Say so"], ["Evidence"], ["The disk so read"]], rows));
}

function geometrySection(from, ranking, notes) {
  const place = ranking.find((candidate) => candidate.start === geometry.start);
  const found = "Found by evidence, nothing speaks for another";
  const sources = { search: found, file: `Stated by ${disk.name}.gdos`, options: "Stated by you" };
  return section("how", "Geometry", element("p", {}, inWords(geometry)),
    element("p", {}, `${sources[from]}${place ? `: ${evidence(place)}.` : ": no name speaks for it."}`),
    ...notes.filter(() => from !== "search").map((note) => element("p", { class: "trouble" }, note)));
}

function checkSection(state) {
  if (state.consistent) return section("check", "Check", element("p", { class: "well" }, "The disk is consistent."));
  const named = (files) => files.map(({ name, slot }) => `${name} (slot ${slotText(slot)})`).join(", ") || "no file";
  return section("check", "Check", element("p", { class: "ill" }, `The disk is not consistent: ${counted(state.faults.length, "fault")}.`),
    list(state.faults.map(faultWords), { id: "faults" }),
    element("p", {}, `Touched: ${named(state.touched)}.`), element("p", {}, `Not touched: ${named(state.not_touched)}.`));
}

// ---- The map ----

async function map() {
  const answer = await onDisk("map", "--svg", "map.svg");
  return new DOMParser().parseFromString(toText(answer.written.get("map.svg")), "image/svg+xml").documentElement;
}

function mapSection(svg) {
  const cells = [...svg.querySelectorAll(".cell")];
  const words = (cell) => cell.querySelector("title").textContent;
  const marked = cells.filter((cell) => cell.dataset.fault);
  const told = element("p", { id: "cell", role: "status" });
  const choose = (cell) => {
    cells.forEach((other) => other.classList.toggle("chosen", other === cell));
    told.textContent = cell ? words(cell) : "The disk has no such granule.";
  };
  svg.addEventListener("click", (event) => choose(event.target.closest(".cell") ?? undefined));
  const number = element("input", { id: "granule", inputmode: "numeric", size: "5", autocomplete: "off" });
  const form = element("form", { class: "row" },
    element("label", { for: "granule" }, "Granule"), number, element("button", { class: "second" }, "Tell"));
  form.addEventListener("submit", (event) => {
    event.preventDefault();
    choose(cells.find((cell) => cell.dataset.granule === number.value.trim()));
  });
  return section("map", "Map", element("p", {}, "One cell is a granule. Tap a cell, or type its number, and it is told."), form, told,
    element("div", { class: "wide map", tabindex: "0", role: "region", "aria-label": "Map of the granules" }, document.adoptNode(svg)),
    ...(marked.length ? [element("p", {}, "Marked by a fault:"), list(marked.map(words), { id: "marked" })] : []));
}

// ---- Files, and what was removed ----

const attributes = (file) => ["system", "invisible", "keeps_space", "may_not_grow", "worked_on", "password"]
  .filter((word) => file[word]).map((word) => word.replaceAll("_", " "));

async function filesSection() {
  const { json } = await onDisk("ls", "--all");
  const unlock = element("input", { type: "checkbox", id: "unlock" });
  const take = async (name) => {
    const answer = await gdos(["cat", ...stated, ...(unlock.checked ? ["--unlock"] : []), "--", disk.name, name], lent());
    complain(answer.status ? answer.lines : []);
    if (answer.status) return;
    download(hostName(name), answer.out);
    tell(`${name}: ${counted(answer.out.length, "byte")}, as ${hostName(name)}.`);
  };
  const columns = [["Name", "name"], ["Take out"], ["Size", "number"], ["Granules", "number"], ["Date", "date"], ["Level", "number"],
    ["Attributes"], ["Slot"]];
  const rows = json.files.map((file) => [file.name, button("Download", () => take(file.name), { "aria-label": `Download ${file.name}` }),
    String(file.size), String(file.granules), file.date ?? "–", String(file.level), attributes(file).join(", "), slotText(file.slot)]);
  return section("files", "Files", table(`${counted(json.files.length, "file")}, ${counted(json.free, "granule")} free`, columns, rows),
    element("p", {}, unlock, " ", element("label", { for: "unlock" }, "Open files without checking their passwords")));
}

async function removedSection() {
  const { json } = await onDisk("undelete");
  const alsoIn = ({ slot, name, granules }) =>
    `${granules.length === 1 ? "granule" : "granules"} ${granules.join(", ")} also in slot ${slotText(slot)}${name ? ` (${name})` : ""}`;
  const verdict = ({ refused, also_in: also }) => {
    if (refused) return `no: ${refused.number} (${refused.meaning})`;
    return also.length ? `yes, but ${also.map(alsoIn).join("; ")}: contents may be that file's` : "yes";
  };
  const back = async (file) => {
    const answer = await onDisk("undelete", "--search", "--slot", String(file.slot));
    complain(answer.status ? answer.lines : []);
    if (!answer.status) offer(copyName(disk.name, "brought-back"), answer.written.get(disk.name), `${file.name} brought back`);
  };
  const rows = json.removed.map((file) => [file.name,
    file.refused ? "" : button("Bring back", () => back(file), { "aria-label": `Bring back ${file.name} in a copy` }),
    verdict(file), String(file.size), slotText(file.slot)]);
  if (!rows.length) return section("removed", "Removed files", element("p", {}, "No removed file left anything."));
  return section("removed", "Removed files",
    table("What removed files left", [["Name", "name"], ["In a copy"], ["Can be brought back"], ["Size", "number"], ["Slot"]], rows),
    element("p", {}, "What comes back are the bytes that are there now, which another file may have written since: look at them."));
}

// Downloads a copy that was changed, and offers to look at it under the same geometry.
function offer(name, bytes, words) {
  const options = optionsOf(geometry);
  download(name, bytes);
  tell(`${words}, in the copy ${name}, which was downloaded. ${disk.name} is as it was. `);
  byId("told").append(button("Look at the copy", () => look({ name, bytes }, options), { class: "second" }));
}

// ---- A damaged disk ----

async function rescueSection() {
  const answer = await onDisk("rescue", "-o", "rescued", "--doubtful");
  const { files, missing } = answer.json;
  if (!files) return section("rescue", "What can be had", element("p", { class: "ill" }, said(answer.lines[0] ?? "Nothing.")));
  const take = ({ host }) => download(host.split("/").pop(), answer.written.get(host));
  const rows = files.map((file) => [file.name,
    button("Download", () => take(file), { "aria-label": `Download ${file.name}, slot ${slotText(file.slot)}` }),
    file.doubts.join("; ") || "none", String(file.size), slotText(file.slot)]);
  const lost = ({ name, slot, fault }) => element("p", { class: "ill" }, `Missing: ${name} (slot ${slotText(slot)}): ${faultWords(fault)}`);
  return section("rescue", "What can be had", element("p", {}, "Read from a mended copy in memory. What no rule can tell is not told: " +
    "an end, a run or a name changed so that the disk is still consistent."),
  table(counted(files.length, "file"), [["Name", "name"], ["Take out"], ["Doubts"], ["Size", "number"], ["Slot"]], rows),
  ...missing.map(lost));
}

async function mendSection() {
  const name = copyName(disk.name, "mended");
  const answer = await onDisk("mend", "-o", name);
  const { steps, dropped, doubtful, sure } = answer.json;
  if (!steps) return section("mend", "A mended copy", element("p", { class: "ill" }, said(answer.lines[0] ?? "None.")));
  const change = ({ image_byte: at, before, after }) => `image byte ${at}: ${slotText(before)} becomes ${slotText(after)}`;
  return section("mend", "A mended copy",
    element("p", {}, `${counted(sure, "file")} without doubt, ${doubtful.length} doubtful, ${dropped.length} dropped. What is changed:`),
    list(steps.map(({ done, changes }) => `${done} (${changes.map(change).join(", ")})`), { id: "steps" }),
    button("Download the mended copy", () => offer(name, answer.written.get(name), "Mended")));
}

// ---- A page about the disk, to be mailed ----

function reportSection() {
  const write = async () => {
    const name = `${disk.name}.html`;
    const answer = await onDisk("report", "-o", name);
    download(name, answer.written.get(name));
    tell(`The report on ${disk.name} was downloaded as ${name}.`);
  };
  return section("report", "Report", element("p", {}, "One page with all of this, to be mailed or printed; it needs nothing else."),
    button("Download the report", write));
}

// ---- Two disks ----

function difference({ kind, position, contents, first, second, ...differs }) {
  if (kind !== "unlike") return `only in the ${kind === "only_in_first" ? "first" : "second"}`;
  const words = contents ? [`differs from byte ${position}`] : [];
  if (differs.size) words.push(`size (${first.size} and ${second.size})`);
  if (differs.date) words.push(`date (${first.date ?? "–"} and ${second.date ?? "–"})`);
  const pair = (noun, one, two) => (one === two ? [] : [`${noun}${one} and ${two}`]);
  const flags = (file) => [...attributes(file), `level ${file.level}`].join(", ");
  const others = [...pair("", flags(first), flags(second)), ...pair("record length ", first.record_length, second.record_length),
    ...pair("main code ", codeText(first.main_code), codeText(second.main_code)),
    ...pair("worker code ", codeText(first.worker_code), codeText(second.worker_code))];
  if (differs.attributes) words.push(`attributes (${others.join("; ")})`);
  return words.join("; ");
}

// The second disk's own options end in 2. Where nothing is stated of it, it is searched by itself: what is stated of the first does not
// hold for it.
async function compare(file) {
  const preset = byId("second-preset").value;
  const shown = byId("differences");
  const second = await fileOf(file);
  const found = await asked(["geometry", ...(preset ? ["--preset", preset] : []), "--", second.name], [second]);
  if (!found.json.geometry) return shown.replaceChildren(element("p", { class: "ill" }, said(found.lines[0])));
  const ofSecond = optionsOf(found.json.geometry).map((word) => word.replace(/^--.*/, "$&2"));
  const both = [disk, second].map(({ name, bytes }, i) => ({ name: `${i + 1}/${name}`, bytes }));
  const { json, lines } = await asked(["diff", ...optionsOf(geometry), ...ofSecond, "--", ...both.map(({ name }) => name)], both);
  if (!json.differences) return shown.replaceChildren(element("p", { class: "ill" }, said(lines[0])));
  const rows = json.differences.map((found) => [found.name, difference(found)]);
  const from = found.json.geometry_from === "search" ? "found by evidence" : "stated by you";
  shown.replaceChildren(element("p", {}, `${disk.name} and ${second.name} (${inWords(found.json.geometry)}, ${from}):`),
    json.alike ? element("p", { class: "well" }, "The disks are alike, file by file.")
      : table(counted(rows.length, "difference"), [["Name", "name"], ["Difference"]], rows));
}

// ---- What people do ----

const inForm = () => [["preset"], ["blocks"], ["units"], ["start"], ["granule", "granule-sectors"], ["open-code"]]
  .map(([option, id = option]) => [`--${option}`, byId(id).value.trim()]).filter(([, value]) => value).flat();

async function open(files) {
  const image = files.find(({ name }) => !name.endsWith(".gdos")) ?? files[0];
  if (!image) return;
  const others = files.filter((file) => file !== image);
  const beside = others.filter(({ name }) => name === `${image.name}.gdos`);
  tell(`Reading ${image.name} …`);
  await look({ ...(await fileOf(image)), beside: await Promise.all(beside.map(fileOf)) }, inForm());
  const surplus = others.filter((other) => !beside.includes(other)).map(({ name }) => name);
  if (surplus.length) byId("trouble").append(element("p", {}, `One image is read at a time. Left: ${surplus.join(", ")}.`));
}

byId("image").addEventListener("change", (event) => {
  const files = [...event.target.files];
  inTurn(() => open(files));
});
byId("second").addEventListener("change", (event) => {
  const [file] = event.target.files;
  if (file) inTurn(() => compare(file));
});
byId("geometry").addEventListener("submit", (event) => {
  event.preventDefault();
  inTurn(() => (disk ? look(disk, inForm()) : tell("Choose an image first.")));
});
addEventListener("dragover", (event) => {
  event.preventDefault();
  document.body.classList.add("over");
});
addEventListener("dragleave", () => document.body.classList.remove("over"));
addEventListener("drop", (event) => {
  event.preventDefault();
  document.body.classList.remove("over");
  const files = [...event.dataTransfer.files];
  if (files.length) byId("image").files = event.dataTransfer.files;
  inTurn(() => open(files));
});
