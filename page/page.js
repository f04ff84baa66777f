"use strict";
/* The question: had a model seen held-out sheets when it was scored? The answer filters the lines that
   `spans` printed and decides no grant. Names are put into the page as text, never as markup. */
const LAST_MODEL = 63, LAST_SHEET = 255;
const FIELDS = ["model", "tick", "sheets"];
const QUOTED = 20;
const NO_EVENT = "no event in the book";
const CANT_UNPACK = "This browser can't unpack what the page holds; a newer one can.";
const by = id => document.getElementById(id);
const known = JSON.parse(by("known").textContent);
const form = document.forms[0];

/* Neighbouring texts as one: a row can have thousands of spans. */
function merged(parts) {
  const fewer = [];
  for (const part of parts) {
    if (typeof part === "string" && typeof fewer.at(-1) === "string") fewer[fewer.length - 1] += part;
    else fewer.push(part);
  }
  return fewer;
}

function element(tag, attributes, ...children) {
  const made = document.createElement(tag);
  for (const [name, value] of Object.entries(attributes)) made.setAttribute(name, value);
  made.append(...merged(children));
  return made;
}

/* A number with its name, where it has one. */
function label(kind, number) {
  const name = known.names[kind][number];
  if (name === undefined) return [String(number)];
  const shown = element("bdi", {}, name);
  return kind === "tick" ? [`${number} (`, shown, ")"] : [`${number} `, shown];
}

/* Rising numbers as they can be typed: 7, 9-12. */
function ranges(numbers, between) {
  const runs = [];
  for (const number of numbers) {
    const run = runs.at(-1);
    if (run && number === run[1] + 1) run[1] = number;
    else runs.push([number, number]);
  }
  return runs.map(([first, last]) => first === last ? `${first}` : `${first}-${last}`).join(between);
}

/* ---- What lies packed ---- */

async function unpacked(block) {
  if (!("packed" in block.dataset)) return block.textContent;
  const bytes = Uint8Array.from(atob(block.textContent), sign => sign.charCodeAt(0));
  const stream = new Blob([bytes]).stream().pipeThrough(new DecompressionStream("deflate"));
  return new Response(stream).text();
}

/* A band is unpacked when it is first needed. */
async function unpackBand(band) {
  const block = band && band.querySelector(":scope > script");
  if (!block) return;
  const rows = await unpacked(block).catch(() => `<p>${CANT_UNPACK}`);
  if (block.isConnected) block.outerHTML = rows;
}

/* The spans by model and sheet, out of the lines between the first and the last. */
function spansByPair(text) {
  const pairs = new Map();
  for (const line of text.split("\n").slice(1, -2)) {
    const [model, sheet, first, last] = line.split(" ");
    const pair = `${model} ${sheet}`;
    if (!pairs.has(pair)) pairs.set(pair, []);
    pairs.get(pair).push([Number(first), Number(last)]);
  }
  return pairs;
}

/* ---- What is asked ---- */

/* What was typed, in one short plain piece: a message has no room for somebody else's sentences. */
function quoted(text) {
  const plain = text.replace(/[^\x20-\x7e]/g, "?");
  return `“${plain.length > QUOTED ? plain.slice(0, QUOTED) + "…" : plain}”`;
}

function numberIn(text, last, kind) {
  if (!/^[0-9]{1,20}$/.test(text) || Number(text) > last) throw new Error(`${quoted(text)} is no ${kind} from 0 to ${last}.`);
  return Number(text);
}

/* The sheets of a text such as 7, 9-12: rising, each once. */
function sheetsIn(text) {
  const sheets = new Set();
  for (const part of text.replace(/\s*(?:[-–—−]|\.\.)\s*/g, "-").split(/[\s,;]+/).filter(Boolean)) {
    if (!/^[0-9]+(-[0-9]+)?$/.test(part)) throw new Error(`${quoted(part)} is no sheet and no range of sheets. Type them as 7, 9-12.`);
    const ends = part.split("-").map(end => numberIn(end, LAST_SHEET, "sheet"));
    const [first, last] = [ends[0], ends.at(-1)];
    if (last < first) throw new Error(`${quoted(part)} falls. Type the lower sheet first, as 9-12.`);
    for (let sheet = first; sheet <= last; sheet++) sheets.add(sheet);
  }
  if (!sheets.size) throw new Error("Which sheets were held out? Type their numbers, as 7, 9-12.");
  return [...sheets].sort((one, other) => one - other);
}

/* A tick by its number, or by its name where just one tick has it. */
function tickIn(text) {
  if (/^[0-9]+$/.test(text) && Number(text) > known.ticks)
    throw new Error(`The book's last closed tick is ${known.ticks}: it tells nothing of tick ${quoted(text)}.`);
  const named = Object.keys(known.names.tick).filter(tick => known.names.tick[tick] === text);
  return numberIn(/^[0-9]+$/.test(text) || named.length !== 1 ? text : named[0], known.ticks, "tick");
}

function questionIn(values) {
  if (FIELDS.some(field => values.getAll(field).length > 1)) throw new Error("One model, one tick and one list of sheets can be asked for at a time.");
  const [model, tick, sheets] = FIELDS.map(field => values.get(field).trim());
  return { model: numberIn(model, LAST_MODEL, "model"), tick: tickIn(tick), sheets: sheetsIn(sheets) };
}

const addressOf = ({ model, tick, sheets }) => `#model=${model}&tick=${tick}&sheets=${ranges(sheets, ",")}`;

/* ---- What is answered ---- */

/* For each sheet the spans that begin no later than the tick, and the first that begins later; and the
   earliest tick of all. */
function found(pairs, { model, tick, sheets }) {
  const rows = sheets.map(sheet => {
    const spans = pairs.get(`${model} ${sheet}`) || [];
    return { sheet, spans: spans.filter(([first]) => first <= tick), later: spans.find(([first]) => first > tick) };
  });
  const firsts = rows.filter(({ spans }) => spans.length).map(({ spans }) => spans[0][0]);
  return { rows, clean: !firsts.length, earliest: Math.min(...firsts) };
}

function question({ model, tick, sheets }) {
  const [noun, pronoun] = sheets.length === 1 ? ["sheet", "it"] : ["sheets", "them"];
  return ["Model ", ...label("model", model), " was scored at tick ", ...label("tick", tick),
    ` on held-out ${noun} ${ranges(sheets, ", ")}. Had it seen ${pronoun}?`];
}

function verdict({ model, tick, sheets }, { clean, earliest, rows }) {
  if (clean) return [element("strong", {}, "Clean."), ` Through group ${known.group}, model `, ...label("model", model),
    ` could ${sheets.length === 1 ? "not read it" : "read none of them"} in tick `, ...label("tick", tick), " or before."];
  const { sheet } = rows.find(({ spans }) => spans.some(([first]) => first === earliest));
  return [element("strong", {}, "Not clean."), " The earliest tick is ", ...label("tick", earliest),
    ": model ", ...label("model", model), " could then read sheet ", ...label("sheet", sheet), "."];
}

/* Clean is easily had for a number that isn't in the book. */
function doubt({ model, sheets }, { clean }) {
  const strange = sheets.filter(sheet => !known.events.sheet.includes(sheet)), told = [];
  if (!known.events.model.includes(model)) told.push(`model ${model}`);
  if (strange.length) told.push(`${strange.length === 1 ? "sheet" : "sheets"} ${ranges(strange, ", ")}`);
  if (!clean || !told.length) return [];
  return [" ", element("strong", {}, `But the book has no event of ${told.join(", nor of ")}:`), " are these the right numbers, and is it the right book?"];
}

function inWords({ tick }, spans, later) {
  if (!spans.length) {
    const next = later ? ["; first in tick ", ...label("tick", later[0])] : [];
    return ["never before tick ", ...label("tick", tick), ", nor in it", ...next];
  }
  const told = spans.flatMap(([first, last]) => [", ", ...label("tick", first), "..", ...label("tick", last)]);
  return ["could read in ", ...told.slice(1)];
}

function table(attributes, heads, rows, ...caption) {
  const head = element("tr", {}, ...heads.map(word => element("th", { scope: "col" }, word)));
  return element("table", attributes, ...caption, element("thead", {}, head), element("tbody", {}, ...rows));
}

function row(attributes, first, ...others) {
  const cells = others.map(content => element("td", {}, ...content));
  return element("tr", attributes, element("th", { scope: "row" }, ...first), ...cells);
}

/* Each sheet with its drawing out of the model's band, where it has one. */
function sheetTable(asked, { rows }) {
  const band = by(`m${asked.model}`);
  const drawn = new Map();
  for (const line of band ? band.querySelectorAll("tbody tr") : []) drawn.set(parseInt(line.cells[0].textContent, 10), line);
  const copied = (place, what) => place && place.querySelector(what) ? [place.querySelector(what).cloneNode(true)] : [];
  const lines = rows.map(({ sheet, spans, later }) => {
    const line = drawn.get(sheet);
    const attributes = line && line.className ? { class: line.className } : {};
    return row(attributes, label("sheet", sheet), copied(line, "svg"), inWords(asked, spans, later));
  });
  const made = table({ class: "rows", id: "by-sheet" }, ["Sheet", "", "Had it seen it?"], lines);
  made.tHead.rows[0].cells[1].append(...copied(band, "thead svg"));
  made.tHead.rows[0].cells[1].setAttribute("aria-label", "Ticks");
  return made;
}

/* The question turned round: every model, for the same sheets and tick. */
function modelTable(pairs, asked) {
  const lines = known.models.map(model => {
    const turned = { ...asked, model }, { clean, earliest } = found(pairs, turned);
    const link = element("a", { href: addressOf(turned) }, ...label("model", model));
    const told = clean ? ["clean"] : [element("span", { class: "notclean" }, "not clean")];
    const tick = clean ? known.events.model.includes(model) ? [] : [NO_EVENT] : label("tick", earliest);
    return row(model === asked.model ? { "aria-current": "true" } : {}, [link], told, tick);
  });
  const others = [...Array(LAST_MODEL + 1).keys()].filter(model => !known.models.includes(model));
  if (others.length) lines.push(row({}, [ranges(others, ", ")], ["clean"], [NO_EVENT]));
  const caption = element("caption", {}, "Every model, for these sheets and this tick:");
  return table({ class: "short", id: "by-model" }, ["Model", "Verdict", "Earliest tick"], lines, caption);
}

function put(kind, asked, told, tables) {
  by("asked").replaceChildren(...asked);
  by("verdict").replaceChildren(...told);
  by("verdict").className = `verdict ${kind}`;
  by("tables").replaceChildren(...tables);
  by("question").classList.toggle("asked", tables.length > 0);
}

/* The page's own name is shown as the address has it: its bytes need not be text. */
function answerAt(address) {
  const page = location.pathname.split("/").at(-1);
  return element("p", { id: "address" }, "The address of this answer, for whoever has this page: ", element("a", { href: address }, page + address));
}

let turn = 0;

/* An answer that had to wait for its band gives way to one that was asked for after it. */
async function answer(pairs, asked) {
  const mine = ++turn;
  put("waiting", question(asked), [], []);
  await unpackBand(by(`m${asked.model}`));
  if (mine !== turn) return;
  const all = found(pairs, asked);
  const bounds = element("p", { class: "note" }, "Other groups, and the same yields under another sheet's number, are not judged here. The dotted line is the tick of the scoring.");
  by("tables").style.setProperty("--at", known.ticks ? Math.max(0, asked.tick - 0.5) / known.ticks : 0);
  put(all.clean ? "clean" : "unclean", question(asked), [...verdict(asked, all), ...doubt(asked, all)],
    [bounds, sheetTable(asked, all), modelTable(pairs, asked), answerAt(addressOf(asked))]);
}

/* ---- Form and address ---- */

let told = ""; // the address of the answer that is shown

/* What is shown gives way: to what is wrong with a question, or to nothing. */
function giveWay(...words) {
  told = "";
  turn++;
  put("wrong", [], words, []);
}

/* Answers what is asked, or says what is wrong with it. */
async function tell(pairs, values) {
  try {
    const asked = questionIn(values);
    told = addressOf(asked);
    form.elements.model.value = asked.model;
    await answer(pairs, asked);
  } catch (error) {
    giveWay(error.message);
  }
}

/* What the address asks is put into the form and answered; where it asks nothing, there is no answer. */
function followAddress(pairs) {
  const values = new URLSearchParams(location.hash.slice(1));
  if (!FIELDS.every(field => values.has(field))) return giveWay();
  for (const field of FIELDS) form.elements[field].value = values.get(field);
  return tell(pairs, values);
}

/* What the form asks is answered, and the address says what is shown. */
function askForm(pairs) {
  if (form.elements.tick.value.trim() && form.elements.sheets.value.trim()) tell(pairs, new FormData(form));
  else giveWay();
  location.replace("#" + told.slice(1));
}

function start(pairs) {
  for (let model = 0; model <= LAST_MODEL; model++) {
    const name = known.names.model[model];
    form.elements.model.append(element("option", { value: model }, name === undefined ? `${model}` : `${model} ${name}`));
  }
  if (known.models.length) form.elements.model.value = known.models[0];
  form.addEventListener("submit", event => {
    event.preventDefault();
    askForm(pairs);
  });
  form.addEventListener("change", () => askForm(pairs));
  window.addEventListener("hashchange", async () => {
    // who followed a link is led to the answer
    if (location.hash === told) return;
    await followAddress(pairs);
    if (told) by("verdict").focus();
  });
  form.hidden = false;
  followAddress(pairs);
}

for (const band of document.querySelectorAll("details")) band.addEventListener("toggle", () => unpackBand(band));
by("question").hidden = false;

unpacked(by("spans")).then(spansByPair).then(start, () => giveWay(CANT_UNPACK));
