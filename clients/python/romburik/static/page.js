"use strict";
// What comes is shown by textContent alone: the text of a row is never taken as HTML.

const byId = (id) => document.getElementById(id);
const SETTLED = 300; // milliseconds after which a text that is typed counts
let epoch = null;
let want = () => {};
const panels = []; // those that are shown

function element(tag, text, kind) {
  const made = document.createElement(tag);
  made.textContent = text;
  if (kind) made.className = kind;
  return made;
}

function fill(table, heads, rows) {
  const lines = [];
  if (heads.length) {
    const line = document.createElement("tr");
    line.append(...heads.map(([text, kind]) => element("th", text, kind)));
    lines.push(line);
  }
  for (const { cells, kind } of rows) {
    const line = document.createElement("tr");
    if (kind) line.className = kind;
    line.append(...cells.map(([text, its]) => element("td", text, its)));
    lines.push(line);
  }
  table.replaceChildren(...lines);
}

function say(place, text) {
  place.hidden = !text;
  place.textContent = text || "";
}

// The cells of the instants of rows that were told.
function span(first, last) {
  if (!epoch) return [[first, "number"], [last, "number"]];
  const start = instantText(Number(first), epoch), end = instantText(Number(last), epoch);
  return [[first === last ? start : start + " to " + (start.slice(0, 10) === end.slice(0, 10) ? end.slice(11) : end), ""]];
}

// The list.

let listed = null;

function acknowledged(next, base) {
  return next === base ? "nothing acknowledged so far" : "acknowledged below " + instantText(Number(next), epoch);
}

function queryItem(query) {
  const isShown = panels.some((it) => it.query === query.name);
  const button = element("button", query.name);
  button.setAttribute("aria-pressed", isShown);
  button.addEventListener("click", () => (isShown ? remove(query.name) : add(query.name)));
  const behind = query.behind === null || query.next === query.base ? ""
    : query.behind === "0" ? ", all there is" : ", " + spanText(Number(query.behind), epoch) + " behind";
  button.append(element("small", acknowledged(query.next, query.base) + behind));
  if (query.state) button.append(element("small", query.state, "bad"));
  const item = document.createElement("li");
  item.append(button);
  return item;
}

function showListing(listing) {
  listed = listing;
  byId("queries").replaceChildren(...listing.queries.map(queryItem));
  const streams = [...listing.streams, ...listing.readable];
  fill(byId("streams"), [["stream", ""], ["takes from", "number"]], streams.map((it) => (
    { cells: [[it.columns ? it.name + " (" + it.columns.join(", ") + ")" : it.name, ""], [instantText(Number(it.open), epoch), "number"]] }
  )));
  showChoose();
}

function showChoose() {
  byId("choose").hidden = panels.length > 0;
  byId("loading").hidden = listed !== null;
  byId("choice").hidden = listed === null || !listed.queries.length;
  byId("empty").hidden = listed === null || listed.queries.length > 0;
}

// A panel: one query with its plots and its table.

class Panel {
  constructor(query, order, search) {
    this.query = query;
    this.order = order || "first";
    this.search = search || "";
    this.box = byId("panel").content.firstElementChild.cloneNode(true);
    this.box.dataset.query = query;
    this.part("h2").textContent = query;
    this.part(".away").addEventListener("click", () => remove(query));
    this.part("select").value = this.order;
    this.part("input").value = this.search;
    this.part("select").addEventListener("change", () => this.choose());
    this.part("input").addEventListener("input", () => {
      clearTimeout(this.typing);
      this.typing = setTimeout(() => this.choose(), SETTLED);
    });
    this.part("form").addEventListener("submit", (event) => event.preventDefault());
    this.part(".standing").textContent = "waiting for what it tells";
    this.part(".choices").hidden = true;
    this.plots = null;
    if (typeof Chart === "undefined") say(this.part(".noplot"), this.part(".noplot").textContent);
  }

  get name() {
    return JSON.stringify([this.query, this.order, this.search]);
  }

  part(selector) {
    return this.box.querySelector(selector);
  }

  choose() {
    this.order = this.part("select").value;
    this.search = this.part("input").value;
    keep();
  }

  take(look) {
    this.part(".text").textContent = look.text;
    this.part(".choices").hidden = false;
    this.showStanding(look);
    this.showRows(look);
    if (typeof Chart === "undefined") return;
    this.plots = this.plots || new Plots(this.part(".plots"), this.part(".legend"), epoch);
    this.plots.take(look);
    const many = look.undrawn ? look.undrawn + " more aren't drawn" : "";
    this.part(".undrawn").textContent = many;
  }

  showStanding(look) {
    const when = (instant) => instantText(Number(instant), epoch);
    const final = "final below " + when(look.final) + ", " + acknowledged(look.acknowledged, look.base);
    let said = look.next === look.base ? "nothing is final so far; the first instant is " + when(look.base) : final;
    if (look.at !== null) said = "at instant " + when(look.at) + "; " + final;
    else if (look.next !== look.base) said += "; what is acknowledged is told to nobody any more";
    if (look.final !== look.next) said += "; its consumer is further behind than a look takes";
    if (look.since !== null) said += "; without rows that came before " + when(look.since);
    this.part(".standing").textContent = said;
    say(this.part(".fault"), look.fault === null ? "" : "fault: " + look.fault);
  }

  showRows(look) {
    const kinds = look.numeric.map((is) => (is ? "number" : ""));
    const names = (look.names || []).map((name, at) => [name, kinds[at] || ""]);
    const cells = (row) => row.map((text, at) => [text, kinds[at] || ""]);
    const table = this.part(".rows"), more = this.part(".more");
    if (look.told) {
      const heads = epoch ? [["when", ""]] : [["from", "number"], ["to", "number"]];
      fill(table, [...heads, ...names], look.told.map((it) => (
        it.fault === null
          ? { cells: [...span(it.first, it.last), ...cells(it.cells)] }
          : { cells: [...span(it.first, it.last), ["fault: " + it.fault, ""]], kind: "fault" }
      )));
      more.textContent = look.told.length ? "" : "no row was told so far";
      return;
    }
    const isKnown = look.at !== null && look.fault === null;
    fill(table, isKnown ? names : [], isKnown ? look.rows.map((row) => ({ cells: cells(row) })) : []);
    const left = look.count - look.rows.length;
    more.textContent = !isKnown ? "" : look.count === 0 ? "no rows" : left ? "and " + left + " rows more" : "";
  }
}

// Which panels there are stands in the address.

function add(query, order, search) {
  const panel = new Panel(query, order, search);
  panels.push(panel);
  byId("panels").append(panel.box);
  keep();
}

function remove(query) {
  const at = panels.findIndex((it) => it.query === query);
  const [panel] = panels.splice(at, 1);
  if (panel.plots) panel.plots.end();
  panel.box.remove();
  keep();
}

function keep() {
  const words = new URLSearchParams();
  for (const { query, order, search } of panels) {
    words.append("query", query);
    if (order !== "first") words.append("order", order);
    if (search) words.append("search", search);
  }
  history.replaceState(null, "", panels.length ? "?" + words : location.pathname);
  want(panels.map(({ name, query, order, search }) => ({ name, query, order, search })));
  if (listed) showListing(listed);
  showChoose();
}

// The panels of an address: a word behind a query's is of that query.
function asked() {
  const found = [];
  for (const [word, value] of new URLSearchParams(location.search)) {
    if (word === "query") found.push({ query: value });
    else if (found.length && (word === "order" || word === "search")) found[found.length - 1][word] = value;
  }
  return found;
}

const AWAY = "the page's program doesn't answer, and is tried again; what is shown is old. Where it has ended, start it again: with --token-file it keeps this address";
const ELSEWHERE = "the page's program was started anew and has another address, which it tells at its start (one word --token-file keeps it)";

function take({ kind, data }) {
  const told = data === undefined ? null : JSON.parse(data);
  if (kind === "listing") showListing(told);
  if (kind === "look") panels.filter((it) => it.name === told.panel).forEach((it) => it.take(told));
  if (kind === "trouble" && told.panel === "") byId("trouble").textContent = told.text || "";
  if (kind === "trouble") panels.filter((it) => it.name === told.panel).forEach((it) => say(it.part(".trouble"), told.text));
  if (kind === "away") byId("trouble").textContent = AWAY;
  if (kind === "closed") byId("trouble").textContent = ELSEWHERE;
  if (kind === "open") byId("trouble").textContent = "";
}

async function start() {
  const about = await (await fetch("about")).json();
  epoch = about.epoch;
  byId("tenant").textContent = "tenant " + about.tenant;
  document.title = "Romburik " + about.tenant;
  want = subscribed(take);
  byId("allstreams").open = matchMedia("(min-width: 45em)").matches;
  for (const { query, order, search } of asked()) add(query, order, search);
  keep();
  // a page that the browser brings back had gone from the stream
  addEventListener("pageshow", ({ persisted }) => { if (persisted) keep(); });
  const drawAll = () => panels.forEach(({ plots }) => plots && plots.draw());
  matchMedia("(prefers-color-scheme: dark)").addEventListener("change", drawAll);
  document.addEventListener("visibilitychange", drawAll);
}

start().catch(() => { byId("trouble").textContent = AWAY; });
