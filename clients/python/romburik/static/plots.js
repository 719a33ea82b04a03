"use strict";
// The plots of a query: one for each of its columns of numbers, each with an axis of its own, over
// the same instants. A line has the values of the rows of one key; faults are bands.

const KEPT = 4000; // points of a line that are kept
const COLOURS = ["#2f7ed8", "#d9731a", "#2f9e4f", "#c2408f", "#8a6fd1", "#a8842c", "#1c9c9c", "#c94a4a"];
const DASHES = [[], [7, 4], [2, 3]]; // with the colours 24 lines that differ
const TICKS = [1, 2, 5, 10, 15, 30, 60, 120, 300, 600, 900, 1800, 3600, 7200, 10800, 21600, 43200, 86400, 172800, 604800];
const compact = new Intl.NumberFormat(undefined, { notation: "compact", maximumFractionDigits: 2 });

function styleOf(number) {
  return { colour: COLOURS[number % COLOURS.length], dash: DASHES[Math.floor(number / COLOURS.length) % DASHES.length] };
}

function ink(name) {
  return getComputedStyle(document.documentElement).getPropertyValue("--" + name).trim();
}

function swatch(number) {
  const { colour, dash } = styleOf(number);
  const drawn = document.createElementNS("http://www.w3.org/2000/svg", "svg");
  const line = document.createElementNS("http://www.w3.org/2000/svg", "line");
  drawn.setAttribute("viewBox", "0 0 26 8");
  for (const [name, value] of Object.entries({ x1: 0, y1: 4, x2: 26, y2: 4, stroke: colour, "stroke-width": 2, "stroke-dasharray": dash.join(" ") })) {
    line.setAttribute(name, value);
  }
  drawn.append(line);
  return drawn;
}

// An instant in words: a time of day where it is one, by the zone of the browser.
function instantText(instant, epoch, isShort) {
  if (!epoch) return String(instant);
  const date = new Date(epoch === "ms" ? instant : instant * 1000);
  if (Number.isNaN(date.getTime())) return String(instant);
  const two = (number) => String(number).padStart(2, "0");
  const time = two(date.getHours()) + ":" + two(date.getMinutes()) + ":" + two(date.getSeconds());
  const day = date.getFullYear() + "-" + two(date.getMonth() + 1) + "-" + two(date.getDate());
  const part = epoch === "ms" && instant % 1000 ? "." + String(instant % 1000).padStart(3, "0") : "";
  if (!isShort) return day + " " + time + part;
  if (time === "00:00:00") return day.slice(5);
  return part ? time + part : time.endsWith(":00") ? time.slice(0, 5) : time;
}

// So many ticks in words.
function spanText(ticks, epoch) {
  if (!epoch) return ticks.toLocaleString();
  const seconds = epoch === "ms" ? ticks / 1000 : ticks;
  if (seconds < 120) return seconds.toLocaleString() + " s";
  return seconds < 7200 ? Math.round(seconds / 60) + " min" : Math.round(seconds / 3600).toLocaleString() + " h";
}

// Ticks at whole times of day.
function timeTicks(axis, epoch) {
  const unit = epoch === "ms" ? 1000 : 1;
  const span = (axis.max - axis.min) / unit;
  const most = Math.max(2, Math.floor(axis.width / 90));
  const step = (TICKS.find((it) => span / it <= most) || Math.ceil(span / most / 86400) * 86400) * unit;
  if (!(step > 0) || span < 2) return;
  const zone = new Date(axis.min / unit * 1000).getTimezoneOffset() * 60 * unit;
  const ticks = [];
  for (let at = Math.ceil((axis.min - zone) / step) * step + zone; at <= axis.max; at += step) ticks.push({ value: at });
  axis.ticks = ticks;
}

class Plots {
  constructor(box, legend, epoch) {
    this.box = box;
    this.legend = legend;
    this.epoch = epoch;
    this.columns = new Map(); // a chart by its column
    this.lines = new Map(); // a label by its number
    this.values = new Map(); // [first, last, value] by "number column"
    this.faults = [];
    this.instant = null; // over which the pointer is
    this.hover = document.createElement("div");
    this.hover.className = "hover";
    this.hover.hidden = true;
    box.append(this.hover);
  }

  end() {
    for (const { chart } of this.columns.values()) chart.destroy();
  }

  take(look) {
    if (look.isNew) {
      this.values.clear();
      this.faults = look.faults.map(([first, last]) => [Number(first), Number(last)]);
    }
    for (const number of look.gone) this.forget(number);
    for (const [number, columns] of Object.entries(look.history)) {
      for (const [column, points] of Object.entries(columns)) {
        for (const [first, last, value] of points) this.add(number, column, Number(first), Number(last), Number(value));
      }
    }
    for (const step of look.steps) {
      const first = Number(step.first), last = Number(step.last);
      if (step.fault !== null) this.faults.push([first, last]);
      for (const [number, column, value] of step.points) this.add(number, column, first, last, Number(value));
    }
    if (this.faults.length > KEPT) this.faults.splice(0, this.faults.length - KEPT);
    this.lines = new Map(Object.entries(look.lines).map(([number, label]) => [Number(number), label]));
    this.isTold = Boolean(look.told);
    this.makeCharts(look.columns);
    this.draw();
  }

  forget(number) {
    for (const name of [...this.values.keys()]) if (name.startsWith(number + " ")) this.values.delete(name);
  }

  add(number, column, first, last, value) {
    const name = number + " " + column;
    if (!this.values.has(name)) this.values.set(name, []);
    const values = this.values.get(name);
    values.push([first, last, value]);
    if (values.length > KEPT) values.splice(0, values.length - KEPT);
  }

  // Points of a line: a line breaks where its row isn't there, but for rows that were told.
  points(number, column) {
    const points = [];
    let end = null;
    for (const [first, last, value] of this.values.get(number + " " + column) || []) {
      if (end !== null && first > end + 1 && !this.isTold) points.push({ x: end + 0.5, y: null });
      points.push({ x: first, y: value });
      if (last > first) points.push({ x: last, y: value });
      end = last;
    }
    return points;
  }

  makeCharts(columns) {
    for (const [column, name] of columns) {
      if (this.columns.has(column)) continue;
      const box = document.createElement("div");
      const title = document.createElement("h3");
      const canvas = document.createElement("canvas");
      const inner = document.createElement("div");
      inner.className = "plot";
      title.textContent = name;
      inner.append(canvas);
      box.append(title, inner);
      this.box.append(box);
      this.columns.set(column, { name, chart: this.chartOn(canvas) });
      canvas.addEventListener("pointermove", (event) => this.point(event, column));
      canvas.addEventListener("pointerdown", (event) => this.point(event, column));
      canvas.addEventListener("pointerleave", () => this.leave());
    }
    this.box.classList.toggle("many", this.columns.size > 2);
  }

  chartOn(canvas) {
    const plots = this;
    const x = {
      type: "linear",
      ticks: { maxRotation: 0, autoSkip: true, callback: (value) => (Number.isInteger(value) ? instantText(value, plots.epoch, true) : "") },
    };
    if (this.epoch) x.afterBuildTicks = (axis) => timeTicks(axis, plots.epoch);
    return new Chart(canvas, {
      type: "line",
      data: { datasets: [] },
      plugins: [{ id: "marks", beforeDatasetsDraw: (chart) => this.mark(chart) }],
      options: {
        animation: false,
        maintainAspectRatio: false,
        parsing: false,
        normalized: true,
        events: [],
        plugins: { legend: { display: false }, tooltip: { enabled: false } },
        scales: { x, y: { afterFit: (axis) => { axis.width = 62; }, ticks: { maxTicksLimit: 6, callback: (value) => compact.format(value) } } },
        elements: { point: { radius: 0, hitRadius: 0 }, line: { borderWidth: 1.6 } },
      },
    });
  }

  // Bands of faults, and the instant over which the pointer is.
  mark({ ctx, chartArea, scales }) {
    ctx.save();
    ctx.fillStyle = ink("band");
    for (const [first, last] of this.faults) {
      const left = Math.max(chartArea.left, scales.x.getPixelForValue(first));
      const right = Math.min(chartArea.right, scales.x.getPixelForValue(last));
      if (right >= left) ctx.fillRect(left, chartArea.top, Math.max(2, right - left), chartArea.bottom - chartArea.top);
    }
    if (this.instant !== null) {
      const at = scales.x.getPixelForValue(this.instant);
      ctx.strokeStyle = ink("faint");
      ctx.beginPath();
      ctx.moveTo(at, chartArea.top);
      ctx.lineTo(at, chartArea.bottom);
      ctx.stroke();
    }
    ctx.restore();
  }

  draw() {
    if (document.hidden) return; // it is drawn once the tab is seen
    const spans = [...this.values.values()].filter((it) => it.length).map((it) => [it[0][0], it[it.length - 1][1]]);
    const edges = [...spans, ...this.faults.slice(-1)];
    const least = Math.min(...edges.map(([first]) => first));
    const most = Math.max(...edges.map(([, last]) => last));
    for (const [column, { chart }] of this.columns) {
      chart.data.datasets = [...this.lines].map(([number, label]) => {
        const { colour, dash } = styleOf(number);
        const data = this.points(number, column);
        const few = data.length < 60 ? 2 : 0;
        return { label, data, borderColor: colour, backgroundColor: colour, borderDash: dash, spanGaps: false, pointRadius: few };
      });
      const { x, y } = chart.options.scales;
      for (const axis of [x, y]) {
        axis.ticks.color = ink("faint");
        axis.grid = { color: ink("rule"), borderColor: ink("rule") };
      }
      if (edges.length) {
        x.min = least;
        x.max = most > least ? most : least + 1;
      }
      chart.update("none");
    }
    this.legend.replaceChildren(...[...this.lines].map(([number, label]) => {
      const item = document.createElement("li");
      item.append(swatch(number), label);
      return item;
    }).filter((it) => it.textContent));
    if (!this.hover.hidden) this.showHover();
  }

  // The values of lines at an instant.
  at(instant, column) {
    const found = new Map();
    for (const number of this.lines.keys()) {
      const span = nearest(this.values.get(number + " " + column) || [], instant);
      if (span && span[0] <= instant && instant <= span[1]) found.set(number, span[2]);
    }
    return found;
  }

  point(event, column) {
    const { chart } = this.columns.get(column);
    const asked = Math.round(chart.scales.x.getValueForPixel(event.offsetX));
    // the nearest instant at which a line has a value
    const edges = [...this.values.values()].map((it) => nearest(it, asked)).filter(Boolean)
      .map(([first, last]) => Math.min(Math.max(asked, first), last));
    if (!edges.length) return this.leave();
    this.instant = edges.reduce((best, it) => (Math.abs(it - asked) < Math.abs(best - asked) ? it : best));
    this.hovered = column;
    this.showHover();
    for (const other of this.columns.values()) other.chart.draw();
  }

  leave() {
    this.instant = null;
    this.hover.hidden = true;
    for (const { chart } of this.columns.values()) chart.draw();
  }

  showHover() {
    if (this.instant === null) return;
    const columns = [...this.columns];
    const values = columns.map(([column]) => this.at(this.instant, column));
    const rank = values[columns.findIndex(([column]) => column === this.hovered)];
    const numbers = [...this.lines.keys()].filter((number) => values.some((it) => it.has(number)));
    numbers.sort((one, other) => (rank.get(other) ?? -Infinity) - (rank.get(one) ?? -Infinity));
    const table = document.createElement("table");
    const rows = numbers.map((number) => {
      const name = element("td", "");
      name.append(swatch(number), this.lines.get(number));
      return [name, ...values.map((it) => element("td", it.has(number) ? it.get(number).toLocaleString() : "", "number"))];
    });
    const heads = [element("th", instantText(this.instant, this.epoch)), ...columns.map(([, { name }]) => element("th", name, "number"))];
    table.append(...[heads, ...rows].map((cells) => {
      const row = document.createElement("tr");
      row.append(...cells);
      return row;
    }));
    this.hover.replaceChildren(table);
    this.hover.hidden = false;
    this.place();
  }

  // Beside the pointer's instant, on the side that has more room.
  place() {
    const { chart } = this.columns.get(this.hovered);
    const at = chart.scales.x.getPixelForValue(this.instant), wide = this.box.clientWidth;
    const top = chart.canvas.getBoundingClientRect().top - this.box.getBoundingClientRect().top;
    this.hover.style.top = top + "px";
    this.hover.style.left = at < wide / 2 ? Math.min(at + 12, Math.max(0, wide - this.hover.offsetWidth)) + "px" : Math.max(0, at - 12 - this.hover.offsetWidth) + "px";
  }
}

// The span that has an instant, or stands nearest to it.
function nearest(spans, instant) {
  let low = 0, high = spans.length - 1;
  while (low < high) {
    const middle = (low + high + 1) >> 1;
    if (spans[middle][0] <= instant) low = middle;
    else high = middle - 1;
  }
  const [here, next] = [spans[low], spans[low + 1]];
  if (!here || !next || instant <= here[1]) return here;
  return next[0] - instant < instant - here[1] ? next : here;
}
