"""How a page looks, and its script: to zoom and move pictures."""

STYLE = """
:root {
  color-scheme: light dark;
  --paper: #ffffff; --text: #1b1f24; --quiet: #59626d; --rule: #d3d8de; --panel: #f5f6f8;
  --shot: #2c67b2; --fill: rgba(44, 103, 178, .22); --ink: rgb(44, 103, 178); --sliver: #c4261d;
  --mark: #b35c00;
  --good: #1a6b3c; --bad: #b3261e; --warn: #8a5300;
}
@media (prefers-color-scheme: dark) {
  :root {
    --paper: #14171b; --text: #e3e6ea; --quiet: #9ba5b0; --rule: #363c44; --panel: #1b1f24;
    --shot: #74a9e6; --fill: rgba(116, 169, 230, .25); --ink: rgb(116, 169, 230); --sliver: #ff7367;
    --mark: #f0a23c;
    --good: #6cc894; --bad: #ff7d72; --warn: #eab04f;
  }
}
@media print {
  :root {
    color-scheme: light;
    --paper: #fff; --text: #000; --quiet: #333; --rule: #999; --panel: #fff;
    --shot: #2c67b2; --fill: rgba(44, 103, 178, .22); --ink: rgb(44, 103, 178); --sliver: #c4261d;
    --mark: #b35c00;
    --good: #000; --bad: #000; --warn: #000;
  }
}
* { box-sizing: border-box; }
body { margin: 0; background: var(--paper); color: var(--text);
  font: 15px/1.5 system-ui, "Segoe UI", "Liberation Sans", "DejaVu Sans", sans-serif; }
main { max-width: 1120px; margin: 0 auto; padding: 28px 24px 60px; }
h1 { font-size: 25px; line-height: 1.25; margin: 0 0 4px; overflow-wrap: anywhere; }
h2 { font-size: 19px; margin: 44px 0 10px; padding-top: 12px; border-top: 2px solid var(--text);
  overflow-wrap: anywhere; }
h3 { font-size: 15px; margin: 26px 0 8px; }
p { margin: 6px 0; max-width: 78ch; }
a { color: inherit; text-decoration-color: var(--quiet); text-underline-offset: 2px; }
.quiet, caption, figcaption, .legend { color: var(--quiet); }
code, pre, .sum { font-family: ui-monospace, "Liberation Mono", "DejaVu Sans Mono", monospace;
  font-size: 12.5px; }
pre { background: var(--panel); border: 1px solid var(--rule); padding: 10px 12px; overflow-x: auto;
  margin: 8px 0; }
.sum { overflow-wrap: anywhere; min-width: 33ch; }
.says { border: 1px solid var(--rule); border-left: 6px solid var(--good); background: var(--panel);
  padding: 12px 18px;
  margin: 20px 0 8px; }
.says.bad { border-left-color: var(--bad); }
.says.warn { border-left-color: var(--warn); }
.says h2 { border: 0; margin: 0 0 6px; padding: 0; font-size: 17px; }
.says ul { margin: 6px 0; padding-left: 22px; }
.verdict { font-weight: 600; }
.good { color: var(--good); } .bad > .verdict, td.bad { color: var(--bad); }
.is-warning { color: var(--warn); font-weight: 600; }
.wide { overflow-x: auto; }
table { border-collapse: collapse; margin: 8px 0 14px; font-variant-numeric: tabular-nums; }
caption { text-align: left; padding: 4px 0; }
th, td { padding: 4px 14px 4px 0; text-align: left; vertical-align: top;
  border-bottom: 1px solid var(--rule); }
thead th { border-bottom: 1.5px solid var(--text); vertical-align: bottom; font-weight: 600; }
tbody th { font-weight: 400; }
.number { text-align: right; white-space: nowrap; }
th .unit { font-weight: 400; color: var(--quiet); }
.facts th { color: var(--quiet); white-space: nowrap; }
.pictures, .histograms, .told { display: grid; grid-template-columns: minmax(0, 1fr) minmax(0, 1fr); }
.pictures { gap: 26px 30px; align-items: start; }
figure { margin: 0; min-width: 0; }
figcaption { color: var(--text); font-weight: 600; margin-bottom: 6px; display: flex; align-items: end;
  min-height: 30px; }
figcaption .tools { margin-left: auto; white-space: nowrap; }
.tools button { font: inherit; font-weight: 400; font-size: 13px; line-height: 1; color: var(--text);
  background: var(--panel);
  border: 1px solid var(--rule); padding: 6px 9px; margin-left: 4px; cursor: pointer; }
.tools button:hover { border-color: var(--quiet); }
figure svg { display: block; width: 100%; height: auto; border: 1px solid var(--rule);
  background: var(--paper);
  print-color-adjust: exact; -webkit-print-color-adjust: exact; }
figure svg:focus-visible { outline: 2px solid var(--shot); outline-offset: 1px; }
.shot { fill: var(--fill); stroke: var(--shot); stroke-width: .8; vector-effect: non-scaling-stroke; }
.sliver { fill: var(--sliver); stroke: var(--sliver); stroke-width: 1.6; vector-effect: non-scaling-stroke;
  }
.ink { fill: var(--ink); }
.ink rect { shape-rendering: crispEdges; }
.mark, .field { fill: none; stroke: var(--mark); stroke-width: 1.6; vector-effect: non-scaling-stroke; }
.field { stroke: var(--quiet); stroke-width: 1; stroke-dasharray: 4 3; }
.wrong { fill: none; stroke: var(--sliver); stroke-width: 3; vector-effect: non-scaling-stroke; }
.near image { image-rendering: pixelated; }
.told { gap: 0 30px; }
.scale { display: flex; align-items: center; gap: 8px; margin: 6px 0 2px; max-width: none; font-size: 13px;
  min-height: 22px; }
.bar { display: block; flex: none; height: 7px; border: 1.5px solid var(--text); border-top: 0; }
.place { margin-left: auto; color: var(--quiet); font-variant-numeric: tabular-nums; white-space: nowrap; }
.legend { font-size: 13px; margin: 2px 0 0; }
.swatches { display: flex; flex-wrap: wrap; gap: 2px 10px; font-size: 12px; margin: 4px 0; }
.swatches i { display: inline-block; width: 15px; height: 11px; margin-right: 4px;
  border: 1px solid var(--rule);
  position: relative; vertical-align: -1px; }
.swatches i b { position: absolute; inset: 0; background: var(--ink); }
.swatches i b, .counts i { print-color-adjust: exact; -webkit-print-color-adjust: exact; }
.histograms { gap: 8px 30px; align-items: start; }
.counts { width: 100%; font-size: 13px; }
.counts td, .counts th { padding: 1px 10px 1px 0; border-bottom: 0; }
.counts thead th { border-bottom: 1px solid var(--rule); font-weight: 600; }
.counts .bars { width: 50%; vertical-align: middle; white-space: nowrap; line-height: 0; }
.counts i { display: inline-block; height: 11px; background: var(--shot); min-width: 1.5px; }
.counts i.thin { background: var(--sliver); }
details summary { cursor: pointer; }
@media screen and (max-width: 720px) {
  .pictures, .histograms, .told { grid-template-columns: minmax(0, 1fr); }
  main { padding: 18px 14px 40px; }
  body { font-size: 14px; }
  th, td { padding-right: 10px; }
  .facts th { white-space: normal; }
}
@media print {
  @page { margin: 13mm; }
  body { font-size: 9pt; line-height: 1.35; }
  main { max-width: none; padding: 0 2px; }
  .tools, .place, .screen, details summary { display: none; }
  h1 { font-size: 16pt; }
  h2 { font-size: 12pt; margin-top: 14px; padding-top: 6px; break-after: avoid; }
  h3 { font-size: 9.5pt; margin: 10px 0 4px; }
  h3, caption { break-after: avoid; }
  p { margin: 3px 0; }
  th, td { padding: 2px 10px 2px 0; }
  table { margin: 4px 0 8px; }
  section.output { break-before: page; }
  section.output > h2 { margin-top: 0; }
  figure, tr, .short, .says, .histogram, .told > div { break-inside: avoid; }
  thead { display: table-header-group; }
  .wide, pre { overflow: visible; }
  pre { white-space: pre-wrap; padding: 5px 8px; }
  code, pre { font-size: 7.5pt; line-height: 1.3; }
  .sum { font-size: 6.8pt; }
  .pictures, .histograms, .told { grid-template-columns: 1fr 1fr; gap: 10px 18px; }
  figcaption { min-height: 0; margin-bottom: 3px; }
  .counts { font-size: 7.5pt; }
  .counts td, .counts th { padding: 0 8px 0 0; }
  .counts i { height: 8px; }
  .legend, .scale, .swatches { font-size: 7.5pt; margin: 2px 0; }
}
"""

SCRIPT = """
(function () {
  "use strict";
  var KEYS = { ArrowLeft: [-1, 0], ArrowRight: [1, 0], ArrowUp: [0, -1], ArrowDown: [0, 1] };

  // Of 1, 2, 5, 10 .. micrometres the greatest that takes at most a third of this many half units.
  function barLength(wide, unit) {
    var best = 1e-6;
    for (var power = -6; power < 8; power++) {
      [1, 2, 5].forEach(function (step) {
        var length = step * Math.pow(10, power);
        if (3 * length * unit <= wide) { best = length; }
      });
    }
    return best;
  }

  function said(micrometres, digits) {
    return micrometres.toLocaleString("en-US", { maximumFractionDigits: digits });
  }

  function prepare(figure) {
    var svg = figure.querySelector("svg"), bar = figure.querySelector(".bar");
    var word = figure.querySelector(".length"), place = figure.querySelector(".place");
    var whole = svg.getAttribute("viewBox").split(" ").map(Number), at = whole.slice();
    var unit = Number(svg.dataset.unit), held = null;

    function show() {
      svg.setAttribute("viewBox", at.join(" "));
      var length = barLength(at[2], unit);
      bar.style.width = 100 * length * unit / at[2] + "%";
      word.textContent = said(length, 6) + " \\u00b5m";
      var isZoomed = at[2] < whole[2];
      svg.classList.toggle("near", isZoomed);
      svg.style.cursor = isZoomed ? "grab" : "";
      svg.style.touchAction = isZoomed ? "none" : "";
    }

    // Moves the left upper corner, and stays within the whole.
    function move(x, y) {
      at[0] = Math.min(Math.max(x, 0), whole[2] - at[2]);
      at[1] = Math.min(Math.max(y, 0), whole[3] - at[3]);
      show();
    }

    // Enlarges by the factor; the point (x, y) stays where it is.
    function zoom(factor, x, y) {
      var wide = Math.min(Math.max(at[2] / factor, whole[2] / 1000), whole[2]), ratio = wide / at[2];
      var left = x - (x - at[0]) * ratio, top = y - (y - at[1]) * ratio;
      at[2] = wide;
      at[3] = whole[3] * wide / whole[2];
      move(left, top);
    }

    function zoomMiddle(factor) { zoom(factor, at[0] + at[2] / 2, at[1] + at[3] / 2); }

    function point(event) {
      var box = svg.getBoundingClientRect();
      return [at[0] + (event.clientX - box.left) / box.width * at[2],
        at[1] + (event.clientY - box.top) / box.height * at[3]];
    }

    function button(text, title, action) {
      var made = document.createElement("button");
      made.type = "button";
      made.textContent = text;
      made.title = title;
      made.setAttribute("aria-label", title);
      made.addEventListener("click", action);
      return made;
    }

    var tools = document.createElement("span");
    tools.className = "tools";
    tools.appendChild(button("+", "enlarge", function () { zoomMiddle(2); }));
    tools.appendChild(button("\\u2212", "reduce", function () { zoomMiddle(0.5); }));
    tools.appendChild(button("all", "show all", function () { at = whole.slice(); show(); }));
    figure.querySelector("figcaption").appendChild(tools);

    svg.addEventListener("wheel", function (event) {
      if (!event.ctrlKey && !event.metaKey) { return; }
      event.preventDefault();
      var here = point(event);
      zoom(event.deltaY < 0 ? 1.25 : 0.8, here[0], here[1]);
    }, { passive: false });
    svg.addEventListener("dblclick", function (event) {
      var here = point(event);
      zoom(2, here[0], here[1]);
    });
    svg.addEventListener("pointerdown", function (event) {
      if (event.button === 0 && at[2] < whole[2]) {
        held = point(event);
        svg.setPointerCapture(event.pointerId);
      }
    });
    svg.addEventListener("pointermove", function (event) {
      var here = point(event);
      if (held) {
        move(at[0] + held[0] - here[0], at[1] + held[1] - here[1]);
      } else {
        place.textContent = "x " + said((Number(svg.dataset.left) + here[0]) / unit, 4) + "  y "
          + said((Number(svg.dataset.top) - here[1]) / unit, 4) + " \\u00b5m";
      }
    });
    ["pointerup", "pointercancel"].forEach(function (name) {
      svg.addEventListener(name, function () { held = null; });
    });
    svg.addEventListener("pointerleave", function () { place.textContent = ""; });
    svg.addEventListener("keydown", function (event) {
      var way = KEYS[event.key];
      if (event.ctrlKey || event.metaKey || event.altKey) { return; }
      if (way && at[2] < whole[2]) { move(at[0] + way[0] * at[2] / 8, at[1] + way[1] * at[3] / 8); }
      else if (event.key === "+" || event.key === "=") { zoomMiddle(2); }
      else if (event.key === "-") { zoomMiddle(0.5); }
      else if (event.key === "0") { at = whole.slice(); show(); }
      else { return; }
      event.preventDefault();
    });
  }

  document.querySelectorAll("figure").forEach(prepare);
  window.addEventListener("beforeprint", function () {
    document.querySelectorAll("details").forEach(function (part) { part.open = true; });
  });
  document.documentElement.dataset.ready = "yes";
})();
"""
