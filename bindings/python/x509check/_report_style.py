"""The style and the script of a report. Both are constants, so that the page's content security policy can name their digests."""

STYLE = """
:root { --paper: #ffffff; --ink: #1b1f24; --soft: #57606a; --line: #c4cbd3; --panel: #f4f6f8;
  --good: #12652f; --bad: #a01220; --open: #7a4b00; --none: #4b5563; }
@media (prefers-color-scheme: dark) {
  :root { --paper: #14181d; --ink: #e6e9ed; --soft: #a3adb8; --line: #434c56; --panel: #1d232a;
    --good: #6fd08c; --bad: #ff9199; --open: #e8b45a; --none: #b4bcc6; } }
* { box-sizing: border-box; }
html { background: var(--paper); color: var(--ink); font: 16px/1.5 system-ui, sans-serif; }
body { max-width: 66rem; margin: 0 auto; padding: 1.5rem 1rem 4rem; }
h1 { font-size: 1.5rem; margin: 0 0 .5rem; overflow-wrap: anywhere; }
h2 { font-size: 1.2rem; margin: 2.2rem 0 .6rem; border-bottom: 1px solid var(--line); padding-bottom: .2rem; }
h3 { font-size: 1rem; margin: 0 0 .4rem; overflow-wrap: anywhere; }
p { margin: .4rem 0; }
code, .octets { font: .85em/1.45 ui-monospace, monospace; overflow-wrap: anywhere; }
.verdict { border-left: .5rem solid; background: var(--panel); padding: .7rem 1rem; margin: 1rem 0; }
.verdict strong { font-size: 1.35rem; }
.good { color: var(--good); border-color: var(--good); } .bad { color: var(--bad); border-color: var(--bad); }
.open { color: var(--open); border-color: var(--open); } .none { color: var(--none); border-color: var(--none); }
.verdict p { color: var(--ink); }
.soft { color: var(--soft); }
.cards { display: grid; gap: 1rem; margin-top: 1rem; grid-template-columns: repeat(auto-fill, minmax(19rem, 1fr)); }
.card { border: 1px solid var(--line); padding: .8rem 1rem; }
dl { display: grid; grid-template-columns: max-content 1fr; gap: .15rem .8rem; margin: 0; }
dt { color: var(--soft); } dd { margin: 0; overflow-wrap: anywhere; }
.wide { overflow-x: auto; }
table { border-collapse: collapse; width: 100%; } caption { text-align: left; color: var(--soft); padding-bottom: .3rem; }
th, td { text-align: left; vertical-align: top; padding: .3rem .8rem .3rem 0; border-bottom: 1px solid var(--line); overflow-wrap: break-word; }
tr.now { background: var(--panel); }
ol.values { list-style: none; padding: 0; margin: .4rem 0; } .meant { font-weight: bold; color: var(--bad); }
svg { display: block; max-width: 100%; height: auto; } svg text { font: 13px system-ui, sans-serif; fill: var(--ink); }
svg .small { font-size: 11px; fill: var(--soft); } svg .box { fill: var(--panel); stroke: var(--line); }
svg .arrow { stroke: var(--soft); stroke-width: 1.5; fill: none; } svg .head { fill: var(--soft); }
svg .good { fill: var(--good); } svg .bad { fill: var(--bad); } svg .open { fill: var(--open); } svg .none { fill: var(--none); }
svg text.good, svg text.bad, svg text.open, svg text.none { font-weight: bold; }
svg .cell { stroke: var(--paper); stroke-width: 1; } svg text.on { fill: var(--paper); font-weight: bold; }
svg .bar { fill: var(--soft); } svg .moment { stroke: var(--ink); stroke-width: 2; }
.two { display: grid; gap: 1.5rem; grid-template-columns: repeat(auto-fit, minmax(20rem, 1fr)); }
input[type=range] { width: 100%; height: 2rem; } input:focus-visible, summary:focus-visible, a:focus-visible { outline: 3px solid var(--open); }
details { margin: .4rem 0; } summary { cursor: pointer; }
@media print { body { max-width: none; padding: 0; } #slider { display: none; } h2 { break-after: avoid; } .card, tr { break-inside: avoid; } }
"""

# The slider goes over the rows of the table of stretches, and says what the row says.
SCRIPT = """
"use strict";
(function () {
  const rows = Array.from(document.querySelectorAll("#stretches tbody tr"));
  const box = document.getElementById("slider"), slider = document.getElementById("moment"), said = document.getElementById("said");
  const line = document.getElementById("line");
  if (!box || rows.length < 2) { return; }
  function show() {
    const row = rows[Number(slider.value)];
    rows.forEach(function (other) { other.classList.toggle("now", other === row); });
    said.textContent = row.dataset.said;
    slider.setAttribute("aria-valuetext", said.textContent);
    if (line) { line.setAttribute("x1", row.dataset.x); line.setAttribute("x2", row.dataset.x); }
  }
  box.hidden = false;
  slider.addEventListener("input", show);
  show();
}());
"""
