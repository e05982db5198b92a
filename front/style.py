"""The page's style: a light and a dark scheme, and one for paper."""

# Blue, vermilion and green are after Okabe and Ito, whom colour-blind readers can follow, darker or lighter where the paper asks for it. What differs by colour
# differs by thickness, height, dashes or hatching too.
STYLE = """
:root {
  color-scheme: light dark; --paper: #ffffff; --ink: #1a1a1a; --soft: #5c5c5c; --faint: #d5d5d5; --given: #0072b2; --needed: #c04a00;
  --wrong: #5c5c5c; --work: #009e73; --mark: #fff1d6;
}
@media (prefers-color-scheme: dark) {
  :root {
    --paper: #16181b; --ink: #ececec; --soft: #b0b0b0; --faint: #3c4046; --given: #56b4e9; --needed: #ff9350; --wrong: #b0b0b0;
    --work: #2fc79a; --mark: #4a3a16;
  }
}
@media print {
  :root {
    color-scheme: light; --paper: #ffffff; --ink: #000000; --soft: #444444; --faint: #cccccc; --given: #0072b2; --needed: #c04a00;
    --wrong: #444444; --work: #007d5c; --mark: #fff1d6;
  }
}
body {
  background: var(--paper); color: var(--ink); font: 16px/1.5 system-ui, "Liberation Sans", Arial, sans-serif; max-width: 62rem;
  margin: 0 auto; padding: 1rem;
}
h1 { font-size: 1.5rem; line-height: 1.25; margin: 0.5rem 0; overflow-wrap: anywhere; }
h2 { font-size: 1.15rem; margin: 2rem 0 0.5rem; }
code, pre { font-family: ui-monospace, "Liberation Mono", monospace; font-size: 0.95em; }
.line {
  font-size: 1.15rem; padding: 0.5rem 0.8rem; border-left: 0.35rem solid var(--given);
  background: color-mix(in srgb, var(--given) 10%, var(--paper)); overflow-wrap: anywhere;
}
.miss .line, .refused .line { border-color: var(--needed); background: color-mix(in srgb, var(--needed) 10%, var(--paper)); }
figure { margin: 1rem 0; }
figcaption { color: var(--soft); font-size: 0.9rem; margin-top: 0.4rem; }
figcaption p { margin: 0.3rem 0; }
.scroll { overflow-x: auto; }
svg { display: block; width: 100%; min-width: 40rem; height: auto; }
@page { margin: 12mm; }
@media print {
  body { font-size: 11pt; padding: 0; max-width: none; }
  h2 { break-after: avoid; }
  figure, table { break-inside: avoid; }
  svg { min-width: 0; }
  .scroll { overflow: visible; }
}
ul.key { list-style: none; display: flex; flex-wrap: wrap; gap: 0.2rem 1.2rem; margin: 0.3rem 0; padding: 0; font-size: 0.9rem; }
ul.key svg { display: inline-block; width: 28px; min-width: 0; height: 14px; vertical-align: -2px; margin-right: 0.35rem; }
table { border-collapse: collapse; min-width: 26rem; font-variant-numeric: tabular-nums; }
caption { text-align: left; color: var(--soft); font-size: 0.9rem; padding-bottom: 0.4rem; }
th, td { padding: 0.15rem 0.9rem 0.15rem 0.3rem; text-align: right; border-bottom: 1px solid var(--faint); }
th { font-weight: 600; }
.words { text-align: left; }
tr.marked { background: var(--mark); font-weight: 600; }
mark { background: var(--mark); color: inherit; font-weight: 600; }
pre { columns: 16rem; margin: 0.5rem 0; white-space: pre-wrap; overflow-wrap: anywhere; }
.label { font-size: 12px; fill: var(--ink); }
.soft { font-size: 11px; fill: var(--soft); }
.strong { font-size: 13px; font-weight: 600; fill: var(--ink); }
.warn { font-size: 13px; font-weight: 600; fill: var(--needed); }
.axis { stroke: var(--soft); stroke-width: 1; }
.grid { stroke: var(--faint); stroke-width: 1; }
.frame { stroke: var(--ink); stroke-width: 1.5; stroke-dasharray: 6 3; }
.marked-length { stroke: var(--needed); stroke-width: 1.5; stroke-dasharray: 2 3; }
.tight { stroke: var(--ink); stroke-width: 1.5; stroke-dasharray: 2 3; }
.given { fill: var(--given); }
.unsupplied { fill: none; stroke: var(--faint); stroke-width: 1; }
.lost { stroke: var(--given); stroke-width: 1; }
.other { fill: none; stroke: var(--soft); stroke-width: 1; stroke-dasharray: 3 2; }
.work { fill: var(--work); }
.late-work { stroke: var(--needed); stroke-width: 1.2; }
.pending { stroke: var(--work); stroke-width: 1.5; }
.late-pending { stroke: var(--needed); stroke-width: 2; }
.release { fill: none; stroke: var(--ink); stroke-width: 1.2; }
.due { fill: var(--ink); stroke: var(--ink); stroke-width: 1; }
.hatched-given { fill: none; stroke: var(--given); stroke-width: 1.2; }
.hatched-needed { fill: none; stroke: var(--needed); stroke-width: 1.2; }
.supply-curve { fill: none; stroke: var(--given); stroke-width: 4.5; }
.demand-curve { fill: none; stroke: var(--needed); stroke-width: 2; }
.wrong-curve { fill: none; stroke: var(--wrong); stroke-width: 1.2; stroke-dasharray: 5 4; }
"""
