/*
 * The styles of the picture: for the page, which has them between its own, and for a picture by
 * itself. Each word is for both.
 */
export const STYLE = `
:root {
  color-scheme: light dark;
  --paper: #fff; --ink: #1b1c20; --quiet: #595b63; --line: #d3d4da; --edge: #858792;
  --soft: #f5f5f8; --act: #0b57d0; --bad: #a1121d;
  --f0: #4c86e8; --f1: #e39440; --f2: #3fa877; --f3: #bd62ab; --f4: #a08a2c; --f5: #2fa3b3;
  --f6: #d45f57; --f7: #8173dd; --mark: #14151a;
}
@media (prefers-color-scheme: dark) {
  :root {
    --paper: #16171b; --ink: #e9eaef; --quiet: #a7a9b4; --line: #3b3d46; --edge: #7b7d89;
    --soft: #1f2026; --act: #8ab4f8; --bad: #ff9d9d;
    --f0: #467ad8; --f1: #bd7630; --f2: #318c63; --f3: #a95a9f; --f4: #8a762b; --f5: #288a99;
    --f6: #bb544e; --f7: #7368cc; --mark: #fff;
  }
}
.f0 { --c: var(--f0); } .f1 { --c: var(--f1); } .f2 { --c: var(--f2); } .f3 { --c: var(--f3); }
.f4 { --c: var(--f4); } .f5 { --c: var(--f5); } .f6 { --c: var(--f6); } .f7 { --c: var(--f7); }
.pic { display: block; font-size: 12.5px; overflow: visible; margin-bottom: 1.4rem; }
.pic text { fill: var(--ink); }
.pic .heading { font-size: 14.5px; font-weight: 600; }
.pic .title { font-size: 12.5px; font-weight: 600; }
.pic text.quiet { fill: var(--quiet); font-size: 12px; }
.pic .small, .pic .name, .pic .number { font: 10px ui-monospace, Menlo, Consolas,
  "DejaVu Sans Mono", monospace; }
.pic .name { font-size: 11.5px; font-weight: 600; white-space: pre; }
.pic .name.plain { font-weight: 400; }
.pic .strong { font-weight: 700; }
.pic .leftover text { fill: var(--quiet); }
.pic .chip, .pic .code { fill: var(--c); }
.pic .paper { fill: var(--soft); stroke: var(--line); stroke-width: 1; }
.pic .rows, .pic .leader { fill: none; stroke: var(--line); stroke-width: 1; }
.pic .leader { stroke: var(--edge); stroke-width: .8; }
.pic .dictionary { fill: var(--edge); opacity: .45; }
.pic .tables { fill: #000; opacity: .3; }
.pic .marks { fill: var(--mark); }
.pic .ink { fill: var(--edge); }
.pic .links { fill: url(#picture-links); }
.pic .unknown { fill: url(#picture-unknown); }
.pic .fault { fill: var(--bad); fill-opacity: .25; stroke: var(--bad); stroke-width: 2; }
.pic text.wrong { fill: var(--bad); font-weight: 600; }
.pic .leader.wrong { stroke: var(--bad); stroke-width: 1.5; }
.pic .strip > .text { fill: url(#picture-text); }
.pic .code.left { fill: var(--c); fill-opacity: .16; stroke: var(--c); stroke-width: 1;
  stroke-dasharray: 3 2; }
.pic .band { fill: var(--c); opacity: .22; }
.pic .choice, .pic .of-slot { cursor: pointer; }
.pic .segment .code { stroke: var(--paper); stroke-width: .7; }
.pic .hit { fill: transparent; }
.pic .frame { fill: none; stroke: none; }
.pic .choice:hover .name, .pic .choice.lit .name { text-decoration: underline; }
.pic .choice:focus { outline: none; }
.pic .choice.lit .frame { stroke: var(--ink); stroke-width: 2; }
.pic .choice:focus-visible .frame { stroke: var(--act); stroke-width: 3; }
.pic.chosen .band { opacity: .08; }
.pic.chosen .band.lit { opacity: .55; }
.pic .here { fill: var(--act); }
.pic .slot rect { fill: var(--c); fill-opacity: .2; stroke: var(--c); stroke-width: 1.5; }
.pic .slot.host rect { stroke-width: 3.5; }
.pic .slot.added rect { stroke-dasharray: 4 2.5; }
.pic .slot.plain rect { stroke: none; }
.pic .slot.empty rect { fill: none; stroke: var(--line); stroke-dasharray: 1.5 3; }
.pic .slot.empty text { fill: var(--quiet); }
.pic .slot.lit rect { stroke: var(--ink); }
.pic .bow { fill: none; stroke: var(--c); opacity: .75; }
.pic .tip { fill: var(--c); }
.pic .number { display: none; font-weight: 700; paint-order: stroke; stroke: var(--paper);
  stroke-width: 4px; }
.pic.few .number, .pic .edge.lit .number, .pic .edge:hover .number { display: inline; }
.pic.chosen .edge { opacity: .15; }
.pic.chosen .edge.lit { opacity: 1; }
.pic .own { fill: var(--edge); opacity: .3; }
.pic .private { fill: var(--c); stroke: var(--paper); stroke-width: 1; }
.pic .private.lit { stroke: var(--ink); stroke-width: 2; }
.pic .halo text { paint-order: stroke; stroke: var(--paper); stroke-width: 3px; }
.pic .inside { fill: var(--mark); pointer-events: none; }
.pic g.lit > .small { font-weight: 700; }
`;
