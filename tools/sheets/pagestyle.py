"""The style of a table's page. The text alone says what colours and patterns say, so that it can be printed in black."""

# What a box or a block is.
AGREE, IN_PART, DIFFER, UNREAD, NO_ROW, ABSENT = "agree", "part", "differ", "unread", "none", "absent"

STYLE = """
* { box-sizing: border-box; }
html { font-size: 16px; }
body { margin: 0 auto; max-width: 84rem; padding: 1.5rem; color: #111; background: #fff; overflow-wrap: anywhere;
  font: 1rem/1.45 system-ui, "Segoe UI", "DejaVu Sans", sans-serif; }
h1 { margin: 0 0 1rem; padding-left: .9rem; font-size: clamp(1.5rem, 4vw, 2.4rem); line-height: 1.2; }
h2 { margin: 2rem 0 .6rem; font-size: 1.3rem; }
h3 { margin: 1.6rem 0 .2rem; font-size: 1.1rem; break-after: avoid; }
h4 { margin: 0 0 .4rem; font-size: 1rem; }
p { margin: .4rem 0; }
a { color: #163f75; }
code, td { font-family: ui-monospace, "DejaVu Sans Mono", Menlo, Consolas, monospace; font-size: .94em; }

.facts { display: grid; grid-template-columns: max-content 1fr; gap: .1rem 1rem; margin: 0 0 1rem; }
.facts dt { color: #444; }
.facts dd { margin: 0; }
.sums { display: flex; flex-wrap: wrap; gap: 6px; margin: 0; padding: 0; list-style: none; }
.sums li { flex: 1 1 11rem; padding: .4rem .6rem; }
.sums b, .sums small { display: block; line-height: 1.3; }
.sums small, .box small, .state { font-size: .82rem; }

.agree, .part, .differ, .unread, .none, .absent { border: 1px solid #777; border-radius: 3px; }
.agree { background: #dcefdc; border-color: #5b8a5b; }
.part { background: repeating-linear-gradient(135deg, #e6f3e6 0 5px, #fff 5px 12px); border-color: #5b8a5b; }
.differ { background: #f8d3cb; border: 3px solid #7c1408; }
.unread { background: #fdf0c2; border: 2px dashed #6b5200; }
.none { background: #fff; border-color: #bbb; color: #444; }
.absent { background: repeating-linear-gradient(45deg, #e2e2e2 0 4px, #f3f3f3 4px 8px); }
h1.agree, h1.differ, h1.unread { background: none; border-width: 0 0 0 .6rem; border-radius: 0; }
h1.differ { border-color: #a11d0c; }
h1.unread { border-color: #a88400; }

.boxes { display: grid; grid-template-columns: repeat(8, minmax(0, 1fr)); gap: 6px; }
.box { display: flex; flex-direction: column; min-height: 5.3rem; padding: .35rem .5rem; }
a.box { color: inherit; text-decoration: none; }
.box b { font-size: .9rem; line-height: 1.25; margin-bottom: .15rem; }
a.box .state { text-decoration: underline; }
a:focus-visible, a.box:hover, section:target h3 { outline: 3px solid #1d4f91; outline-offset: 2px; }

article { margin: .6rem 0; padding: .6rem .9rem; break-inside: avoid; }
.halves { display: grid; grid-template-columns: repeat(2, minmax(0, 1fr)); gap: 0 2rem; }
.halves > :only-child { grid-column: 1 / -1; }
article.part, article.differ, article.unread { background: #fff; border: 1px solid #999; border-radius: 0; }
article.differ { border-left: 8px solid #a11d0c; }
article.unread { border-left: 8px dashed #a88400; }
article.part { border-left: 8px double #5b8a5b; }
article table { border-collapse: collapse; margin: .3rem 0; overflow-wrap: normal; }
article th, article td { padding: .1rem 1.2rem .1rem 0; text-align: left; vertical-align: top; font-weight: normal; }
article thead th { color: #444; font-size: .82rem; }
.note { font-style: italic; }
.back { margin-left: .8rem; font-weight: normal; font-size: .82rem; }

@media screen and (max-width: 64rem) { .boxes { grid-template-columns: repeat(4, minmax(0, 1fr)); } }
@media screen and (max-width: 36rem) {
  body { padding: .8rem; }
  .boxes { grid-template-columns: repeat(2, minmax(0, 1fr)); }
  .facts { grid-template-columns: 1fr; gap: 0; }
  .facts dd { margin-bottom: .3rem; }
  .halves { grid-template-columns: 1fr; }
}
@page { size: A4; margin: 12mm; }
@media print {
  html { font-size: 9pt; }
  body { max-width: none; padding: 0 .3mm; print-color-adjust: exact; -webkit-print-color-adjust: exact; }
  h1 { font-size: 18pt; }
  h2 { break-after: avoid; }
  .boxes { gap: 1mm; break-inside: avoid; }
  .box { min-height: 17mm; padding: .6mm 1mm; }
  .box b { font-size: 7.5pt; }
  .sums small, .box small, .state { font-size: 7pt; }
  .looked-at { break-before: page; margin-top: 0; }
  .screen, .back { display: none; }
  a, a.box .state { color: inherit; text-decoration: none; }
}
"""
