"""The style of the page: for a desk, a phone, the dark and the printer."""

STYLE = """
:root{color-scheme:light dark;--ink:#1a202c;--soft:#4a5568;--line:#cbd5e0;--paper:#fff;--box:#f7fafc;--good:#22633f;\
--bad:#b32020;--warn:#8a4b10;
--yes:#effaf3;--no:#fff2f2;--open:#fff9e6;--q:#2b6cb0;--n:#fff;--one:#b7500f;--two:#6b46c1;--ring:#e02424}
@media screen and (prefers-color-scheme:dark){:root{--ink:#e6eaf0;--soft:#a9b4c4;--line:#3d4757;--paper:#14181f;\
--box:#1c222c;--good:#7fdba2;--bad:#ff9a9a;--warn:#f2bd6b;
--yes:#14291d;--no:#331a1c;--open:#2e2713;--q:#4a90d9;--n:#14181f;--one:#c2560c;--two:#8456dd;--ring:#ff6b6b}}
*{box-sizing:border-box}body{font:15px/1.5 system-ui,"DejaVu Sans",sans-serif;color:var(--ink);\
background:var(--paper);margin:0}
main{max-width:980px;margin:1.5em auto;padding:0 1em}h1{font-size:1.6em;margin:0;overflow-wrap:anywhere}\
h2{font-size:1.2em;margin:1.8em 0 .4em}p,ul,ol{margin:.5em 0}
.verdict{border-left:8px solid;padding:.6em 1em;margin:.8em 0}.yes{border-color:var(--good);background:var(--yes)}\
.no{border-color:var(--bad);background:var(--no)}.open{border-color:var(--warn);background:var(--open)}
.summary{display:grid;grid-template-columns:max-content 1fr;gap:.3em 1.2em;margin:1em 0;padding:.8em 1em;\
border:1px solid var(--line);border-radius:8px;background:var(--box)}.summary dt{font-weight:600}.summary dd{margin:0}
nav ul{list-style:none;padding:0;display:flex;flex-wrap:wrap;gap:.2em 1.2em}
table{border-collapse:collapse;width:100%;margin:.6em 0}\
th,td{text-align:left;vertical-align:top;padding:.3em .7em .3em 0;border-bottom:1px solid var(--line);\
overflow-wrap:break-word}thead th,.facts th,b{font-weight:600}tbody th{font-weight:inherit}
code,pre,.key{font:12px/1.45 ui-monospace,"DejaVu Sans Mono",monospace;overflow-wrap:anywhere}\
pre{white-space:pre-wrap;margin:.4em 0}
.small{color:var(--soft);font-size:.88em}.bad{color:var(--bad);font-weight:600}\
.good{color:var(--good);font-weight:600}.warn{color:var(--warn)}
a{color:inherit;text-decoration-color:var(--soft)}summary{cursor:pointer}.certificates{padding-left:1.2em}\
.certificates li{margin:.5em 0;overflow-wrap:anywhere}.thirds th:first-child,.thirds td:last-child{width:26%}\
.keys th,.keys td{vertical-align:baseline;padding-top:.1em;padding-bottom:.1em}\
.keys .key{white-space:nowrap;font-size:11px}
.orgs{display:grid;grid-template-columns:repeat(auto-fit,minmax(max(150px,22%),1fr));gap:10px;margin:1em 0 10px}\
.org{border:1px solid var(--line);border-radius:8px;background:var(--box);padding:.4em .6em .6em;min-width:0}
.org h3{font-size:.87em;margin:0 0 .4em;overflow-wrap:anywhere}\
.org ul{list-style:none;margin:0;padding:0;display:flex;flex-wrap:wrap;gap:.45em .3em}
.org li{width:62px;text-align:center;font-size:.72em;line-height:1.25;overflow-wrap:anywhere}.rest li{width:auto}\
.rest li .dot{width:14px;height:14px;margin:0;line-height:11px;font-size:9px}
.dot{display:block;width:22px;height:22px;margin:2px auto 7px;border-radius:50%;border:1.5px solid var(--soft);\
background:var(--n);font:700 11px/19px system-ui,sans-serif;color:#fff;text-align:center;\
-webkit-print-color-adjust:exact;print-color-adjust:exact}
.q{background:var(--q)}.u{color:var(--soft)}.down{border:2px dashed var(--bad);color:var(--ink)}.q.down{color:#fff}\
.node{unicode-bidi:isolate}.one{background:var(--one)}.two{background:var(--two)}.x{border-style:dashed;opacity:.75}\
.ring{box-shadow:0 0 0 2px var(--box),0 0 0 4.5px var(--ring)}
.legend{list-style:none;padding:0;display:flex;flex-wrap:wrap;gap:.3em 1.4em;font-size:.85em}\
.legend .dot{display:inline-block;vertical-align:middle;width:15px;height:15px;margin:0 .7em 0 5px;line-height:13px;\
font-size:9px}.legend .ring{margin-right:1em}
.hidden{position:absolute;width:1px;height:1px;overflow:hidden;clip-path:inset(50%);white-space:nowrap}
@media screen and (max-width:700px){.orgs{grid-template-columns:repeat(2,1fr)}.summary{grid-template-columns:1fr}\
.summary dd{margin-bottom:.4em}th,td{padding-right:.4em}.facts th{width:32%}main{padding:0 .7em}\
.keys{table-layout:fixed}.keys th,.keys td{overflow-wrap:anywhere}.keys thead th{font-size:.72em;width:22%}\
.keys thead th:nth-child(2){width:26%}.keys thead th:nth-child(3){width:18%}\
.keys .key{font-size:9.5px;white-space:normal}}
.verdict p{margin:.2em 0}.summary+h3{margin-top:1.2em}
@media print{:root{color-scheme:light}body{font-size:10px}main{max-width:none;margin:0;padding:0}\
nav,a.small,details:not([open]){display:none}.summary{grid-template-columns:max-content 1fr}.orgs li{width:44px}
h1,h2,h3,h2+p{break-after:avoid}tr,li,.verdict,.summary,.org{break-inside:avoid}thead{display:table-header-group}\
a{text-decoration:none}code,pre,.key,.keys .key{font-size:8px}.keys th,.keys td{padding:0 .5em 0 0;line-height:1.35}
.verdict,.summary,.org{-webkit-print-color-adjust:exact;print-color-adjust:exact}}
"""
