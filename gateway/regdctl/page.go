package main

import "html/template"

// graphPage is a page without references to other files: the tree of a book, which can be searched, the view of each
// agent, and the findings of check.
var graphPage = template.Must(template.New("page").Parse(`<!DOCTYPE html>
<html lang="en">
<head>
<meta charset="utf-8">
<meta http-equiv="Content-Security-Policy"
  content="default-src 'none'; style-src 'unsafe-inline'; script-src 'unsafe-inline'">
<meta name="viewport" content="width=device-width">
<title>{{.Domain}} at commit {{.Place}}</title>
<style>
body { font: 15px/1.5 sans-serif; margin: 0 auto; max-width: 72em; padding: 1em; color: #222; background: #fff; }
header { display: flex; flex-wrap: wrap; gap: 1em; align-items: baseline; }
h1 { font-size: 1.3em; margin: 0; }
input, select { font: inherit; padding: .3em; }
details { margin-left: 1.2em; }
.leaf { margin-left: 2.4em; }
.name { font-weight: bold; }
.selectors { color: #555; font-size: .85em; margin-left: .6em; }
.id { color: #767676; font: .8em monospace; margin-left: .6em; }
.unserved .name { color: #b00000; }
.tag { border: 1px solid #999; border-radius: .6em; padding: 0 .4em; font-size: .75em; margin-left: .5em; }
table { border-collapse: collapse; }
td, th { text-align: left; padding: .2em 1em .2em 0; vertical-align: top; }
mark { background: #ffe58a; }
</style>
</head>
<body>
<header>
<h1>{{.Domain}} at commit {{.Place}}</h1>
<label>search <input id="search" type="search" placeholder="path, selector, id"></label>
<label>view <select id="view"><option value="">all</option></select></label>
<span id="count"></span>
</header>
<main id="tree"></main>
<h2>Findings</h2>
<div id="findings"></div>
<script>
"use strict";
const graph = {{.Data}};
const below = graph.nodes.map(() => []), above = graph.nodes.map(() => 0);
for (const [from, to] of graph.edges) { below[from].push(to); above[to]++; }
const element = (name, text, kind) => {
  const found = document.createElement(name);
  if (text !== undefined) found.textContent = text;
  if (kind) found.className = kind;
  return found;
};
const marked = (text, word) => {
  const found = element("span"), at = word ? text.toLowerCase().indexOf(word) : -1;
  if (at < 0) { found.textContent = text; return found; }
  found.append(text.slice(0, at), element("mark", text.slice(at, at + word.length)), text.slice(at + word.length));
  return found;
};
const line = (node, word) => {
  const found = element("span", undefined, node.served ? "" : "unserved");
  const name = marked(node.name, word), selectors = marked(node.selectors.join(" "), word);
  name.className = "name"; selectors.className = "selectors";
  found.append(name, selectors);
  if (node.kind !== "entry") found.append(element("span", node.kind, "tag"));
  if (node.hint) found.append(element("span", "hint " + node.hint, "tag"));
  for (const domain of node.domains || []) found.append(element("span", domain, "tag"));
  if (node.kind !== "agent") { const id = marked(node.id, word); id.className = "id"; found.append(id); }
  return found;
};
const matches = (node, word) => [node.name, node.id, ...node.selectors].some(text => text.toLowerCase().includes(word));
// which nodes have a match below them, so that a search shows the way to it
const hasMatch = word => {
  const found = graph.nodes.map(node => matches(node, word)), up = graph.nodes.map(() => []);
  for (const [from, to] of graph.edges) up[to].push(from);
  const work = found.flatMap((is, n) => is ? [n] : []);
  while (work.length) for (const n of up[work.pop()]) if (!found[n]) { found[n] = true; work.push(n); }
  return found;
};
const branch = (n, word, shown, path) => {
  const node = graph.nodes[n], next = below[n].filter(m => shown[m] && !path.has(m));
  if (!next.length) { const leaf = element("div", undefined, "leaf"); leaf.append(line(node, word)); return leaf; }
  const found = element("details"), head = element("summary");
  head.append(line(node, word));
  found.append(head);
  const fill = () => { for (const m of next) found.append(branch(m, word, shown, new Set(path).add(m))); };
  if (word) { found.open = true; fill(); } else found.addEventListener("toggle", fill, {once: true});
  return found;
};
// where trees begin: agents, aliases, entries with nothing above them, and an entry of each cycle that is not below one
const allRoots = [], reached = new Set();
const reach = n => {
  const work = [n];
  while (work.length) for (const m of below[work.pop()]) if (!reached.has(m)) { reached.add(m); work.push(m); }
};
const begin = n => { allRoots.push(n); reached.add(n); reach(n); };
graph.nodes.forEach((node, n) => { if (node.kind !== "entry" || !above[n]) begin(n); });
graph.nodes.forEach((node, n) => { if (!reached.has(n)) begin(n); });
const draw = () => {
  const word = document.getElementById("search").value.trim().toLowerCase();
  const view = document.getElementById("view").value, tree = document.getElementById("tree");
  const shown = word ? hasMatch(word) : graph.nodes.map(() => true);
  const roots = view !== "" ? [+view] : allRoots;
  tree.replaceChildren(...roots.filter(n => shown[n] || view !== "").map(n => branch(n, word, shown, new Set([n]))));
  const count = word ? graph.nodes.filter(node => matches(node, word)).length : graph.nodes.length;
  document.getElementById("count").textContent = count + (word ? " found" : " rows");
};
graph.nodes.forEach((node, n) => {
  if (node.kind !== "agent") return;
  const option = element("option", node.name); option.value = n;
  document.getElementById("view").append(option);
});
const findings = document.getElementById("findings");
if (graph.findings === null || !graph.findings.length) findings.append("none");
else {
  const table = element("table");
  for (const one of graph.findings) {
    const row = element("tr");
    for (const text of [one.finding, one.identity || one.domain || "", one.text,
	one.certain ? "" : "as far as agents are known"])
      row.append(element("td", text));
    table.append(row);
  }
  findings.append(table);
}
if (!graph.complete) findings.append(element("p", "Other agents may exist: the server can't list them."));
document.getElementById("search").addEventListener("input", draw);
document.getElementById("view").addEventListener("change", draw);
draw();
</script>
</body>
</html>
`))
