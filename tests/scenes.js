"use strict";
// Answers calls of the page's code on a drawing, for tests/browsed.py: what each returned, and how
// much processor time they took, in seconds.
const Scene = require(process.argv[2]);
let given = "";
process.stdin.on("data", (it) => { given += it; });
process.stdin.on("end", () => {
  const [text, calls] = JSON.parse(given), begun = process.cpuUsage();
  const drawing = JSON.parse(text), index = Scene.indexed(drawing);
  const first = { scene: [index], overview: [index], found: [index], markup: [], straight: [] };
  const answers = calls.map(([name, ...rest]) => Scene[name](...(first[name] || [drawing]), ...rest));
  const { user, system } = process.cpuUsage(begun);
  process.stdout.write(JSON.stringify([answers, (user + system) / 1e6]));
});
