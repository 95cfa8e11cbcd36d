/* Measured within the page, in milliseconds: a sum that takes the processor alone, */
const begun = performance.now(); let sum = 0;
for (let at = 0; at < 1e7; at++) sum = (sum * 31 + at) % 1000003;
return sum < 0 ? 0 : performance.now() - begun;
// --
/* the time from a click to the first rows of a list and to all of them, and the longest task on the way, */
const [address, rows, done] = arguments, tasks = [0];
new PerformanceObserver(list => tasks.push(...list.getEntries().map(entry => entry.duration))).observe({ type: "longtask" });
const count = () => document.querySelectorAll("tbody tr").length;
document.querySelector("#view").replaceChildren();
const begun = performance.now(); let first = null;
document.querySelector(`#nav a[href='${address}']`).click();
const look = () => {
  if (first === null && count() > 0) first = performance.now() - begun;
  if (count() < rows) requestAnimationFrame(look);
  else setTimeout(() => done({ first: Math.round(first), all: Math.round(performance.now() - begun), longest: Math.round(Math.max(...tasks)) }), 300);
};
look();
// --
/* and the longest task while a text is typed and taken away again. */
const [typed, done] = arguments, tasks = [0], field = document.querySelector("input[type=search]");
new PerformanceObserver(list => tasks.push(...list.getEntries().map(entry => entry.duration))).observe({ type: "longtask" });
const steps = [...typed].map((_, i) => typed.slice(0, i + 1)).concat("");
const next = () => {
  if (steps.length === 0) return setTimeout(() => done({ longest: Math.round(Math.max(...tasks)) }), 900);
  field.value = steps.shift();
  field.dispatchEvent(new Event("input"));
  setTimeout(next, 120);
};
next();
