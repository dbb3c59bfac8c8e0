// Completes the names of stops as they are typed, and swaps both ends. Without it, the page asks which stop is meant.
"use strict";

const form = document.querySelector("form");

function completed(input) {
  const list = document.getElementById(`${input.id}-stops`);
  let timer = 0;
  let asked = 0;
  input.addEventListener("input", () => {
    clearTimeout(timer);
    timer = setTimeout(async () => {
      const text = input.value.trim();
      const number = ++asked;
      const reply = text ? await fetch(`${form.dataset.stops}?q=${encodeURIComponent(text)}`).catch(() => null) : null;
      const stops = reply && reply.ok ? await reply.json() : [];
      // a reply that comes after a later one is of a text that isn't there any more
      if (number === asked) {
        list.replaceChildren(...stops.map((stop) => Object.assign(document.createElement("option"), { value: stop.label })));
      }
    }, 120);
  });
}

const from = document.getElementById("from");
const to = document.getElementById("to");
const swap = document.getElementById("swap");
[from, to].forEach(completed);
swap.hidden = false;
swap.addEventListener("click", () => {
  [from.value, to.value] = [to.value, from.value];
});
