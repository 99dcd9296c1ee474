"use strict";
(() => {
  const tip = document.getElementById("tip");
  const texts = new Map();
  // each title becomes a label that is read aloud, and a tip that is the same for pointer and keyboard
  for (const title of document.querySelectorAll(".chart title")) {
    const owner = title.parentNode;
    texts.set(owner, title.textContent);
    owner.setAttribute("aria-label", title.textContent.replaceAll("\n", ". "));
    if (owner.hasAttribute("tabindex")) owner.setAttribute("role", "img");
    title.remove();
  }
  const ownerOf = node => {
    while (node && !texts.has(node)) node = node.parentElement;
    return node;
  };
  const show = owner => {
    tip.hidden = !owner;
    if (!owner) return;
    tip.textContent = texts.get(owner);
    const box = (owner.querySelector(".shape, .stuck") || owner).getBoundingClientRect();
    const left = Math.max(10, Math.min(box.left, innerWidth - tip.offsetWidth - 10));
    const below = box.bottom + 14;
    tip.style.left = left + "px";
    tip.style.top = (below + tip.offsetHeight < innerHeight ? below : Math.max(10, box.top - tip.offsetHeight - 14)) + "px";
  };
  document.addEventListener("pointerover", event => show(ownerOf(event.target)));
  document.addEventListener("focusin", event => show(ownerOf(event.target)));
  document.addEventListener("focusout", () => show(null));
  document.addEventListener("keydown", event => event.key === "Escape" && show(null));
  document.addEventListener("scroll", () => show(ownerOf(document.activeElement)), true);
  // the places stay in sight where the top of a chart is above the window
  const boxes = [...document.querySelectorAll(".scroll")];
  const keepPlaces = () => {
    for (const box of boxes) {
      const above = Math.min(-box.getBoundingClientRect().top, box.clientHeight - 120);
      box.style.setProperty("--above", Math.max(0, above) + "px");
    }
  };
  addEventListener("scroll", keepPlaces, {passive: true});
  addEventListener("resize", keepPlaces);
  // one stop of the Tab key a chart; in it the arrow keys go from call to call, and from lane to lane
  for (const chart of document.querySelectorAll(".chart")) {
    const stops = [...chart.querySelectorAll("[tabindex]")];
    const spots = stops.map(it => it.getAttribute("transform")?.match(/[\d.]+/g).map(Number) || [0, 0]);
    const order = stops.map((it, i) => i).sort((a, b) => spots[a][0] - spots[b][0] || spots[a][1] - spots[b][1]);
    stops.forEach((it, i) => it.setAttribute("tabindex", i === order[0] ? 0 : -1));
    const go = next => {
      if (next === undefined) return;
      chart.querySelector('[tabindex="0"]')?.setAttribute("tabindex", -1);
      stops[next].setAttribute("tabindex", 0);
      stops[next].focus();
      stops[next].scrollIntoView({block: "nearest", inline: "center"});
    };
    const lanes = spots.map(spot => spot[1]);
    const near = (at, way) => {
      const beyond = order.filter(i => (lanes[i] - lanes[at]) * way > 0);
      const lane = way > 0 ? Math.min(...beyond.map(i => lanes[i])) : Math.max(...beyond.map(i => lanes[i]));
      const distance = i => Math.abs(spots[i][0] - spots[at][0]);
      return beyond.filter(i => lanes[i] === lane).sort((a, b) => distance(a) - distance(b))[0];
    };
    chart.addEventListener("keydown", event => {
      const at = stops.indexOf(document.activeElement);
      const row = order.indexOf(at);
      const next = {ArrowRight: order[row + 1], ArrowLeft: order[row - 1], Home: order[0], End: order.at(-1)};
      if (at < 0 || event.ctrlKey || event.altKey || event.metaKey) return;
      if (event.key in next) go(next[event.key]);
      else if (event.key === "ArrowDown") go(near(at, 1));
      else if (event.key === "ArrowUp") go(near(at, -1));
      else return;
      event.preventDefault();
    });
  }
})();
