// where the picture of a page begins, whether its places stay in sight where one scrolls in it or scrolls the page, which of its words are cut, which
// upright words of a lane or of the names stand on each other, and whether it is dark
const box = document.querySelector(".scroll"), found = {top: Math.round(box.getBoundingClientRect().top + scrollY)};
const placeIsSeen = () => {
  const place = document.querySelector("text.place").getBoundingClientRect();
  const lane = [...document.querySelectorAll(".lane-name")].at(-1).getBoundingClientRect();
  const over = document.elementFromPoint(place.left + place.width / 2, place.top + place.height / 2);
  const isOver = over?.closest("svg") === document.querySelector("text.place").closest("svg");
  return place.top >= 0 && place.bottom <= innerHeight && lane.top > place.bottom && isOver;
};
box.scrollTop = box.scrollHeight;
found.inside = placeIsSeen();
box.scrollTop = 0;
scrollTo(0, found.top + 150);
dispatchEvent(new Event("scroll"));
found.above = placeIsSeen();
found.wide = document.documentElement.scrollWidth <= innerWidth;
scrollTo(0, 0);
const boxOf = it => it.getBoundingClientRect();
const svgs = [...document.querySelectorAll(".chart svg")].filter(svg => boxOf(svg).width);
const texts = svgs.flatMap(svg => [...svg.querySelectorAll("text")].map(it => [it, boxOf(svg)]));
const isCut = (box, svg) => box.right > svg.right + 1 || box.left < svg.left - 1 || box.top < svg.top - 1 || box.bottom > svg.bottom + 1;
found.cut = texts.filter(([it, svg]) => isCut(boxOf(it), svg)).map(([it]) => it.textContent);
const upright = texts.map(([it]) => it).filter(it => it.matches(".lane-name, .lane-more, .axis-name, .place, .time, .in"));
const shared = (one, other, start, end) => Math.min(one[end], other[end]) - Math.max(one[start], other[start]);
const isOver = (one, other) => shared(one, other, "left", "right") > 1 && shared(one, other, "top", "bottom") > 4;
const isOn = (one, other) => one.closest("svg") === other.closest("svg") && isOver(boxOf(one), boxOf(other));
const onOthers = (it, i) => upright.slice(i + 1).filter(other => isOn(it, other)).map(other => `${it.textContent} on ${other.textContent}`);
found.over = upright.flatMap(onOthers);
found.dark = getComputedStyle(document.body).backgroundColor.match(/\d+/g).slice(0, 3).every(it => it < 100);
