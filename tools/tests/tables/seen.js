// how many calls of a page can be seen, and how many its own script has named
const calls = [...document.querySelectorAll(".call")];
const seen = calls.filter(it => it.querySelector(".shape").getBoundingClientRect().height > 4);
const found = [seen.length, calls.filter(it => it.ariaLabel).length];
