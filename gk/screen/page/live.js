"use strict";
// The page of a journal that is still being written: it asks its server how many records there are. Who is at the last
// record sees each new one as it comes; who has gone back stays there, and loads what has come where he likes.

/** Milliseconds from one question to the next. */
const PAUSE = 1000;
const bar = made("span", "", "live-bar");
const load = made("button", "");
load.type = "button";
load.id = "load";
load.hidden = true;
bar.setAttribute("role", "status");
byId("of").after(bar, load);

/** Loads the page anew, at its last record, and at the thing that is selected. */
function loadAnew() {
  history.replaceState(null, "", address().replace(/^#\d+/, "#end"));
  location.reload();
}
load.addEventListener("click", loadAnew);

async function look() {
  try {
    const answer = await fetch("/records", { cache: "no-store" });
    const [count, notice] = (await answer.text()).split("\n");
    const more = Number(count) - LAST;
    bar.textContent = notice ? `live · ${notice}` : "live";
    load.hidden = more <= 0;
    load.textContent = more === 1 ? "1 record more" : `${more} records more`;
    if (more > 0 && current === LAST) {
      loadAnew();
      return;
    }
  } catch {
    bar.textContent = "the screen that serves this page has ended";
  }
  setTimeout(look, PAUSE);
}
look();
