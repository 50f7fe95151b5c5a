// Says by itself when a newer view is there. The page works without it: then the line comes with the next page.
"use strict";

const line = document.querySelector(".view");
const newer = line.querySelector(".newer");

async function look() {
  if (document.hidden) return;
  try {
    const reply = await fetch("/api/token");
    const newest = (await reply.json()).token;
    if (newest && newest !== line.dataset.token) {
      newer.querySelector(".newest").textContent = Number(newest.split("-")[0]).toLocaleString("en");
      newer.hidden = false;
    }
  } catch {
    // The shop is closed; the page stays.
  }
}

setInterval(look, 2000);
document.addEventListener("visibilitychange", look);
