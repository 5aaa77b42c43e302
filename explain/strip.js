// Leads from a lane of the strip to a step, and marks in the lanes the step that is shown. The table of steps knows which one that is.
"use strict";
(function () {
  const steps = document.querySelector(".steps tbody");
  const lanes = document.querySelector(".lanes");
  const last = steps.rows.length - 1;

  // Scrolls the strip, and never the page, so far that a place is seen beside the names.
  function reveal(place) {
    const left = lanes.querySelector("tbody th").getBoundingClientRect().right;
    const right = lanes.getBoundingClientRect().right;
    if (place < left || place > right) lanes.scrollLeft += place - (left + right) / 2;
  }

  function follow() {
    const now = steps.querySelector("[aria-current]").sectionRowIndex;
    const lane = lanes.querySelector("tbody svg").getBoundingClientRect();
    if (now === 0) lanes.style.removeProperty("--now");
    else lanes.style.setProperty("--now", 100 * (now - 1) / (last - 1) + "%");
    reveal(lane.left + lane.width * Math.max(0, now - 0.5) / last);
  }

  lanes.querySelector("tbody").addEventListener("click", function (event) {
    const cell = event.target.closest("td");
    if (!cell) return;
    const lane = cell.firstChild.getBoundingClientRect();
    // Of the pixel that was clicked, the middle counts: a step may have no more than one.
    const number = Math.ceil((event.clientX + 0.5 - lane.left) / lane.width * last);
    steps.rows[Math.max(1, Math.min(last, number))].click();
  });
  lanes.querySelectorAll("td").forEach((cell) => { cell.style.cursor = "pointer"; });
  new MutationObserver(follow).observe(steps, { attributes: true, attributeFilter: ["aria-current"], subtree: true });
  follow();
})();
