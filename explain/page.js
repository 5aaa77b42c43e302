// Steps through the rows of the table of steps; the table itself is the data.
"use strict";
(function () {
  const rows = document.querySelectorAll(".steps tbody tr");
  const names = document.querySelectorAll(".state tbody tr");
  const last = rows.length - 1;
  const part = (id) => document.getElementById(id);
  const slider = part("slider");
  let now = 0;
  let noted;

  // Scrolls a box, and never the page, so far that one of its elements is seen.
  function reveal(box, element) {
    const outer = box.getBoundingClientRect();
    const inner = element.getBoundingClientRect();
    if (inner.top < outer.top + 40) box.scrollTop += inner.top - outer.top - 40;
    if (inner.bottom > outer.bottom) box.scrollTop += inner.bottom - outer.bottom + 8;
  }

  // A cell of a step has the value after it, and before that the value before it where the two differ.
  function showState(cells) {
    names.forEach(function (row, j) {
      const said = cells[3 + j].textContent;
      const changed = said.length > 1;
      row.cells[2].textContent = now === 0 ? "" : said[0];
      row.cells[3].innerHTML = changed ? "<b></b>" : "";
      (row.cells[3].firstChild || row.cells[3]).textContent = said[said.length - 1];
      row.cells[4].textContent = changed ? "changed" : "";
    });
  }

  function showCommand(name, choices) {
    document.querySelectorAll(".text .now").forEach((piece) => piece.classList.remove("now"));
    const pieces = document.querySelectorAll('.text [data-command="' + name + '"]');
    const chosen = choices.split(" ").map((choice) => choice.split("=")[1]);
    pieces.forEach(function (piece) {
      piece.classList.add("now");
      piece.closest("li").classList.add("now");
      if (piece.dataset.star) piece.dataset.choice = chosen[piece.dataset.star - 1];
    });
    // The command's end first: where it is longer than the box, its beginning is what is seen.
    [pieces[pieces.length - 1], pieces[0]].forEach((piece) => piece && reveal(document.querySelector(".text"), piece));
  }

  // The address follows when the stepping rests: browsers refuse too many changes at once.
  function note() {
    clearTimeout(noted);
    noted = setTimeout(() => history.replaceState(null, "", "#" + now), 300);
  }

  function show(number) {
    rows[now].removeAttribute("aria-current");
    now = Math.max(0, Math.min(last, number));
    const cells = rows[now].cells;
    const name = cells[1].textContent;
    const choices = cells[2].textContent;
    rows[now].setAttribute("aria-current", "step");
    showState(cells);
    showCommand(name, choices);
    reveal(document.querySelector(".steps"), rows[now]);
    const step = now === 0 ? "Start" : "Step " + now + " of " + last + ": " + name + (choices ? " with " + choices : "");
    part("said").textContent = step + (now === last ? ". The property is broken." : ".");
    slider.value = now;
    // A disabled button would lose the focus of whoever has just pressed it.
    ["first", "back"].forEach((id) => part(id).setAttribute("aria-disabled", now === 0));
    ["forward", "last"].forEach((id) => part(id).setAttribute("aria-disabled", now === last));
    note();
  }

  const moves = {
    first: () => show(0),
    back: () => show(now - 1),
    forward: () => show(now + 1),
    last: () => show(last),
  };
  const keys = { Home: "first", ArrowLeft: "back", ArrowRight: "forward", End: "last" };

  function fromAddress() {
    const number = parseInt(location.hash.slice(1), 10);
    show(number >= 0 ? number : 0);
    clearTimeout(noted);
  }

  Object.keys(moves).forEach((id) => part(id).addEventListener("click", moves[id]));
  slider.addEventListener("input", () => show(Number(slider.value)));
  document.addEventListener("keydown", function (event) {
    // The slider has these keys already.
    if (event.target === slider || event.altKey || event.ctrlKey || event.metaKey || !keys[event.key]) return;
    event.preventDefault();
    moves[keys[event.key]]();
  });
  document.querySelector(".steps tbody").addEventListener("click", (event) => show(event.target.closest("tr").sectionRowIndex));
  window.addEventListener("hashchange", fromAddress);
  document.querySelectorAll(".player").forEach((section) => { section.hidden = false; });
  fromAddress();
})();
