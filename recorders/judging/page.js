"use strict";
(() => {
  const find = (name) => document.getElementById(name);
  const all = (selector, place) => [...(place || document).querySelectorAll(selector)];
  const [form, verdict, code, name, count] = ["filter", "verdict", "code", "name", "count"].map(find);
  const marks = ["lit", "other", "near", "on", "chosen", "choosing", "here"];

  // Shows the logs, and what is said of them, that have this verdict, this statement, and this in their names.
  function choose() {
    const words = name.value.toLowerCase();
    const fits = (place, text) =>
      (!verdict.value || place.dataset.v === verdict.value) &&
      (!code.value || place.dataset.c.split(" ").includes(code.value)) && text.toLowerCase().includes(words);
    const rows = all(".logs tbody tr");
    for (const row of rows) row.hidden = !fits(row, row.cells[0].textContent);
    for (const section of all(".log")) section.hidden = !fits(section, section.dataset.n);
    for (const fold of all(".passes")) {
      fold.hidden = !all("tbody tr:not([hidden])", fold).length;
      fold.open = !fold.hidden && (fold.open || Boolean(words || verdict.value));
    }
    const [shown, total] = [rows.filter((row) => !row.hidden).length, rows.length];
    count.textContent = `${shown === total ? total : `${shown} of ${total}`} log${total === 1 ? "" : "s"}`;
  }

  // Sorts a table by the column of a head; by the same one again the other way round.
  function sort(head) {
    const isUp = head.getAttribute("aria-sort") !== "ascending";
    const value = (row) => {
      const text = row.cells[head.cellIndex].textContent;
      return head.className === "num" ? Number(text.replace(/\D/g, "")) : text;
    };
    const body = head.closest("table").tBodies[0];
    const order = (a, b) => (a < b ? -1 : a > b ? 1 : 0) * (isUp ? 1 : -1);
    body.append(...[...body.rows].sort((a, b) => order(value(a), value(b))));
    for (const other of head.parentElement.cells) other.removeAttribute("aria-sort");
    head.setAttribute("aria-sort", isUp ? "ascending" : "descending");
  }

  // Puts what to change beside a fault, where it is only in the list of statements.
  function advise(card) {
    const more = card.querySelector(".more");
    if (!more) return;
    const statement = find(more.hash.slice(1));
    const end = card.closest("section").dataset.end;
    const texts = statement ? all("[data-end]", statement) : [];
    const text = texts.find((part) => part.dataset.end === end) || texts[0];
    if (!text) return;
    const copy = text.cloneNode(true);
    copy.className = "advice";
    more.replaceWith(copy);
  }

  // Opens or closes a fold of a chart: all that is under it in its part moves, and so does what comes after the part.
  function toggle(gap) {
    const isOpen = gap.classList.toggle("open");
    const [from, size] = [Number(gap.getAttribute("y")), Number(gap.dataset.h) * (isOpen ? 1 : -1)];
    const part = gap.closest(".part");
    const link = gap.querySelector(":scope > text a");
    link.textContent = link.textContent.replace(/^\w+/, isOpen ? "Hide" : "Show");
    const move = (place, name, above = 0) => {
      const at = Number(place.getAttribute(name));
      if (above + at > from) place.setAttribute(name, at + size);
      return above + at > from;
    };
    for (const place of part.children) {
      if (place.matches("rect")) move(place, "y") || move(place, "height", Number(place.getAttribute("y")));
      else if (place.matches("line")) for (const name of ["y1", "y2"]) move(place, name);
      else move(place, "y");
    }
    const moved = (text, before, at) => before + (Number(at) + (Number(at) > from ? size : 0));
    for (const path of all(".d path", part)) {
      path.setAttribute("d", path.getAttribute("d").replace(/([ V])(\d+)/g, moved));
    }
    move(part, "height");
  }

  // Brings an event into view inside its chart; the page stays where it is.
  function show(event) {
    const gap = event.closest(".gap");
    if (gap && !gap.classList.contains("open")) toggle(gap);
    const picture = event.closest(".picture");
    const place = event.getBoundingClientRect().top - picture.getBoundingClientRect().top;
    picture.scrollTop += place - picture.clientHeight / 2;
  }

  // Marks the line of an event in the list of a run.
  function point(card, event) {
    const line = event && all(".run li", card).find((one) => one.firstElementChild?.hash === `#${event.id}`);
    if (!line) return;
    line.classList.add("here");
    const list = line.parentElement;
    list.scrollTop += line.getBoundingClientRect().top - list.getBoundingClientRect().top - list.clientHeight / 2;
  }

  // Lights what belongs to a fault: its event, what is under its Packet Identifier, and what shows or caused it.
  function light() {
    for (const place of all(marks.map((mark) => `.${mark}`).join())) place.classList.remove(...marks);
    const target = find(location.hash.slice(1));
    if (!target) return;
    let isMoved = false;
    for (let fold = target.closest("details"); fold; fold = fold.parentElement.closest("details")) {
      isMoved ||= !fold.open;
      fold.open = true;
    }
    if (isMoved) target.scrollIntoView();
    const card = target.closest("article");
    const event = card ? find(target.id.replace(/^f(\d+-\d+)-.*/, "e$1")) : target.closest(".part > svg, .fold > svg");
    if (event) show(event);
    if (!card) return;
    card.classList.add("chosen");
    point(card, event);
    advise(card);
    if (!event) return;
    const chart = event.closest(".chart");
    chart.classList.add("choosing");
    event.classList.add("chosen");
    const key = [...event.classList].find((name) => /^[sc]\d+i\d+[op]$/.test(name));
    if (key) {
      const mates = key.slice(0, -1);
      for (const place of all(`.${mates}o, .${mates}p`, chart)) {
        place.classList.add("lit");
        if (!place.classList.contains(key)) place.classList.add("other");
      }
    }
    for (const other of [target.dataset.a, target.dataset.d].map((place) => place && find(place))) {
      if (!other) continue;
      other.classList.add("near");
      const gap = other.closest(".gap");
      if (gap && !gap.classList.contains("open")) toggle(gap);
    }
    for (const line of all(".d [data-t]", chart)) line.classList.toggle("on", line.dataset.t === target.dataset.a);
  }

  // Chooses a fault where it is clicked: its arrow leads to its card, and the card lights its chart and stays in place.
  function click(event) {
    const place = event.target;
    const link = place.closest("a");
    if (link) {
      const gap = link.closest(".gap > text") && link.closest(".gap");
      const other = link.closest("article, .others") && find(link.hash.slice(1));
      if (gap) toggle(gap);
      else if (other && other.closest(".chart")) show(other);
      else return;
      if (!gap) for (const one of [...all(".seen"), other]) one.classList.toggle("seen", one === other);
      event.preventDefault();
      return;
    }
    const arrow = place.closest(".chart .x, .chart .i");
    const first = arrow && arrow.querySelector("a");
    if (first) location.hash = first.getAttribute("href");
    const card = place.closest("article");
    if (!card || String(getSelection())) return;
    history.replaceState(null, "", `#${card.id}`);
    light();
  }

  function begin() {
    document.documentElement.className = "js";
    if (form) {
      form.hidden = false;
      for (const part of [verdict, code, name]) part.addEventListener("input", choose);
      form.addEventListener("submit", (event) => event.preventDefault());
      choose();
    }
    for (const head of all("thead th").filter((one) => !one.closest(".matrix"))) {
      const button = document.createElement("button");
      button.append(...head.childNodes);
      head.append(button);
      button.addEventListener("click", () => sort(head));
    }
    let printed = [];
    addEventListener("beforeprint", () => {
      printed = all(":is(.passes, .never):not([open])");
      for (const fold of printed) fold.open = true;
    });
    addEventListener("afterprint", () => {
      for (const fold of printed) fold.open = false;
    });
    document.addEventListener("click", click);
    addEventListener("hashchange", light);
    light();
  }
  if (document.readyState === "loading") document.addEventListener("DOMContentLoaded", begin);
  else begin();
})();
