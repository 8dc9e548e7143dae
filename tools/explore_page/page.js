"use strict";
(() => {
  const body = document.body;
  const all = (root, what) => Array.from(root.querySelectorAll(what));
  const narrow = matchMedia("(max-width: 820px)");
  const articles = all(document, "article");
  const source = document.querySelector(".panel.source");
  // what has each key of a block, each temporary of a function, and each number of an instruction
  const byBlock = new Map(), byTemporary = new Map(), byNumber = new Map();
  const put = (map, key, element) => { (map.get(key) || map.set(key, []).get(key)).push(element); };
  for (const element of all(document, "[data-b]")) put(byBlock, element.dataset.b, element);
  for (const element of all(document, "[data-bs]")) for (const key of element.dataset.bs.split(" ")) put(byBlock, key, element);
  for (const edge of all(document, ".edge")) { put(byBlock, edge.dataset.from, edge); }
  for (const article of articles) {
    for (const element of all(article, "[data-t]")) put(byTemporary, article.id + " " + element.dataset.t, element);
    for (const element of all(article, ".select [data-n], .alloc [data-n], .rows [data-n]")) put(byNumber, element.dataset.n, element);
  }

  function choose(number, scroll) {
    body.dataset.chosen = number;
    for (const article of articles) article.classList.toggle("chosen", article.dataset.function === String(number));
    for (const button of all(document, "nav.functions button")) button.setAttribute("aria-pressed", button.dataset.function === String(number));
    for (const line of all(source, ".l")) line.classList.toggle("mine", line.dataset.f === String(number));
    // the entry of the flow graph stands in the middle
    for (const flow of all(document, "article.chosen .flow .body")) {
      const entry = flow.querySelector(`.box[data-b="${number}:v0"]`);
      if (!entry || flow.dataset.seen) continue;
      const a = entry.getBoundingClientRect(), b = flow.getBoundingClientRect();
      flow.scrollLeft += a.left + a.width / 2 - b.left - b.width / 2;
      if (a.width) flow.dataset.seen = "yes";
    }
    const first = source.querySelector(".l.mine");
    if (scroll && first && !narrow.matches) show(first);
    const name = document.querySelector(`nav.functions button[data-function="${number}"]`);
    if (name) history.replaceState(null, "", "#" + name.textContent);
  }

  // scrolls only the box that the element stands in
  function show(element) {
    const box = element.closest(".body");
    if (!box || element.closest(".hidden")) return;
    const a = element.getBoundingClientRect(), b = box.getBoundingClientRect();
    if (a.height === 0 && a.width === 0) return;
    box.scrollTop += a.top - b.top - 40;
    if (a.left > b.right - 60 || a.right < b.left + 60) box.scrollLeft += a.left - b.left - 60;
  }

  let lit = [], pinned = [];
  function light(keys) {
    for (const element of lit) element.classList.remove("lit");
    lit = keys.flatMap(key => byBlock.get(key) || []);
    for (const element of lit) element.classList.add("lit");
  }
  const keysOf = target => {
    const element = target.closest("[data-b], [data-bs]");
    return element ? (element.dataset.b ? [element.dataset.b] : element.dataset.bs.split(" ")) : [];
  };

  let on = [], onArticle = null;
  function name(article, number) {
    for (const element of on) element.classList.remove("on");
    if (onArticle) onArticle.classList.remove("only");
    on = []; onArticle = null;
    if (!article || number === undefined) return;
    on = byTemporary.get(article.id + " " + number) || [];
    for (const element of on) element.classList.add("on");
    article.classList.add("only");
    onArticle = article;
  }

  let here = [];
  function mark(number, picture, row) {
    for (const element of here) element.classList.remove("here");
    here = number === undefined ? [] : byNumber.get(number) || [];
    for (const element of here) element.classList.add("here");
    for (const one of all(document, "article.chosen .chart")) {
      const band = one.querySelector(".band"), height = Number(one.dataset.rowHeight);
      const found = row !== undefined && one === picture ? row : (here.find(it => one.contains(it)) || {dataset: {}}).dataset.row;
      band.setAttribute("y", found === undefined ? -height : found * height);
    }
  }

  document.addEventListener("pointerover", event => {
    const target = event.target;
    if (!(target instanceof Element)) return;
    const article = target.closest("article"), bars = target.closest(".bars");
    const temporary = target.closest("[data-t]");
    name(article, temporary && article ? temporary.dataset.t : undefined);
    if (bars) return;
    const keys = keysOf(target);
    light(keys.length ? keys : pinned);
    const line = target.closest("[data-n]");
    mark(line ? line.dataset.n : undefined, target.closest(".chart"), target.closest(".row") ? target.closest(".row").dataset.row : undefined);
  });
  // in the drawing of the bars the row is told by the height
  for (const picture of all(document, ".chart")) {
    const rows = all(picture, ".row"), height = Number(picture.dataset.rowHeight);
    picture.querySelector(".bars").addEventListener("pointermove", event => {
      const k = Math.floor((event.clientY - event.currentTarget.getBoundingClientRect().top) / height);
      if (!rows[k]) return;
      light([rows[k].dataset.b]);
      mark(rows[k].dataset.n, picture, k);
    });
  }
  document.addEventListener("pointerleave", () => { light(pinned); name(); mark(); });

  document.addEventListener("click", event => {
    const target = event.target;
    const button = target.closest("button");
    if (button && button.dataset.function !== undefined) return choose(button.dataset.function, true);
    if (button && button.dataset.view) return view(button);
    const link = target.closest("[data-to]");
    const line = target.closest(".source .l[data-f]");
    if (line && line.dataset.f !== body.dataset.chosen) choose(line.dataset.f, false);
    const keys = link && link.dataset.to && !link.classList.contains("edge") ? [link.dataset.to] : keysOf(target);
    if (!keys.length) return;
    pinned = pinned.join() === keys.join() && !link ? [] : keys;
    light(pinned);
    const from = link ? null : target.closest(".panel");
    const shown = new Set();
    for (const element of lit) {
      const panel = element.closest(".panel");
      if (panel && panel !== from && !shown.has(panel) && !element.classList.contains("edge")) { shown.add(panel); show(element); }
    }
  });

  // wide: each button shows or hides a panel; narrow: one panel stands in front
  function view(button) {
    const wanted = button.dataset.view;
    if (narrow.matches) return front(wanted);
    const pressed = button.getAttribute("aria-pressed") !== "true";
    button.setAttribute("aria-pressed", pressed);
    for (const panel of all(document, `[data-panel="${wanted}"]`)) panel.classList.toggle("hidden", !pressed);
    document.querySelector("main").style.gridTemplateColumns = source.classList.contains("hidden") ? "minmax(0, 1fr)" : "";
  }
  function front(wanted) {
    for (const panel of all(document, ".panel")) panel.classList.toggle("front", panel.dataset.panel === wanted);
    for (const button of all(document, "nav.views button")) button.setAttribute("aria-pressed", button.dataset.view === wanted);
    body.dataset.front = wanted;
    choose(body.dataset.chosen, false);
  }
  function fit() {
    if (narrow.matches) return front(body.dataset.front || "source");
    for (const button of all(document, "nav.views button"))
      button.setAttribute("aria-pressed", !document.querySelector(`[data-panel="${button.dataset.view}"]`)?.classList.contains("hidden"));
  }
  narrow.addEventListener("change", fit);
  body.classList.add("ready");
  fit();
  const asked = all(document, "nav.functions button").find(it => "#" + it.textContent === location.hash);
  choose(asked ? asked.dataset.function : body.dataset.chosen, true);
})();
