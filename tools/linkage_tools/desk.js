"use strict";
// The page of desk. Values of the files come in as text nodes and never as markup. What is decided is kept by pair in the browser's store.
(() => {
  const page = JSON.parse(document.getElementById("data").textContent);
  const by = (id) => document.getElementById(id);
  const total = page.pairs.length;
  const VERDICTS = ["link", "nonlink", "open"];
  const MOST_SHOWN = 30;       // candidates of one record that are shown
  const MOST_COMPARED = 70000; // product of two lengths up to which characters are compared one by one
  const OUTCOMES = { A: ["✓", "agrees"], R: ["✓", "agrees, rare"], D: ["✗", "disagrees"], M: ["–", "missing"] };

  // ---- What is decided, and where it is kept

  const decided = new Array(total).fill(null); // by the place of the pair: { verdict, note }
  const counts = { link: 0, nonlink: 0, open: 0 };
  const front = `linkage desk ${page.digest} `;
  const id = { a: (at) => page.a[at][page.id[0]], b: (at) => page.b[at][page.id[1]] };
  const pairAt = (place) => page.compared[page.pairs[place]];
  const keyOf = (place) => front + JSON.stringify([id.a(pairAt(place)[0]), id.b(pairAt(place)[1]), page.turns[place]]);
  const placeOf = new Map(page.pairs.map((at, place) => [at, place]));
  let store = null;
  let unsaved = false;

  function openStore() {
    try {
      const found = window.localStorage;
      found.setItem(front, "");
      found.removeItem(front);
      return found;
    } catch {
      return null;
    }
  }

  function warn(text) {
    by("warning").textContent = text;
    by("warning").hidden = false;
  }

  function read(place) {
    try {
      const found = JSON.parse(store.getItem(keyOf(place)));
      const verdict = found && VERDICTS.includes(found.verdict) ? found.verdict : "";
      const note = found && typeof found.note === "string" ? found.note : "";
      return verdict || note ? { verdict, note } : null;
    } catch {
      return null;
    }
  }

  function take(place, found) {
    const before = decided[place];
    if (before && before.verdict) counts[before.verdict] -= 1;
    if (found && found.verdict) counts[found.verdict] += 1;
    decided[place] = found;
  }

  function keep(place, verdict, note) {
    take(place, verdict || note ? { verdict, note } : null);
    unsaved = true;
    if (!store) return;
    try {
      if (decided[place]) store.setItem(keyOf(place), JSON.stringify(decided[place]));
      else store.removeItem(keyOf(place));
    } catch {
      store = null;
      warn("The browser keeps no more of what you decide. Save now (key S), and before you close the page.");
    }
  }

  const verdictOf = (place) => (decided[place] ? decided[place].verdict : "");
  const noteOf = (place) => (decided[place] ? decided[place].note : "");
  const decidedCount = () => counts.link + counts.nonlink + counts.open;
  const countWords = () => VERDICTS.map((verdict) => `${number(counts[verdict])} ${verdict}`).join(", ");

  // ---- Pieces of the page

  function element(name, className, ...inside) {
    const made = document.createElement(name);
    if (className) made.className = className;
    made.append(...inside);
    return made;
  }

  const number = (count) => String(count).replace(/\B(?=(\d{3})+$)/g, ",");

  // The characters of two texts, each with whether it stands in the other too, in order: by a longest common subsequence.
  function common(left, right) {
    const x = Array.from(left), y = Array.from(right);
    const [p, q] = [x, y].map((all) => all.map((it) => it.toLowerCase()));
    const inX = new Array(x.length).fill(false), inY = new Array(y.length).fill(false);
    let from = 0, endX = x.length, endY = y.length;
    while (from < endX && from < endY && p[from] === q[from]) { inX[from] = inY[from] = true; from += 1; }
    while (endX > from && endY > from && p[endX - 1] === q[endY - 1]) { endX -= 1; endY -= 1; inX[endX] = inY[endY] = true; }
    const wide = endY - from + 1;
    if ((endX - from) * (endY - from) <= MOST_COMPARED) {
      const best = new Uint16Array((endX - from + 1) * wide);
      for (let i = endX - from - 1; i >= 0; i -= 1) {
        for (let j = wide - 2; j >= 0; j -= 1) {
          const at = i * wide + j;
          best[at] = p[from + i] === q[from + j] ? best[at + wide + 1] + 1 : Math.max(best[at + wide], best[at + 1]);
        }
      }
      for (let i = 0, j = 0; i < endX - from && j < wide - 1;) {
        const at = i * wide + j;
        if (p[from + i] === q[from + j]) { inX[from + i] = inY[from + j] = true; i += 1; j += 1; }
        else if (best[at + wide] >= best[at + 1]) i += 1;
        else j += 1;
      }
    }
    return [[x, inX], [y, inY]];
  }

  // The year, month and day of a text in the order of its file, and the parts of the text where they stand; null where it has no such form.
  function dateParts(text, form) {
    const signs = form === "ymd" ? [4, 2, 2] : [2, 2, 4];
    const found = text.match(form === "ymd" ? /^(\d{4})([-/.])(\d\d?)\2(\d\d?)$/ : /^(\d\d?)([-/.])(\d\d?)\2(\d{4})$/);
    let parts = found ? [found[1], found[3], found[4]] : null;
    if (!found && /^\d{8}$/.test(text)) {
      parts = [text.slice(0, signs[0]), text.slice(signs[0], signs[0] + signs[1]), text.slice(signs[0] + signs[1])];
    }
    if (!parts) return null;
    const named = {};
    Array.from(form).forEach((part, at) => { named[part] = Number(parts[at]); });
    return { named, parts, sign: found ? found[2] : "" };
  }

  function dateMarks(form, mine, other) {
    const pieces = [];
    Array.from(form).forEach((part, at) => {
      if (at && mine.sign) pieces.push([mine.sign, true]);
      pieces.push([mine.parts[at], mine.named[part] === other.named[part]]);
    });
    return pieces;
  }

  // Both texts as pieces: [text, whether it stands in the other too]. Of dates the year, month and day are held together, whatever their
  // order; beside a missing value nothing differs.
  function pieces(left, right, field, isMissing) {
    const plain = [[[left, true]], [[right, true]]];
    if (left === right) return plain;
    if (field && field.kind === "date") {
      const [x, y] = [dateParts(left, field.forms[0]), dateParts(right, field.forms[1])];
      if (x && y) return [dateMarks(field.forms[0], x, y), dateMarks(field.forms[1], y, x)];
    }
    if (isMissing) return plain;
    return common(left, right).map(([signs, both]) => {
      const found = [];
      signs.forEach((sign, at) => {
        if (at && both[at] === both[at - 1]) found[found.length - 1][0] += sign;
        else found.push([sign, both[at]]);
      });
      return found;
    });
  }

  // A value of a file as a cell's content, isolated from the direction of the text around it.
  function value(text, shown) {
    if (text === "") return element("span", "none", "(empty)");
    const made = element("bdi", "value");
    made.dir = "auto";
    for (const [piece, both] of shown || [[text, true]]) made.append(both ? piece : element("mark", "", piece));
    return made;
  }

  function labelled(column, text, shown) {
    return [element("span", "column", bdi(column)), value(text, shown)];
  }

  function bdi(text) {
    const made = element("bdi", "", text);
    made.dir = "auto";
    return made;
  }

  function signCell(left, right) {
    const same = left === right;
    const seen = element("span", "", same ? "=" : "≠");
    seen.setAttribute("aria-hidden", "true");
    return element("td", same ? "sign" : "sign differs", seen, element("span", "hidden-label", same ? "same text" : "texts differ"));
  }

  function outcomeCell(letter) {
    const [sign, word] = OUTCOMES[letter];
    const seen = element("span", "", sign);
    seen.setAttribute("aria-hidden", "true");
    return element("td", `outcome is-${letter}`, seen, ` ${word}`);
  }

  function fieldHead(field) {
    const head = element("th", "", element("span", "name", field.name), element("span", "column", field.says));
    head.title = field.columns.map((at, side) => page.headers[side][at]).join(" – ");
    head.scope = "row";
    return head;
  }

  function comparedRow(field, at, a, b, letters) {
    const left = a[field.columns[0]], right = b[field.columns[1]];
    const [x, y] = pieces(left, right, field, letters[at] === "M");
    return element("tr", `is-${letters[at]}`, fieldHead(field), element("td", "", value(left, x)), signCell(left, right),
      element("td", "", value(right, y)), outcomeCell(letters[at]));
  }

  // The columns that are not compared: those of the same name side by side, then what only A and what only B has.
  const others = (() => {
    const used = [0, 1].map((side) => new Set([page.id[side], ...page.fields.map((field) => field.columns[side])]));
    const left = page.headers[0].map((_, at) => at).filter((at) => !used[0].has(at));
    const right = page.headers[1].map((_, at) => at).filter((at) => !used[1].has(at));
    const twin = (at) => right.find((it) => page.headers[1][it] === page.headers[0][at]);
    const shared = left.filter((at) => twin(at) !== undefined).map((at) => [at, twin(at)]);
    const rest = [0, 1].map((side) => [left, right][side].filter((at) => !shared.some((it) => it[side] === at)));
    return { shared, rest };
  })();

  function otherRows(a, b) {
    const rows = others.shared.map(([x, y]) => {
      const head = element("th", "", element("span", "name", bdi(page.headers[0][x])));
      head.scope = "row";
      const [left, right] = pieces(a[x], b[y], null, false);
      return element("tr", "", head, element("td", "", value(a[x], left)), signCell(a[x], b[y]), element("td", "", value(b[y], right)),
        element("td", "outcome none", "not compared"));
    });
    for (let at = 0; at < Math.max(others.rest[0].length, others.rest[1].length); at += 1) {
      const [x, y] = [others.rest[0][at], others.rest[1][at]];
      const cells = [[0, x, a], [1, y, b]].map(([side, column, row]) =>
        element("td", "", ...(column === undefined ? [] : labelled(page.headers[side][column], row[column]))));
      rows.push(element("tr", "", element("td", ""), cells[0], element("td", "sign"), cells[1], element("td", "outcome")));
    }
    return rows;
  }

  // ---- Other candidates

  const partners = [new Map(), new Map()];
  page.compared.forEach((it, at) => {
    for (const side of [0, 1]) {
      if (!partners[side].has(it[side])) partners[side].set(it[side], []);
      partners[side].get(it[side]).push(at);
    }
  });

  const RANKS = { link: 0, possible: 1, nonlink: 2 };
  function candidatesOf(place, side) {
    const it = pairAt(place), mine = page.pairs[place];
    const found = (partners[side].get(it[side]) || []).filter((at) => at !== mine);
    found.sort((x, y) => {
      const [p, q] = [page.compared[x], page.compared[y]];
      return (q[5] ? 1 : 0) - (p[5] ? 1 : 0) || RANKS[p[4]] - RANKS[q[4]] || q[3] - p[3] || x - y;
    });
    return found;
  }

  // By what a candidate is linked; else to which other record that of the other file is, and a verdict of review.
  function linkedCell(at, otherSide) {
    const it = page.compared[at], mate = page.mates[otherSide][it[otherSide]];
    const inside = it[5] ? [`by ${it[5]}`] : mate ? ["to ", bdi(mate)] : ["no"];
    return element("td", "", ...inside, it[6] && !it[5] ? `; ${it[6]} by review` : "");
  }

  function candidateRow(at, other, isThis) {
    const it = page.compared[at], record = (other === "a" ? page.a : page.b)[it[other === "a" ? 0 : 1]];
    const letters = page.patterns[it[2]];
    const head = element("th", "", bdi(id[other](it[other === "a" ? 0 : 1])));
    head.scope = "row";
    const cells = page.fields.map((field, which) => {
      const [sign, word] = OUTCOMES[letters[which]];
      const seen = element("span", `seen is-${letters[which]}`, sign);
      seen.setAttribute("aria-hidden", "true");
      const text = value(record[field.columns[other === "a" ? 0 : 1]]);
      return element("td", "", element("div", "cell", seen, element("span", "hidden-label", `${word}: `), text));
    });
    const place = placeOf.get(at);
    const yours = element("td", "", place === undefined ? "" : verdictOf(place));
    if (place !== undefined && !isThis) {
      const go = element("button", "small", `pair ${number(place + 1)}`);
      go.type = "button";
      go.addEventListener("click", () => visit(place));
      yours.append(" ", go);
    }
    const rule = isThis ? "this pair" : it[4];
    const weight = shows.weight ? [element("td", "", String(it[3]))] : [];
    const linked = isThis ? element("td", "") : linkedCell(at, other === "a" ? 0 : 1);
    return element("tr", isThis ? "this" : "", head, ...cells, element("td", "", rule), ...weight, linked, yours);
  }

  function candidateTable(place, side) {
    const other = side === 0 ? "b" : "a", mine = side === 0 ? "a" : "b";
    const all = candidatesOf(place, side), count = page.partners[side][pairAt(place)[side]] - 1;
    const shown = all.slice(0, MOST_SHOWN);
    const weight = shows.weight ? ["weight"] : [];
    const heads = [`of ${other.toUpperCase()}`, ...page.fields.map((field) => field.name), "decision", ...weight, "linked", "yours"];
    const head = element("tr", "", ...heads.map((text) => {
      const cell = element("th", "", text);
      cell.scope = "col";
      return cell;
    }));
    const about = `Other records of ${other.toUpperCase()} that were compared with ${mine.toUpperCase()} `;
    const caption = element("caption", "", about, bdi(id[mine](pairAt(place)[side])),
      count > shown.length ? `: ${shown.length} of ${number(count)}, linked and weightiest first` : "");
    const rows = [candidateRow(page.pairs[place], other, true), ...shown.map((at) => candidateRow(at, other, false))];
    const wide = element("div", "wide", element("table", "candidates", caption, element("thead", "", head), element("tbody", "", ...rows)));
    wide.tabIndex = 0;
    wide.setAttribute("role", "region");
    wide.setAttribute("aria-label", about + id[mine](pairAt(place)[side]));
    return wide;
  }

  function drawCandidates() {
    const box = by("candidates"), it = pairAt(now);
    const words = [0, 1].map((side) => {
      const all = candidatesOf(now, side), count = page.partners[side][it[side]] - 1;
      const linked = all.filter((at) => page.compared[at][5]).length;
      return `${number(count)} of ${"AB"[side]}'s record${linked ? ` (linked: ${linked})` : ""}`;
    });
    by("candidates-line").textContent = page.whole ? `Other candidates: ${words.join(", ")}`
      : `Other candidates, among the open pairs alone: ${words.join(", ")}`;
    box.hidden = !shows.candidates;
    box.replaceChildren(...(shows.candidates ? [candidateTable(now, 0), candidateTable(now, 1)] : []));
  }

  // ---- The pair that is shown

  const shows = { candidates: false, weight: page.weight };
  const visited = [];
  let now = 0;

  // The pairs of the same two records that were called a link here: a record should have one.
  function drawYours() {
    const links = [0, 1].flatMap((side) => (partners[side].get(pairAt(now)[side]) || []))
      .map((at) => [at, placeOf.get(at)]).filter(([, place]) => place !== undefined && place !== now && verdictOf(place) === "link");
    by("yours").hidden = links.length === 0;
    by("yours").replaceChildren(...links.slice(0, 5).flatMap(([at], which) => [which ? "; " : "You called a link: ",
      bdi(id.a(page.compared[at][0])), " – ", bdi(id.b(page.compared[at][1]))]));
  }

  function drawState() {
    for (const verdict of VERDICTS) by(verdict).setAttribute("aria-pressed", String(verdictOf(now) === verdict));
    by("standing").textContent = verdictOf(now) ? `your verdict: ${verdictOf(now)}` : "no verdict yet";
    by("standing").className = verdictOf(now) ? `is-${verdictOf(now)}` : "";
    by("undo").disabled = !verdictOf(now);
    const done = decidedCount();
    by("progress").max = total;
    by("progress").value = done;
    by("counts").textContent = `${number(done)} of ${number(total)} decided: ${countWords()}`;
  }

  function draw() {
    const it = pairAt(now), a = page.a[it[0]], b = page.b[it[1]], letters = page.patterns[it[2]];
    by("pair-title").textContent = `Pair ${number(now + 1)} of ${number(total)}`;
    by("group").replaceChildren(...linkWords(it));
    by("id-a").textContent = id.a(it[0]);
    by("id-b").textContent = id.b(it[1]);
    by("compared").replaceChildren(...page.fields.map((field, at) => comparedRow(field, at, a, b, letters)));
    by("others").replaceChildren(...otherRows(a, b));
    by("weight").textContent = `Weight ${it[3]} eighths of a bit, pattern ${letters}`;
    by("weight").hidden = !shows.weight;
    by("earlier").textContent = page.earlier[now] || "";
    by("earlier").hidden = !page.earlier[now];
    by("note").value = noteOf(now);
    by("note-box").hidden = !noteOf(now);
    by("note-button").setAttribute("aria-expanded", String(!by("note-box").hidden));
    by("candidates-button").setAttribute("aria-expanded", String(shows.candidates));
    by("weight-button").setAttribute("aria-expanded", String(shows.weight));
    by("back").disabled = now === 0 && visited.length === 0;
    by("forward").disabled = now === total - 1;
    drawYours();
    drawCandidates();
    drawState();
  }

  // To which other records the two of a pair are linked.
  function linkWords(it) {
    const mates = [0, 1].map((side) => page.mates[side][it[side]]);
    const words = mates.flatMap((mate, side) => (mate ? [`; ${"AB"[side]} is linked to `, bdi(mate)] : []));
    if (words.length) words[0] = words[0].slice(2);
    return page.whole && !words.length ? ["Neither record has a link yet"] : words;
  }

  function say(text) {
    by("said").textContent = text;
  }

  function pairWords() {
    const letters = page.patterns[pairAt(now)[2]], agree = Array.from(letters).filter((it) => it === "A" || it === "R").length;
    return `Pair ${number(now + 1)} of ${number(total)}, ${agree} of ${letters.length} fields agree.`;
  }

  function visit(place, before = "") {
    if (place !== now) visited.push(now);
    now = place;
    draw();
    window.scrollTo(0, 0);
    say(`${before}${pairWords()}`);
  }

  function nextWithout(from) {
    for (let at = 0; at < total; at += 1) {
      const place = (from + at) % total;
      if (!verdictOf(place)) return place;
    }
    return -1;
  }

  // ---- What the keys and buttons do

  function decide(verdict) {
    const before = `Pair ${number(now + 1)}: ${verdict}. `;
    keep(now, verdict, noteOf(now));
    const next = nextWithout(now + 1);
    if (next >= 0) {
      visit(next, next < now ? `${before}Those before it without a verdict: ` : before);
      return;
    }
    draw();
    say(`${before}All pairs have a verdict: save them.`);
  }

  function undo() {
    if (!verdictOf(now)) return;
    keep(now, "", noteOf(now));
    draw();
    say(`Pair ${number(now + 1)}: no verdict.`);
  }

  function back() {
    if (!visited.length && now === 0) return;
    const place = visited.length ? visited.pop() : now - 1;
    now = place;
    draw();
    window.scrollTo(0, 0);
    say(`Back. ${pairWords()}${verdictOf(now) ? ` Your verdict: ${verdictOf(now)}.` : ""}`);
  }

  function forward() {
    if (now < total - 1) visit(now + 1);
  }

  function toggleNote() {
    const opens = by("note-box").hidden || document.activeElement !== by("note");
    by("note-box").hidden = !opens && !noteOf(now);
    by("note-button").setAttribute("aria-expanded", String(!by("note-box").hidden));
    if (opens) by("note").focus();
    else by("pair-title").focus();
  }

  function toggleCandidates() {
    shows.candidates = !shows.candidates;
    draw();
    say(shows.candidates ? `${by("candidates-line").textContent}.` : "Candidates hidden.");
  }

  function toggleWeight() {
    shows.weight = !shows.weight;
    draw();
    say(shows.weight ? `${by("weight").textContent}.` : "Weight hidden.");
  }

  function panel(name, opens) {
    for (const it of ["help", "save"]) {
      by(it).hidden = it !== name || !opens;
      by(`${it}-button`).setAttribute("aria-expanded", String(it === name && opens));
    }
    if (!opens) by("pair-title").focus({ preventScroll: true });
    if (opens && name === "save") drawSave();
    window.scrollTo(0, 0);
    if (opens) by(name === "save" ? "save-verdicts" : "help-close").focus({ preventScroll: true });
  }

  const toggle = (name) => panel(name, by(name).hidden);

  function closePanels() {
    if (!by("help").hidden || !by("save").hidden) panel("help", false);
  }

  // ---- The files that are saved

  const cell = (text) => (/[",\r\n]/.test(text) ? `"${text.replaceAll('"', '""')}"` : text);
  const csv = (rows) => rows.map((row) => `${row.map(cell).join(",")}\n`).join("");
  const idsAt = (place) => [id.a(pairAt(place)[0]), id.b(pairAt(place)[1])];
  const places = (wanted) => page.pairs.map((_, place) => place).filter(wanted);
  const word = (text) => (/^[\w.,/:@%+=-]+$/.test(text) ? text : `'${text.replaceAll("'", "'\\''")}'`);

  function verdictsText() {
    return csv([["id_a", "id_b", "verdict"], ...places(verdictOf).map((place) => [...idsAt(place), verdictOf(place)])]);
  }

  function notesText() {
    return csv([["id_a", "id_b", "verdict", "note"], ...places(noteOf).map((place) => [...idsAt(place), verdictOf(place), noteOf(place)])]);
  }

  const two = (count) => String(count).padStart(2, "0");
  const day = (at) => `${at.getFullYear()}-${two(at.getMonth() + 1)}-${two(at.getDate())}`;
  const nameOf = (what, at) => `${what}-${day(at)}-${two(at.getHours())}${two(at.getMinutes())}${two(at.getSeconds())}.csv`;
  let savedName = "verdicts.csv";

  // A name of its own for each file, so that no browser adds "(1)" to it and no older file is taken for it.
  function save(text, what, told) {
    const name = nameOf(what, new Date());
    const address = URL.createObjectURL(new Blob([text], { type: "text/csv;charset=utf-8" }));
    const anchor = element("a", "");
    anchor.href = address;
    anchor.download = name;
    document.body.append(anchor);
    anchor.click();
    anchor.remove();
    setTimeout(() => URL.revokeObjectURL(address), 60000);
    by(told).textContent = `as ${name}, where this browser puts what it saves.`;
    return name;
  }

  function drawCommand() {
    const reviewer = page.reviewer || by("reviewer").value.trim();
    const words = ["linkage", "review", page.settings, savedName, day(new Date())];
    by("command").textContent = `${words.map(word).join(" ")} ${reviewer ? word(reviewer) : "REVIEWER"}`;
  }

  function drawSave() {
    const done = decidedCount(), notes = places(noteOf).length;
    by("save-counts").textContent = `${number(done)} verdicts: ${countWords()}; the other ${number(total - done)} pairs stay as they are.`;
    by("save-verdicts").disabled = done === 0;
    by("save-notes-line").hidden = notes === 0;
    by("reviewer-line").hidden = page.reviewer !== "";
    by("verdicts-text").value = verdictsText();
    drawCommand();
  }

  function saveVerdicts() {
    savedName = save(verdictsText(), "verdicts", "saved");
    unsaved = false;
    drawCommand();
    say(`Saved ${number(decidedCount())} verdicts.`);
  }

  let asked = false;
  function forget() {
    if (!asked) {
      asked = true;
      by("forget").textContent = "Forget all verdicts and notes of this page?";
      return;
    }
    asked = false;
    by("forget").textContent = "Forget";
    if (store) Object.keys(store).filter((key) => key.startsWith(front)).forEach((key) => store.removeItem(key));
    for (let place = 0; place < total; place += 1) take(place, null);
    unsaved = false;
    visited.length = 0;
    now = 0;
    draw();
    drawSave();
    by("forgotten").textContent = "Forgotten.";
    say("Verdicts and notes are forgotten.");
  }

  // ---- Keys

  const ACTS = {
    l: () => decide("link"), n: () => decide("nonlink"), o: () => decide("open"), u: undo, b: back, f: forward, arrowleft: back,
    arrowright: forward, c: toggleCandidates, t: toggleNote, w: toggleWeight, s: () => toggle("save"), "?": () => toggle("help"),
    g: () => { by("go").focus(); by("go").select(); },
  };
  const REPEATED = ["b", "f", "arrowleft", "arrowright"];

  // The letter of a key; on a keyboard of another script the letter that stands at its place on one with Latin letters.
  function nameOfKey(event) {
    const named = event.key.toLowerCase();
    return /^[^\x00-\x7f]$/.test(named) && /^Key[A-Z]$/.test(event.code) ? event.code[3].toLowerCase() : named;
  }

  function onKey(event) {
    if (event.ctrlKey || event.altKey || event.metaKey || event.isComposing) return;
    const named = nameOfKey(event), target = event.target;
    if (named === "escape") {
      if (target === by("note")) toggleNote();
      else if (target === by("go")) by("pair-title").focus();
      else closePanels();
      return;
    }
    const typed = target instanceof HTMLTextAreaElement || target instanceof HTMLInputElement && target.type === "text";
    const scrolls = named.startsWith("arrow") && target instanceof HTMLElement && target.closest(".wide");
    if (typed || scrolls || !by("keys-on").checked || !Object.hasOwn(ACTS, named)) return;
    event.preventDefault();
    if (event.repeat && !REPEATED.includes(named)) return;
    const always = named === "s" || named === "?";
    if (!always && (total === 0 || !by("save").hidden || !by("help").hidden)) return;
    ACTS[named]();
  }

  function go(event) {
    if (event.key !== "Enter") return;
    const place = Number(by("go").value.replaceAll(",", "")) - 1;
    if (Number.isInteger(place) && place >= 0 && place < total) {
      by("go").value = "";
      by("pair-title").focus();
      visit(place);
    } else say(`There are pairs 1 to ${number(total)}.`);
  }

  function bind() {
    for (const verdict of VERDICTS) by(verdict).addEventListener("click", () => decide(verdict));
    const clicks = { back, forward, undo, "candidates-button": toggleCandidates, "note-button": toggleNote, "weight-button": toggleWeight,
      "help-button": () => toggle("help"), "save-button": () => toggle("save"), "help-close": closePanels, "save-close": closePanels,
      "save-verdicts": saveVerdicts, "save-notes": () => save(notesText(), "notes", "saved-notes"), forget };
    for (const [name, act] of Object.entries(clicks)) by(name).addEventListener("click", act);
    document.addEventListener("keydown", onKey);
    by("go").addEventListener("keydown", go);
    by("reviewer").addEventListener("input", drawCommand);
    by("note").addEventListener("input", () => { keep(now, verdictOf(now), by("note").value); });
    by("keys-on").addEventListener("change", () => {
      try {
        if (store) store.setItem("linkage desk keys", by("keys-on").checked ? "on" : "off");
      } catch { /* the choice lasts till the page is closed */ }
    });
    window.addEventListener("storage", (event) => {
      const place = event.key === null || event.key.startsWith(front) ? places((at) => event.key === null || keyOf(at) === event.key) : [];
      place.forEach((at) => take(at, store ? read(at) : null));
      if (place.length) draw();
    });
    window.addEventListener("beforeunload", (event) => { if (!store && unsaved) event.preventDefault(); });
  }

  function begin() {
    by("job").append(bdi(page.settings), page.reviewer ? " · reviewer " : "", ...(page.reviewer ? [bdi(page.reviewer)] : []),
      page.double ? " · two reviewers are asked, each without the other's verdict" : "",
      page.left ? ` · the first ${number(total)} of ${number(total + page.left)} open pairs` : "");
    by("file-a").textContent = page.files[0];
    by("file-b").textContent = page.files[1];
    store = openStore();
    if (store) for (let place = 0; place < total; place += 1) take(place, read(place));
    else warn("This browser keeps nothing of this page: what you decide is lost when it is closed. Save (key S) before you close it.");
    by("keys-on").checked = !(store && store.getItem("linkage desk keys") === "off");
    bind();
    if (total === 0) {
      by("pair").hidden = true;
      document.querySelectorAll("footer button").forEach((it) => { it.disabled = true; });
      say("No pair waits for you.");
      return;
    }
    now = Math.max(nextWithout(0), 0);
    draw();
    say(pairWords());
  }

  begin();
})();
