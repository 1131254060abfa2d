// The checks of docs/replay.html, run inside it by bench/page. Each gives a list of what is wrong. `given` has the examples with their
// reports, the pictures, two documents, and where a program or folders were named the reports of cut schedules and more cases.
"use strict";

var errors = [], measured = [];
addEventListener("error", (event) => errors.push("an error: " + event.message));
addEventListener("unhandledrejection", (event) => errors.push("a refused promise: " + event.reason));

async function checked(name) {
  const wrong = [];
  const want = (truth, text) => truth || wrong.push(String(text));
  try {
    await CHECKS[name](want);
  } catch (fault) {
    wrong.push(String(fault.stack ?? fault));
  }
  return [...wrong, ...errors].slice(0, 12);
}

const frame = () => new Promise((done) => requestAnimationFrame(done));
const shown = (text) => at(text).hidden ? "" : at(text).textContent;
const alarm = () => shown("alarm");
const show = (name) => (page.show([given.examples[name].scenario, given.examples[name].report]), page.view.story);
const press = (key, more) => document.body.dispatchEvent(new KeyboardEvent("keydown", { key, bubbles: true, cancelable: true, ...more }));

function drop(...files) {
  const data = new DataTransfer();
  for (const [name, text] of files) data.items.add(new File([text], name));
  document.body.dispatchEvent(new DragEvent("drop", { dataTransfer: data, bubbles: true, cancelable: true }));
}

async function until(test) {
  for (let i = 0; i < 400 && !test(); i += 1) await new Promise((done) => setTimeout(done, 10));
  return test();
}

// what the diagram of the whole draws, counted
function drawn() {
  const count = { legs: 0, stubs: 0, rows: 0, hatches: 0, crosses: 0, edges: [] };
  const pen = { rect() {}, circle() {}, path() {}, text() {}, clip: (x, y, w, h, draw) => draw() };
  const diagram = new Diagram(pen, page.view, { width: 900, height: HEAD + page.view.rows.length * ROW + 40, top: 0 });
  const counts = (name, count) => {
    const old = diagram[name];
    diagram[name] = (...words) => (count(...words), old.apply(diagram, words));
  };
  counts("leg", () => (count.legs += 1));
  counts("stub", () => (count.stubs += 1));
  counts("row", () => (count.rows += 1));
  counts("hatch", () => (count.hatches += 1));
  counts("cross", () => (count.crosses += 1));
  diagram.draw();
  return count;
}

const rowAt = (story, id, step) => story.rows.get(id).track.at(step);
const sections = (report) => report.slice(report.indexOf("\nsessions\n") + 1);
const printed = (story, step) => HEADINGS.slice(1).map((heading) => [heading, ...sectionsAt(story, step)[heading]].join("\n") + "\n")
  .join("");

const CHECKS = {
  // each example is shown, and every entry, arrow and lost message is drawn
  examples(want) {
    want(Object.keys(given.examples).length > 10, "no examples");
    for (const name of Object.keys(given.examples)) {
      const story = show(name), entries = story.entries, count = drawn();
      want(alarm() === "" && page.differs === null, name + ": " + alarm());
      want(printed(story, story.last) === sections(given.examples[name].report), name + ": another end");
      want(page.view.rows.reduce((sum, row) => sum + row.to - row.from + 1, 0) === story.last, name + ": rows");
      want(count.rows === page.view.rows.length, name + ": rows drawn " + count.rows);
      const delivered = entries.filter((entry) => entry.cause.word === "deliver" && entry.cause.from !== null);
      want(count.legs === delivered.length, name + ": " + count.legs + " arrows for " + delivered.length + " deliveries");
      const taken = new Set(delivered.map((entry) => entry.cause.number));
      want(count.stubs === entries.filter((entry) => entry.sent && !taken.has(entry.number)).length, name + ": stubs " + count.stubs);
      for (const text of sectionsText(story)) want(!text.includes("undefined"), name + ": " + text);
    }
  },

  // what the gallery says of its examples
  facts(want) {
    let story = show("transfer"), held = (id, step) => story.locks.get(id).track.at(step);
    for (let step = 1; step <= 29; step += 1) want(held("east.account:1", step) === (step >= 8 && step < 15 ? 1 : null),
      "transfer: the lock at " + step);
    want(rowAt(story, "east.account:1", 8).row[1] === 1000n && rowAt(story, "east.account:1", 9).row[1] === 900n, "transfer: 900 from 9");
    story = show("empty_cancel");
    const fence = story.fences.get("shop tc:1 b1").track;
    want(fence.at(8) === null && fence.at(9) === "suspended" && story.entries[11].act.word === "dropped", "empty_cancel: suspended from 9");
    want(story.tickets.get("shop t1.1").track.at(11) === 0 && story.tickets.get("shop t1.1").track.at(12) === null,
      "empty_cancel: dropped at 12");
    story = show("repeated_confirm");
    want(story.entries.some((entry) => entry.deliveries.length === 3 && entry.sent.note.word === "branch-commit"),
      "repeated_confirm: three times");
    const confirmed = story.entries.findIndex((entry) => entry.act.word === "confirmed") + 1;
    for (let step = confirmed; step <= story.last; step += 1) want(rowAt(story, "shop.stock:1", step).row.join() === "1,7,0",
      "repeated_confirm: 7 free at " + step);
    story = show("dirty_write");
    want(story.conflicts.get("bank.account:1").map((each) => each.step).join() === "11,19", "dirty_write: conflicts");
    want(story.entries[15].act.word === "blocked" && rowAt(story, "bank.account:1", 22).row[1] === 900n
      && rowAt(story, "bank.account:1", 23).row[1] === 1000n, "dirty_write: undone at 23");
    want(rowAt(story, "bank.account:1", 23).by === "undo of tc:1 b1", "dirty_write: by whom");
    story = show("half_append_kept");
    const bank = story.nodes.get("bank").track;
    want(bank.at(6).up && !bank.at(7).up && bank.at(8).up && bank.at(8).boot === 2, "half_append_kept: down at 7");
    want(rowAt(story, "bank.account:1", 7).row[1] === 1000n && rowAt(story, "bank.account:1", 8).row[1] === 900n,
      "half_append_kept: 900 from 8");
    want(story.tickets.get("bank t1.1").track.at(6) === 0 && story.tickets.get("bank t1.1").track.at(7) === null,
      "half_append_kept: its ticket is gone");
    want(drawn().hatches === 1, "half_append_kept: hatched once");
    story = show("half_append_lost");
    want(!story.rows.has("bank.account:1") && story.tickets.has("bank t2.1") && story.tickets.get("bank t2.1").track.at(10) === 0,
      "half_append_lost");
    story = show("outside_write");
    const outside = rowAt(story, "bank.account:1", 7);
    want(outside.row[1] === 5n && outside.by === "outside 1" && held("bank.account:1", 12) === 1, "outside_write: 5 at 7, and held");
    const band = page.view.bands.find((each) => each.label === "bank.account:1" && each.line);
    want(band.runs.map((run) => run.from + run.tone).join() === "0blue,6blue,7red", "outside_write: red from 7");
    want(story.undo.get("bank tc:1 b1").track.at(11) === "dirty", "outside_write: dirty");
  },

  // what comes to a node that is down, and a message that isn't there
  lost(want) {
    const given = '{"resources":[],"managers":[{"name":"m1","calls":[],"end":"commit"}],"schedule":["deliver 9","turn m1","crash tc","deliver 2","restart tc 0"]}';
    const lines = ["1 net 0 deliver 9 | none | -", "2 m1 0 turn | starts | begin m1 60000 to tc", "3 tc 0 crash | down | -",
      "4 tc 0 deliver 2 m1 | lost | -", "5 tc 0 restart 0 | restarted | -"];
    page.show([given, ["entries", ...lines, ...HEADINGS.slice(1), ""].join("\n")]);
    const count = drawn(), states = sectionsText(page.view.story);
    want(alarm() === "" && count.legs === 1 && count.crosses === 1 && count.hatches === 1 && count.stubs === 0, "drawn: "
      + JSON.stringify(count) + alarm());
    want(states[2].includes("2 begin m1 60000 to tc") && states[3].includes("tc down") && !states[4].includes("2 begin m1"),
      "the message under way");
  },

  // the state at each step is what the program reports of the schedule cut there
  cuts(want) {
    if (!given.cuts) measured.push("not held to a program, since none is named");
    for (const [name, reports] of Object.entries(given.cuts ?? {})) {
      const story = show(name);
      reports.forEach((report, i) => want(report !== null && printed(story, i + 1) === sections(report), name + " at " + (i + 1)));
    }
  },

  // scenarios and reports of the folders that were named
  cases(want) {
    if (Object.keys(given.cases).length === 0) measured.push("none are named");
    for (const [name, pair] of Object.entries(given.cases)) {
      page.show([pair.scenario, pair.report]);
      want(alarm() === "", name + ": " + alarm());
      for (const entry of page.view.story.entries) want(entryText(entry) === entry.line, name + ": " + entry.line);
    }
  },

  // each form of a line is read and printed back as it was
  lines(want) {
    const lines = new Set(LINES);
    for (const pair of Object.values(given.examples)) for (const entry of readReport(pair.report).entries) lines.add(entry.line);
    for (const line of lines) {
      let back;
      try {
        back = entryText(readEntry(line));
      } catch (fault) {
        back = fault.message;
      }
      want(back === line, line + " became " + back);
    }
    const words = (table, find) => Object.keys(table).filter((word) => !Array.from(lines).some((line) => find(readEntry(line)) === word));
    want(words(ACTS, (entry) => entry.act.word).join() === "boot", "acts without a line: " + words(ACTS, (entry) => entry.act.word));
    want(words(NOTES, (entry) => entry.sent?.note.word).length === 0, "messages without a line: "
      + words(NOTES, (entry) => entry.sent?.note.word));
    for (const line of BROKEN) want(refuses(() => readEntry(line)), "read: " + line);
  },

  // statements mean what SCENARIO.md says, on ints of 64 bits and texts of any letters
  statements(want) {
    const columns = [{ name: "id", type: "int" }, { name: "m", type: "int" }, { name: "s", type: "text" }];
    for (const [text, ...after] of STATEMENTS) {
      const rows = [[1n, 5n, "a"], [2n, -9223372036854775808n, "it's"], [3n, 9007199254740993n, ""]];
      const table = { name: "t", columns, key: [0], now: new Map(rows.map((row) => ["r.t:" + row[0], row])) },
        effect = new Effect({ name: "r", tables: [table] });
      effect.run(readStatement(text));
      const said = Array.from(effect.changes, ([id, change]) => id + (change.row ? rowText(change.row) : "-"))
        .concat(Array.from(effect.reads.keys()));
      want(said.join(" ") === after.join(" "), text + " gave " + said.join(" "));
    }
    want(["", "Z", "a", "é", "\uffff", "😀"].every((text, i, all) => i === 0 || compareTexts(all[i - 1], text) === -1
      && compareTexts(text, all[i - 1]) === 1), "texts by bytes");
  },

  // a digit changed is told, with its line; what is no pair is refused
  faults(want) {
    const { scenario, report } = given.examples.transfer, broken = (from, to) => (page.show([scenario, report.replace(from, to)]), alarm());
    const line = (from) => report.slice(0, report.indexOf(from)).split("\n").length;
    want(broken("east.account (1, 900)", "east.account (1, 901)").includes("Line " + line("east.account (1, 900)")
      + " of the report, under “tables”, is “east.account (1, 901)”"), "a row: " + alarm());
    want(page.differs.heading === "tables" && document.querySelector("#state small.bad") !== null
      || (page.paint(), document.querySelector("#state small.bad") !== null), "rows aren't marked");
    want(broken("tc:1 transfer 9 Committed", "tc:1 transfer 11 Rollbacked").includes("under “sessions”"), "a status: " + alarm());
    want(broken("tables\n", "tables\nwest.account (0, 0)\n").includes("under “tables”"), "a row more: " + alarm());
    want(broken("reads\n", "reads\ntc:1 b1 east.account (1, 1000)\n").includes("under “reads”"), "a read more: " + alarm());
    const stock = given.examples.empty_cancel;
    page.show([stock.scenario, stock.report.replace("b1 suspended\nreads", "b1 tried\nreads")]);
    want(alarm().includes("under “fences”"), "a fence: " + alarm());
    const write = given.examples.outside_write;
    page.show([write.scenario, write.report.replace("locks\nbank.account:1 tc:1", "locks\nbank.account:1 tc:2")]);
    want(alarm().includes("“bank.account:1 tc:2”; this page has “bank.account:1 tc:1”"), "a lock: " + alarm());
    page.show([write.report.replace("locks\nbank.account:1 tc:1\n", "locks\n")]);
    want(alarm().includes("under “locks”"), "a lock of a report alone: " + alarm());
    page.show([scenario, stock.report]);
    want(alarm().includes("another scenario") && alarm().includes("entry 1"), "another scenario: " + alarm());
    page.show([scenario.replace('"auto 29"', '"auto 28"'), report]);
    want(alarm().includes("more than 28 entries"), "more entries: " + alarm());
    page.show([scenario.replace('"auto 29"', '"auto 30"'), report]);
    want(alarm().includes("ends at entry 29"), "fewer entries: " + alarm());
    page.show([scenario.replace('"auto 29"', '"auto 5", "turn east", "auto 23"'), report]);
    want(alarm().includes("entry 6 should begin with “6 east 0 turn”"), "another step: " + alarm());
    for (const name of Object.keys(given.examples)) {
      const whole = given.examples[name].report, from = whole.indexOf("\nreads\n") + 7;
      for (let cut = 0; cut < from; cut += 37) want(said([whole.slice(0, cut)]) !== "", name + " cut at " + cut);
      want(said([given.examples[name].scenario, whole.slice(0, -1)]).includes("cut"), name + " without its last byte");
    }
  },

  // texts that are none of a pair get a sentence
  inputs(want) {
    const { scenario, report } = given.examples.transfer;
    for (const text of ["", "  \n", "{", "[]", "{}", "entries", "entries\n", "entries\n1 tc", "hello", "[".repeat(1e6),
      '{"resources":'.repeat(1e5), "\u0000", "{\"resources\":[],\"managers\":[],\"schedule\":[\"turn  tc\"]}", '{"__proto__":1}']) {
      want(said([text]).length > 20, "no sentence for " + text.slice(0, 40));
    }
    want(said(['{"a":'.repeat(1e5)]).includes("no deeper nesting"), "deep nesting");
    page.show([scenario, report.replaceAll("\n", "\r\n")]);
    want(alarm() === "" && at("notice").textContent.includes("CR LF"), "CR LF: " + alarm() + at("notice").textContent);
    page.show(["\ufeff" + scenario + report]);
    want(alarm() === "" && page.view.story.scenario !== null && page.view.story.last === 29, "one behind the other: " + alarm());
    page.given = { scenario: null, report: null };
    page.show([report]);
    want(page.view.story.scenario === null && at("notice").textContent.includes("report alone"), "a report alone: "
      + at("notice").textContent);
    page.show([scenario]);
    want(page.view.story.scenario !== null, "its scenario behind it");
    page.given = { scenario: null, report: null };
    page.show([scenario]);
    want(!at("alone").hidden && at("alone").textContent.includes("seata_lab replay <") && at("alone").textContent.includes("1 to 29"),
      "a scenario alone");
    page.show([report]);
    want(alarm() === "" && page.view.story.scenario !== null, "its report behind it");
  },

  // the lines that the program writes in place of a report
  told(want) {
    const scenario = given.examples.transfer.scenario, marks = () => Array.from(document.querySelectorAll("#alone mark"),
      (mark) => mark.textContent);
    const words = given.scenarioWords;
    page.show([scenario, "scenario: Name /resources/0/name\n"]);
    want(marks().join() === '"east"' && at("alone").textContent.includes("used twice"), "Name: " + marks());
    page.show([scenario, "scenario: Sql /managers/0/calls/0/do/0 7\n"]);
    want(marks().join() === '"UPDATE account SET balance = balance - 100 WHERE id = 1",a', "Sql: " + marks());
    page.given = { scenario: null, report: null };
    page.show(["scenario: Shape .\n"]);
    want(at("alone").textContent.includes("Drop the scenario"), "Shape alone");
    page.show(['{"resources": [', "scenario: NotJson\n"]);
    want(marks().length === 1, "NotJson");
    page.show([scenario, "scenario: Other\n"]);
    want(marks().length === 0 && at("alone").textContent.includes("another scenario"), "Other");
    for (const line of ["full: tc needs 4106 of 4096", "store: tc", "damaged: tc.2 at 19", "scenario: Limit /timeout 1",
      "scenario: Mode /managers/0/calls/0/try/0"]) {
      page.show([scenario, line + "\n"]);
      want(!at("alone").textContent.includes("isn't one"), line);
    }
    for (const word of ["full:", "store:", "damaged:", ...["NotJson", "Shape", "Limit", "Sql", "Name", "Mode", "Other"]
      .map((kind) => "scenario: " + kind)]) {
      want(words.includes(word) && FAULTS.some(([pattern]) => pattern.source.startsWith("^" + word)), "the document and the page: " + word);
    }
  },

  // every act has its sentence and a rule that stands in RULES.md; the inlined examples are those of examples/
  words(want) {
    for (const word of Object.keys(ACTS)) {
      const [sentence, rule] = word === "boot" ? ["-", "written"] : whyOf({ word, decision: "commit" });
      want(sentence !== "" && given.rules.includes("`" + rule + "`"), word + ": " + rule);
      want(given.scenarioWords.includes("`" + word.replace("busy call", "busy")) || word === "boot" || given.scenarioWords.includes(word),
        "SCENARIO.md has no " + word);
    }
    for (const name of EXAMPLES) {
      const inlined = (kind) => document.getElementById(name + "." + kind).textContent.replace(/^\n/, "");
      want(inlined("json") === given.examples[name].scenario && inlined("out") === given.examples[name].report, name
        + " inside the page isn't that of examples/");
    }
    for (const [status, name] of STATUS.entries()) if (status > 0) want(new RegExp("\\b" + status + "\\b.*`" + name
      + "`").test(given.scenarioWords), "status " + status);
  },

  // each example has its picture, as the page makes it, and no other is there
  pictures(want) {
    for (const name of Object.keys(given.examples)) {
      show(name);
      want(given.pictures[name] === pictureOf(page.view, name), name + ": make docs/pictures again with bench/page pictures");
    }
    for (const name of Object.keys(given.pictures)) want(name in given.examples, "a picture of no example: " + name);
  },

  // 20,000 entries of 289 nodes, which bench/page has shown and moved before
  async large(want) {
    want(alarm() === "" && page.view.story.last === 20000 && page.view.story.nodes.size === 289, "not shown: " + alarm());
    want(page.view.folds && page.view.rows.length < 20000, "idle turns aren't folded");
    await small(want);
  },

  // 20,000 entries with 10,000 messages under way at once, which bench/page has shown and moved before
  async crowded(want) {
    want(alarm() === "" && page.view.story.last === 20000 && page.view.rows.length === 20000, "not shown: " + alarm());
    want(page.view.arrows.crossing(10000, 10000, 20000).length >= 10000, "no crowd");
    await small(want);
  },

  // texts of rows are texts; nothing is asked of a network
  async hostile(want) {
    const evil = "<img src=x onerror=window.hit=1>", more = '"><script>window.hit=1</' + "script>";
    const scenario = given.examples.outside_write.scenario.replaceAll('["balance", "int"]', '["balance", "int"], ["note", "text"]')
      .replaceAll("[1, 1000]", JSON.stringify([1, 1000, evil]).replaceAll("<", "\\u003c"))
      .replace("SET balance = 5", ("SET balance = 5, note = '" + more + "'").replaceAll('"', '\\"'));
    const report = given.examples.outside_write.report.replace("(1, 900) (1, 5) ", "(1, 900, '" + evil + "') (1, 5, '" + more + "') ")
      .replace("account (1, 5)", "account (1, 5, '" + more + "')");
    drop(["a.json", scenario], ["b.out", report]);
    await until(() => page.view);
    want(alarm() === "", "not shown: " + alarm());
    for (let step = 0; step <= 12; step += 1) page.move(step), page.paint();
    page.search(evil);
    page.search("bank.account:1");
    want(at("state").textContent.includes(more) && at("state").querySelector("img, script") === null, "the text isn't shown as a text");
    const picture = new DOMParser().parseFromString(pictureOf(page.view, evil), "image/svg+xml");
    want(picture.querySelector("parsererror, img, script") === null && picture.querySelector("title").textContent === evil, "the picture");
    page.show([report.replace(evil, "\u202e</textarea><b>")]);
    page.paint();
    page.show([evil]);
    page.show([scenario.replace("auto", evil)]);
    page.show([scenario, "scenario: Name /" + evil]);
    await new Promise((done) => setTimeout(done, 200));
    want(window.hit === undefined, "a text of a row was run");
    want(performance.getEntriesByType("resource").length === 0, "something was asked for");
    want(document.querySelector("meta[http-equiv=Content-Security-Policy]").content.startsWith("default-src 'none'"), "no policy");
    await fetch("https://example.com/").then(() => want(false, "a request was let through"), () => {});
  },

  // files come by a drop, together or one after the other; too large ones are not read
  async drops(want) {
    const { scenario, report } = given.examples.crossing_rows;
    drop(["s.json", scenario], ["r.out", report]);
    want(await until(() => page.view), "dropped together");
    want(page.view.story.scenario !== null && alarm() === "", alarm());
    const entries = page.view.story.last;
    drop(["huge.out", new Uint8Array(30e6)]);
    want(await until(() => alarm().includes("30000000 bytes")), "30 MB: " + alarm());
    want(page.view.story.last === entries, "the picture before stays");
    drop(["bytes.out", new Uint8Array([101, 110, 255])]);
    want(await until(() => alarm().includes("UTF-8")), "no text: " + alarm());
    drop(["s.json", given.examples.transfer.scenario]);
    want(await until(() => !at("alone").hidden), "a scenario dropped alone");
    drop(["r.out", given.examples.transfer.report]);
    want(await until(() => at("alone").hidden && page.view?.story.last === 29 && page.view.story.scenario), "and its report");
    at("pasted").value = given.examples.timeout.scenario + given.examples.timeout.report;
    at("show").click();
    want(page.view.story.last === 5, "pasted");
  },

  // slider, keys, search, choosing, address
  async keys(want) {
    location.hash = "#transfer";
    want(await until(() => page.view?.story.last === 29), "#transfer");
    const step = (key, wanted, more) => (press(key, more), want(page.view.step === wanted, key + " gave " + page.view.step + ", not "
      + wanted));
    step("End", 29), step("Home", 0), step("ArrowRight", 1), step("ArrowRight", 11, { shiftKey: true }), step("ArrowLeft", 10),
      step("ArrowLeft", 0, { shiftKey: true });
    step("j", 5), step("j", 8), step("j", 9), step("k", 8), step("ArrowRight", 9);
    page.move(12);
    page.paint();
    want(at("slider").getAttribute("aria-valuetext") === "step 12 of 29: tc granted tc:1 b2", at("slider").getAttribute("aria-valuetext"));
    page.move(14);
    page.paint();
    want(at("slider").getAttribute("aria-valuetext") === "step 14 of 29: transfer goes on", at("slider").getAttribute("aria-valuetext"));
    at("slider").value = 20;
    at("slider").dispatchEvent(new Event("input"));
    want(page.view.step === 20, "the slider");
    at("search").value = "cleared";
    at("search").dispatchEvent(new KeyboardEvent("keydown", { key: "Enter", bubbles: true }));
    want(page.view.step === 24, "the search went to " + page.view.step);
    page.search("account:1");
    want(page.view.chosen?.row === "east.account:1", "a row by search");
    page.search("tc:1");
    want(page.view.chosen?.xid === 1, "a transaction by search");
    await until(() => location.hash.includes("tc=1"));
    want(/^#transfer&step=[0-9]+&tc=1$/.test(location.hash), "the address is " + location.hash);
    press("Escape");
    want(page.view.chosen === null, "Escape");
    location.hash = "#step=12&tc=1";
    want(await until(() => page.view.step === 12 && page.view.chosen?.xid === 1), "#step=12&tc=1");
    await frame();
    const head = page.links.get("lanes").find((link) => link.choose?.node === "west");
    page.click("lanes", { offsetX: head.x + 5, offsetY: head.y + 5 });
    want(page.view.chosen?.node === "west" && !page.view.isChosen(page.view.story.entries[6])
      && page.view.isChosen(page.view.story.entries[10]), "a click on a node");
    page.click("strips", { offsetX: bandX(page.view.story, at("bands").clientWidth, 17.5), offsetY: BAND * 1.5 });
    want(page.view.step === 17, "a click on the bands gave " + page.view.step);
    at("diagram").scrollTop = 0;
    page.click("lanes", { offsetX: 10, offsetY: HEAD + ROW * 2.5 });
    want(page.view.step === 5, "a click on a row gave " + page.view.step);
    at("speed").value = 20;
    page.move(26);
    press(" ");
    want(await until(() => page.view.step === 29 && page.playing === null), "play");
    let saved;
    URL.createObjectURL = (blob) => ((saved = blob), "#");
    HTMLAnchorElement.prototype.click = () => {};
    page.save();
    want((await saved.text()).startsWith("<svg") && saved.type === "image/svg+xml", "the window as SVG");
    const order = Array.from(document.querySelectorAll("input, select, button, textarea, a, [tabindex]"))
      .filter((each) => each.checkVisibility() && !each.closest("#state li, #state table")).map((each) => each.id);
    want(order.join() === "picker,examples,paste,save,play,speed,slider,search,folds,diagram,bands,state", "focus order " + order);
  },

  dark(want) {
    show("transfer");
    page.paint();
    want(dot("lanes") === "21,24,28", "the diagram's ground is " + dot("lanes"));
    want(getComputedStyle(document.body).backgroundColor === "rgb(21, 24, 28)", "the page's ground");
  },

  print(want) {
    show("transfer");
    want(getComputedStyle(at("controls")).display === "none" && getComputedStyle(document.body).color === "rgb(0, 0, 0)",
      "controls are printed");
    dispatchEvent(new Event("beforeprint"));
    want(dot("lanes") === "255,255,255", "the diagram is printed on " + dot("lanes"));
  },
};

// what a large history takes of the page
async function small(want) {
  want(document.querySelectorAll("#diagram *").length <= 400, "elements in the diagram");
  await frame();
  window.gc();
  const bytes = performance.memory.usedJSHeapSize;
  measured.push("heap " + Math.round(bytes / 1e6) + " MB");
  want(bytes < 150e6, "the heap has " + bytes + " bytes");
}

const dot = (id) => Array.from(at(id).getContext("2d").getImageData(3, 3, 1, 1).data.slice(0, 3)).join();
const said = (texts) => (page.given = { scenario: null, report: null }, at("alarm").hidden = true, page.show(texts), alarm());

function sectionsText(story) {
  return Array.from({ length: story.last + 1 }, (_, step) => (page.move(step), page.paint(), at("state").textContent));
}

function refuses(act) {
  try {
    act();
  } catch (fault) {
    return fault instanceof Refused;
  }
  return false;
}

// ---- lines beside those of the examples: each word, and keys that hold what stands between the parts of a line

const KEY = "A.t:''_2";
const ACT_LINES = [
  "late tc:2", "retry tc:1 b1", "retrying tc:4294967295 b1", "failed tc:1 b1 stmt 2", "cancelled tc:1 b1", "empty tc:1 b1",
    "remarked tc:1 b1", "marked tc:1 b1",
  "unfenced tc:1 b1", "unable tc:1 b1 stmt 1 Overflow " + KEY, "unable tc:1 b1 stmt 1 TableFull", "waiting tc:1 c1", "busy tc:1 c1 " + KEY
    + " t1.2", "busy 3",
  "refused tc:1 c1 stmt 3 Duplicate A.t:'a_b, ''c'' | x; y'", "refused tc:1 c1 norow 2", "waiting-local 1", "busy-local 1 " + KEY
    + " t2.10", "refused-local 1 stmt 1 NoTable",
  "dropped tc:1 c1 t1.1 rolling tc:2", "dropped tc:1 c1 t1.1 closed 15", "dropped tc:1 c1 t1.1 late", "dropped tc:1 c1 t1.1 tries",
    "down at local-committed 1 t1.1",
  "down kept outside 2 at boot", "restarted kept boot", "silent", "lost",
    "dirty tc:1 b1 A.t:-9223372036854775808 (-9223372036854775808, '') -", "dirty tc:1 b1 A.t:9223372036854775807 - (1, ') | -')",
  "conflict tc:2 A.t:'日本 😀' tc:1 rolling", "regranted tc:1 b2", "outside 20000", "forgot tc:1", "known tc:1", "free", "suspended tc:1 b1",
    "again tc:1 c32 b7", "closed tc:1 15",
];
const NOTE_LINES = [
  "register tc:1 c1 t1.1 AT hold t:''_2,'a_b, ''c'' | x; y'_-1;u:'" + "é".repeat(60) + "' check - to tc",
    "register tc:1 c1 t1.1 TCC hold - check - to tc",
  "register tc:1 c1 t1.1 AT hold - check acc:1,2;stock:'to tc' to tc", "lock-query t1.2 check acc:-1;acc2:'|' to tc",
    "lock-held t1.2 A.t:'_' tc:1 to A", "lock-free t1.2 to A",
  "answer tc:1 c1 busy A.t:'x to m1' t1.2 to m1", "answer tc:1 c1 failed stmt 1 ColumnsX to m1".replace("ColumnsX", "Columns"),
    "closed t1.1 tc:1 11 to A", "late t1.1 tc:1 to A", "begin to 60000 to tc",
  "conflict t1.1 tc:2 A.t:'tc:1 held' tc:1 held to A", "branch-rollback tc:1 b1 TCC to A", "branch-committed tc:1 b1 7 16 to tc",
    "status tc:1 9 to m1", "status-ask tc:1 to tc",
];
const LINES = [
  ...ACT_LINES.map((act, i) => i + 1 + " A 9223372036854775807 turn | " + act + " | -"), ...NOTE_LINES
    .map((note, i) => i + 1 + " A 0 deliver 3 m1 | none | " + note),
  "1 net 5 wait 5 | none | -", "2 net 0 deliver 20000 | none | -", "3 A 0 stop 0 | armed | -", "4 A 0 restart 257 1000000 | restarted | -",
    "5 A 0 crash | down | -", "6 A 0 outside 3 | lost | -",
];
const BROKEN = [
  "", "1", "1 tc 0 turn | none", "1 tc 0 turn | none | - ", "01 tc 0 turn | none | -", "1 tc 0 turn | begun | -",
    "1 tc 0 turn | begun tc:x | -", "1 tc 0 turn | constructor | -", "1 tc 0 turn | nothing | -",
  "1 tc -1 turn | none | -", "1 tc 0 turn | none | begun tc:1", "1 tc 0 turn | dirty tc:1 b1 A.t:'x | - | -",
    "1 tc 0 turn | none | register tc:1 c1 t1.1 XA hold - check - to tc", "1 tc 0 turn |none | -",
  "1 tc 0 turn | dirty tc:1 b1 A.t:-0 - - | -", "1 tc 0 turn | none | - | -", "1  tc 0 turn | none | -",
];
const STATEMENTS = [
  ["UPDATE t SET m = m + 1 WHERE id = 1", "r.t:1(1, 6, 'a')"], ["update t set m=m- -1 where not(id<>1);", "r.t:1(1, 6, 'a')"],
    ["UPDATE t SET m = 1 - m - 2 WHERE s = 'a'", "r.t:1(1, -6, 'a')"],
  ["UPDATE t SET m = m + 1 WHERE id = 3", "r.t:3(3, 9007199254740994, '')"],
    ["UPDATE t SET s = 'it''s' WHERE m < 0 OR id = 3 AND s = ''", "r.t:2(2, -9223372036854775808, 'it''s')",
    "r.t:3(3, 9007199254740993, 'it''s')"],
  ["DELETE FROM t WHERE id >= 2 AND id <= 2", "r.t:2-"], ["UPDATE t SET m = -9007199254740993 WHERE m = 9007199254740993",
    "r.t:3(3, -9007199254740993, '')"], ["INSERT INTO t (s, id, m) VALUES ('', 9, -1), ('x', 8, 2)", "r.t:9(9, -1, '')",
    "r.t:8(8, 2, 'x')"], ["SELECT * FROM t\n WHERE s = 'it''s'\tFOR UPDATE", "r.t:2"],
  ["DELETE FROM t WHERE (id = 1 OR id = 2) AND NOT s > 'a'", "r.t:1-"], ["UPDATE t SET m = id, s = s WHERE id = 1 AND id = 2"],
    ["UPDATE t SET m = m + id - 3", "r.t:1(1, 3, 'a')", "r.t:2(2, -9223372036854775809, 'it''s')", "r.t:3(3, 9007199254740993, '')"],
];

// ---- the acts that bench/page takes the time of

const SIZES = { large: () => [largeScenario(), largeReport()], crowded: () => [crowdedReport()] };
const firstPicture = (texts) => (page.show(texts), page.paint(), document.body.offsetHeight);

// moves all over the history, and how many milliseconds by the clock each frame took that showed one
async function moves(from, count) {
  const took = [];
  for (let i = from; i < from + count; i += 1) {
    const step = (i * 7919 + 13) % 20001;
    let begun;
    requestAnimationFrame(() => (begun = performance.now()));
    page.move(step);
    await frame();
    await scheduler.postTask(() => took.push(performance.now() - begun));
    if (document.querySelector("#state h2").textContent !== "Step " + step + " of 20000") throw new Error("the next frame shows no " + step);
  }
  return took;
}

// ---- a large run, made here by the few rules that it needs: 256 transactions with five calls each at 32 databases, and no fault. With
// SEATA_LAB the program's report of the scenario is held to it.

const MANAGERS = 256, RESOURCES = 32, CALLS = 5;

function largeScenario() {
  const rows = Array.from({ length: MANAGERS }, (_, i) => [i + 1, 1000]);
  const table = { name: "acc", mode: "AT", columns: [["id", "int"], ["m", "int"]], key: "id", rows };
  const call = (i, c) => ({ at: "r" + (((i + c) % RESOURCES) + 1), do: ["UPDATE acc SET m = m - 1 WHERE id = " + (i + 1)] });
  const manager = (i) => ({ name: "m" + (i + 1), calls: Array.from({ length: CALLS }, (_, c) => call(i, c)), end: "commit" });
  const resources = Array.from({ length: RESOURCES }, (_, i) => ({ name: "r" + (i + 1), tables: [table] }));
  return JSON.stringify({ resources, managers: Array.from({ length: MANAGERS }, (_, i) => manager(i)), schedule: ["auto 20000"] });
}

class LargeRun {
  constructor() {
    this.scenario = scenarioOf(largeScenario());
    Object.assign(this, { started: new Set(), tickets: new Map(), branches: 0, ofBranch: new Map(), asked: [], notes: [null], done: 0,
      at: 1, turn: 0 });
  }
  // what the coordinator's next turn does: it asks the branches of one transaction after the other, and finishes it
  turnOfCoordinator() {
    if (this.decided === undefined || this.at > this.decided) return ["none", null];
    if (this.turn === CALLS) return ["finished tc:" + this.at++ + " 9", ((this.turn = 0), null)];
    const branch = (this.at - 1) * CALLS + ++this.turn;
    return ["asked tc:" + this.at + " b" + branch, "branch-commit tc:" + this.at + " b" + branch + " AT to " + this.ofBranch.get(branch)];
  }
  turnOf(place) {
    if (place === "tc") return this.turnOfCoordinator();
    if (place[0] === "r" || this.started.has(place)) return ["none", null];
    this.started.add(place);
    return ["starts", "begin " + place + " 60000 to tc"];
  }
  callOf(manager, xid, call) {
    const calls = this.scenario.managers[Number(manager.slice(1)) - 1].calls;
    return ["goes on", call > calls.length ? "commit " + xid + " to tc" : "call " + xid + " c" + call + " to " + calls[call - 1].at];
  }
  delivered(place, from, words) {
    const [word, a, b, c] = words;
    if (word === "begin") return ["begun tc:" + ++this.done, "begun tc:" + this.done + " to " + a];
    if (word === "begun") return this.callOf(place, a, 1);
    if (word === "call") return this.opened(place, a, b);
    if (word === "register") return this.ofBranch.set(++this.branches, from),
      ["granted " + a + " b" + this.branches, "granted " + c + " " + a + " b" + this.branches + " to " + from];
    if (word === "granted") return this.committed(place, a, b, c);
    if (word === "answer") return this.callOf(place, a, Number(b.slice(1)) + 1);
    if (word === "commit") return (this.decided = Number(a.slice(3))), ["decided " + a + " commit", "commit-status " + a + " 8 to " + from];
    if (word === "commit-status") return ["closes " + b, null];
    if (word === "branch-commit") return ["cleared " + a + " " + b, "branch-committed " + a + " " + b + " 5 0 to tc"];
    return ["ended " + a + " " + b, null];
  }
  opened(place, xid, call) {
    const count = (this.tickets.get(place)?.count ?? 0) + 1, ticket = "t1." + count;
    this.tickets.set(place, { count });
    this.tickets.set(place + ticket, call);
    return ["opened " + xid + " " + call + " " + ticket, "register " + xid + " " + call + " " + ticket + " AT hold acc:" + xid.slice(3)
      + " check - to tc"];
  }
  committed(place, ticket, xid, branch) {
    const call = this.tickets.get(place + ticket);
    return ["committed " + xid + " " + branch + " " + ticket, "answer " + xid + " " + call + " done " + branch + " to m" + xid.slice(3)];
  }
  report() {
    const schedule = new Schedule(this.scenario), lines = ["entries"];
    for (let number = 1; number <= 20000; number += 1) {
      const [place, , cause, of, from] = schedule.automatic().split(" "), origin = schedule.automatic();
      const [act, sent] = cause === "turn" ? this.turnOf(place) : this.delivered(place, from, this.notes[of].split(" "));
      this.notes.push(sent);
      lines.push(number + " " + origin + " | " + act + " | " + (sent ?? "-"));
      schedule.take(readEntry(lines.at(-1)));
    }
    const sessions = Array.from({ length: this.done }, (_, i) => "tc:" + (i + 1) + " m" + (i + 1)
      + (i + 1 < this.at ? " 9 Committed" : " 8 AsyncCommitting"));
    return [...lines, "sessions", ...sessions, "locks", "tables", ...this.rows(), "fences", "reads", ""].join("\n");
  }
  rows() {
    const touched = (r, i) => Array.from({ length: CALLS }, (_, c) => (i + c) % RESOURCES).includes(r) ? 999 : 1000;
    return Array.from({ length: RESOURCES * MANAGERS }, (_, n) => "r" + (Math.floor(n / MANAGERS) + 1) + ".acc (" + ((n % MANAGERS) + 1)
      + ", " + touched(Math.floor(n / MANAGERS), n % MANAGERS) + ")");
  }
}

const largeReport = () => new LargeRun().report();

// ---- a crowd of messages: each of 256 managers asks for its transaction again and again, and only then the first message is delivered

function crowdedReport() {
  const lines = ["entries"], half = 10000, of = (number) => ((number - 1) % MANAGERS) + 1;
  for (let number = 1; number <= half; number += 1) {
    const m = "m" + of(number);
    lines.push(number + " " + m + " 0 turn | " + (number <= MANAGERS ? "starts" : "repeats") + " | begin " + m + " 60000 to tc");
  }
  for (let number = 1; number <= half; number += 1) {
    const m = "m" + of(number), xid = "tc:" + of(number);
    lines.push(half + number + " tc 0 deliver " + number + " " + m + " | " + (number <= MANAGERS ? "begun " : "known ") + xid + " | begun "
      + xid + " to " + m);
  }
  const sessions = Array.from({ length: MANAGERS }, (_, i) => "tc:" + (i + 1) + " m" + (i + 1) + " 1 Begin");
  return [...lines, "sessions", ...sessions, ...HEADINGS.slice(2), ""].join("\n");
}
