// ---- What is told of the marked line ---------------------------------------------------------------

const KINDS = {
  interface: "an interface", route: "a static route", process: "the BGP process", network: "a network of the process",
  aggregate: "an aggregate", neighbor: "a neighbor", clause: "a clause of a route map", entry: "an entry of a prefix list",
  community: "an entry of a community list", filter: "an entry of an access list", group: "the filter of an interface in a direction",
};

/** Shows below the file what is known of the marked line, and tells readers of screens which it is. */
function showTarget() {
  const box = part("about");
  const row = state.target < 0 ? null : rowAt(state.target);
  const seen = row !== null && view.shown.includes(state.target);
  if (seen) part("lines").setAttribute("aria-activedescendant", `row-${state.target}`);
  else part("lines").removeAttribute("aria-activedescendant");
  box.hidden = row === null;
  if (row === null) return;
  const pieces = row.now === null ? [make("p", "", "This line stands in the earlier session alone.")] : aboutLine(row);
  box.replaceChildren(...pieces);
}

function aboutLine(row) {
  const { router } = view;
  const element = elementAt(router, row.line);
  const of = element === null ? "" : `, ${KINDS[element.kind]}`;
  const head = make("strong", "", `${router.name} ${row.line + 1}: ${WORDS[row.now]}${of}. `);
  const first = make("p", "", head, firstText(sides.now, router.name, row.line, row.now), ...cutsWith(router, row.line));
  return row.now === "S" || row.now === "." ? [first] : [first, ...likelyPieces(router, row)];
}

/** The cuts in which a line stands, by the first line of what it belongs to. */
function cutsWith(router, k) {
  const lines = linesOfElement(router, k);
  const cuts = sides.now.told.cuts.filter(({ kind, places }) =>
    kind === "cut" && places.some(({ name, line }) => name === router.name && lines.includes(line - 1)));
  if (cuts.length === 0) return [];
  const words = cuts.slice(0, 3).map(({ test, places }) => `test ${test}${places.length === 1 ? " (alone)" : ` (of ${places.length})`}`);
  return [` In the cut of ${words.join(", ")}${cuts.length > 3 ? ` and ${cuts.length - 3} more` : ""}.`];
}

/** The tests that would likely cover a line, each with a button that copies it. */
function likelyPieces(router, row) {
  const { tests, refused, note } = likelyTests(sides.now, router, row.line);
  const denies = tests[0]?.startsWith("element ");
  const front = denies ? "Once somebody has looked at it: " : row.now === "W" ? "Likely to make it strong: " : "Likely test: ";
  const pieces = tests.length === 0 ? [] : [make("p", "likely", make("span", "soft", front), ...tests.map(likelyPiece))];
  if (refused.length > 0) {
    const text = tests.length === 0 ? "Its likely test was asked, and refused: " : "Asked, and refused: ";
    pieces.push(make("p", "", text, ...refused.flatMap((test, k) => [k > 0 ? ", " : "", make("code", "", test)])));
  }
  if (note !== "") pieces.push(make("p", "soft", note));
  return pieces;
}

function likelyPiece(test) {
  const button = make("button", "", "Copy", make("span", "away", ` ${test}`));
  button.type = "button";
  button.dataset.do = `copy-test ${test}`;
  return make("span", "test", make("code", "", test), " ", button);
}

/** Copies a test, or the likeliest one of the marked line. */
function copyLikely(test) {
  if (state.name === null) return undefined;
  const row = state.target < 0 ? null : rowAt(state.target);
  const known = test || (row?.now && !"S.".includes(row.now) ? likelyTests(sides.now, view.router, row.line).tests[0] : undefined);
  return known === undefined ? say("No likely test is known for the marked line.") : copyText("the test", known);
}
