// Evaluated in a drawn page by tests/page: what there is to see, as values.
(function () {
  "use strict";
  const all = (selector, within = document) => [...within.querySelectorAll(selector)];
  const words = (node) => node.textContent.replace(/\s+/g, " ").trim();
  const byId = (id) => document.getElementById(id);

  /** Texts of pictures that reach over the edge of their picture. */
  function cut() {
    return all("#topics svg, #score svg").flatMap((picture) => {
      const room = picture.getBoundingClientRect();
      const over = (box) => box.width > 0 && (box.left < room.left - 1 || box.right > room.right + 1 || box.bottom > room.bottom + 1);
      return all("text", picture).filter((text) => over(text.getBoundingClientRect())).map(words);
    });
  }

  /** What is used by hand or key and has no name. */
  function unnamed() {
    const named = (node) => node.getAttribute("aria-label") || (node.labels && node.labels.length) || words(node);
    return all("button, input, select, [role=button]").filter((node) => !named(node)).length;
  }

  const topic = (picture) => ({
    topic: Number(picture.dataset.topic), letters: all(".letter", picture).length, cursors: all(".cursor", picture).length,
    rows: all(".row", picture).map((row) => ({
      label: row.getAttribute("aria-label"), spans: all(".span", row).map((span) => span.dataset.code),
    })),
  });
  const told = (node) => ({ code: node.dataset.code, words: words(node) });
  const current = all('#events button[aria-current="true"]');
  const picture = all("#topics svg, #score svg")[0];
  const box = picture ? picture.getBoundingClientRect() : null;
  return {
    topics: all("svg[data-topic]").map(topic), cards: all(".card").map(told), lines: all(".others li").map(told),
    event: current.length === 1 ? Number(current[0].dataset.event) : null,
    events: all("#events li.event").length, results: all("#events .result").length,
    now: words(byId("now")), refused: words(byId("refused")), fragment: location.hash,
    peer: byId("peer").selectedOptions.length ? words(byId("peer").selectedOptions[0]) : "", chosen: all("#topics .row.chosen").length,
    parts: all("#score .part").map((part) => part.dataset.part), table: all("#parts td").map(words),
    small: all("#all-scores button").length,
    unnamed: unnamed(), cut: cut(), wide: document.documentElement.scrollWidth - innerWidth, width: innerWidth,
    paper: getComputedStyle(document.body).backgroundColor, ink: getComputedStyle(document.body).color,
    picture: box && { left: box.left, right: box.right, top: box.top },
  };
})();
