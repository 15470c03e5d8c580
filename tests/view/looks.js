// What is wrong with how a page looks in a window of the width WIDTH, a line each.
(() => {
  const wrong = [];
  const say = (what, one) => wrong.push(`${what}: ${one.tagName} ${(one.textContent || "").trim().slice(0, 40)}`);
  const within = (inner, outer, room) => inner.left >= outer.left - room && inner.right <= outer.right + room &&
    inner.top >= outer.top - room && inner.bottom <= outer.bottom + room;
  // The window scrolls downwards alone, and what is wider scrolls by itself.
  if (document.documentElement.scrollWidth > WIDTH) wrong.push(`${document.documentElement.scrollWidth} wide`);
  for (const one of document.querySelectorAll("h1, h2, h3, p, li, td, th, pre, code, bdi, label, table, figure")) {
    const box = one.getBoundingClientRect();
    const isCut = box.left < -1 || box.right > WIDTH + 1;
    if (one.checkVisibility() && box.width && isCut && !one.closest(".scroll, .hidden, .skip")) say("cut off", one);
  }
  // A text lies in its picture, none over another, and that of an event or a block in a box.
  for (const svg of document.querySelectorAll("svg[role=img]")) {
    const texts = [...svg.querySelectorAll("text")].filter((one) => one.textContent);
    const boxes = texts.map((one) => one.getBoundingClientRect());
    const frame = svg.getBoundingClientRect();
    const blocks = [...svg.querySelectorAll("path.box")].map((one) => one.getBoundingClientRect());
    const areColumns = svg.querySelector(".column") !== null;
    texts.forEach((one, n) => {
      if (!within(boxes[n], frame, 1)) say("out of its picture", one);
      const isBoxed = blocks.some((block) => within(boxes[n], block, 3));
      if (areColumns && one.matches(".event, .label") && !isBoxed) say("out of its box", one);
      for (let m = 0; m < n; m += 1) {
        const a = boxes[m], b = boxes[n];
        const across = Math.min(a.right, b.right) - Math.max(a.left, b.left);
        if (across > 1 && Math.min(a.bottom, b.bottom) - Math.max(a.top, b.top) > 4) say("over another", one);
      }
    });
  }
  // Each text is dark on light, or light on dark, by 4.5 to 1.
  const light = (colour) => colour.slice(0, 3).map((value) => value / 255)
    .map((value) => (value <= 0.03928 ? value / 12.92 : ((value + 0.055) / 1.055) ** 2.4))
    .reduce((sum, value, n) => sum + value * [0.2126, 0.7152, 0.0722][n], 0);
  const parts = (colour) => (colour.match(/[\d.]+/g) || [0, 0, 0, 0]).map(Number);
  const ground = (one) => {
    for (let at = one; at; at = at.parentElement) {
      const colour = parts(getComputedStyle(at).backgroundColor);
      if (colour.length < 4 || colour[3] > 0) return colour;
    }
    return [255, 255, 255];
  };
  const under = (one) => {
    const place = one.getBoundingClientRect();
    const around = [...one.closest("svg").querySelectorAll("path.box, circle.badge")]
      .filter((shape) => within(place, shape.getBoundingClientRect(), 3)).pop();
    return around ? parts(getComputedStyle(around).fill) : ground(one.closest("svg"));
  };
  for (const one of document.querySelectorAll("body *")) {
    const own = [...one.childNodes].some((node) => node.nodeType === 3 && node.data.trim());
    if (!own || !one.checkVisibility() || !one.getBoundingClientRect().width || one.closest("title, .hidden, .skip")) continue;
    const isText = one.tagName === "text";
    const style = getComputedStyle(one);
    const colours = [parts(isText ? style.fill : style.color), isText ? under(one) : ground(one)];
    const [high, low] = colours.map(light).sort((a, b) => b - a);
    if ((high + 0.05) / (low + 0.05) < 4.5) say(`a contrast of ${((high + 0.05) / (low + 0.05)).toFixed(2)}`, one);
  }
  return wrong;
})()
