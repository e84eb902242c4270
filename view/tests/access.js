// What a person without a mouse, or one who sees little, needs of a document, found by script: access.py asks.
(() => {
  "use strict";

  const CONTROLS = "a[href], button, input:not([type=hidden]), select, textarea, summary, canvas[tabindex], [role=application], [role=tab]";
  const EDGED = "button, input:not([type=range], [type=checkbox], [type=color], [type=file]), select, textarea";

  const styleOf = (element) => getComputedStyle(element);
  const nameOf = (element) => (element.id ? `#${element.id}` : `${element.tagName.toLowerCase()} ${element.textContent.trim().slice(0, 30)}`);
  const isSeen = (element) => {
    const { width, height } = element.getBoundingClientRect();
    return element.checkVisibility({ opacityProperty: true, visibilityProperty: true }) && width > 1 && height > 1 && !element.closest(".away, dialog:not([open])");
  };
  const seen = (selector) => [...document.querySelectorAll(selector)].filter(isSeen);

  // A colour as four numbers: red, green, blue up to 255, and how much it covers.
  function colourOf(text) {
    const parts = (text.match(/[\d.]+/g) || []).map(Number);
    return [parts[0] || 0, parts[1] || 0, parts[2] || 0, parts.length > 3 ? parts[3] : parts.length ? 1 : 0];
  }

  const over = ([r, g, b, a], [x, y, z]) => [r * a + x * (1 - a), g * a + y * (1 - a), b * a + z * (1 - a), 1];

  // The ground behind an element, with all that lies below it.
  function groundOf(element) {
    const layers = [];
    for (let one = element; one; one = one.parentElement) layers.push(colourOf(styleOf(one).backgroundColor));
    const canvas = window.matchMedia("(prefers-color-scheme: dark)").matches ? [0, 0, 0, 1] : [255, 255, 255, 1];
    return layers.reverse().reduce((below, layer) => over(layer, below), canvas);
  }

  function opacityOf(element) {
    let opacity = 1;
    for (let one = element; one; one = one.parentElement) opacity *= Number(styleOf(one).opacity);
    return opacity;
  }

  function light([r, g, b]) {
    const [x, y, z] = [r, g, b].map((part) => part / 255).map((part) => (part <= 0.03928 ? part / 12.92 : ((part + 0.055) / 1.055) ** 2.4));
    return 0.2126 * x + 0.7152 * y + 0.0722 * z;
  }

  function contrast(one, other) {
    const [a, b] = [light(one), light(other)];
    return (Math.max(a, b) + 0.05) / (Math.min(a, b) + 0.05);
  }

  // Elements that have text of their own.
  function texts() {
    const found = seen("body, body *").filter((one) => [...one.childNodes].some((node) => node.nodeType === Node.TEXT_NODE && node.data.trim()));
    return found.filter((one) => !one.closest("[aria-hidden=true], :disabled, script, style, option"));
  }

  // A sign on a colour of its own has a dark edge around it, and so is read on any.
  const isEdged = (element) => styleOf(element).textShadow !== "none";

  function lowTexts() {
    return texts().filter((one) => !isEdged(one)).flatMap((one) => {
      const { fontSize, fontWeight, color } = styleOf(one);
      const size = parseFloat(fontSize);
      const isLarge = size >= 24 || (size >= 18.66 && Number(fontWeight) >= 700);
      const ground = groundOf(one);
      const [r, g, b, a] = colourOf(color);
      const found = contrast(over([r, g, b, a * opacityOf(one)], ground), ground);
      return found < (isLarge ? 3 : 4.5) ? [`${nameOf(one)}: ${found.toFixed(2)}`] : [];
    });
  }

  // Controls whose edge is hard to see: by its colour or by the ground that it bounds.
  function lowControls() {
    return seen(EDGED).filter((one) => !one.matches(":disabled") && one.parentElement).flatMap((one) => {
      const outside = groundOf(one.parentElement);
      const { borderTopColor, borderTopWidth, borderTopStyle } = styleOf(one);
      const edge = parseFloat(borderTopWidth) && borderTopStyle !== "none" ? contrast(over(colourOf(borderTopColor), outside), outside) : 1;
      const box = one.closest("#script-box");
      const held = box ? contrast(over(colourOf(styleOf(box).borderTopColor), groundOf(box.parentElement)), groundOf(box.parentElement)) : 1;
      const found = Math.max(edge, held, contrast(groundOf(one), outside));
      return found < 3 ? [`${nameOf(one)}: ${found.toFixed(2)}`] : [];
    });
  }

  // What the document says of itself: names that lead nowhere, names that stand twice, headings that leave a step out.
  function structure() {
    const faults = [];
    const ids = [...document.querySelectorAll("[id]")].map(({ id }) => id);
    faults.push(...ids.filter((id, at) => ids.indexOf(id) !== at).map((id) => `#${id} stands twice`));
    for (const kind of ["aria-labelledby", "aria-describedby", "aria-controls", "for"]) {
      for (const one of document.querySelectorAll(`[${kind}]`)) {
        for (const id of one.getAttribute(kind).split(" ")) if (!ids.includes(id)) faults.push(`${nameOf(one)}: ${kind} names no ${id}`);
      }
    }
    const levels = [...document.querySelectorAll("h1, h2, h3, h4")].filter((one) => !one.closest("dialog")).map(({ tagName }) => Number(tagName[1]));
    if (levels.filter((level) => level === 1).length !== 1) faults.push("there isn't one first heading");
    levels.forEach((level, at) => at && level > levels[at - 1] + 1 && faults.push("a heading leaves a step out"));
    if (!document.title || !document.documentElement.lang) faults.push("the document has no title or no language");
    if (document.querySelectorAll("main").length !== 1) faults.push("there isn't one main part");
    for (const one of document.querySelectorAll("img:not([alt])")) faults.push(`${nameOf(one)}: no alt`);
    return faults;
  }

  // Which elements Tab has to reach, in the order of the document.
  const reachable = () => [...document.querySelectorAll(CONTROLS)].filter((one) =>
    one.tabIndex >= 0 && !one.disabled && !one.closest("dialog:not([open])") && one.checkVisibility({ visibilityProperty: true }));
  const placeOf = (element) => [...document.querySelectorAll("*")].indexOf(element);

  // Where the focus is: which element, whether it is in sight, and whether it has a mark that is seen, of its own or around it.
  function focused() {
    const one = document.activeElement;
    if (!one || one === document.body || one === document.documentElement) return null;
    const { left, top, right, bottom } = one.getBoundingClientRect();
    const inSight = right > 0 && bottom > 0 && left < window.innerWidth && top < window.innerHeight;
    let mark = "none";
    for (let at = one; at && mark !== "seen"; at = at.parentElement) {
      const { outlineStyle, outlineWidth, outlineColor } = styleOf(at);
      const ground = groundOf(at.parentElement || at);
      const isMarked = outlineStyle !== "none" && parseFloat(outlineWidth) >= 2 && at.matches(":focus-visible, :focus-within");
      if (isMarked) mark = contrast(over(colourOf(outlineColor), ground), ground) >= 3 ? "seen" : "faint";
    }
    return { name: nameOf(one), place: placeOf(one), inSight, mark };
  }

  // The part of an element's box that what scrolls around it shows.
  function shownOf(element) {
    let { left, top, right, bottom } = element.getBoundingClientRect();
    for (let one = element.parentElement; one; one = one.parentElement) {
      if (styleOf(one).overflowY === "visible" || one === document.body) continue;
      const box = one.getBoundingClientRect();
      [left, top, right, bottom] = [Math.max(left, box.left), Math.max(top, box.top), Math.min(right, box.right), Math.min(bottom, box.bottom)];
    }
    return { left, top, right, bottom };
  }

  // What is lost where a document is shown twice as large: what is wider than the window, text that is cut off, and controls that lie over
  // one another.
  function lost() {
    const faults = [];
    const { scrollWidth } = document.documentElement;
    if (scrollWidth > window.innerWidth) {
      const wide = seen("body *").filter((one) => one.getBoundingClientRect().right > window.innerWidth + 1).map(nameOf);
      faults.push(`the document is ${scrollWidth} wide, the window ${window.innerWidth}: ${[...new Set(wide)].slice(0, 5).join(", ")}`);
    }
    for (const one of texts()) {
      const { overflowX, textOverflow } = styleOf(one);
      const isCut = ["hidden", "clip"].includes(overflowX) && one.scrollWidth > one.clientWidth + 1;
      if (isCut || textOverflow === "ellipsis") faults.push(`${nameOf(one)}: its text is cut off`);
    }
    const boxes = seen(EDGED).map((one) => ({ one, box: shownOf(one) }));
    boxes.forEach(({ one, box }, at) => boxes.slice(at + 1).forEach(({ one: other, box: second }) => {
      const across = Math.min(box.right, second.right) - Math.max(box.left, second.left);
      const down = Math.min(box.bottom, second.bottom) - Math.max(box.top, second.top);
      if (across > 1 && down > 1 && !one.contains(other)) faults.push(`${nameOf(one)} lies over ${nameOf(other)}`);
    }));
    return faults;
  }

  // What moves by itself.
  const moving = () => document.getAnimations().filter((one) => one.playState === "running").map(({ effect }) => nameOf(effect.target));

  window.access = { lowTexts, lowControls, structure, reachable: () => reachable().map((one) => [placeOf(one), nameOf(one)]), focused, lost, moving };
})();
