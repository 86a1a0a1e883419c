// What can be judged of a page by a program, after WCAG 2.2: run in the page by browser_test.py.

const parts = text => text.match(/[\d.]+/g).map(Number);
const shownElements = () => [...document.querySelectorAll("body *")].filter(one => one.checkVisibility()
  && one.getClientRects().length);

function luminance([red, green, blue]) {
  const linear = [red, green, blue].map(part => part / 255)
    .map(part => part <= 0.04045 ? part / 12.92 : ((part + 0.055) / 1.055) ** 2.4);
  return 0.2126 * linear[0] + 0.7152 * linear[1] + 0.0722 * linear[2];
}

function ground(one) {
  for (let at = one; at; at = at.parentElement) {
    const colour = parts(getComputedStyle(at).backgroundColor);
    if (colour.length < 4 || colour[3] === 1) return colour;
  }
  return [255, 255, 255];
}

// 1.4.3: the contrast of each text that is shown.
function lowContrast() {
  const hasText = one => [...one.childNodes].some(node => node.nodeType === 3 && node.data.trim());
  const texts = shownElements().filter(hasText);
  const low = texts.filter(one => {
    const style = getComputedStyle(one), size = parseFloat(style.fontSize);
    const isLarge = size >= 24 || (size >= 18.66 && Number(style.fontWeight) >= 700);
    const [dark, light] = [luminance(parts(style.color)), luminance(ground(one))].sort((a, b) => a - b);
    return (light + 0.05) / (dark + 0.05) < (isLarge ? 3 : 4.5);
  });
  return { judged: texts.length, low: low.map(one => `${one.tagName}: ${one.textContent.slice(0, 60)}`) };
}

function nameOf(one) {
  return one.getAttribute("aria-label") || one.labels?.[0]?.textContent.trim() || one.textContent.trim();
}

function faults() {
  const found = [];
  const fault = (rule, one) => found.push(`${rule}: ${one.outerHTML?.slice(0, 80) ?? one}`);
  const all = shownElements();
  if (!document.documentElement.lang) fault("3.1.1 language", document.documentElement);
  if (!document.title) fault("2.4.2 title", document.head);
  const ids = [...document.querySelectorAll("[id]")].map(one => one.id);
  ids.filter((id, at) => ids.indexOf(id) !== at).forEach(id => fault("4.1.1 identifiers", id));
  const named = "input, select, button, a, [role=img], [role=region], [role=search], figure";
  all.filter(one => one.matches(named) && !nameOf(one)).forEach(one => fault("4.1.2 name", one));
  const levels = all.filter(one => /^H[1-6]$/.test(one.tagName)).map(one => Number(one.tagName[1]));
  levels.forEach((level, at) =>
    level > (levels[at - 1] ?? 0) + 1 && fault("1.3.1 headings", `h${levels[at - 1]}, h${level}`));
  document.querySelectorAll("th:not([scope])").forEach(one => fault("1.3.1 table heads", one));
  document.querySelectorAll("table").forEach(one => one.caption || fault("1.3.1 caption", one));
  all.filter(one => one.matches("input:not([type=radio]), select, button")).forEach(one => {
    const { width, height } = one.getBoundingClientRect();
    if (width < 24 || height < 24) fault("2.5.8 target size", one);
  });
  return found.concat(deadLinks());
}

function deadLinks() {
  const links = [...document.querySelectorAll("a[href^='#']")];
  return links.filter(one => !document.getElementById(one.hash.slice(1))).map(one => `dead link: ${one.hash}`);
}
