// What a browser is asked of a page, in tests: which of its texts can't be read.

/** The texts that are too pale for what is behind them (Web Content Accessibility Guidelines 2.1: 4.5 to 1). */
export const PALE_TEXTS = `(() => {
  const parsed = (color) => color.match(/[\\d.]+/g).map(Number);
  const light = (color) => {
    const [red, green, blue] = color.map((part) => {
      const share = part / 255;
      return share <= 0.03928 ? share / 12.92 : ((share + 0.055) / 1.055) ** 2.4;
    });
    return 0.2126 * red + 0.7152 * green + 0.0722 * blue;
  };
  const behind = (element) => {
    for (let each = element; each !== null; each = each.parentElement) {
      const [red, green, blue, share = 1] = parsed(getComputedStyle(each).backgroundColor);
      if (share === 1) return [red, green, blue];
    }
    return [255, 255, 255];
  };
  const pale = [];
  const texts = document.createTreeWalker(document.body, NodeFilter.SHOW_TEXT);
  for (let node = texts.nextNode(); node !== null; node = texts.nextNode()) {
    const element = node.parentElement;
    if (node.textContent.trim() === "" || element.closest("script, noscript, .spoken") !== null) continue;
    const [one, other] = [light(parsed(getComputedStyle(element).color)), light(behind(element))].sort((a, b) => b - a);
    const contrast = (one + 0.05) / (other + 0.05);
    if (contrast < 4.5) pale.push(node.textContent.slice(0, 40) + " " + contrast.toFixed(2));
  }
  return [...new Set(pale)];
})()`;
