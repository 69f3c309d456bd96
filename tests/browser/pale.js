// The texts of the page, in the theme of the argument, whose light differs too little from the light behind them: less than
// 4.5 to 1 (WCAG 2, AA), or less than 3 to 1 if they are large.
document.documentElement.dataset.theme = arguments[0];
/** The numbers in a CSS colour: red, green, blue (0 to 255), and the opacity if it has one; zeros if it has none. */
const parts = colour => (colour.match(/[\d.]+/g) ?? [0, 0, 0, 0]).map(Number);
/** The relative luminance, 0 to 1, of red, green and blue of 0 to 255, as WCAG defines it. */
const light = rgb => {
  const [r, g, b] = rgb.map(v => v / 255).map(v => v <= 0.03928 ? v / 12.92 : ((v + 0.055) / 1.055) ** 2.4);
  return 0.2126 * r + 0.7152 * g + 0.0722 * b;
};
/** The red, green and blue of what lies under an element's text: all backgrounds over each other, white below them. */
const background = element => {
  let over = [];
  for (let at = element; at; at = at.parentElement) {
    const [r, g, b, a = 1] = parts(getComputedStyle(at).backgroundColor);
    over.push([r, g, b, a]);
    if (a === 1) break;
  }
  return over.reverse().reduce((under, [r, g, b, a]) => [r, g, b].map((v, i) => v * a + under[i] * (1 - a)), [255, 255, 255]);
};
const found = [];
for (const element of document.querySelectorAll('body *')) {
  const text = [...element.childNodes].filter(node => node.nodeType === 3).map(node => node.data.trim()).join('');
  const style = getComputedStyle(element);
  if (!text || !element.checkVisibility({ checkOpacity: true, checkVisibilityCSS: true }) || element.disabled
    || element.closest('.unseen, [aria-hidden=true], [disabled], svg')) continue;
  const [r, g, b] = parts(style.color);
  const [one, two] = [light([r, g, b]), light(background(element))].sort((a, b) => b - a);
  const size = parseFloat(style.fontSize);
  const least = size >= 24 || size >= 18.6 && Number(style.fontWeight) >= 700 ? 3 : 4.5;
  if ((one + 0.05) / (two + 0.05) < least) {
    found.push(`${element.tagName} ${element.id} ${text.slice(0, 30)} ${((one + 0.05) / (two + 0.05)).toFixed(1)}`);
  }
}
return found;
