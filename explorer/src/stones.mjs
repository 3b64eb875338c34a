// @ts-check
// Stones in a bowl.

import { drawing } from "./elements.mjs";

const GOLDEN_ANGLE = 2.399963;

/** How large stones are if there are up to so many. */
const RADII = [[4, 15], [7, 13], [10, 11], [16, 9.5], [26, 7.6], [48, 6]];

const radiusOf = count => RADII.find(([most]) => count <= most)[1];

/** A picture of so many stones, laid like the seeds of a sunflower. Each number of a pit lays them otherwise. */
export function drawStones(count, pit) {
  const radius = radiusOf(count), reach = count === 1 ? 0 : Math.min(47 - radius, 1.02 * radius * Math.sqrt(count));
  const stones = Array.from({ length: count }, (_, index) => {
    const angle = index * GOLDEN_ANGLE + pit * 1.7;
    const far = reach * Math.sqrt((index + (count < 4 ? 0.9 : 0.5)) / count);
    return drawing("circle", {
      cx: (50 + far * Math.cos(angle)).toFixed(1), cy: (51 + far * Math.sin(angle)).toFixed(1), r: radius,
      fill: `url(#stone-${(index * 7 + pit) % 3})`, stroke: "#0005", "stroke-width": 0.8,
    });
  });
  return drawing("svg", { viewBox: "0 0 100 100", "aria-hidden": "true" }, ...stones);
}
