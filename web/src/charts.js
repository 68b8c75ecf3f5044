// Charts as SVG: lines, bars and steps, with axes, units and a legend that shows the line's style.
//
// No text is cut off: margins follow the longest label. Lines and fills differ in grey print too.
// As python/xaropinto/charts.py.

import { CHARTS } from "../../target/web/tables.js";
import { text } from "./html_parts.js";
import { swiss } from "./number_format.js";
import { fixed } from "./python_text.js";

const { WIDTH, HEIGHT, TOP, RIGHT, PLOT_HEIGHT, LETTER, GAP, SAMPLE, SQUARE } = CHARTS;
const { STEPS, MOST_STEPS, MARK_EVERY, ROW, MOST_ON_AN_AXIS } = CHARTS;
const UNITS = /** @type {[number, string][]} */ (CHARTS.UNITS);

/**
 * What one line or one kind of bar shows.
 * @typedef {{name: string, values: number[]}} Series
 */

/** A chart's plot: where it starts, the axis's step and how many of them there are. */
class Frame {
  /**
   * @param {number} left
   * @param {number} step
   * @param {number} steps
   */
  constructor(left, step, steps) {
    this.left = left;
    this.step = step;
    this.steps = steps;
  }

  /** How wide the plot is. */
  get width() {
    return WIDTH - RIGHT - this.left;
  }

  /**
   * Where a value stands in the picture.
   * @param {number} value
   */
  height(value) {
    return TOP + PLOT_HEIGHT * (1 - value / (this.step * this.steps));
  }

  /**
   * Where a share of the plot's width stands in the picture.
   * @param {number} share
   */
  across(share) {
    return this.left + this.width * share;
  }
}

/**
 * What a chart's amounts in centimes are divided by, so that none is above the most.
 * @param {bigint | number} highest
 * @param {number} most
 * @returns {[number, string]}
 */
export function unitOf(highest, most = MOST_ON_AN_AXIS) {
  return UNITS.find(([divisor]) => highest <= divisor * most) ?? UNITS[UNITS.length - 1];
}

/**
 * The step of an axis from 0 that holds a highest value, and how many of them.
 * @param {number} highest
 * @returns {[number, number]}
 */
export function axisStep(highest) {
  for (let power = 1; ; power *= 10) {
    for (const each of STEPS) {
      // A quotient above a whole number is never rounded down to it.
      const steps = Math.ceil(highest / (each * power));
      if (steps <= MOST_STEPS) return [each * power, Math.max(steps, 1)];
    }
  }
}

/**
 * The plot beside the longest label of its axis.
 * @param {number} highest
 */
export function frameFor(highest) {
  const [step, steps] = axisStep(highest);
  return new Frame(GAP + LETTER * swiss(step * steps).length + 2, step, steps);
}

/**
 * The picture's start.
 * @param {string} title
 * @param {number} height
 */
export function opening(title, height = HEIGHT) {
  return [`<svg viewBox="0 0 ${WIDTH} ${height}" role="img" xmlns="http://www.w3.org/2000/svg">`,
    `<title>${text(title)}</title>`];
}

/**
 * Both axes with their labels.
 * @param {Frame} frame
 * @param {string} unit
 * @param {string} along
 * @param {[number, number][]} marks
 */
export function axes(frame, unit, along, marks) {
  const parts = [`<text class="unit" x="0" y="${TOP - 10}">${text(unit)}</text>`];
  for (let step = 0; step <= frame.steps; step++) {
    const height = frame.height(step * frame.step);
    parts.push(`<line class="grid" x1="${fixed(frame.left, 1)}" x2="${WIDTH - RIGHT}" `
      + `y1="${fixed(height, 1)}" y2="${fixed(height, 1)}"/>`);
    parts.push(`<text text-anchor="end" x="${fixed(frame.left - GAP, 1)}" `
      + `y="${fixed(height + 4, 1)}">${swiss(step * frame.step)}</text>`);
  }
  for (const [share, mark] of marks) {
    parts.push(`<text text-anchor="middle" x="${fixed(frame.across(share), 1)}" `
      + `y="${TOP + PLOT_HEIGHT + 16}">${mark}</text>`);
  }
  parts.push(`<text class="unit" text-anchor="middle" x="${fixed(frame.across(0.5), 1)}" `
    + `y="${HEIGHT - 6}">${text(along)}</text>`);
  return parts;
}

/**
 * The first row: a sample of each line or fill, and its name.
 * @param {string[]} names
 * @param {boolean} isLine
 */
export function legend(names, isLine) {
  /** @type {string[]} */
  const parts = [];
  let left = 0;
  names.forEach((name, number) => {
    const words = left + (isLine ? SAMPLE : SQUARE) + GAP;
    parts.push(isLine
      ? `<line class="line${number}" x1="${fixed(left, 1)}" x2="${fixed(left + SAMPLE, 1)}" `
        + 'y1="9" y2="9"/>'
      : `<rect class="fill${number}" x="${fixed(left, 1)}" y="3" width="${SQUARE}" `
        + `height="${SQUARE}"/>`);
    parts.push(`<text x="${fixed(words, 1)}" y="13">${text(name)}</text>`);
    left = words + LETTER * name.length + 2 * GAP;
  });
  return parts;
}

/**
 * A line for each series, over 0, 1, 2 and so on.
 * @param {string} title
 * @param {string} unit
 * @param {string} along
 * @param {Series[]} series
 */
export function lineChart(title, unit, along, series) {
  const frame = frameFor(Math.max(...series.map((each) => Math.max(...each.values))));
  const last = series[0].values.length - 1;
  const every = last > 60 ? MARK_EVERY : Math.floor(MARK_EVERY / 2);
  /** @type {[number, number][]} */
  const marks = [];
  for (let at = 0; at <= last; at += every) marks.push([at / last, at]);
  const parts = [...opening(title), ...legend(series.map((each) => each.name), true),
    ...axes(frame, unit, along, marks)];
  series.forEach((each, number) => {
    const points = each.values.map((value, at) =>
      `${fixed(frame.across(at / last), 1)},${fixed(frame.height(value), 1)}`).join(" ");
    parts.push(`<polyline class="line${number}" points="${points}"/>`);
  });
  return [...parts, "</svg>"].join("\n");
}

/**
 * Bars on top of each other for each step along the bottom.
 * @param {string} title
 * @param {string} unit
 * @param {string} along
 * @param {Series[]} series
 */
export function barChart(title, unit, along, series) {
  const columns = series[0].values.map((_, at) => series.map((each) => each.values[at]));
  const frame = frameFor(Math.max(...columns.map((column) => column.reduce((a, b) => a + b, 0))));
  const width = frame.width / columns.length;
  /** @type {[number, number][]} */
  const marks = [];
  for (let at = 0; at < columns.length; at += MARK_EVERY) {
    marks.push([(at + 0.5) / columns.length, at]);
  }
  const parts = [...opening(title), ...legend(series.map((each) => each.name), false),
    ...axes(frame, unit, along, marks)];
  columns.forEach((column, at) => {
    let below = 0;
    column.forEach((value, number) => {
      if (value) {
        const left = frame.across(at / columns.length), top = frame.height(below + value);
        parts.push(`<rect class="fill${number}" x="${fixed(left, 2)}" y="${fixed(top, 2)}" `
          + `width="${fixed(width, 2)}" height="${fixed(frame.height(below) - top, 2)}"/>`);
      }
      below += value;
    });
  });
  return [...parts, "</svg>"].join("\n");
}

/**
 * Rows from a total to a total: each step starts where the one before it ended.
 *
 * A step is its name, its value and whether it is a total, which starts at 0.
 * @param {string} title
 * @param {string} unit
 * @param {[string, number, boolean][]} steps
 */
export function stepChart(title, unit, steps) {
  const left = GAP + LETTER * Math.max(...steps.map(([name]) => name.length));
  const valueWidth = GAP + LETTER * Math.max(
    ...steps.map(([, value, isTotal]) => signed(value, isTotal).length));
  let at = 0;
  const spans = steps.map(([, value, isTotal]) => {
    const start = isTotal ? 0 : at;
    at = isTotal ? value : at + value;
    return [start, at];
  });
  const low = Math.min(0, ...spans.flat()), high = Math.max(0, ...spans.flat());
  const scale = (WIDTH - left - valueWidth - GAP) / ((high - low) || 1);
  const height = ROW * (steps.length + 1);
  const parts = [...opening(title, height),
    `<text class="unit" x="${fixed(left, 1)}" y="14">${text(unit)}</text>`];
  steps.forEach(([name, value, isTotal], number) => {
    const fill = isTotal ? 0 : value > 0 ? 1 : 2;
    parts.push(...stepRow(number + 1, [name, signed(value, isTotal)], left,
      spans[number].map((end) => left + (end - low) * scale), fill));
  });
  const zero = left - low * scale;
  parts.push(`<line class="axis" x1="${fixed(zero, 1)}" x2="${fixed(zero, 1)}" y1="${ROW - 2}" `
    + `y2="${height}"/>`);
  return [...parts, "</svg>"].join("\n");
}

/**
 * One row of steps: name, bar and value.
 * @param {number} row
 * @param {[string, string]} words
 * @param {number} left
 * @param {number[]} ends
 * @param {number} fill
 */
export function stepRow(row, words, left, ends, fill) {
  const [name, value] = words;
  const base = ROW * row, low = Math.min(...ends), high = Math.max(...ends);
  return [
    `<text text-anchor="end" x="${fixed(left - GAP, 1)}" y="${base + 15}">${text(name)}</text>`,
    `<rect class="fill${fill}" x="${fixed(low, 1)}" y="${base + 3}" `
      + `width="${fixed(Math.max(high - low, 1), 1)}" height="${ROW - 7}"/>`,
    `<text x="${fixed(high + GAP, 1)}" y="${base + 15}">${value}</text>`,
  ];
}

/**
 * A step with its sign, a total as it is.
 * @param {number} value
 * @param {boolean} isTotal
 */
export function signed(value, isTotal) {
  const whole = rounded(value);
  return whole > 0 && !isTotal ? `+${swiss(whole)}` : swiss(whole);
}

/**
 * The nearest whole number, of two the even one, as Python's `round`.
 * @param {number} value
 */
export function rounded(value) {
  const below = Math.floor(value), part = value - below;
  const isUp = part > 0.5 || (part === 0.5 && below % 2 !== 0);
  return below + (isUp ? 1 : 0);
}
