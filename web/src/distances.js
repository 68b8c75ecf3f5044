// The promised distance of a figure from its exact value, in centimes, as the contracts of Group
// and Totals have it. As python/xaropinto/distances.py.

import { DISTANCES } from "../../target/web/tables.js";

const { EACH_CELL, EACH_GROUP, EACH_CELL_ORDINARY, EACH_GROUP_ORDINARY, GROUPS } = DISTANCES;

/**
 * Of a product group's liability; n is the group's, `ordinary` says that no curve rate is below
 * zero.
 * @param {number} n
 * @param {boolean} ordinary
 * @returns {number}
 */
export function groupDistance(n, ordinary) {
  return ordinary ? EACH_CELL_ORDINARY * n + EACH_GROUP_ORDINARY : EACH_CELL * n + EACH_GROUP;
}

/**
 * Of the five product groups together.
 * @param {number} n
 * @param {boolean} ordinary
 * @returns {number}
 */
export function totalDistance(n, ordinary) {
  return ordinary
    ? EACH_CELL_ORDINARY * n + GROUPS * EACH_GROUP_ORDINARY
    : EACH_CELL * n + GROUPS * EACH_GROUP;
}
