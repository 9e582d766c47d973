// @ts-check
/** Engines that are wrong on purpose, to show that the harness and the judge notice. */

/**
 * @typedef {{ kind: string, atomic: boolean }} Access
 * @typedef {{ access: Access, address: number }} Unit an access whose address and operands are constants
 */

const isPair = (/** @type {Unit} */ first, /** @type {Unit} */ later, /** @type {string} */ kinds, /** @type {boolean[]} */ atomics) => (
  first.address !== later.address && `${first.access.kind} ${later.access.kind}` === kinds
  && first.access.atomic === atomics[0] && later.access.atomic === atomics[1]);

/** What each makes of accesses; and the neighbours in program order that it makes in the other order, if it does so. */
export const WRONG = /** @type {Record<string, { what: string, isSwapped?: (first: Unit, later: Unit) => boolean }>} */ ({
  'plain-atomics': { what: 'atomic loads and stores are made as plain ones' },
  'torn-store': { what: 'a store is made in two halves' },
  'split-update': { what: 'an atomic exchange is a load and a store' },
  'early-atomic-load': {
    what: 'an atomic load is made before an earlier atomic store',
    isSwapped: (first, later) => isPair(first, later, 'store load', [true, true]),
  },
  'early-plain-load': {
    what: 'a plain load is made before an earlier atomic load',
    isSwapped: (first, later) => isPair(first, later, 'load load', [true, false]),
  },
  'late-plain-store': {
    what: 'a plain store is made after a later atomic store',
    isSwapped: (first, later) => isPair(first, later, 'store store', [false, true]),
  },
});
