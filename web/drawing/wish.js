// What a button under an answer wishes: to ask again, with other fields. The form hears it.

/** @typedef {{ from?: string, budget?: string }} Wish */

/** @param {Wish} fields */
export const wish = (fields) => document.dispatchEvent(new CustomEvent('wish', { detail: fields }));
