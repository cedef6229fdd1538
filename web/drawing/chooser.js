// Who lies, and who falls silent: nodes and organisations to choose from.
import { Network } from '../state/network.js';
import { counted } from '../words/saying.js';
import { make, named } from './elements.js';

const MOST_BOXES = 200;

/** Nodes and organisations, chosen by boxes to tick: what is chosen stands above, and can be taken away there. */
export class Chooser {
  /** @param {HTMLElement} box */
  constructor(box) {
    this.box = box;
    this.chips = make('ul', { class: 'chips' });
    this.filter = make('input', { type: 'search', 'aria-label': 'Find a node or organisation', placeholder: 'Find by name or key' });
    this.list = make('div', { class: 'boxes' });
    this.filter.oninput = () => this.fill();
    box.append(this.chips, make('details', {}, make('summary', {}, 'Choose organisations and nodes'), this.filter, this.list));
    this.show(new Network(null, null));
  }

  /** @param {Network} network */
  show(network) {
    this.network = network;
    /** @type {Set<string>} */
    this.orgs = new Set();
    /** @type {Set<string>} */
    this.keys = new Set();
    this.filter.value = '';
    this.fill();
  }

  /**
   * What can be chosen: where it is held, its id, its name and what stands beside it.
   * @returns {[Set<string>, string, string, string][]}
   */
  choices() {
    const said = this.filter.value.trim().toLowerCase();
    /** @param {...string} texts */
    const fits = (...texts) => texts.some((text) => text.toLowerCase().includes(said));
    const orgs = this.network.orgs.filter((org) => org.keys.length && fits(org.name, org.id, org.domain));
    const keys = this.network.keys.filter((key) => fits(this.network.name(key), key));
    return [
      ...orgs.map((org) => /** @type {[Set<string>, string, string, string]} */ ([this.orgs, org.id, org.name, counted(org.keys.length, 'node')])),
      ...this.network.sorted(keys).map((key) => /** @type {[Set<string>, string, string, string]} */ ([this.keys, key, this.network.name(key), this.network.orgOf.get(key)?.name ?? ''])),
    ];
  }

  fill() {
    const choices = this.choices(), boxes = choices.slice(0, MOST_BOXES).map(([held, id, name, beside]) => {
      const tick = make('input', { type: 'checkbox' });
      tick.checked = held.has(id);
      tick.onchange = () => { held[tick.checked ? 'add' : 'delete'](id); this.showChosen(); };
      return make('label', { title: id, class: held === this.orgs ? 'whole' : null }, tick, ' ', named(name), beside ? make('span', { class: 'small' }, ` ${beside}`) : '');
    });
    this.list.replaceChildren(...boxes, choices.length > MOST_BOXES ? make('p', { class: 'small' }, `And ${choices.length - MOST_BOXES} others: type a part of the name.`) : '');
    this.showChosen();
  }

  showChosen() {
    const focus = /** @type {HTMLElement} */ (this.box.querySelector('summary'));
    /**
     * @param {Set<string>} held
     * @param {string} id
     * @param {string} name
     */
    const chip = (held, id, name) => {
      const button = make('button', { type: 'button', 'aria-label': `Remove ${name}`, title: id }, named(name), ' ×');
      button.onclick = () => { held.delete(id); this.fill(); focus.focus(); };
      return make('li', {}, button);
    };
    const orgs = this.network.orgs.filter((org) => this.orgs.has(org.id)).map((org) => chip(this.orgs, org.id, org.name));
    const chips = [...orgs, ...[...this.keys].map((key) => chip(this.keys, key, this.network.name(key)))];
    this.chips.replaceChildren(...(chips.length ? chips : [make('li', { class: 'small' }, 'Nobody')]));
  }

  /** The chosen keys, those of chosen organisations among them. */
  all() {
    const keys = this.network.orgs.filter((org) => this.orgs.has(org.id)).flatMap((org) => org.keys);
    return [...new Set([...this.keys, ...keys])].sort();
  }
}
