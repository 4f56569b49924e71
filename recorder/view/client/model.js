// The model that the page holds, with its races unpacked.

/**
 * @typedef {import('../types').ViewModel} ViewModel
 * @typedef {import('../types').ShownProblem} ShownProblem
 * @typedef {{number: number, kind: string, location: string, spelled: string, modes: string, lines: [number, number], actions: [number, number],
 *   common: number|null, group: number, problem: ShownProblem|undefined, words: string, places: (string|null)[], searched: string}} Race
 */
/**
 * The races of a group that are in the line of one problem.
 * @typedef {{number: number, size: number, first: Race, races: Race[], problem: ShownProblem}} Group
 */
/**
 * A line of the list: a problem, with others at its location, and their groups; `order` is its index in the list.
 * @typedef {{problem: ShownProblem, problems: ShownProblem[], groups: Group[], part: string, isKnown: boolean, order: number}} Line
 */

const model = /** @type {ViewModel} */ (JSON.parse(document.getElementById('model')?.textContent || ''));

/**
 * A race as an object. In the page it is a list, and texts are numbers, so that more races have room.
 * @param {import('../types').PackedRace} packed
 * @returns {Race}
 */
function unpack([number, kind, location, spelled, modes, lines, actions, common, group, problem, words, places]) {
  const sentence = model.texts[words];
  return { number, kind: model.kinds[kind], location: model.texts[location], spelled, modes, lines, actions, common, group, problem: model.problems[problem],
    words: sentence, places, searched: `${sentence} ${spelled}`.toLowerCase() };
}

const races = model.races.map(unpack);
const raceOf = new Map(races.map((race) => [race.number, race]));

/**
 * Adds to the list of a key.
 * @template K, V
 * @param {Map<K, V[]>} lists @param {K} key @param {V} value
 */
function addTo(lists, key, value) {
  const list = lists.get(key);
  if (list) list.push(value);
  else lists.set(key, [value]);
}

/** @type {Map<string, Race[]>} by the number of the group, and the problem's index */
const racesOfGroup = new Map();
model.races.forEach(([, , , , , , , , group, problem], k) => addTo(racesOfGroup, `${group + 1} ${problem}`, races[k]));

/** @type {Map<number, Group[]>} by the index of the problem */
const groupsOf = new Map();
for (const { number, race, size, problem } of model.groups) {
  const first = raceOf.get(race);
  if (first) addTo(groupsOf, problem, { number, size, first, races: racesOfGroup.get(`${number} ${problem}`) || [], problem: model.problems[problem] });
}

/** @type {Line[]} */
const lines = model.listed.map(({ part, isKnown, problems: [head, ...others] }, order) => {
  const all = [head, ...others];
  return { part, isKnown, order, problem: model.problems[head], problems: all.map((one) => model.problems[one]), groups: all.flatMap((one) => groupsOf.get(one) || []) };
});

/**
 * Called by origins.js and picture.js.
 * @param {number} action
 */
const wordsOf = (action) => model.texts[model.actions[action][2]];

/**
 * What an action comes from: the word for it, and the action. Called by origins.js and picture.js.
 * @param {number} action
 */
const originsAt = (action) => model.actions[action][3].map(([word, from]) => ({ word: model.origins[word], from }));

export { model, races, raceOf, lines, wordsOf, originsAt };
