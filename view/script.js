// zxtt-view: what the page does.
//
// The page keeps nothing of its own but where one stands, and the names that a person gives: all else that it shows it asks the server
// for, and each request says the moment or the branch that it is about, so that several pages can look at one history.
//
// Parts of the page, by their ids:
//   trace                                            the name of the file that the history began with
//   position, jump, step-first, step-back, step-forth, step-last   where one stands, and how one gets elsewhere
//   timeline, search, search-kind, failed-only       the calls of the branch; each row has data-moment
//   tree, branch-name, branch-make                   the branches; each fork and head has data-go, each name data-branch
//   call-form, call-process, call-name, call-arguments, call-run, call-answer
//   change, state                                    what the call changed, and all objects; data-moment says of which moment
//   graph, leaks                                     who holds whom, and what is leaked
//   handle-panel, handle, handle-close               the life of the handle that is picked, and the handles of its object
//   object                                           the object that is picked
//   object-name, handle-name                         the names of these two, which can be given here
//   download, help, end, end-confirm, end-cancel     the session text of the tree, help, the end
//   trouble                                          what went wrong
// A link to an object has the class koid and data-koid, a handle the class handle, data-process and data-handle, a handle in a message
// the class handle and data-message, and a link to a moment the class go and data-go. A name has the class called, a note the class
// remark.
'use strict';

// ---- What the lines are made of ----

// Each call with what stands behind its name, what is answered behind `ok`, and how its arguments are asked for.
const CALLS = {
  event_create: {asks: '', answers: 'handle'},
  eventpair_create: {asks: '', answers: 'handle handle'},
  channel_create: {asks: '', answers: 'handle handle'},
  port_create: {asks: '', answers: 'handle'},
  handle_close: {asks: 'handle', hint: '<handle>'},
  handle_duplicate: {asks: 'handle rights', answers: 'handle', hint: '<handle> <rights>, e.g. 7 0x80000000'},
  handle_replace: {asks: 'handle rights', answers: 'handle', hint: '<handle> <rights>, e.g. 7 0x80000000'},
  object_signal: {asks: 'handle signals signals', hint: '<handle> <clear> <set>, masks like 0x00000008'},
  object_signal_peer: {asks: 'handle signals signals', hint: '<handle> <clear> <set>, masks like 0x00000008'},
  object_wait_async: {asks: 'handle handle key signals word', hint: '<handle> <port> <key> <signals> [edge]'},
  channel_write: {asks: 'handle bytes handles', hint: '<handle> <bytes|-> <handles|->, e.g. 7 6869 11,15'},
  channel_read: {
    asks: 'handle amount amount word', answers: 'bytes handles', hint: '<handle> <max bytes> <max handles> [discard]',
  },
  port_queue: {asks: 'handle key bytes', hint: '<port> <key> <packet, 64 hex digits>'},
  port_wait: {asks: 'handle', hint: '<port>'},
  port_cancel: {asks: 'handle handle key', hint: '<port> <source> <key>'},
  job_create: {asks: 'handle', answers: 'handle', hint: '<job>'},
  spawn: {asks: 'handle handle', answers: 'handle koid', hint: '<job> <handle to transfer, or 0>'},
  job_set_critical: {asks: 'handle handle', hint: '<job> <process>'},
  task_kill: {asks: 'handle', hint: '<job or process>'},
  process_exit: {asks: 'code', hint: '<code>'},
};

// What stands behind `ok` where a packet is answered, by its first word.
const PACKETS = {user: 'word key bytes', signal: 'word key signals signals'};

const RIGHTS = {
  0: 'DUPLICATE', 1: 'TRANSFER', 2: 'READ', 3: 'WRITE', 9: 'DESTROY', 12: 'SIGNAL', 13: 'SIGNAL_PEER', 14: 'WAIT',
  15: 'INSPECT', 16: 'MANAGE_JOB', 17: 'MANAGE_PROCESS', 31: 'SAME_RIGHTS',
};
const SIGNALS = {
  0: 'READABLE', 1: 'WRITABLE', 2: 'PEER_CLOSED', 3: 'SIGNALED', 4: 'NO_JOBS', 5: 'NO_PROCESSES',
  24: 'USER_0', 25: 'USER_1', 26: 'USER_2', 27: 'USER_3', 28: 'USER_4', 29: 'USER_5', 30: 'USER_6', 31: 'USER_7',
};
const SIGNALS_OF_TASKS = {...SIGNALS, 3: 'TERMINATED'};
const SIGNALS_OF_ANY = {...SIGNALS, 3: 'SIGNALED or TERMINATED'};
const DEFAULT_RIGHTS = {job: 0x3d203, process: 0xd203, channel: 0xf00e, event: 0xd003, eventpair: 0xf003, port: 0x800f};
const KIND_NAMES = {job: 'job', process: 'process', channel: 'channel', event: 'event', eventpair: 'event pair', port: 'port'};
const HAPPENINGS = {made: 'made', ended: 'ended', peer_closed: 'peer closed', leaked: 'leaked'};

// How many fields of a row are its key, behind the first.
const KEY_LENGTHS = {counters: 0, object: 1, entry: 2, msg: 2, packet: 2, wait: 1};

/** The names of the bits of a mask, those without a name as a mask behind the others. */
function namesOf(mask, names) {
  let left = Number(mask);
  const found = [];
  for (let bit = 0; bit < 32; bit += 1) {
    if (names[bit] && (left >>> bit) & 1) {
      found.push(names[bit]);
      left -= 2 ** bit;
    }
  }
  if (left > 0) found.push('0x' + left.toString(16).padStart(8, '0'));
  return found.length ? found : ['NONE'];
}

/** The names of signals, which one bit has by the kind of the object. */
function signalNames(mask, kind) {
  return namesOf(mask, kind === 'job' || kind === 'process' ? SIGNALS_OF_TASKS : kind ? SIGNALS : SIGNALS_OF_ANY);
}

const MOST_LACKING = 3;

/** Rights in words: `default` with what it lacks or has beside, where that is short, and else each by its name. */
function rightsWords(mask, kind) {
  const standard = DEFAULT_RIGHTS[kind];
  const given = Number(mask);
  if (standard === undefined) return namesOf(mask, RIGHTS);
  const lacking = standard & ~given ? namesOf(standard & ~given, RIGHTS) : [];
  const beside = given & ~standard ? namesOf(given & ~standard, RIGHTS) : [];
  if (given === 0 || lacking.length + beside.length > MOST_LACKING) return namesOf(mask, RIGHTS);
  return ['default', ...lacking.map((name) => `without ${name}`), ...beside.map((name) => `with ${name}`)];
}

/** A mask without the zeros in front, for where there is little room; `same` asks for the same rights. */
function shortMask(mask, sort) {
  return sort === 'rights' && Number(mask) === 2 ** 31 ? 'same' : mask.replace(/^0x0+(?=.)/, '0x');
}

/** The bits of a mask, for who hovers over its names. */
function bitsOf(mask) {
  const value = Number(mask);
  const bits = [];
  for (let bit = 0; bit < 32; bit += 1) if ((value >>> bit) & 1) bits.push(bit);
  return bits.length ? `${mask}: bit${bits.length > 1 ? 's' : ''} ${bits.join(', ')}` : `${mask}: no bits`;
}

/** Bytes as text, where all of them are visible characters. */
function textOf(bytes) {
  if (bytes === '-' || bytes.length > 2000) return null;
  let text = '';
  for (let at = 0; at < bytes.length; at += 2) {
    const code = parseInt(bytes.slice(at, at + 2), 16);
    if (code < 32 || code > 126) return null;
    text += String.fromCharCode(code);
  }
  return text;
}

/** Numbers stay texts, since they may have 64 bits; this is their order. */
function byNumber(one, other) {
  return one.length - other.length || (one < other ? -1 : one > other ? 1 : 0);
}

function isNumber(text) {
  return /^(0|[1-9][0-9]*)$/.test(text);
}

function grouped(number) {
  return String(number).replace(/\B(?=(\d{3})+$)/g, ',');
}

function counted(number, one, many) {
  return `${grouped(number)} ${number === 1 ? one : many || one + 's'}`;
}

/** A line of `/calls`: the moment, the process, the call with its arguments, and the answer. */
function readCall(line) {
  const [call, answer] = line.split(' => ');
  const [moment, process, name, ...asked] = call.split(' ');
  const [status, ...values] = answer.split(' ');
  return {moment: Number(moment), process, name, asked, status, values, line};
}

function linesOf(text) {
  const lines = text.split('\n');
  if (lines[lines.length - 1] === '') lines.pop();
  return lines;
}

// ---- Asking the server ----

/** What the server refuses, or that it does not answer. */
class Trouble extends Error {
  constructor(text, isGone) {
    super(text);
    this.isGone = isGone;
  }
}

let hasEnded = false;

// The start of the program whose history is shown. Another start has another history, even where it looks like this one.
let shownStart = null;
const BEGUN_ANEW = 'zxtt-begun-anew';

/** Whether the start of the program that answers is the one that is shown. A failure for want of memory does not tell its start. */
function isShownStart(response) {
  const start = response.headers.get('zxtt-start');
  shownStart = shownStart || start;
  return !start || start === shownStart;
}

/** Begins anew: loads the page again, at no place, since nothing of what it shows is known to be so any more. */
function beginAnew() {
  sessionStorage.setItem(BEGUN_ANEW, 'yes');
  history.replaceState(null, '', location.pathname);
  location.reload();
  return new Promise(() => {});
}

/** Says that the page has begun anew, if it has. */
function tellBegunAnew() {
  if (!sessionStorage.getItem(BEGUN_ANEW)) return;
  sessionStorage.removeItem(BEGUN_ANEW);
  showTrouble(new Trouble('zxtt-view was restarted. This page now shows its new history.', false));
}

/** What the server answers to a path, as a text; to a body that is posted, where there is one. */
function ask(path, body) {
  return askAs(path, (response) => response.text(), body);
}

/** What is read of the server's answer to a path. */
async function askAs(path, read, body) {
  let response;
  let found;
  try {
    response = await fetch(path, body === undefined ? {cache: 'no-store'} : {method: 'POST', body});
    found = await (response.ok ? read(response) : response.text());
  } catch (fault) {
    throw new Trouble('The server does not answer. This page shows what it loaded last.', true);
  }
  if (!isShownStart(response)) return beginAnew();
  if (isToldGone) hideTrouble();
  if (!response.ok) throw new Trouble(found.trim() || `The server answered with status ${response.status}.`, false);
  return found;
}

/** The answers to lines, as lines. */
async function talk(...lines) {
  return linesOf(await ask('/lines', lines.join('\n') + '\n'));
}

/** The answers to lines at a moment. */
async function talkAt(moment, ...lines) {
  const [at, ...answers] = await talk(`goto ${moment}`, ...lines);
  if (at !== `at ${moment}`) throw new Trouble(told(at), false);
  return answers;
}

/** The lines of the answer to `show`, `leaks` or `holders`, which begins at a place: its first line tells how many follow. */
function listAt(lines, place) {
  const [word, , count] = lines[place].split(' ');
  if (word === 'refused') throw new Trouble(lines[place], false);
  return lines.slice(place + 1, place + 1 + Number(count));
}

let isToldGone = false;

function showTrouble(fault) {
  if (hasEnded) return;
  if (!(fault instanceof Trouble)) {
    console.error(fault);
  }
  isToldGone = Boolean(fault.isGone);
  part('trouble-text').textContent = fault instanceof Trouble ? fault.message : `Error in the page: ${fault.message}`;
  part('trouble-again').hidden = !isToldGone;
  part('trouble').hidden = false;
}

function hideTrouble() {
  isToldGone = false;
  part('trouble').hidden = true;
}

/** A refusal is told until a person does the next thing. */
function forgetRefusal() {
  if (!isToldGone && !hasEnded) hideTrouble();
}

/** Runs what a person asked for, and tells what goes wrong. */
async function attempt(action) {
  try {
    return await action();
  } catch (fault) {
    showTrouble(fault);
    return undefined;
  }
}

// ---- What is known of the tree ----

// The branches in their order, each with its head and with the branch and the moment that it leaves, and of each moment that is on a
// branch the one before it, as the server tells it.
const tree = {text: '', branches: [], parents: [0]};

// The name of the trace's file.
let traceName = '';

// The calls that have been asked for, as lines, and what happened to objects in them, by their moments.
const calls = [];
const marks = [];

// The most moments of which the server tells calls or what happened at once.
const PART = 16384;

function readBranches(text) {
  return linesOf(text).map((line) => {
    const [, name, head, , leaves, at] = line.split(' ');
    return {name, head: Number(head), leaves: leaves || null, at: Number(at || 0)};
  });
}

function branchNamed(name) {
  return tree.branches.find((branch) => branch.name === name);
}

/** Reads the whole tree: at the start, and where the history is another than it was. */
async function readTree(text) {
  const branches = readBranches(text);
  const parents = [0];
  for (const branch of branches) await readPath(parents, branch.head, branch.at);
  calls.length = 0;
  marks.length = 0;
  changes.clear();
  shown.moment = -1;
  Object.assign(tree, {text, branches, parents});
}

/** Reads the path to a head behind one of its moments: ranges of moments, of which each answer has no more than so many. */
async function readPath(parents, head, known) {
  let before = known;
  while (before < head) {
    for (const line of linesOf(await ask(`/path/${head}/${before + 1}`))) {
      const [first, last] = line.split(' ').map(Number);
      parents[first] = before;
      for (let moment = first + 1; moment <= last; moment += 1) parents[moment] = moment - 1;
      before = last;
    }
  }
}

/** Takes what has come to a branch since it was last asked: the moments behind the head or the fork that is known. */
async function takeGrowth(branch, known) {
  await readPath(tree.parents, branch.head, known ? known.head : branch.at);
}

let refreshing = Promise.resolve(false);

/** Asks for the branches, and says whether there is something new. One asks behind the other. */
function refreshTree() {
  refreshing = refreshing.catch(() => false).then(refreshOnce);
  return refreshing;
}

async function refreshOnce() {
  const text = await ask('/branches');
  if (text === tree.text) return false;
  const branches = readBranches(text);
  const known = new Map(tree.branches.map((branch) => [branch.name, branch]));
  const isSame = tree.branches.every((branch) => branches.some((it) => it.name === branch.name && it.head >= branch.head));
  if (tree.branches.length === 0 || !isSame) {
    await readTree(text);
    return true;
  }
  for (const branch of branches) {
    const before = known.get(branch.name);
    if (!before || before.head !== branch.head) await takeGrowth(branch, before);
  }
  Object.assign(tree, {text, branches});
  return true;
}

/** The moments from the opening to a moment, in their order. */
function pathTo(moment) {
  const path = [];
  for (let at = moment; at > 0; at = tree.parents[at]) path.push(at);
  path.push(0);
  return path.reverse();
}

/** Whether a moment is on the path to another. */
function isBefore(moment, head) {
  let at = head;
  while (at > moment) at = tree.parents[at];
  return at === moment;
}

/** The branch to whose own part a moment belongs, seen from a branch that leads to it. */
function ownerOf(moment, branch) {
  let owner = branch;
  while (owner && owner.leaves && moment <= owner.at) owner = branchNamed(owner.leaves);
  return owner || branch;
}

/** The place of a number in a list that rises, or of the first that is greater. */
function placeIn(list, number) {
  let low = 0;
  let high = list.length;
  while (low < high) {
    const middle = (low + high) >> 1;
    if (list[middle] < number) low = middle + 1;
    else high = middle;
  }
  return low;
}

// ---- Notes and names: what the comments of the trace say ----

// Notes are kept by their moments. Names are kept by what they name, in the words of a name line such as `name 1028` or
// `handle 1025 7`: the names that the trace has, and those that were given on this page. A name that was taken away here is empty.
// `front` has the places where the name lines of the tree's text begin and end.
const notes = [];
const toldNames = new Map();
const givenNames = new Map();
const FIRST_LINE = 'zxtt 2\n';
const front = {begin: FIRST_LINE.length, end: FIRST_LINE.length};

const GIVEN_NAMES = 'zxtt-names';
const MOST_NAME = 64; // bytes
const MOST_NAME_LINE = 9 + 20 + 1 + 10 + 1 + MOST_NAME; // `# handle P H TEXT`
const NAME_LINE = /^# (name (\d+)|handle (\d+) (\d+)) (.+)$/s;
const CONTROLS = /[\u0000-\u001f\u007f-\u009f]/;
// What would hide other text, or show it in another order.
const UNSEEN = /[\u0000-\u0008\u000b-\u001f\u007f-\u009f\u202a-\u202e\u2066-\u2069]/g;

function ofKoid(koid) {
  return `name ${koid}`;
}

function ofHandle(process, handle) {
  return `handle ${process} ${handle}`;
}

/** The name of what these words name, or an empty text. */
function nameOf(words) {
  const given = givenNames.get(words);
  return given === undefined ? toldNames.get(words) || '' : given;
}

/** A koid with its name behind it, where only a text can be put. */
function withName(koid) {
  const name = nameOf(ofKoid(koid));
  return name ? `${koid} ${name}` : koid;
}

const text8 = new TextDecoder('utf-8', {ignoreBOM: true});
const exact8 = new TextDecoder('utf-8', {ignoreBOM: true, fatal: true});

/** A name line: what it names, and the name; or null where a comment is none. */
function readNameLine(bytes) {
  const isNone = bytes.length > MOST_NAME_LINE || (bytes[2] !== 110 && bytes[2] !== 104);
  const found = isNone ? null : NAME_LINE.exec(exactly(bytes));
  if (!found) return null;
  const [, words, koid, process, handle, name] = found;
  const isNamed = koid ? isBelow(koid, 64) : isBelow(process, 64) && isBelow(handle, 32);
  return isNamed && bytesIn(name) <= MOST_NAME && !CONTROLS.test(name) ? {words, name} : null;
}

/** Bytes as a text, or an empty text where they are none. */
function exactly(bytes) {
  try {
    return exact8.decode(bytes);
  } catch (fault) {
    return '';
  }
}

function isBelow(number, bits) {
  return isNumber(number) && BigInt(number) < 2n ** BigInt(bits);
}

function bytesIn(text) {
  return new TextEncoder().encode(text).length;
}

/** What a comment says: without its mark, and the space behind that. */
function readComment(bytes) {
  return text8.decode(bytes.subarray(bytes[1] === 32 ? 2 : 1)).replace(UNSEEN, '\ufffd');
}

const PLACES = ['branch ', 'cursor '].map((word) => [...word].map((letter) => letter.charCodeAt(0)));

/** Takes notes and names from the lines of a session text, in their order. */
class NotesReader {
  constructor() {
    this.notes = [];
    this.names = new Map();
    this.front = {begin: 0, end: 0};
    this.place = 0; // in the text, behind the lines that were taken
    this.moment = 0;
    this.comments = [];
  }

  /** Takes a line: the bytes from one place to another. */
  take(bytes, from, to) {
    const isFirst = this.place === 0;
    const begin = this.place;
    this.place += to + 1 - from;
    if (isFirst) this.front = {begin: this.place, end: this.place};
    else if (bytes[from] === 35 && to > from) this.takeComment(bytes.subarray(from, to), begin);
    else if (to > from) this.takeItem(PLACES.some((word) => word.every((letter, at) => bytes[from + at] === letter)));
  }

  takeComment(bytes, begin) {
    const named = readNameLine(bytes);
    if (!named) this.comments.push(readComment(bytes));
    else this.names.set(named.words, named.name.replace(UNSEEN, '\ufffd'));
    if (named && begin === this.front.end) this.front.end = this.place;
  }

  takeItem(isPlace) {
    if (!isPlace) this.moment += 1;
    if (!isPlace && this.comments.length) this.notes[this.moment] = this.comments.join('\n');
    if (this.comments.length) this.comments = [];
  }
}

/** Gives each line of a body to a reader as it comes, so that nothing has to hold all of it. */
async function readLines(body, reader) {
  const source = body.getReader();
  let pieces = []; // of a line that has not ended yet
  for (let part = await source.read(); !part.done; part = await source.read()) {
    let from = 0;
    for (let to = part.value.indexOf(10); to >= 0; to = part.value.indexOf(10, from)) {
      if (pieces.length) takePieces(reader, [...pieces, part.value.subarray(0, to)]);
      else reader.take(part.value, from, to);
      if (pieces.length) pieces = [];
      from = to + 1;
    }
    if (from < part.value.length) pieces.push(part.value.slice(from));
  }
  return reader;
}

function takePieces(reader, pieces) {
  const line = new Uint8Array(pieces.reduce((sum, piece) => sum + piece.length, 0));
  let at = 0;
  for (const piece of pieces) {
    line.set(piece, at);
    at += piece.length;
  }
  reader.take(line, 0, line.length);
}

let readingNotes = null;

/** Reads the notes and names of the trace, once: what comes to the history later has none. */
function readNotes() {
  readingNotes = readingNotes || readNoted();
  readingNotes.catch(() => {
    readingNotes = null;
  });
  return readingNotes;
}

/** Reads the notes and names where there are any: a trace without them costs one short answer. */
async function readNoted() {
  if ((await ask('/noted')) === 'no\n') return;
  takeNotes(await askAs('/tree', (response) => readLines(response.body, new NotesReader())));
}

function takeNotes(reader) {
  Object.assign(front, reader.front);
  reader.notes.forEach((note, moment) => {
    notes[moment] = note;
  });
  for (const [words, name] of reader.names) toldNames.set(words, name);
  if (notes.length || toldNames.size) drawNamed();
}

/** Shows the name of what these words name in the field of a panel; not while a person types there. Without words there is no field. */
function showNaming(panel, words, label) {
  const field = part(`${panel}-name`);
  part(`${panel}-naming`).hidden = !words;
  if (!words || (field.dataset.names === words && document.activeElement === field)) return;
  field.dataset.names = words;
  field.value = nameOf(words);
  field.setAttribute('aria-label', label);
}

/** Gives the name that is typed, which is done by Enter and by leaving the field. */
function nameTyped({target}) {
  forgetRefusal();
  attempt(async () => giveName(target.dataset.names, target.value));
}

/** Gives a name to what these words name, or takes it away where it is empty. */
function giveName(words, text) {
  const name = text.trim();
  if (bytesIn(name) > MOST_NAME) throw new Trouble(`A name has at most ${MOST_NAME} bytes. This one has ${bytesIn(name)}.`, false);
  if (name.search(UNSEEN) >= 0 || CONTROLS.test(name)) throw new Trouble('A name has only printable characters.', false);
  givenNames.set(words, name);
  if (name === (toldNames.get(words) || '')) givenNames.delete(words);
  sessionStorage.setItem(GIVEN_NAMES, JSON.stringify({start: shownStart, names: [...givenNames]}));
  drawNamed();
}

/** The names that were given on this page ahead of its being loaded anew. */
function takeGivenNames() {
  const {start, names} = JSON.parse(sessionStorage.getItem(GIVEN_NAMES) || '{}');
  if (!start || start !== shownStart) return;
  for (const [words, name] of names) givenNames.set(words, name);
}

/** Downloads the tree with the names that were given, where there are any. Else the link itself leads to it. */
function downloadNamed(event) {
  if (!givenNames.size) return;
  event.preventDefault();
  attempt(async () => {
    const link = make('a', '');
    link.href = URL.createObjectURL(await treeNamed());
    link.download = event.target.download;
    link.click();
    setTimeout(() => URL.revokeObjectURL(link.href), 60000);
  });
}

/** The text of the tree with the names that were given in the place of those that its name lines had. */
async function treeNamed() {
  await readNotes();
  const tree = await askAs('/tree', (response) => response.blob());
  const lines = linesOf(await tree.slice(front.begin, front.end).text()).filter((line) => !givenNames.has(NAME_LINE.exec(line)[1]));
  for (const [words, name] of givenNames) if (name) lines.push(`# ${words} ${name}`);
  return new Blob([tree.slice(0, front.begin), ...lines.map((line) => `${line}\n`), tree.slice(front.end)]);
}

/** Draws anew all that may show a note or a name. */
function drawNamed() {
  clearRows();
  if (view.filter) search();
  else drawTimeline(false);
  drawCallForm();
  if (shown.moment >= 0) drawMoment();
  loadObjectNow();
  part('handle').dataset.life = '';
  loadHandleNow();
}

// ---- A state, and what a call changed of it ----

/** The rows at a moment: entries by their process, and messages, packets and waits by the object that has them. */
class State {
  constructor(rows) {
    this.objects = new Map();
    this.entries = new Map();
    this.messages = new Map();
    this.packets = new Map();
    this.waits = new Map();
    this.size = 0;
    for (const row of rows) this.put(row);
  }

  /** The map and the key in it that a row belongs to; a map of things of one owner is made where it is wanted. */
  placeOf(fields) {
    const sort = fields[0];
    if (sort === 'object') return [this.objects, fields[1]];
    const owners = {entry: this.entries, msg: this.messages, packet: this.packets, wait: this.waits}[sort];
    if (!owners) return null;
    const [owner, key] = sort === 'wait' ? [fields[4], fields[1]] : [fields[1], fields[2]];
    if (!owners.has(owner)) owners.set(owner, new Map());
    return [owners.get(owner), key];
  }

  put(row) {
    const fields = row.split(' ');
    const place = this.placeOf(fields);
    if (!place) return;
    if (!place[0].has(place[1])) this.size += 1;
    place[0].set(place[1], readRow(fields));
  }

  take(row) {
    const place = this.placeOf(row.split(' '));
    if (place && place[0].delete(place[1])) this.size -= 1;
  }

  /** Goes over a change, or back over it. */
  step(change, isBack) {
    for (const {before, after} of change) {
      const [from, to] = isBack ? [after, before] : [before, after];
      if (to) this.put(to);
      else if (from) this.take(from);
    }
  }

  kindOf(koid) {
    const object = this.objects.get(koid);
    return object ? object.kind : '';
  }

  /** What a handle of a process names, or null. */
  named(process, handle) {
    const entry = this.entries.has(process) && this.entries.get(process).get(handle);
    return entry ? entry.koid : null;
  }

  /** The processes that run, by rising koid. */
  processes() {
    const found = [...this.objects.values()].filter((object) => object.kind === 'process' && object.life === 'live');
    return found.map((process) => process.koid).sort(byNumber);
  }
}

/** What the fields of a row are. */
function readRow(fields) {
  const [sort, ...rest] = fields;
  if (sort === 'object') {
    const [koid, kind, signals, link, life, next, critical] = rest;
    return {sort, koid, kind, signals, link, life, next, critical: critical ? critical.slice('critical:'.length) : ''};
  }
  if (sort === 'entry') return {sort, process: rest[0], handle: rest[1], koid: rest[2], rights: rest[3]};
  if (sort === 'msg') return {sort, endpoint: rest[0], number: rest[1], bytes: rest[2], held: readHeld(rest[3])};
  if (sort === 'wait') {
    const [number, process, handle, port, key, signals, edge] = rest;
    return {sort, number, process, handle, port, key, signals, edge: Boolean(edge)};
  }
  if (sort === 'packet') return readPacket(rest);
  return {sort, koid: rest[0], wait: rest[1]};
}

function readPacket([port, number, source, key, first, observed, process, handle]) {
  const packet = {sort: 'packet', port, number, source, key};
  return source === 'user' ? {...packet, bytes: first} : {...packet, trigger: first, observed, process, handle};
}

/** The handles in a message. */
function readHeld(text) {
  if (text === '-') return [];
  return text.split(',').map((one) => {
    const [koid, rights] = one.split(':');
    return {koid, rights};
  });
}

function keyOf(row) {
  const fields = row.split(' ');
  return fields.slice(0, 1 + KEY_LENGTHS[fields[0]]).join(' ');
}

/** The lines of a change: each key with the row before and the row after. */
function readChange(lines) {
  const change = [];
  for (const line of lines) {
    const row = line.slice(2);
    const key = keyOf(row);
    const last = change[change.length - 1];
    if (line[0] === '-') change.push({key, before: row, after: null});
    else if (last && last.key === key && !last.after) last.after = row;
    else change.push({key, before: null, after: row});
  }
  return change;
}

const changes = new Map();

/** What the call of a moment changed. The last few hundred are kept. */
async function changeOf(moment) {
  if (moment === 0) return [];
  if (!changes.has(moment)) {
    const change = readChange(linesOf(await ask(`/change/${moment}`)));
    if (changes.size > 400) changes.delete(changes.keys().next().value);
    changes.set(moment, change);
  }
  return changes.get(moment);
}

// ---- Where one stands, and what is shown ----

// `wanted` is the moment that a person asked for, and `shown` the one whose state the panels have: the one follows the other. A picked
// handle has its process, its value and the moment until which its life is told, which is not before the one that is wanted.
const view = {branch: 'main', path: [0], wanted: 0, object: null, handle: null, filter: null, found: null};
const shown = {moment: -1, state: new State([]), change: [], leaks: new Map(), isLeaksKnown: false, life: null};
let isFollowing = false;

/** Stands at a moment, on a branch that leads to it. Nothing is asked where that is unknown. */
function stand(moment, branchName) {
  const branch = branchNamed(branchName) || tree.branches[0];
  view.branch = branch.name;
  view.path = pathTo(branch.head);
  view.wanted = moment;
}

/** A branch that leads to a moment: the one that one is on, if it can be. */
function branchTo(moment, preferred) {
  const chosen = branchNamed(preferred);
  if (chosen && isBefore(moment, chosen.head)) return chosen.name;
  const other = tree.branches.find((branch) => isBefore(moment, branch.head));
  return other ? other.name : null;
}

/** Goes to a moment, of whatever branch, and keeps the way back in the browser's history. */
function go(moment, branchName) {
  const branch = Number.isInteger(moment) && moment >= 0 && moment < tree.parents.length
    ? branchTo(moment, branchName || view.branch) : null;
  if (branch === null) {
    showTrouble(noMoment(moment));
    return;
  }
  const isOther = branch !== view.branch;
  if (isOther) {
    stand(moment, branch);
    search();
  }
  view.wanted = moment;
  keepPlace();
  drawAround();
  follow();
}

/** Goes by rows of a list: of the path, or of the calls found. */
function step(list, count) {
  const place = placeIn(list, view.wanted);
  const isIn = list[place] === view.wanted;
  const next = count < 0 || isIn ? place + count : place + count - 1;
  const moment = list[Math.max(0, Math.min(list.length - 1, next))];
  if (moment !== undefined && moment !== view.wanted) go(moment);
}

/** Brings the panels to the moment that is wanted, one request behind the other, and over what lies between only as asked. */
async function follow() {
  if (isFollowing) return;
  isFollowing = true;
  await attempt(async () => {
    while (shown.moment !== view.wanted) await load(view.wanted);
  });
  isFollowing = false;
  if (shown.moment >= 0 && shown.moment !== view.wanted) standAtShown();
}

/** Stands where the panels do, since the moment that was wanted could not be loaded. */
function standAtShown() {
  stand(shown.moment, branchTo(shown.moment, view.branch));
  keepPlace();
  drawAround();
}

const NEAR = 12;
const LONG = 100000; // moments of a history whose lives take long to follow

/** The calls between the moment that is shown and another, where these are few, and whether it is back over them. */
function between(moment) {
  const {path} = view;
  const from = placeIn(path, shown.moment);
  const to = placeIn(path, moment);
  if (Math.abs(to - from) > NEAR || path[from] !== shown.moment || path[to] !== moment) return null;
  const isBack = to < from;
  return {isBack, moments: isBack ? path.slice(to + 1, from + 1).reverse() : path.slice(from + 1, to + 1)};
}

/** Loads the state of a moment: over the changes between, where these are few, and else as a whole. */
async function load(moment) {
  const start = shown.moment;
  const way = between(moment);
  const [change, ...passed] = await Promise.all([moment, ...(way ? way.moments : [])].map(changeOf));
  const whole = way ? null : new State(listAt(await talkAt(moment, 'show'), 0));
  if (shown.moment !== start) return;
  if (whole) shown.state = whole;
  else for (const each of passed) shown.state.step(each, way.isBack);
  Object.assign(shown, {moment, change, isLeaksKnown: false});
  drawMoment();
  attempt(readNotes);
  later('leaks', shown.state.size > 2000 ? 120 : 0, loadLeaks);
  later('object', 60, loadObject);
  later('handle', tree.parents.length > LONG ? 300 : 60, loadHandle);
}

async function loadLeaks() {
  const moment = shown.moment;
  const lines = listAt(await talkAt(moment, 'leaks'), 0);
  if (moment !== shown.moment) return;
  const before = [...shown.leaks.keys()].join();
  shown.leaks = new Map(lines.map((line) => line.split(' ')));
  shown.isLeaksKnown = true;
  drawLeaks();
  if ([...shown.leaks.keys()].join() === before) return;
  drawState();
  later('graph', 0, drawGraph);
}

const timers = new Map();

/** Does something a little later, and once, however often it is asked for meanwhile. */
function later(name, milliseconds, action) {
  clearTimeout(timers.get(name));
  timers.set(name, setTimeout(() => attempt(async () => action()), milliseconds));
}

function drawMoment() {
  drawChange();
  drawState();
  drawCallForm();
  drawLeaks();
  later('graph', shown.state.size > 400 ? 150 : 0, drawGraph);
}

/** Picks an object, or none. */
function pick(koid) {
  view.object = koid;
  keepPlace();
  drawPicked();
  loadObjectNow();
}

/** Picks no object and no handle. */
function pickNothing() {
  view.handle = null;
  loadHandleNow();
  pick(null);
}

function drawPicked() {
  for (const link of document.querySelectorAll('.koid')) link.classList.toggle('picked', link.dataset.koid === view.object);
  for (const link of document.querySelectorAll('.handle')) link.classList.toggle('picked', isPickedHandle(link.dataset));
  later('graph', 0, drawGraph);
}

// ---- The place in the address, so that the back button works ----

let lastKept = 0;

/** The life of the picked handle is told until the moment where one stands, or until a later one of that path. */
function reachHandle() {
  const {handle, wanted} = view;
  if (handle && !isBefore(wanted, handle.until)) view.handle = {...handle, until: wanted};
}

function handleWord({process, value, until}) {
  return `${process}.${value}${until === view.wanted ? '' : `.${until}`}`;
}

/** The handle that the address names, which is read once the moment is. */
function readHandleWord(word) {
  const [process, value, until = String(view.wanted)] = (word || '').split('.');
  if (![process, value, until].every((it) => it && isNumber(it))) return null;
  return {process, value, until: Number(until) < tree.parents.length ? Number(until) : view.wanted};
}

function keepPlace() {
  reachHandle();
  const words = [`moment=${view.wanted}`];
  if (view.branch !== 'main') words.push(`branch=${encodeURIComponent(view.branch)}`);
  if (view.object) words.push(`object=${view.object}`);
  if (view.handle) words.push(`handle=${handleWord(view.handle)}`);
  const hash = '#' + words.join('&');
  if (hash === location.hash) return;
  // (who holds a key down does not fill the browser's history)
  const isFast = Date.now() - lastKept < 400;
  lastKept = Date.now();
  if (isFast) history.replaceState(null, '', hash);
  else history.pushState(null, '', hash);
}

function readPlace() {
  const words = new URLSearchParams(location.hash.slice(1));
  const main = tree.branches[0];
  const moment = words.has('moment') && isNumber(words.get('moment')) ? Number(words.get('moment')) : main.head;
  const branch = moment < tree.parents.length ? branchTo(moment, words.get('branch') || 'main') : null;
  const object = words.get('object');
  view.object = object && isNumber(object) ? object : null;
  stand(branch ? moment : main.head, branch || main.name);
  view.handle = readHandleWord(words.get('handle'));
  reachHandle();
  if (words.has('moment') && (branch === null || String(moment) !== words.get('moment'))) {
    showTrouble(noMoment(words.get('moment')));
    later('sight', 60, () => drawTimeline(true)); // (the notice takes some of the timeline's height)
  }
}

function noMoment(moment) {
  const last = tree.parents.length - 1;
  const words = isNumber(String(moment)) && Number(moment) < last ? `Moment ${moment} is on no branch.`
    : `There is no moment ${moment}. The last moment is ${last}.`;
  return new Trouble(words, false);
}

function showPlace() {
  const {branch} = view;
  readPlace();
  if (branch !== view.branch || shown.moment < 0) search();
  drawAround();
  drawPicked();
  loadObjectNow();
  loadHandleNow();
  follow();
}

// ---- Making what is shown; a text of the server is only ever put as text ----

function part(id) {
  return document.getElementById(id);
}

/** An element with its class, what it says, and what stands in it. */
function make(name, className, ...inside) {
  const element = document.createElement(name);
  if (className) element.className = className;
  element.append(...inside.filter((it) => it !== null && it !== undefined));
  return element;
}

function makeDrawn(name, attributes, ...inside) {
  const element = document.createElementNS('http://www.w3.org/2000/svg', name);
  for (const [key, value] of Object.entries(attributes)) element.setAttribute(key, value);
  element.append(...inside);
  return element;
}

function placeHash(moment, koid) {
  return `#moment=${moment}` + (koid ? `&object=${koid}` : '');
}

/** What stands behind a koid or a handle that has a name. */
function nameTag(name) {
  return name ? make('span', 'called', ` ${name}`) : null;
}

/** A link to an object, with its name, and with its kind where that is asked for. */
function koidLink(koid, kind, isKindTold) {
  const link = make('a', `koid ${kind || ''}`, koid, nameTag(nameOf(ofKoid(koid))));
  link.dataset.koid = koid;
  link.href = placeHash(view.wanted, koid);
  link.title = `${KIND_NAMES[kind] || 'object'} ${withName(koid)}`;
  link.classList.toggle('picked', koid === view.object);
  link.classList.toggle('leaked', shown.leaks.has(koid));
  if (isKindTold && kind) link.append(' ', make('span', 'kind', KIND_NAMES[kind]));
  return link;
}

function objectLink(koid, isKindTold) {
  return koidLink(koid, kindIn(koid), isKindTold);
}

/** A handle of a process, with its name. What it refers to is looked up at the moment where it is clicked. */
function handleLink(process, handle, moment) {
  const name = nameOf(ofHandle(process, handle));
  const link = make('a', 'handle', handle, nameTag(name));
  Object.assign(link.dataset, {process, handle, moment});
  link.tabIndex = -1;
  link.title = `handle ${name ? `${handle} ${name}` : handle} of process ${withName(process)}: show its life`;
  link.classList.toggle('picked', isPickedHandle(link.dataset));
  return link;
}

function isPickedHandle({process, handle}) {
  return Boolean(view.handle && handle) && process === view.handle.process && handle === view.handle.value;
}

/** A handle in a message, by its place there: from 0. */
function sentLink(endpoint, number, index, koid) {
  const link = make('a', 'handle', `#${index}`);
  Object.assign(link.dataset, {message: `${endpoint} ${number} ${index}`, names: koid});
  link.tabIndex = -1;
  link.title = `handle index ${index} of message ${number} at ${endpoint}: show its life`;
  return link;
}

function momentLink(moment) {
  const link = make('a', 'go', String(moment));
  link.dataset.go = moment;
  link.href = placeHash(moment, view.object);
  link.title = `Go to moment ${moment}`;
  return link;
}

function names(className, mask, list) {
  const element = make('span', className, list.join(' '));
  element.title = bitsOf(mask);
  return element;
}

function signalsOf(mask, kind) {
  return names(Number(mask) ? 'names on' : 'names', mask, signalNames(mask, kind));
}

function rightsOf(mask, kind) {
  const element = make('span', 'names rights', rightsWords(mask, kind).join(' '));
  element.title = `${namesOf(mask, RIGHTS).join(' ')}\n${bitsOf(mask)}`;
  return element;
}

/** Bytes as text in quotation marks, or as digits, cut where they are many. */
function bytesOf(bytes, most = 72) {
  if (bytes === '-') return make('span', 'dim', 'no bytes');
  const text = textOf(bytes);
  const words = text === null ? bytes : `"${text}"`;
  const element = make('span', 'bytes', words.length > most ? words.slice(0, most) + '...' : words);
  element.title = `${counted(bytes.length / 2, 'byte')}: ${bytes.slice(0, 2000)}`;
  return element;
}

/**
 * A call with its arguments: each handle a link, masks short and long bytes cut. Where it is known what kind of object its signals are
 * of, they stand by their names.
 */
function callWords(call, kind) {
  const sorts = CALLS[call.name] ? CALLS[call.name].asks.split(' ') : [];
  const words = make('span', 'call', make('span', 'word', call.name));
  call.asked.forEach((value, at) => words.append(' ', valueOf(call, value, sorts[at], tree.parents[call.moment], kind)));
  return words;
}

function answerWords(call, kind) {
  const words = make('span', call.status === 'ok' ? 'answer' : 'answer failed', make('span', 'status', call.status));
  const sorts = sortsOfAnswer(call);
  call.values.forEach((value, at) => words.append(' ', valueOf(call, value, sorts[at], call.moment, kind)));
  return words;
}

/** The sorts of the values that a call was answered; a packet is answered as its word tells. */
function sortsOfAnswer(call) {
  if (!CALLS[call.name] || call.status !== 'ok') return [];
  const answers = call.name === 'port_wait' ? PACKETS[call.values[0]] : CALLS[call.name].answers;
  return answers ? answers.split(' ') : [];
}

const MOST_DIGITS = 32;

/** A field of a call or of its answer; handles are those at a moment. */
function valueOf(call, value, sort, moment, kind) {
  if (sort === 'handle' && value !== '0') return handleLink(call.process, value, moment);
  if (sort === 'koid') return koidLink(value, 'process');
  if (sort === 'handles' && value !== '-') {
    const list = make('span', '');
    value.split(',').forEach((one, at) => list.append(at ? ',' : '', handleLink(call.process, one, moment)));
    return list;
  }
  if (sort === 'bytes' && value !== '-') return bytesOf(value, MOST_DIGITS);
  if (sort === 'signals' && kind) return signalsOf(value, kind);
  const isMask = sort === 'rights' || sort === 'signals';
  const element = make('span', '', isMask ? shortMask(value, sort) : value);
  if (sort === 'rights') element.title = `${namesOf(value, RIGHTS).join(' ')}\n${bitsOf(value)}`;
  if (sort === 'signals') element.title = `${signalNames(value, '').join(' ')}\n${bitsOf(value)}`;
  return element;
}

// ---- The bar at the top ----

function drawPosition() {
  const branch = branchNamed(view.branch);
  const place = part('position');
  place.dataset.moment = view.wanted;
  place.dataset.branch = view.branch;
  place.replaceChildren(
    make('span', 'dim', 'moment'), make('b', '', String(view.wanted)),
    make('span', 'dim', `of ${grouped(branch.head)} on`), make('span', 'mono', branch.name),
  );
  document.title = [`${view.wanted} ${branch.name}`, ...(traceName ? [traceName] : []), 'zxtt-view'].join(' - ');
  const isFirst = view.wanted === 0;
  const isLast = view.wanted === branch.head;
  for (const id of ['step-first', 'step-back']) part(id).disabled = isFirst;
  for (const id of ['step-forth', 'step-last']) part(id).disabled = isLast;
}

// ---- The timeline: rows are made for what is in sight, and calls are asked for as they come into sight ----

const ROW = 22;
const MOST_IN_ROW = 200; // characters of a note
const MOST_PIXELS = 8000000;
const WINDOW = 300;
const rows = new Map();

function listed() {
  return view.found || view.path;
}

// How far the panels are scrolled, and how high the timeline is. Browsers tell it as it changes; to ask them for it would
// have the page laid out anew at each step.
const scrolled = {timeline: 0, state: 0, change: 0};
let timelineHeight = 0;

function scrollPanel(id, top) {
  if (Math.abs(scrolled[id] - top) < 1) return;
  part(id).scrollTop = top;
  scrolled[id] = top;
}

/** The rows that are in sight: the first, how many, and where the first stands. */
function sight() {
  const count = listed().length;
  const height = Math.min(count * ROW, MOST_PIXELS);
  const most = Math.max(0, height - timelineHeight);
  const scroll = Math.min(scrolled.timeline, most);
  const fit = Math.ceil(timelineHeight / ROW) + 1;
  if (count * ROW <= MOST_PIXELS) return {first: Math.floor(scroll / ROW), fit, top: null, height};
  // (a list that is longer than browsers can lay out moves by more than a row for a pixel)
  return {first: Math.round((scroll / most) * Math.max(0, count - fit + 1)), fit, top: scroll, height};
}

function scrollTo(place) {
  const count = listed().length;
  const fit = Math.max(1, Math.floor(timelineHeight / ROW));
  const {first} = sight();
  const isIn = place >= first && place < first + fit - 1;
  if (isIn) return;
  const wanted = place < first && place >= first - 3 ? place
    : place >= first && place < first + fit + 3 ? place - fit + 2 : place - Math.floor(fit / 3);
  const top = Math.max(0, Math.min(count - fit, wanted));
  const most = Math.max(0, Math.min(count * ROW, MOST_PIXELS) - timelineHeight);
  scrollPanel('timeline', count * ROW <= MOST_PIXELS ? Math.min(top * ROW, most) : (top / Math.max(1, count - fit)) * most);
}

/** Draws the rows that are in sight, and keeps those that stay. */
function drawTimeline(isMoved) {
  const list = listed();
  part('timeline-rows').style.height = `${sight().height}px`;
  if (isMoved && list.length) scrollTo(Math.min(placeIn(list, view.wanted), list.length - 1));
  const {first, fit, top} = sight();
  const last = Math.min(list.length, first + fit);
  const wanted = new Set();
  for (let place = first; place < last; place += 1) {
    const row = rowOf(list[place]);
    row.style.top = `${top === null ? place * ROW : top + (place - first) * ROW}px`;
    row.setAttribute('aria-posinset', place + 1);
    row.setAttribute('aria-setsize', list.length);
    wanted.add(list[place]);
  }
  for (const [moment, row] of rows) {
    if (!wanted.has(moment)) {
      row.remove();
      rows.delete(moment);
    }
  }
  markHere();
  drawTimelineNote();
  later('window', 30, loadWindow);
}

/** What is known of a moment: its call, and what happened in it. */
function isCallKnown(moment) {
  return moment === 0 || calls[moment] !== undefined;
}

function isMarked(moment) {
  return moment === 0 || marks[moment] !== undefined;
}

/** The row of a moment, made where it is not there or was made before all was known that is known now. */
function rowOf(moment) {
  const old = rows.get(moment);
  const known = String(isCallKnown(moment)) + isMarked(moment);
  if (old && old.dataset.known === known) return old;
  const row = isCallKnown(moment) ? makeRow(moment) : make('div', 'row waiting', make('span', 'number', String(moment)));
  row.dataset.known = known;
  row.dataset.moment = moment;
  row.id = `moment-${moment}`;
  row.setAttribute('role', 'option');
  if (old) old.replaceWith(row);
  else part('timeline-rows').append(row);
  rows.set(moment, row);
  return row;
}

function makeRow(moment) {
  const number = make('span', 'number', String(moment));
  if (moment === 0) return make('div', 'row', number, make('span', ''), make('span', 'call dim', 'start'));
  const call = readCall(calls[moment]);
  const happened = marks[moment] || [];
  const process = koidLink(call.process, 'process');
  process.tabIndex = -1;
  const row = make('div', call.status === 'ok' ? 'row' : 'row failed', number, process, callWords(call), firstOfNote(moment),
    markOf(happened), answerWords(call));
  row.title = [call.line, ...(notes[moment] ? [notes[moment]] : [])].map((text) => text.slice(0, 400)).join('\n');
  if (happened.some((mark) => mark.what === 'leaked')) row.classList.add('leaks');
  return row;
}

/** The first line of a moment's note, as far as there may be room for it. */
function firstOfNote(moment) {
  const note = notes[moment];
  return note ? make('span', 'remark', note.slice(0, MOST_IN_ROW).split('\n', 1)[0]) : null;
}

/** What happened to objects in a call, as one character with its words behind it. */
function markOf(happened) {
  const element = make('span', 'mark');
  if (!happened.length) return element;
  const worst = ['leaked', 'peer_closed', 'ended'].find((what) => happened.some((mark) => mark.what === what));
  const count = new Set(happened.filter((mark) => mark.what === worst).map((mark) => mark.koid)).size;
  element.textContent = {leaked: '\u25c6', peer_closed: '\u25cb', ended: '\u00d7'}[worst] + (count > 1 ? count : '');
  element.classList.add(worst);
  // (an end of a job or a process is what one looks for; an event ends by each last close)
  if (happened.some((mark) => mark.what === 'ended' && (mark.kind === 'job' || mark.kind === 'process'))) element.classList.add('task');
  const words = happened.map((mark) => `${HAPPENINGS[mark.what]}: ${mark.koid} ${KIND_NAMES[mark.kind]}`);
  element.title = words.slice(0, 12).join('\n');
  return element;
}

function markHere() {
  for (const [moment, row] of rows) {
    const isHere = moment === view.wanted;
    row.classList.toggle('here', isHere);
    row.setAttribute('aria-selected', isHere);
  }
  const box = part('timeline');
  box.style.setProperty('--digits', String(view.path[view.path.length - 1]).length);
  if (rows.has(view.wanted)) box.setAttribute('aria-activedescendant', `moment-${view.wanted}`);
  else box.removeAttribute('aria-activedescendant');
}

function drawTimelineNote() {
  const count = view.path.length - 1;
  const words = view.found ? `${grouped(view.found.length)} of ${counted(count, 'call')}` : counted(count, 'call');
  part('timeline-note').textContent = isSearching ? `${words}, searching...` : words;
  const isNone = Boolean(view.found) && !view.found.length && !isSearching;
  part('timeline-none').hidden = !isNone;
  if (isNone) part('timeline-none').textContent = part('search').value.trim() ? 'No call matches.' : 'No call failed.';
}

/** The parts of a list of moments between two places, each with its first and its last moment, that are asked for one by one. */
function partsOf(list, from, to) {
  const parts = [];
  let place = from;
  while (place <= to) {
    const next = Math.min(to + 1, placeIn(list, list[place] + PART));
    parts.push([list[place], list[next - 1]]);
    place = next;
  }
  return parts;
}

/** Asks for what is not known yet of the calls in sight, and of the path around them. */
async function loadWindow() {
  const list = listed();
  const {first, fit} = sight();
  const isUnknown = (moment) => !isCallKnown(moment) || !isMarked(moment);
  const last = Math.min(list.length, first + fit);
  if (!list.slice(first, last).some(isUnknown)) return;
  // (around what was found there is nothing in sight)
  const around = view.found ? 0 : WINDOW;
  let from = Math.max(0, first - around);
  let to = Math.min(list.length, last + around) - 1;
  while (from < to && !isUnknown(list[from])) from += 1;
  while (to > from && !isUnknown(list[to])) to -= 1;
  for (const each of partsOf(list, from, to)) await loadPart(...each);
  drawTimeline(false);
}

/** The moments of the path from one of them to another. */
function momentsOf(first, last) {
  return view.path.slice(placeIn(view.path, first), placeIn(view.path, last) + 1);
}

/** Asks for what is not known of the calls of the path from one of its moments to another. */
async function loadPart(first, last) {
  const moments = momentsOf(first, last);
  if (!moments.every(isCallKnown)) await loadCalls(first, last);
  if (!moments.every(isMarked)) await loadMarks(first, last);
}

async function loadCalls(first, last) {
  takeCalls(linesOf(await ask(`/calls/${last}/${first}/${last}`)));
}

/** Keeps calls, and says their moments. */
function takeCalls(lines) {
  return lines.map((line) => {
    const moment = parseInt(line, 10);
    calls[moment] = line;
    return moment;
  });
}

/** What ended, lost its peer or was leaked, in each call of a path from one of its moments to another. */
async function loadMarks(first, last) {
  const lines = linesOf(await ask(`/events/${last}/${first}/${last}?ended&peer_closed&leaked`));
  for (let moment = last; moment >= first && moment > 0; moment = tree.parents[moment]) marks[moment] = [];
  for (const line of lines) {
    const [moment, what, koid, kind] = line.split(' ');
    marks[moment].push({what, koid, kind});
  }
}

function clearRows() {
  for (const row of rows.values()) row.remove();
  rows.clear();
}

// ---- Searching ----

let isSearching = false;
let searches = 0;

/** What is searched for, or null. */
function readFilter() {
  const text = part('search').value.trim();
  const isFailed = part('failed-only').checked;
  return text || isFailed ? {kind: part('search-kind').value, text, isFailed, ...namedBy(text)} : null;
}

// (the server looks for the calls that changed each of these objects)
const MOST_SOUGHT = 4;

/** How a text is looked for in names and notes: a number as a whole word, another text as a part. */
function seekerOf(text) {
  const sought = text.toLowerCase();
  if (!isNumber(text)) return (told) => told.toLowerCase().includes(sought);
  const word = new RegExp(`(^|[^0-9a-z_])${text}($|[^0-9a-z_])`, 'i');
  return (told) => word.test(told);
}

/** The objects and the handles whose names have a text, and those of which it is the whole name. */
function namedBy(text) {
  const isIn = seekerOf(text);
  const words = text ? [...new Set([...toldNames.keys(), ...givenNames.keys()])].filter((it) => isIn(nameOf(it))) : [];
  const koids = words.filter((it) => it.startsWith('name ')).map((it) => it.slice('name '.length));
  const wholly = words.filter((it) => it.startsWith('handle ') && nameOf(it).toLowerCase() === text.toLowerCase());
  return {isIn, named: new Set(words), koids: koids.length > MOST_SOUGHT ? [] : koids, wholly};
}

/** The process and the value of the handle that is searched for, or null: two numbers. */
function handleSought({kind, text, isFailed}) {
  const [process, value, ...rest] = text.split(/ +/);
  const isHandle = value !== undefined && !rest.length && isNumber(process) && isNumber(value) && process.length < 20 && value < 2 ** 32;
  return isHandle && !isFailed && (kind === 'any' || kind === 'handle') ? {process, value} : null;
}

/** The one handle that has the whole text as its name, or null. */
function handleCalled({kind, wholly, isFailed}) {
  if (wholly.length !== 1 || isFailed || (kind !== 'any' && kind !== 'handle')) return null;
  const [, process, value] = wholly[0].split(' ');
  return {process, value};
}

/** Searches as a person asks. A handle that is searched for is picked. */
function searchAsked() {
  search();
  const sought = view.filter && (handleSought(view.filter) || handleCalled(view.filter));
  if (sought) attempt(() => pickSought(searches, sought));
}

/** Searches for what is typed a little later, and for what is pasted at once: then one stands at the first call that is found. */
function searchTyped(event) {
  const isPasted = ['insertFromPaste', 'insertFromDrop'].includes(event.inputType);
  later('search', isPasted ? 0 : 180, () => {
    searchAsked();
    if (view.filter) view.filter.isPasted = isPasted;
  });
}

/** Stands at the first call that is found, where the text was pasted. */
function standAtFound({isPasted}) {
  if (!isPasted || !view.found.length) return;
  view.filter.isPasted = false;
  go(view.found[0]);
}

async function pickSought(number, sought) {
  const life = await lifeOf({...sought, until: view.wanted});
  if (number === searches && life) pickLife(life);
}

/** Searches, and shows what was found in the place of the path. A later search ends the ones before it. */
function search() {
  searches += 1;
  view.filter = readFilter();
  view.found = null;
  isSearching = false;
  clearRows();
  if (view.filter) attempt(() => searchAs(searches, view.filter));
  else drawTimeline(true);
}

async function searchAs(number, filter) {
  isSearching = true;
  view.found = [];
  drawTimeline(true);
  try {
    if (!await searchBy(number, filter)) return;
  } finally {
    if (number === searches) isSearching = false;
  }
  drawTimeline(true);
  standAtFound(filter);
}

/** Searches in the way that the filter wants, and says whether no later search has begun. */
async function searchBy(number, filter) {
  const sought = handleSought(filter);
  const life = sought && await lifeOf({...sought, until: view.wanted});
  if (number !== searches) return false;
  if (life) {
    view.found = momentsOfLife(life);
    return true;
  }
  return serverFilter(filter) === null ? searchHere(number, filter) : searchThere(number, filter);
}

/** The words by which the server searches, or null where it cannot. */
function serverFilter(filter) {
  const words = filter.isFailed ? ['failed'] : [];
  if (filter.text === '') return words.join('&');
  const place = {process: 'process', koid: 'object'}[filter.kind];
  if (!place || !isNumber(filter.text) || filter.named.size) return null;
  return [...words, `${place}=${filter.text}`].join('&');
}

/** The parts of the path in which calls are searched for. */
function partsOfPath() {
  return view.path.length > 1 ? partsOf(view.path, 1, view.path.length - 1) : [];
}

/** Has the server search the path, part by part. */
async function searchThere(number, filter) {
  for (const [first, last] of partsOfPath()) {
    const lines = linesOf(await ask(`/calls/${last}/${first}/${last}?${serverFilter(filter)}`));
    if (number !== searches) return false;
    view.found = view.found.concat(takeCalls(lines));
    drawTimeline(true);
    standAtFound(filter);
  }
  return true;
}

/** Searches what the page knows, and asks for the rest of the path part by part. */
async function searchHere(number, filter) {
  for (const [first, last] of partsOfPath()) {
    const moments = momentsOf(first, last);
    if (!moments.every(isCallKnown)) await loadCalls(first, last);
    const changed = await changedBy(filter, first, last);
    if (number !== searches) return false;
    for (const moment of moments) if (changed.has(moment) || isFound(calls[moment], filter)) view.found.push(moment);
    drawTimeline(true);
    standAtFound(filter);
  }
  return true;
}

/** The calls of a part of the path that changed an object whose koid or name is searched for, where the kind of search asks for these. */
async function changedBy({kind, text, isFailed, koids}, first, last) {
  const found = new Set();
  if (kind !== 'any' && kind !== 'koid') return found;
  for (const koid of new Set([...koids, ...(kind === 'koid' && isNumber(text) ? [text] : [])])) {
    const lines = linesOf(await ask(`/calls/${last}/${first}/${last}?${isFailed ? 'failed&' : ''}object=${koid}`));
    for (const moment of takeCalls(lines)) found.add(moment);
  }
  return found;
}

function isFound(line, filter) {
  const call = readCall(line);
  const text = filter.text.toLowerCase();
  if (filter.isFailed && call.status === 'ok') return false;
  if (filter.kind === 'process') return call.process === text || isNamed(ofKoid(call.process), filter);
  if (filter.kind === 'call') return call.name.includes(text);
  if (filter.kind === 'koid') return false;
  if (filter.kind === 'handle') return handlesOf(call).includes(text) || hasNamedHandle(call, filter);
  if (isNumber(text) ? numbersOf(call).includes(text) : line.slice(line.indexOf(' ')).includes(text)) return true;
  if (isTold(call, filter)) return true;
  // (what is shown as text stands in the line as digits)
  return !isNumber(text) && valuesOf(call, (sort) => sort === 'bytes').some((bytes) => (textOf(bytes) || '').toLowerCase().includes(text));
}

function isNamed(words, {named}) {
  return named.size > 0 && named.has(words);
}

function hasNamedHandle(call, filter) {
  return filter.named.size > 0 && handlesOf(call).some((handle) => isNamed(ofHandle(call.process, handle), filter));
}

/** Whether a call's note has what is searched for, or a name that is shown in its row. */
function isTold(call, filter) {
  const note = notes[call.moment];
  if (note && filter.isIn(note)) return true;
  if (!filter.named.size) return false;
  const koids = [call.process, ...valuesOf(call, (sort) => sort === 'koid')];
  return koids.some((koid) => isNamed(ofKoid(koid), filter)) || hasNamedHandle(call, filter);
}

/** The values of a call, in its arguments and its answer, that are of a sort. */
function valuesOf(call, isWanted) {
  const {asks, answers = ''} = CALLS[call.name];
  const asked = call.asked.filter((value, at) => isWanted(asks.split(' ')[at]));
  const answered = call.status === 'ok' ? call.values.filter((value, at) => isWanted(answers.split(' ')[at])) : [];
  return [...asked, ...answered];
}

function handlesOf(call) {
  return valuesOf(call, (sort) => sort === 'handle' || sort === 'handles').flatMap((value) => value.split(','));
}

function numbersOf(call) {
  return [call.process, ...[...call.asked, ...call.values].flatMap((value) => value.split(','))];
}

function endSearch() {
  part('search').value = '';
  part('failed-only').checked = false;
  search();
  part('timeline').focus();
}

// ---- The tree: forks, heads and where one stands, as lanes ----

const KNOT = 22;
const LANE = 14;
const MOST_KNOTS = 300;

/** The moments that are drawn: the opening, forks, heads and the position, each with the branch that it belongs to. */
function knots() {
  const found = new Map();
  const add = (moment, branch) => {
    if (branch && !found.has(moment)) found.set(moment, {moment, branch: ownerOf(moment, branch), heads: []});
    return found.get(moment);
  };
  add(0, tree.branches[0]);
  for (const branch of tree.branches) {
    if (branch.leaves) add(branch.at, branchNamed(branch.leaves));
    add(branch.head, branch).heads.push(branch);
  }
  add(view.wanted, branchNamed(view.branch));
  return [...found.values()].sort((one, other) => one.moment - other.moment);
}

/** Gives each branch a lane that is free from the row of its fork to the row of its last knot. */
function lanesOf(list) {
  const place = new Map(list.map((knot, at) => [knot.moment, at]));
  const lanes = new Map();
  const ends = [];
  const inOrder = [...tree.branches].sort((one, other) => (one.leaves ? one.at : -1) - (other.leaves ? other.at : -1));
  for (const branch of inOrder) {
    const from = branch.leaves ? place.get(branch.at) : 0;
    const to = place.get(branch.head);
    if (branch.leaves && branch.head === branch.at) continue;
    let lane = branch.leaves ? 1 : 0;
    while (ends[lane] !== undefined && ends[lane] > from) lane += 1;
    ends[lane] = branch.leaves ? to : Infinity;
    lanes.set(branch.name, {lane, from, to});
  }
  return lanes;
}

function drawTree() {
  const list = knots();
  const some = list.length > MOST_KNOTS ? nearest(list, MOST_KNOTS) : list;
  const lanes = lanesOf(some);
  const width = LANE * (1 + Math.max(0, ...[...lanes.values()].map((it) => it.lane)));
  const drawing = makeDrawn('svg', {width: width + 4, height: some.length * KNOT, 'aria-hidden': 'true'});
  for (const branch of tree.branches) if (lanes.has(branch.name)) drawing.append(drawLane(branch, lanes));
  some.forEach((knot, at) => drawing.append(drawKnot(knot, at, lanes)));
  const box = part('tree');
  box.replaceChildren(drawing, ...some.map((knot) => knotRow(knot, width)));
  if (some.length < list.length) box.append(make('p', 'empty', `${some.length} of ${list.length} forks and heads`));
  later('tree', 0, keepHereInSight);
}

function nearest(list, count) {
  const at = list.findIndex((knot) => knot.moment === view.wanted);
  const from = Math.max(0, Math.min(list.length - count, at - count / 2));
  return list.slice(from, from + count);
}

function laneOf(branch, lanes) {
  let owner = branch;
  while (owner && !lanes.has(owner.name)) owner = branchNamed(owner.leaves);
  return owner ? lanes.get(owner.name).lane : 0;
}

/** The line of a branch: from its fork aside, and down to its head. */
function drawLane(branch, lanes) {
  const {lane, from = 0, to = from} = lanes.get(branch.name);
  const x = 7 + lane * LANE;
  const bottom = to * KNOT + KNOT / 2;
  const top = from * KNOT + KNOT / 2;
  if (!branch.leaves) return makeDrawn('path', {class: 'lane-0', d: `M ${x} ${top} V ${bottom}`});
  const start = 7 + laneOf(ownerOf(branch.at, branchNamed(branch.leaves)), lanes) * LANE;
  const way = `M ${start} ${top} C ${start} ${top + 14} ${x} ${top + 6} ${x} ${top + KNOT} V ${bottom}`;
  return makeDrawn('path', {class: `lane-${lane % 6}`, d: way});
}

function drawKnot(knot, at, lanes) {
  const lane = laneOf(knot.branch, lanes);
  const isHere = knot.moment === view.wanted;
  return makeDrawn('circle', {
    cx: 7 + lane * LANE, cy: at * KNOT + KNOT / 2, r: isHere ? 5 : 4, class: isHere ? 'here' : `lane-${lane % 6}`,
  });
}

function knotRow(knot, width) {
  const row = make('div', 'knot', momentLink(knot.moment));
  row.dataset.go = knot.moment;
  row.style.paddingLeft = `${width + 18}px`;
  row.classList.toggle('here', knot.moment === view.wanted);
  for (const branch of knot.heads) row.append(branchButton(branch));
  if (knot.moment === view.wanted) row.append(make('span', 'dim', 'you are here'));
  else if (knot.moment === 0) row.append(make('span', 'dim', 'start'));
  else if (!knot.heads.length) row.append(make('span', 'dim', 'fork'));
  return row;
}

function branchButton(branch) {
  const button = make('button', branch.name === view.branch ? 'branch on' : 'branch', branch.name);
  button.type = 'button';
  button.dataset.branch = branch.name;
  const fork = branch.leaves ? `, which forks from ${branch.leaves} at moment ${branch.at}` : '';
  button.title = `Go to the head of ${branch.name}${fork}`;
  return button;
}

function keepHereInSight() {
  const box = part('tree');
  const here = box.querySelector('.knot.here');
  if (!here) return;
  const top = here.offsetTop;
  if (top < box.scrollTop) box.scrollTop = top;
  if (top + KNOT > box.scrollTop + box.clientHeight) box.scrollTop = top + KNOT - box.clientHeight;
}

/** Goes to the head of a branch, wherever others have moved it. */
async function followBranch(name) {
  if (await refreshTree()) showGrowth();
  const branch = branchNamed(name);
  if (!branch) throw new Trouble(`Branch ${name} no longer exists.`, false);
  stand(branch.head, name);
  keepPlace();
  search();
  drawAround();
  follow();
}

/** Makes a branch at the moment where one stands, and goes onto it. */
async function makeBranch() {
  const field = part('branch-name');
  const name = field.value.trim();
  if (!name) {
    field.focus();
    return;
  }
  if (!/^[a-z][a-z0-9_-]{0,31}$/.test(name)) throw new Trouble(`'${name}': ${REFUSALS.BadName}.`, false);
  const [answer] = await talkAt(view.wanted, `branch ${name}`);
  if (answer.startsWith('refused')) throw new Trouble(told(answer), false);
  field.value = '';
  await followBranch(name);
}

const REFUSALS = {
  OutOfMemory: 'an allocation failed in the server', NoProcess: 'this process is not running at the head of the branch',
  Full: 'the history is full', NoMoment: 'there is no such moment', NoBranch: 'there is no such branch',
  NameTaken: 'a branch with this name already exists', NoObject: 'this object does not exist yet at this moment',
  BadLine: 'parse error in the arguments', LineTooLong: 'the line is too long',
  BadName: 'a branch name has 1 to 32 characters (a to z, 0 to 9, _ and -) and begins with a letter',
};

/** A refusal with what it means. */
function told(refusal) {
  const why = REFUSALS[refusal.split(' ')[2]];
  return why ? `${refusal}: ${why}` : refusal;
}

// ---- Calls at the head of a branch ----

function isAtHead() {
  return branchNamed(view.branch).head === view.wanted;
}

function drawCallForm() {
  const list = part('call-process');
  const processes = shown.state.processes().slice(0, 2000);
  const words = processes.map(withName);
  if ([...list.options].map((it) => it.text).join() !== words.join()) {
    const chosen = list.value;
    list.replaceChildren(...processes.map((koid, at) => new Option(words[at], koid)));
    if (processes.includes(chosen)) list.value = chosen;
  }
  part('call-run').disabled = !isAtHead();
  part('call-run').title = isAtHead() ? `Make the call at the head of ${view.branch}`
    : 'You can make calls only at the head of a branch. Make a branch here, or go to the head.';
  drawHint();
}

function drawHint() {
  const call = CALLS[part('call-name').value];
  part('call-arguments').placeholder = isAtHead() ? call.hint || 'no arguments' : 'to make a call here, make a branch first';
}

/** Makes the call of the form, once, however often it is pressed meanwhile. */
async function makeCall() {
  part('call-run').disabled = true;
  try {
    await callAtHead();
  } finally {
    drawCallForm();
  }
}

/** Makes the call at the head that is shown: not where another page has moved it meanwhile. */
async function callAtHead() {
  const {branch, wanted} = view;
  if (await refreshTree()) showGrowth();
  if (branch !== view.branch || wanted !== view.wanted || !isAtHead()) {
    throw new Trouble(`The head of ${branch} has moved. Go to the head, or make a branch here.`, false);
  }
  const words = [part('call-process').value, part('call-name').value, part('call-arguments').value.trim()];
  const line = words.filter((word) => word).join(' ');
  const answer = (await talk(`follow ${view.branch}`, line))[1];
  const status = answer.split(' ')[1];
  const place = part('call-answer');
  const isRefused = answer.startsWith('refused');
  place.className = status === 'ok' ? 'ok' : 'failed';
  place.textContent = isRefused ? told(answer) : `${line} => ${answer}`;
  if (isRefused) return;
  part('call-arguments').value = '';
  await refreshTree();
  stand(parseInt(answer, 10), view.branch);
  keepPlace();
  search();
  drawAround();
  await follow();
}

function drawAround() {
  drawPosition();
  drawTimeline(true);
  drawTree();
  drawCallForm();
}

// ---- What the call changed ----

const MOST_CHANGES = 300;

function drawChange() {
  const box = part('change');
  const {moment, change} = shown;
  scrollPanel('change', 0);
  box.dataset.moment = moment;
  part('change-note').textContent = moment ? counted(change.length, 'row') : '';
  if (moment === 0) {
    box.replaceChildren(make('p', 'empty', 'The start: root job 1024 and root process 1025. No process has made a call yet.'));
    return;
  }
  box.replaceChildren(...[make('div', 'said'), noteOf(moment),
    change.length ? sidesOf(change) : make('p', 'empty', 'This call changed no rows.')].filter((it) => it));
  const left = change.length - MOST_CHANGES;
  if (left > 0) box.append(make('p', 'empty', `and ${counted(left, 'more row')}`));
  later('said', 0, drawSaid);
}

const MOST_OF_NOTE = 20000; // characters that are shown at once

/** The note of a moment, or null where it has none. What is beyond the first part of a very long one comes once it is asked for. */
function noteOf(moment) {
  const note = notes[moment];
  if (!note) return null;
  const box = make('div', 'remark', note.slice(0, MOST_OF_NOTE));
  const left = note.length - MOST_OF_NOTE;
  if (left > 0) box.append(moreButton(`${counted(left, 'more character')}`, () => box.append(note.slice(MOST_OF_NOTE))));
  return box;
}

/** A button that goes once it is pressed, and what comes in its place. */
function moreButton(words, action) {
  const more = make('button', 'more', words);
  more.type = 'button';
  more.addEventListener('click', () => {
    more.remove();
    action();
  });
  return more;
}

/** The call above its change; it is asked for where it is not known yet. */
async function drawSaid() {
  const moment = shown.moment;
  if (moment > 0 && calls[moment] === undefined) await loadCalls(moment, moment);
  const place = part('change').querySelector('.said');
  if (moment !== shown.moment || !place) return;
  const call = readCall(calls[moment]);
  const kind = kindOfSignals(call);
  place.replaceChildren(koidLink(call.process, 'process'), ' ', callWords(call, kind), ' \u21d2 ', answerWords(call, kind));
}

/** The kind of the object whose signals the shown call has, or the one of which it took a packet, where that is known. */
function kindOfSignals(call) {
  if (call.name !== 'port_wait') return kindNamed(call.process, call.asked[0]);
  const taken = shown.change.map(({before}) => before && readRow(before.split(' '))).find((row) => row && row.sort === 'packet');
  return taken && taken.source !== 'user' ? kindNamed(taken.process, taken.handle) : '';
}

/** The kind of the object that a handle of a process names in the state that is shown, or named before the call. */
function kindNamed(process, handle) {
  const koid = shown.state.named(process, handle) || rowBefore(`entry ${process} ${handle}`).koid;
  return koid ? kindIn(koid) : '';
}

/** The kind of an object in the state that is shown, or before the call where it is gone by it. */
function kindIn(koid) {
  return shown.state.kindOf(koid) || rowBefore(`object ${koid}`).kind || '';
}

/** A row as it was before the shown call, where that changed it. */
function rowBefore(key) {
  const found = shown.change.find((row) => row.key === key);
  return found && found.before ? readRow(found.before.split(' ')) : {};
}

function sidesOf(change) {
  const head = make('tr', '', make('th', 'what', 'row'), make('th', '', 'before'), make('th', '', 'after'));
  const body = make('tbody', '', ...change.slice(0, MOST_CHANGES).map(sidesRow));
  return make('table', 'sides', make('thead', '', head), body);
}

function sidesRow({before, after}) {
  const from = before ? readRow(before.split(' ')) : null;
  const to = after ? readRow(after.split(' ')) : null;
  const others = new Set(from && to ? Object.keys(from).filter((key) => String(from[key]) !== String(to[key])) : []);
  return make('tr', '', make('td', 'what', ...titleOf(to || from)), sideOf('from', from, others, to ? '' : 'gone'),
    sideOf('to', to, others, from ? '' : 'came'));
}

/** What a row is about, as links. */
function titleOf(row) {
  if (row.sort === 'object') return [koidLink(row.koid, row.kind, true)];
  if (row.sort === 'entry') return [make('span', 'dim', 'handle '), handleLink(row.process, row.handle, shown.moment),
    make('span', 'dim', ' of '), koidLink(row.process, 'process')];
  if (row.sort === 'msg') return [make('span', 'dim', `message ${row.number} at `), koidLink(row.endpoint, 'channel')];
  if (row.sort === 'packet') return [make('span', 'dim', `packet ${row.number} in `), koidLink(row.port, 'port')];
  if (row.sort === 'wait') return [make('span', 'dim', `wait ${row.number}`)];
  return [make('span', 'dim', 'counters')];
}

function sideOf(className, row, others, extra) {
  const cell = make('td', `${className} ${extra}`);
  if (!row) {
    cell.append(make('span', 'dim', '\u2014'));
    return cell;
  }
  cell.append(make('div', 'fields', ...fieldWords(fieldsOf(row), others)));
  return cell;
}

/** Fields with their labels; the others are marked. */
function fieldWords(fields, others = new Set()) {
  return fields.map(([name, label, value]) => make('span', others.has(name) ? 'field other' : 'field',
    label ? make('span', 'label', label) : null, value));
}

/** The fields of a row behind its key: the name of each, its label, and its value. */
function fieldsOf(row) {
  if (row.sort === 'object') return fieldsOfObject(row);
  if (row.sort === 'entry') return [['koid', '', objectLink(row.koid, true)], ['rights', '', rightsOf(row.rights, kindIn(row.koid))]];
  if (row.sort === 'msg') return [['bytes', '', bytesOf(row.bytes)], ['held', 'handles', heldOf(row)]];
  if (row.sort === 'packet') return packetFields(row);
  if (row.sort === 'wait') return waitFields(row);
  return [['koid', 'next koid', row.koid], ['wait', 'next wait', row.wait]];
}

const LINK_LABELS = {job: 'parent', process: 'parent', channel: 'peer', eventpair: 'peer'};
const NEXT_LABELS = {process: 'handles so far', channel: 'messages so far', port: 'packets so far'};

function fieldsOfObject(row) {
  const fields = [['signals', 'signals', signalsOf(row.signals, row.kind)]];
  if (LINK_LABELS[row.kind]) fields.push(['link', LINK_LABELS[row.kind], row.link === '0' ? 'none' : objectLink(row.link)]);
  if (row.kind === 'job' || row.kind === 'process') fields.push(['life', '', row.life]);
  if (NEXT_LABELS[row.kind]) fields.push(['next', NEXT_LABELS[row.kind], row.next]);
  if (row.critical) fields.push(['critical', 'critical to', objectLink(row.critical)]);
  return fields;
}

function heldOf({endpoint, number, held}) {
  if (!held.length) return make('span', 'dim', 'none');
  const list = make('span', '');
  held.forEach(({koid, rights}, at) => {
    const link = objectLink(koid, true);
    link.title += `, with ${namesOf(rights, RIGHTS).join(' ')} (${rights})`;
    list.append(at ? ', ' : '', sentLink(endpoint, number, at, koid), ' ', link);
  });
  return list;
}

function packetFields(row) {
  if (row.source === 'user') return [['source', '', 'user'], ['key', 'key', row.key], ['bytes', '', bytesOf(row.bytes, 24)]];
  const kind = kindNamed(row.process, row.handle);
  return [
    ['source', '', 'signal'], ['key', 'key', row.key], ['trigger', 'trigger', signalsOf(row.trigger, kind)],
    ['observed', 'observed', signalsOf(row.observed, kind)],
    ['handle', 'handle', handleLink(row.process, row.handle, shown.moment)],
    ['process', 'of', koidLink(row.process, 'process')],
  ];
}

function waitFields(row) {
  return [
    ['signals', 'waits for', signalsOf(row.signals, kindNamed(row.process, row.handle))],
    ['handle', 'on handle', handleLink(row.process, row.handle, shown.moment)],
    ['process', 'of', koidLink(row.process, 'process')],
    ['port', 'port', koidLink(row.port, 'port')], ['key', 'key', row.key], ['edge', '', row.edge ? 'edge-triggered' : ''],
  ];
}

// ---- The state: groups that open, and things that are made once their group is open ----

const opened = new Map();
const MOST_THINGS = 200;
const FEW = 60;
const FEW_THINGS = 12;

/** A group that opens; what stands in it is made when it is open. Whether it is open stays as a person left it. */
function group(key, className, summary, isOpen, fill) {
  const element = make('details', className, make('summary', '', ...summary));
  const body = make('div', className === 'group' ? '' : 'nest');
  let isFilled = false;
  const fillOnce = () => {
    if (isFilled) return;
    isFilled = true;
    fill(body);
  };
  element.append(body);
  element.open = opened.has(key) ? opened.get(key) : isOpen;
  if (element.open) fillOnce();
  element.addEventListener('toggle', () => {
    if (element.open) fillOnce();
  });
  element.firstChild.addEventListener('click', () => opened.set(key, !element.open));
  return element;
}

/** Puts the first things of a list, and a button for more. */
function putSome(place, list, makeOne, from = 0) {
  for (const thing of list.slice(from, from + MOST_THINGS)) place.append(makeOne(thing));
  const left = list.length - from - MOST_THINGS;
  if (left <= 0) return;
  place.append(moreButton(`${grouped(left)} more`, () => putSome(place, list, makeOne, from + MOST_THINGS)));
}

function drawState() {
  const box = part('state');
  const top = scrolled.state;
  const state = shown.state;
  const changed = new Set(shown.change.map((row) => row.key));
  const kinds = byKind(state);
  box.dataset.moment = shown.moment;
  part('state-note').textContent = `${counted(state.objects.size, 'object')}, ${counted(state.size, 'row')}`;
  box.replaceChildren(...[
    group('tasks', 'group', ['Jobs and processes'], true, (place) => putTasks(place, kinds, changed)),
    groupOf('channel', 'Channel endpoints', kinds.channel, (pair) => pairBox(pair, changed), pairsOf),
    groupOf('eventpair', 'Event pair endpoints', kinds.eventpair, (pair) => pairBox(pair, changed), pairsOf),
    groupOf('event', 'Events', kinds.event, (object) => make('div', 'one', objectBox(object, changed))),
    groupOf('port', 'Ports', kinds.port, (object) => make('div', 'one', objectBox(object, changed))),
  ].filter((it) => it));
  if (top > 0) box.scrollTop = top;
}

/** The objects of each kind. */
function byKind(state) {
  const kinds = {job: [], process: [], channel: [], event: [], eventpair: [], port: []};
  for (const object of state.objects.values()) kinds[object.kind].push(object);
  return kinds;
}

function byKoid(one, other) {
  return byNumber(one.koid, other.koid);
}

/** The objects of a kind; they are put in order once they are to be seen. */
function groupOf(kind, title, objects, makeOne, gather = (list) => list) {
  if (!objects.length) return null;
  const summary = [title, make('span', 'count', grouped(objects.length))];
  return group(kind, 'group', summary, objects.length <= FEW, (place) => putSome(place, gather(objects.sort(byKoid)), makeOne));
}

function putTasks(place, kinds, changed) {
  const tasks = [...kinds.job.sort(byKoid), ...kinds.process.sort(byKoid)];
  const below = new Map();
  for (const task of tasks) {
    const parent = task.life === 'live' ? task.link : 'ended';
    if (!below.has(parent)) below.set(parent, []);
    below.get(parent).push(task);
  }
  putSome(place, below.get('0') || [], (task) => taskBox(task, below, changed));
  if (below.has('ended')) {
    const ended = below.get('ended');
    place.append(group('ended', 'task', [make('span', 'dim', `ended but still held: ${ended.length}`)], ended.length <= FEW,
      (inside) => putSome(inside, ended, (task) => taskBox(task, below, changed))));
  }
}

/** A job or a process with what is under it: the handles of a process, the tasks under a job. */
function taskBox(task, below, changed) {
  const summary = [koidLink(task.koid, task.kind, true)];
  if (Number(task.signals)) summary.push(signalsOf(task.signals, task.kind));
  if (task.life !== 'live') summary.push(make('span', 'tag failed', task.life));
  if (task.critical) summary.push(make('span', 'tag failed', `critical to ${withName(task.critical)}`));
  const entries = shown.state.entries.get(task.koid);
  const handles = entries ? entries.size : 0;
  const under = below.get(task.koid) || [];
  if (task.kind === 'process' && task.life === 'live') summary.push(make('span', 'names', counted(handles, 'handle')));
  const isOpen = handles <= FEW && under.length <= FEW;
  const element = group(`task ${task.koid}`, 'task', summary, isOpen, (place) => {
    if (handles) putHandles(place, [...entries.values()].sort((one, other) => byNumber(one.handle, other.handle)), changed);
    putSome(place, under, (one) => taskBox(one, below, changed));
  });
  if (changed.has(`object ${task.koid}`)) element.firstChild.classList.add('changed');
  return element;
}

function putHandles(place, handles, changed) {
  const body = make('tbody', '');
  const table = make('table', 'table', body);
  const rows = handles.map((entry) => () => {
    const row = make('tr', '', make('td', 'value', handleLink(entry.process, entry.handle, shown.moment)),
      make('td', 'what', objectLink(entry.koid, true)), make('td', '', rightsOf(entry.rights, kindIn(entry.koid))));
    if (changed.has(`entry ${entry.process} ${entry.handle}`)) row.classList.add('changed');
    return row;
  });
  place.append(table);
  putSome(body, rows, (makeRow) => makeRow());
  const more = body.querySelector('.more');
  if (more) more.after(make('span', ''));
}

/** The two ends of each channel or event pair; an end whose peer is gone stands alone. */
function pairsOf(ends) {
  const seen = new Set();
  const pairs = [];
  for (const end of ends) {
    if (seen.has(end.koid)) continue;
    seen.add(end.link);
    pairs.push([end, end.link === '0' ? null : shown.state.objects.get(end.link)]);
  }
  return pairs;
}

function pairBox([end, peer], changed) {
  if (!peer) return make('div', 'pair alone', objectBox(end, changed), make('div', 'side gone', 'peer closed'));
  return make('div', 'pair', objectBox(end, changed), objectBox(peer, changed));
}

/** An object that is no task: its signals, and the messages, packets and waits that it has. */
function objectBox(object, changed) {
  const top = make('div', 'top', koidLink(object.koid, object.kind), signalsOf(object.signals, object.kind));
  const box = make('div', 'side', top);
  if (shown.leaks.has(object.koid)) {
    box.classList.add('leaked');
    top.append(make('span', 'tag leaked', 'leaked'));
  }
  if (changed.has(`object ${object.koid}`)) box.classList.add('changed');
  const {messages, packets, waits} = shown.state;
  putThings(box, object, 'message', messages.get(object.koid), (row) => messageLine(row, changed));
  putThings(box, object, 'packet', packets.get(object.koid), (row) => lineOf(row, packetFields(row), changed));
  putThings(box, object, 'wait', waits.get(object.koid), (row) => lineOf(row, waitFields(row), changed));
  return box;
}

/** The messages, packets or waits of an object by their numbers: at once where they are a few, and else in a group. */
function putThings(box, object, sort, things, makeLine) {
  if (!things || !things.size) return;
  const fill = (place) => {
    const list = make('ul', 'things');
    putSome(list, [...things.values()].sort((one, other) => byNumber(one.number, other.number)), makeLine);
    place.append(list);
  };
  if (things.size <= FEW_THINGS) fill(box);
  else box.append(group(`${sort}s ${object.koid}`, 'task', [make('span', 'dim', counted(things.size, sort))], false, fill));
}

function messageLine(row, changed) {
  const line = lineOf(row, [], changed);
  line.append(bytesOf(row.bytes));
  row.held.forEach(({koid, rights}, at) => line.append(make('span', '', sentLink(row.endpoint, row.number, at, koid), ' ',
    objectLink(koid, true), ' ', rightsOf(rights, kindIn(koid)))));
  return line;
}

function lineOf(row, fields, changed) {
  const index = make('span', 'index', `${row.sort === 'msg' ? 'message' : row.sort} ${row.number}`);
  const line = make('li', '', index, ...fieldWords(fields));
  const owner = {msg: `${row.endpoint} `, packet: `${row.port} `, wait: ''}[row.sort];
  if (changed.has(`${row.sort} ${owner}${row.number}`)) line.classList.add('changed');
  return line;
}

// ---- What is leaked ----

function drawLeaks() {
  const box = part('leaks');
  const leaks = [...shown.leaks.keys()].sort(byNumber);
  box.classList.toggle('some', shown.isLeaksKnown && leaks.length > 0);
  if (!shown.isLeaksKnown) {
    if (!leaks.length) box.textContent = 'Looking for leaks...';
    return;
  }
  box.dataset.count = leaks.length;
  if (!leaks.length) {
    box.textContent = 'No leaks at this moment.';
    return;
  }
  box.replaceChildren(make('b', '', `${counted(leaks.length, 'leaked object')}:`),
    ...leaks.slice(0, 40).map((koid) => koidLink(koid, shown.leaks.get(koid), true)));
  if (leaks.length > 40) box.append(make('span', 'dim', ` and ${grouped(leaks.length - 40)} more`));
}

// ---- The graph of objects: who holds whom, in columns from the jobs on ----

const MOST_NODES = 26;
const MOST_ON_WAY = 10;
const AROUND = [12, 5, 2]; // how many more are drawn beside the middle, beside those, and beside all others
const NODE_WIDTH = 76;
const NODE_HEIGHT = 34;
const NAMED_HEIGHT = 42;
const COLUMN = 132;
const LEVEL = 52;

/** Tells of each two objects that are tied: by a handle, by a message, as parent or as peer. */
function eachTie(state, tell) {
  for (const [process, entries] of state.entries) for (const {koid} of entries.values()) tell(process, koid);
  for (const [endpoint, messages] of state.messages) {
    for (const {held} of messages.values()) for (const {koid} of held) tell(endpoint, koid);
  }
  for (const {koid, link} of state.objects.values()) if (link !== '0') tell(link, koid);
}

/** The objects that are drawn: all where they are few, and else those around the one that is picked, or around the caller. */
function around(state) {
  if (state.objects.size <= MOST_NODES) return {koids: new Set(state.objects.keys()), center: null};
  const center = centerOf(state);
  const way = [...wayOfHandle().keys()].filter((koid) => state.objects.has(koid));
  const koids = new Set([center, ...way.slice(0, MOST_ON_WAY)]);
  const touched = touchedObjects();
  let newest = [...koids];
  for (const most of AROUND) {
    const beside = new Map(newest.map((koid) => [koid, []]));
    eachTie(state, (one, other) => {
      if (beside.has(one) && !koids.has(other)) beside.get(one).push(other);
      if (beside.has(other) && !koids.has(one)) beside.get(other).push(one);
    });
    newest = [];
    for (const list of beside.values()) {
      const first = list.filter((koid) => shown.leaks.has(koid) || touched.has(koid));
      const some = [...new Set([...first, ...list.slice(0, most)])].slice(0, most);
      newest.push(...some.filter((koid) => !koids.has(koid)).slice(0, MOST_NODES - koids.size));
      for (const koid of newest) koids.add(koid);
    }
  }
  return {koids, center};
}

/** The objects of which the call changed a row, or a handle. */
function touchedObjects() {
  const rows = shown.change.map(({before, after}) => readRow((after || before).split(' ')));
  return new Set(rows.map((row) => row.koid || row.port || row.endpoint));
}

/** Who holds whom, among some objects: by handles, by messages, and who is whose parent or peer. */
function edgesOf(state, koids) {
  const edges = [];
  for (const one of koids) {
    for (const [to, handles] of heldBy(state, one, koids)) {
      edges.push({from: one, to, sort: 'handle', label: labelOf(handles), words: handlesInWords(one, handles)});
    }
    for (const {number, held} of (state.messages.get(one) || new Map()).values()) {
      for (const {koid} of held) if (koids.has(koid)) edges.push({from: one, to: koid, sort: 'message', label: `#${number}`});
    }
    const {kind, link} = state.objects.get(one);
    if (!koids.has(link)) continue;
    if (kind === 'job' || kind === 'process') edges.push({from: link, to: one, sort: 'child', label: ''});
    else if (byNumber(one, link) < 0) edges.push({from: one, to: link, sort: 'peer', label: ''});
  }
  return edges;
}

/** The handles of a process to some objects, by the object. */
function heldBy(state, process, koids) {
  const found = new Map();
  for (const {koid, handle} of (state.entries.get(process) || new Map()).values()) {
    if (koids.has(koid)) found.set(koid, [...(found.get(koid) || []), handle]);
  }
  return found;
}

function labelOf(handles) {
  const inOrder = handles.sort(byNumber);
  return inOrder.length > 3 ? `${inOrder.slice(0, 2).join(', ')} +${inOrder.length - 2}` : inOrder.join(', ');
}

const MOST_IN_WORDS = 20;

/** Handles of a process with their names, for who hovers over their edge. */
function handlesInWords(process, handles) {
  const words = handles.slice(0, MOST_IN_WORDS).map((handle) => `${handle} ${nameOf(ofHandle(process, handle))}`.trim());
  return words.join(', ') + (handles.length > MOST_IN_WORDS ? ` +${handles.length - MOST_IN_WORDS}` : '');
}

function centerOf(state) {
  if (view.object && state.objects.has(view.object)) return view.object;
  const keys = shown.change.map((row) => row.key.split(' '));
  const changed = keys.find(([sort, koid]) => sort === 'entry' && state.objects.has(koid));
  return changed ? changed[1] : state.processes()[0] || '1024';
}

/** The column of each object: jobs, processes, what they hold, and what lies in messages behind that. */
function columnsOf(state, koids, edges) {
  const column = new Map();
  for (const koid of koids) {
    const kind = state.kindOf(koid);
    if (kind === 'job') column.set(koid, 0);
    if (kind === 'process') column.set(koid, 1);
  }
  const spread = (sorts, from) => {
    for (let isMoved = true; isMoved;) {
      isMoved = false;
      for (const edge of edges) {
        if (!sorts.includes(edge.sort)) continue;
        const ways = edge.sort === 'peer' ? [[edge.from, edge.to], [edge.to, edge.from]] : [[edge.from, edge.to]];
        for (const [one, other] of ways) {
          if (!column.has(one) || column.has(other)) continue;
          column.set(other, edge.sort === 'peer' ? column.get(one) : Math.max(2, column.get(one) + from));
          isMoved = true;
        }
      }
    }
  };
  spread(['handle'], 1);
  spread(['message', 'peer'], 1);
  // (what no process reaches begins a row of its own, first the ends of channels that hold something)
  const holders = new Set(edges.filter((edge) => edge.sort === 'message').map((edge) => edge.from));
  const left = [...koids].filter((koid) => !column.has(koid));
  for (const koid of [...left.filter((it) => holders.has(it)), ...left]) {
    if (column.has(koid)) continue;
    column.set(koid, 2);
    spread(['message', 'peer'], 1);
  }
  return column;
}

/** The columns, each in the order in which its objects lie nearest to those that they are tied to, and their places in it. */
function orderOf(state, koids, edges) {
  const column = columnsOf(state, koids, edges);
  const used = [...new Set(column.values())].sort((one, other) => one - other);
  const columns = used.map((number) => [...koids].filter((koid) => column.get(koid) === number).sort(byNumber));
  const places = new Map();
  const rowCount = Math.max(...columns.map((list) => list.length));
  const put = (list) => list.forEach((koid, at) => places.set(koid, at + (rowCount - list.length) / 2));
  columns.forEach(put);
  for (let round = 0; round < 6; round += 1) {
    for (const list of round % 2 ? [...columns].reverse() : columns) {
      const middle = new Map(list.map((koid) => [koid, middleOf(koid, edges, places)]));
      list.sort((one, other) => middle.get(one) - middle.get(other) || byNumber(one, other));
      put(list);
    }
  }
  return {columns, places, rowCount};
}

/** Where each object is drawn, and at which scale; columns stand wider apart where there is room beside them. */
function layOut(state, koids, edges, box) {
  const {columns, places, rowCount} = orderOf(state, koids, edges);
  const end = columns.length - 1;
  const isLast = (koid) => columns[end].includes(koid);
  const isAround = edges.some((edge) => edge.sort !== 'peer' && isLast(edge.from) && isLast(edge.to));
  const margins = isAround ? 132 : 92;
  const height = 60 + (rowCount - 1) * LEVEL;
  const fit = (share) => Math.max(0.62, Math.min(1.2, share));
  const tall = box.clientHeight - (wayOfHandle().size ? 52 : 34); // (below the key, which has a second line for a way)
  const room = (box.clientWidth - 16) / fit(tall / height) - margins;
  const apart = Math.max(COLUMN, Math.min(1.7 * COLUMN, room / Math.max(1, end)));
  const width = margins + end * apart;
  const scale = fit(Math.min((box.clientWidth - 16) / width, tall / height));
  const spots = new Map();
  columns.forEach((list, at) => list.forEach((koid) => {
    spots.set(koid, {x: 46 + at * apart, y: 32 + places.get(koid) * LEVEL, column: at});
  }));
  return {spots, width, height, scale};
}

/** The middle of the places of those that an object is tied to. */
function middleOf(koid, edges, places) {
  let sum = 0;
  let count = 0;
  for (const edge of edges) {
    const other = edge.from === koid ? edge.to : edge.to === koid ? edge.from : null;
    if (other === null || other === koid) continue;
    const weight = edge.sort === 'peer' ? 3 : 1;
    sum += weight * places.get(other);
    count += weight;
  }
  return count ? sum / count : places.get(koid);
}

function drawGraph() {
  const state = shown.state;
  if (shown.moment < 0) return;
  const {koids, center} = around(state);
  const edges = edgesOf(state, koids);
  const box = part('graph');
  const {spots, width, height, scale} = layOut(state, koids, edges, box);
  part('graph-note').textContent = center ? `${koids.size} of ${grouped(state.objects.size)} objects, around ${withName(center)}` : '';
  const drawing = makeDrawn('svg', {
    viewBox: `0 0 ${width} ${height}`, width: width * scale, height: height * scale, role: 'group',
    'aria-label': 'Objects and their holders',
  });
  drawing.append(arrow(), ...edges.map((edge) => drawEdge(edge, spots)));
  drawing.append(...drawLabels(edges, spots));
  for (const koid of koids) drawing.append(drawNode(state.objects.get(koid), spots.get(koid)));
  box.replaceChildren(graphKey(), drawing);
  const middle = spots.get(view.object || center);
  if (middle) box.scrollTo(middle.x * scale - box.clientWidth / 2, middle.y * scale - box.clientHeight / 2);
}

function arrow() {
  const shape = makeDrawn('path', {d: 'M 0 0 L 7 3.5 L 0 7 z'});
  const size = {viewBox: '0 0 7 7', refX: 6.5, refY: 3.5, markerWidth: 7, markerHeight: 7};
  const marker = makeDrawn('marker', {id: 'arrow', orient: 'auto', markerUnits: 'userSpaceOnUse', ...size}, shape);
  return makeDrawn('defs', {}, marker);
}

/** The points of an edge: from the right of the holder to the left of the held one, or around where that lies behind. */
function pointsOf(edge, spots) {
  const from = spots.get(edge.from);
  const to = spots.get(edge.to);
  const half = NODE_WIDTH / 2;
  if (edge.from === edge.to) {
    const [x, y] = [from.x + half, from.y];
    return [[x, y - 8], [x + 34, y - 30], [x + 34, y + 30], [x, y + 8]];
  }
  if (edge.sort === 'peer' || (edge.sort === 'child' && from.column === to.column)) {
    const side = from.column === to.column ? 0 : Math.sign(to.x - from.x) * half;
    const rise = from.column === to.column ? Math.sign(to.y - from.y) * (NODE_HEIGHT / 2) : 0;
    const far = from.column === to.column && Math.abs(to.y - from.y) > LEVEL * 1.2 ? -half - 18 : 0;
    if (far) return [[from.x - half, from.y], [from.x + far, from.y], [to.x + far, to.y], [to.x - half, to.y]];
    const [x, y, u, v] = [from.x + side, from.y + rise, to.x - side, to.y - rise];
    return [[x, y], [x, y], [u, v], [u, v]];
  }
  if (from.column < to.column) {
    const [x, u] = [from.x + half, to.x - half];
    const bend = (u - x) / 2;
    const low = edge.sort === 'child' ? 10 : 0; // (beside the handle by which the child may hold its parent)
    return [[x, from.y + low], [x + bend, from.y + low], [u - bend, to.y + low], [u, to.y + low]];
  }
  if (from.column > to.column) {
    const [x, u] = [from.x - half, to.x + half];
    const bend = (x - u) / 2;
    return [[x, from.y], [x - bend, from.y], [u + bend, to.y], [u, to.y]];
  }
  // (one in the same column is reached around the right, the farther the wider)
  const x = from.x + half;
  const out = x + 12 + 13 * Math.min(4, Math.abs(to.y - from.y) / LEVEL);
  return [[x, from.y], [out, from.y], [out, to.y], [x, to.y]];
}

function drawEdge(edge, spots) {
  const [start, ...bends] = pointsOf(edge, spots);
  const isLit = view.object && (edge.from === view.object || edge.to === view.object);
  const isWay = (edge.sort === 'handle' || edge.sort === 'message') && isOnWay(edge);
  const path = makeDrawn('path', {
    class: `edge ${edge.sort}${isLit ? ' lit' : ''}${isWay ? ' way' : ''}`,
    d: `M ${start.join(' ')} C ${bends.map((it) => it.join(' ')).join(', ')}`,
  });
  if (edge.sort === 'handle' || edge.sort === 'message') path.setAttribute('marker-end', 'url(#arrow)');
  const words = {handle: 'holds', message: 'holds', child: 'is the parent of', peer: 'is the peer of'}[edge.sort];
  const by = {handle: ` by handle ${edge.words}`, message: ` in message ${edge.label}`}[edge.sort] || '';
  path.append(makeDrawn('title', {}, `${withName(edge.from)} ${words} ${withName(edge.to)}${by}`));
  return path;
}

const LABEL_HEIGHT = 12;
const DIGIT_WIDTH = 6.2;
const SHARES = [0.68, 0.3, 0.5, 0.4, 0.6, 0.76, 0.22, 0.84, 0.15];

/** The labels of the edges, each where it lies on no node and on no other label, if there is such a place on its edge. */
function drawLabels(edges, spots) {
  const taken = [...spots].map(([koid, {x, y}]) => ({x, y, width: NODE_WIDTH, height: nameOf(ofKoid(koid)) ? NAMED_HEIGHT : NODE_HEIGHT}));
  return edges.filter((edge) => edge.label).map((edge) => {
    const box = freestOf(edge, spots, edges, taken);
    taken.push(box);
    return makeDrawn('text', {class: 'edge-label', x: box.x, y: box.y + 3}, edge.label);
  });
}

/** Of the places along an edge the one that covers least; the first ones are near that end where fewer others end. */
function freestOf(edge, spots, edges, taken) {
  const points = pointsOf(edge, spots);
  const isAround = spots.get(edge.from).column === spots.get(edge.to).column;
  const first = isAround ? 0.5 : countOf(edges, 'to', edge.to) > countOf(edges, 'from', edge.from) ? 0.3 : 0.68;
  const boxes = [first, ...SHARES].map((share) => ({
    ...pointAt(points, share), width: DIGIT_WIDTH * edge.label.length + 3, height: LABEL_HEIGHT,
  }));
  const covered = boxes.map((box) => taken.reduce((sum, other) => sum + shared(box, other), 0));
  return boxes[covered.indexOf(Math.min(...covered))];
}

function countOf(edges, end, koid) {
  return edges.filter((edge) => edge.label && edge[end] === koid).length;
}

/** The point of a curve at a share of its way. */
function pointAt(points, share) {
  const rest = 1 - share;
  const weights = [rest ** 3, 3 * share * rest ** 2, 3 * share ** 2 * rest, share ** 3];
  const [x, y] = [0, 1].map((axis) => points.reduce((sum, point, at) => sum + weights[at] * point[axis], 0));
  return {x, y};
}

/** The area that two boxes share. */
function shared(one, other) {
  const along = (axis, size) => Math.max(0, (one[size] + other[size]) / 2 - Math.abs(one[axis] - other[axis]));
  return along('x', 'width') * along('y', 'height');
}

function drawNode(object, {x, y}) {
  const isLeaked = shown.leaks.has(object.koid);
  const classes = ['node', 'koid', object.kind];
  if (isLeaked) classes.push('leaked');
  if (object.koid === view.object) classes.push('picked');
  if (object.life !== 'live') classes.push('ended');
  const turns = wayOfHandle().get(object.koid);
  if (turns) classes.push('way');
  const fate = isLeaked ? 'leaked' : object.life === 'live' ? '' : 'ended';
  const node = makeDrawn('g', {
    class: classes.join(' '), 'data-koid': object.koid, tabindex: 0, role: 'link',
    'aria-label': `${KIND_NAMES[object.kind]} ${withName(object.koid)}${fate && `, ${fate}`}`,
  });
  const name = nameOf(ofKoid(object.koid));
  const height = name ? NAMED_HEIGHT : NODE_HEIGHT;
  node.append(
    makeDrawn('title', {}, titleOfNode(object, turns)),
    makeDrawn('rect', {x: x - NODE_WIDTH / 2, y: y - height / 2, width: NODE_WIDTH, height, rx: 5}),
    makeDrawn('text', {x, y: y + (fate ? 1 : -1) - (name ? 6 : 0)}, object.koid),
    makeDrawn('text', {x, y: y + (name ? 16 : 12), class: 'sort'}, KIND_NAMES[object.kind]),
  );
  if (name) node.append(makeDrawn('text', {x, y: y + (fate ? 6 : 5), class: 'called'}, shortName(name)));
  if (fate) node.append(...fateOf(fate, x, y - height / 2));
  if (turns) node.append(...turnsOf(turns, x - NODE_WIDTH / 2, y + height / 2));
  return node;
}

const MOST_IN_NODE = 13; // characters of a name

function shortName(name) {
  const letters = [...name];
  return letters.length > MOST_IN_NODE ? letters.slice(0, MOST_IN_NODE - 1).join('') + '\u2026' : name;
}

function titleOfNode({koid, kind, signals}, turns) {
  const title = `${KIND_NAMES[kind]} ${withName(koid)}: ${signalNames(signals, kind).join(' ')}`;
  return turns ? `${title}\nthe selected handle came here in step ${turns.slice(0, 20).join(', ')} of its life` : title;
}

const MOST_TURNS = 3;

/** Which steps of the picked handle's life brought it to an object, on the lower left corner of its box. */
function turnsOf(turns, x, y) {
  const words = turns.slice(0, MOST_TURNS).join(',') + (turns.length > MOST_TURNS ? '+' : '');
  const width = 5.5 * words.length + 8;
  return [
    makeDrawn('rect', {x: x - 5, y: y - 7, width, height: 12, rx: 6, class: 'fate turn'}),
    makeDrawn('text', {x: x - 5 + width / 2, y: y + 2, class: 'turn'}, words),
  ];
}

/** What became of an object, on the upper side of its box. */
function fateOf(fate, x, y) {
  const width = 5 * fate.length + 8;
  return [
    makeDrawn('rect', {x: x - width / 2, y: y - 7, width, height: 11, rx: 5.5, class: 'fate'}),
    makeDrawn('text', {x, y: y + 1, class: 'fate'}, fate),
  ];
}

function graphKey() {
  const line = (sort) => makeDrawn('path', {class: `edge ${sort}`, d: 'M 0 3 H 22'});
  const sample = (sort) => makeDrawn('svg', {width: 22, height: 6}, line(sort));
  const words = [['handle', 'handle'], ['message', 'in a message'], ['peer', 'peer'], ['child', 'parent']];
  if (wayOfHandle().size) words.push(['way', 'way of the handle']);
  return make('div', 'key', ...words.map(([sort, text]) => make('span', '', sample(sort), text)));
}

// ---- The object that is picked ----

function loadObjectNow() {
  later('object', 0, loadObject);
}

async function loadObject() {
  const {object} = view;
  const moment = shown.moment;
  const box = part('object');
  showNaming('object', object && ofKoid(object), `Name of object ${object}`);
  if (moment < 0) return;
  if (!object) {
    part('object-note').textContent = '';
    box.replaceChildren(make('p', 'dim', 'Click a koid or graph node to select an object, or a handle to see its life.'));
    return;
  }
  if (!box.querySelector('.koid')) box.replaceChildren(make('p', 'dim', `${object} ...`));
  let lines;
  try {
    lines = linesOf(await ask(`/object/${object}/${moment}`));
  } catch (fault) {
    if (fault.isGone) throw fault;
    lines = null;
  }
  if (object !== view.object || moment !== shown.moment) return;
  if (lines) drawObject(object, lines);
  else drawUnmade(object);
}

function drawUnmade(object) {
  part('object-note').textContent = object;
  part('object').replaceChildren(make('p', 'dim', `Object ${withName(object)} does not exist yet at this moment.`));
}

/** The lines of an object: its row, what holds it, its messages, packets and waits, and when each of the four happened. */
function drawObject(koid, lines) {
  const fields = lines[0].split(' ');
  const isGone = fields[2] === 'gone';
  const count = isGone ? 0 : Number(lines[1].split(' ')[2]);
  const holders = lines.slice(2, 2 + count);
  const rest = isGone ? lines.slice(1) : lines.slice(2 + count);
  const isWhen = (line) => line.split(' ')[0] in HAPPENINGS;
  part('object-note').textContent = '';
  part('object').replaceChildren(
    objectTop(koid, isGone ? null : readRow(fields)),
    whenOf(rest.filter(isWhen)),
    ...(isGone ? [] : listOf(`Held by ${count}`, holders, holderWords)),
    ...listOf('Messages, packets and waits', rest.filter((line) => !isWhen(line)), ownedWords),
    callsButton(koid),
  );
}

function objectTop(koid, row) {
  const top = make('div', 'fields', koidLink(koid, row ? row.kind : shown.state.kindOf(koid), true));
  if (shown.leaks.has(koid)) top.append(make('span', 'tag leaked', 'leaked'));
  top.append(...(row ? fieldWords(fieldsOf(row)) : [make('span', 'tag', 'gone')]));
  return top;
}

function whenOf(lines) {
  const list = make('dl', 'when');
  for (const line of lines) {
    const [what, moment, process, name, ...asked] = line.split(' ');
    const place = make('dd', what === 'leaked' && moment !== 'never' ? 'leaked' : '');
    if (moment === 'never') place.append(make('span', 'dim', 'never'));
    else {
      const call = {moment: Number(moment), process, name, asked, status: 'ok', values: []};
      place.append(momentLink(Number(moment)), ' ', koidLink(process, 'process'), ' ', callWords(call));
    }
    list.append(make('dt', '', HAPPENINGS[what]), place);
  }
  return list;
}

function listOf(title, lines, words) {
  if (!lines.length) return [];
  const list = make('ul', '');
  putSome(list, lines, (line) => make('li', '', ...words(line.split(' '))));
  return [make('h3', '', title), list];
}

function holderWords([sort, first, second, third]) {
  if (sort === 'entry') return ['handle ', handleLink(first, second, shown.moment), ' of ', objectLink(first, true)];
  if (sort === 'message') return [`message ${second} at `, objectLink(first, true), `, handle index ${third}`];
  if (sort === 'child') return ['child ', objectLink(first, true)];
  return ['itself'];
}

function ownedWords(fields) {
  const row = readRow(fields);
  const title = make('span', 'dim', `${row.sort === 'msg' ? 'message' : row.sort} ${row.number}`);
  return [make('div', 'fields', title, ...fieldWords(fieldsOf(row)))];
}

function callsButton(koid) {
  const button = make('button', 'more', 'Find calls that changed it');
  button.type = 'button';
  button.addEventListener('click', () => {
    part('search-kind').value = 'koid';
    part('search').value = koid;
    search();
  });
  return button;
}

// ---- The handle that is picked: its life, and the handles of its object ----

const ENDINGS = ['closed', 'failed', 'discarded', 'process_ended', 'queue_gone'];

/** Takes a place from the front of words: an entry of a process, or a handle in a message. */
function takeSpot(words) {
  const sort = words.shift();
  if (sort === 'entry') return {sort, process: words.shift(), handle: words.shift()};
  return {sort, endpoint: words.shift(), number: words.shift(), index: Number(words.shift())};
}

/** Takes what a line says of a handle that came to a place: when, how, where, with which rights, and from where. */
function takeStep(words) {
  const step = {moment: Number(words.shift()), word: words.shift(), spot: takeSpot(words), rights: words.shift(), from: null};
  if (words[0] === 'from') {
    words.shift();
    step.from = takeSpot(words);
  }
  return step;
}

/** A line of `/handle`: a step or the end, with the rights ahead of it and its call. */
function readStep(line) {
  const words = line.split(' ');
  const step = takeStep(words);
  if (step.from) step.before = words.shift();
  const [process, name, ...asked] = words;
  return {...step, call: process ? {moment: step.moment, process, name, asked, status: 'ok', values: []} : null};
}

/** A line of `/lineage`: a handle of an object, and how it left its place, if it did. It is set in below the one it came from. */
function readKin(line) {
  const words = line.trimStart().split(' ');
  const depth = (line.length - line.trimStart().length) / 2;
  const step = takeStep(words);
  return {...step, depth, left: words[0] === 'held' ? null : {word: words[0], moment: Number(words[1])}};
}

/** The lines of a life: its steps, its end, if there is one, and whether the handle is held. */
function readLife(lines) {
  const steps = lines.slice(0, -1).map(readStep);
  const isHeld = lines[lines.length - 1].startsWith('held');
  const end = !isHeld && steps.length && ENDINGS.includes(steps[steps.length - 1].word) ? steps.pop() : null;
  return {steps, end, isHeld};
}

function isSameHandle(one, other) {
  return one.process === other.process && one.value === other.value && one.until === other.until;
}

/** The life of a handle until a moment, or null where the process never had it. */
async function lifeOf(handle) {
  const {process, value, until} = handle;
  if (shown.life && isSameHandle(shown.life.handle, handle)) return shown.life;
  try {
    const life = readLife(linesOf(await ask(`/handle/${process}/${value}/${until}`)));
    return {...life, handle, koid: await koidAt(life.steps[life.steps.length - 1]), way: wayOf(life.steps), kin: null};
  } catch (fault) {
    if (fault.isGone || !(fault instanceof Trouble)) throw fault;
    return null;
  }
}

/** The object of a handle, as it was where a step brought it. */
async function koidAt({moment, spot}) {
  const rows = moment ? (await changeOf(moment)).map(({after}) => after) : listAt(await talkAt(0, 'show'), 0);
  const key = spot.sort === 'entry' ? `entry ${spot.process} ${spot.handle}` : `msg ${spot.endpoint} ${spot.number}`;
  const row = readRow(rows.find((it) => it && keyOf(it) === key).split(' '));
  return row.sort === 'entry' ? row.koid : row.held[spot.index].koid;
}

/** The moments of a life, in their order, each once. */
function momentsOfLife({steps, end}) {
  return [...new Set([...steps, ...(end ? [end] : [])].map(({moment}) => moment))];
}

/** The objects on the way of a handle, each with the steps that brought it there, from 1. */
function wayOf(steps) {
  const way = new Map();
  steps.forEach(({spot}, at) => {
    const owner = spot.process || spot.endpoint;
    if (!way.has(owner)) way.set(owner, []);
    way.get(owner).push(at + 1);
  });
  return way;
}

const NO_WAY = new Map();

function wayOfHandle() {
  return shown.life ? shown.life.way : NO_WAY;
}

/** Whether one that is on the way holds the object of the picked handle. */
function isOnWay({from, to}) {
  return Boolean(shown.life) && to === shown.life.koid && wayOfHandle().has(from);
}

/** The later of two moments of a path, or the one where one stands if they are of no one path. */
function untilOf(moment) {
  return isBefore(view.wanted, moment) ? moment : view.wanted;
}

/** Picks a handle with its object, by its life. */
function pickLife(life) {
  view.handle = life.handle;
  shown.life = life;
  loadHandleNow();
  pick(life.koid);
}

let picks = 0;

/** Picks a handle that stands in something of a moment: its life is told until where one stands, or until that moment. */
async function pickHandle(process, value, moment) {
  picks += 1;
  const number = picks;
  const koid = moment === shown.moment ? shown.state.named(process, value) : null;
  if (koid) pick(koid);
  const life = await lifeOf({process, value, until: untilOf(moment)});
  if (number !== picks) return;
  if (!life) throw new Trouble(`Process ${process} has no handle ${value} at that moment.`, false);
  pickLife(life);
}

/** Picks a handle that stands in a message, by the entry from which it was sent. */
async function pickSent(koid, message) {
  const {wanted} = view;
  const kin = linesOf(await ask(`/lineage/${koid}/${wanted}`)).map(readKin);
  const sent = kin.find(({spot}) => spot.sort === 'message' && `${spot.endpoint} ${spot.number} ${spot.index}` === message);
  if (!sent || !sent.from) throw new Trouble(`Object ${koid} was not in that message.`, false);
  await pickHandle(sent.from.process, sent.from.handle, wanted);
}

function loadHandleNow() {
  later('handle', 0, loadHandle);
}

/** Shows the picked handle: its life at once, and then the handles of its object. */
async function loadHandle() {
  const {handle} = view;
  part('handle-panel').hidden = !handle;
  if (handle) showNaming('handle', ofHandle(handle.process, handle.value), `Name of handle ${handle.value} of process ${handle.process}`);
  if (!handle || shown.moment < 0) {
    shown.life = null;
    return;
  }
  if (part('handle').dataset.life === wordsOf(handle) && shown.life) {
    markSteps();
    return;
  }
  const life = await lifeOf(handle);
  if (!view.handle || !isSameHandle(handle, view.handle)) return;
  shown.life = life;
  drawHandle(handle, life);
  later('graph', 0, drawGraph);
  if (life) await loadKin(life);
}

function wordsOf({process, value, until}) {
  return `${process} ${value} ${until}`;
}

async function loadKin(life) {
  if (!life.kin) life.kin = linesOf(await ask(`/lineage/${life.koid}/${life.handle.until}`)).map(readKin);
  if (shown.life === life) drawKin(life);
}

function drawHandle(handle, life) {
  const box = part('handle');
  box.dataset.life = wordsOf(handle);
  part('handle-note').textContent = `until moment ${handle.until}`;
  if (!life) {
    box.replaceChildren(make('p', 'dim', `Process ${handle.process} has had no handle ${handle.value} up to moment ${handle.until}.`));
    return;
  }
  const top = make('div', 'fields', ...spotWords({sort: 'entry', process: handle.process, handle: handle.value}, handle.until),
    make('span', 'dim', 'refers to'), objectLink(life.koid, true));
  const list = make('ol', 'life');
  putSome(list, [...life.steps, ...(life.end ? [life.end] : [])], stepLine);
  const last = life.steps[life.steps.length - 1];
  const where = life.isHeld ? [make('b', '', 'held'), ...spotWords(last.spot, handle.until)] : [make('b', '', 'gone')];
  box.replaceChildren(top, list, make('div', 'fields where', ...where), make('div', 'kin'));
  markSteps();
}

/** A place in words, with links. */
function spotWords(spot, moment) {
  if (spot.sort === 'entry') {
    return [make('span', '', 'handle ', handleLink(spot.process, spot.handle, moment), ' of ', objectLink(spot.process, true))];
  }
  return [make('span', '', `handle index ${spot.index} of message ${spot.number} at `, objectLink(spot.endpoint, true))];
}

/** A step of a life, or its end: a line that leads to its moment. */
function stepLine(step) {
  const isEnd = ENDINGS.includes(step.word);
  const line = make('li', isEnd ? 'end' : '', make('span', 'fields', momentLink(step.moment), make('b', '', wordOf(step.word)),
    ...spotWords(step.spot, step.moment), rightsOf(step.rights, kindIn(shown.life.koid))));
  line.dataset.go = step.moment;
  if (step.from && step.before !== step.rights) {
    line.firstChild.append(make('span', 'dim', 'before:'), rightsOf(step.before, kindIn(shown.life.koid)));
  }
  if (step.call) line.append(make('div', 'by', koidLink(step.call.process, 'process'), ' ', callWords(step.call)));
  return line;
}

function wordOf(word) {
  return word.replace('_', ' ');
}

/** Marks the step of the life at which the handle stands at the shown moment, and those that come later. */
function markSteps() {
  const lines = [...document.querySelectorAll('#handle .life > li')];
  const isLater = (line) => Number(line.dataset.go) > shown.moment;
  const here = lines.filter((line) => !isLater(line)).pop();
  for (const line of lines) {
    line.classList.toggle('here', line === here);
    line.classList.toggle('later', isLater(line));
  }
}

/** The handles of the object: each below the one that it came from; those that are held stand out. */
function drawKin(life) {
  const held = life.kin.filter(({left}) => !left).length;
  const title = make('h3', '', 'Handles of ', objectLink(life.koid, true), `: ${grouped(life.kin.length)}, ${grouped(held)} of them held`);
  const list = make('ul', '');
  putSome(list, life.kin, (kin) => kinLine(kin, life));
  part('handle').querySelector('.kin').replaceChildren(title, list);
}

const MOST_DEPTH = 12;

function kinLine({moment, word, spot, rights, depth, left}, life) {
  const line = make('li', left ? 'fields' : 'fields held', momentLink(moment), make('span', '', wordOf(word)), ...spotWords(spot, moment),
    rightsOf(rights, kindIn(life.koid)));
  line.style.paddingLeft = `${14 * Math.min(depth, MOST_DEPTH)}px`;
  line.dataset.depth = depth;
  line.classList.toggle('own', life.steps.some((step) => step.moment === moment && isSameSpot(step.spot, spot)));
  if (left) line.append(make('span', 'left', `${wordOf(left.word)} `, momentLink(left.moment)));
  else line.append(make('span', 'tag held', 'held'));
  return line;
}

function isSameSpot(one, other) {
  return one.sort === other.sort && (one.sort === 'entry' ? one.process === other.process && one.handle === other.handle
    : one.endpoint === other.endpoint && one.number === other.number && one.index === other.index);
}

function leaveHandle() {
  view.handle = null;
  loadHandleNow();
  keepPlace();
  drawPicked();
}

// ---- What a person does ----

/** What a click is about: the innermost link or row below the pointer. */
function clicked(event) {
  const link = event.target.closest('[data-handle], [data-message], [data-koid], [data-go], [data-branch], .row');
  if (!link || !tree.branches.length || event.ctrlKey || event.metaKey || event.shiftKey) return;
  const {handle, message, koid, go: moment, branch} = link.dataset;
  if (link.id === 'position') return;
  event.preventDefault();
  forgetRefusal();
  if (handle) attempt(() => pickHandle(link.dataset.process, handle, Number(link.dataset.moment)));
  else if (message) attempt(() => pickSent(link.dataset.names, message));
  else if (koid) pick(koid);
  else if (moment) go(Number(moment));
  else if (branch) attempt(() => followBranch(branch));
  else go(Number(link.dataset.moment));
}

const KEYS = {
  ArrowLeft: () => step(view.path, -1),
  ArrowRight: () => step(view.path, 1),
  ArrowUp: () => step(listed(), -1),
  ArrowDown: () => step(listed(), 1),
  PageUp: () => step(listed(), -20),
  PageDown: () => step(listed(), 20),
  Home: () => go(0),
  End: () => go(branchNamed(view.branch).head),
  '/': () => part('search').focus(),
  g: () => part('jump').focus(),
  Escape: pickNothing,
  '?': () => part('help-dialog').showModal(),
};

function isTyping(element) {
  return element.matches('input:not([type=checkbox]), select, textarea');
}

function pressed(event) {
  if (event.ctrlKey || event.metaKey || event.altKey || document.querySelector('dialog[open]') || !tree.branches.length) return;
  if (event.key === 'Enter' && event.target.closest('g.koid')) {
    pick(event.target.closest('g.koid').dataset.koid);
    return;
  }
  if (isTyping(event.target)) return;
  const action = KEYS[event.key];
  if (!action) return;
  event.preventDefault();
  forgetRefusal();
  action();
}

function searchKey(event) {
  if (event.key === 'Escape') endSearch();
  if (event.key !== 'Enter') return;
  event.preventDefault();
  if (listed().length) step(listed(), event.shiftKey ? -1 : 1);
}

function jump() {
  const field = part('jump');
  const text = field.value.trim();
  field.value = '';
  if (!text) return;
  if (isNumber(text)) go(Number(text));
  else showTrouble(new Trouble(`'${text}' is not a moment. Type a number.`, false));
  part('timeline').focus();
}

/** Looks whether others have made branches or calls. One's own moment stays. */
async function look() {
  if (hasEnded || document.hidden) return;
  if (!tree.branches.length) {
    await start();
    return;
  }
  if (await refreshTree()) showGrowth();
  follow();
}

/** Shows what others have made. */
function showGrowth() {
  const moment = Math.min(view.wanted, tree.parents.length - 1);
  const branch = branchTo(moment, view.branch) || tree.branches[0].name;
  const isSame = moment === view.wanted && branch === view.branch;
  stand(moment, branch);
  if (!isSame) shown.moment = -1;
  if (view.filter || !isSame) search();
  drawAround();
}

async function endProgram() {
  if (part('end-dialog').returnValue !== 'end') return;
  await ask('/end', '');
  showTrouble(new Trouble('zxtt-view has ended. This page shows what it loaded last.', false));
  hasEnded = true;
  for (const button of document.querySelectorAll('header button, form button')) button.disabled = true;
}

/** Ties a form to what it does, so that it never leaves the page. */
function onSubmit(id, action) {
  part(id).addEventListener('submit', (event) => {
    event.preventDefault();
    forgetRefusal();
    attempt(async () => action());
  });
}

function onClick(id, action) {
  part(id).addEventListener('click', action);
}

function tieParts() {
  document.addEventListener('click', clicked);
  document.addEventListener('keydown', pressed);
  const buttons = {'step-first': 'Home', 'step-back': 'ArrowLeft', 'step-forth': 'ArrowRight', 'step-last': 'End'};
  for (const [id, key] of Object.entries(buttons)) onClick(id, () => attempt(KEYS[key]));
  onClick('help', KEYS['?']);
  onClick('end', () => part('end-dialog').showModal());
  onClick('trouble-close', hideTrouble);
  onClick('handle-close', leaveHandle);
  for (const link of document.querySelectorAll('a[download]')) link.addEventListener('click', downloadNamed);
  for (const panel of ['object', 'handle']) {
    onSubmit(`${panel}-naming`, () => undefined);
    part(`${panel}-name`).addEventListener('change', nameTyped);
  }
  onClick('trouble-again', () => attempt(start));
  onSubmit('jump-form', jump);
  onSubmit('search-form', searchAsked);
  onSubmit('branch-form', makeBranch);
  onSubmit('call-form', makeCall);
  part('end-dialog').addEventListener('close', () => attempt(endProgram));
  part('search').addEventListener('input', searchTyped);
  part('search').addEventListener('keydown', searchKey);
  part('search-kind').addEventListener('change', searchAsked);
  part('failed-only').addEventListener('change', searchAsked);
  part('call-name').addEventListener('change', drawHint);
  part('call-name').replaceChildren(...Object.keys(CALLS).map((name) => new Option(name, name)));
  for (const id of Object.keys(scrolled)) {
    part(id).addEventListener('scroll', () => {
      scrolled[id] = part(id).scrollTop;
      if (id === 'timeline') drawTimeline(false);
    }, {passive: true});
  }
  new ResizeObserver(() => later('graph', 60, drawGraph)).observe(part('graph').parentElement);
  new ResizeObserver(([entry]) => {
    timelineHeight = entry.contentRect.height;
    later('timeline', 0, () => drawTimeline(false));
  }).observe(part('timeline'));
  window.addEventListener('popstate', () => showPlace());
  window.addEventListener('focus', () => later('look', 0, look));
  setInterval(() => later('look', 0, look), 3000);
}

/** Asks for the branches, and shows the place that the address names, or the head of the first branch. */
async function start() {
  tree.text = '';
  tree.branches = [];
  traceName = (await ask('/trace')).replace(/\n$/, '');
  part('trace').textContent = traceName;
  takeGivenNames();
  await refreshTree();
  shown.moment = -1;
  showPlace();
}

tieParts();
timelineHeight = part('timeline').clientHeight;
attempt(start).then(tellBegunAnew);
