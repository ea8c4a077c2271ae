// The auditor of Itai-Rodeh leader elections, called in process: what `ira` answers, without a process for each answer.
//
//     import * as ira from './ira.mjs';
//     ira.assertElection('runs/1', {leaders: [2]});        // the folder with 0.log, 1.log and so on
//     const {status, values} = ira.logs([first, second]);  // the texts of the logs, in the order of the ring's places
//
// It needs the module: ira.wasm, or the page that has it, ira.html, beside it, above it, in release/, or where
// IRA_MODULE says; and a Node with 64-bit memory for WebAssembly, as Node 20 has it with --experimental-wasm-memory64.
// A text is a Buffer, a Uint8Array or a string. `node ira.mjs COMMAND ..` is the command line (cli.mjs).
import {AssertionError} from 'node:assert';
import {existsSync, readFileSync, realpathSync} from 'node:fs';
import {fileURLToPath} from 'node:url';

const beside = ['ira.wasm', 'ira.html', '../ira.html', '../release/ira.html']
  .map(name => new URL(name, import.meta.url));
let compiled;
function moduleOfPage() {
  const at = process.env.IRA_MODULE ?? beside.find(existsSync);
  if (!at) throw new Error(`no ira.wasm or ira.html beside ${fileURLToPath(import.meta.url)}: IRA_MODULE says where`);
  const given = readFileSync(at);
  const [, inPage] = given[0] ? /id="?module"?[^>]*>([^<]*)/.exec(given.toString('latin1')) : [];
  return new WebAssembly.Module(inPage ? Buffer.from(inPage, 'base64') : given);
}

// The numbers of ira.h.
export const [LOG, LOGS, EXPLAIN_LOG, EXPLAIN, EXPLAIN_QUESTION, EXPLAIN_CERT, SHOW, EVENTS, DRAW, DECIDE, CHECK, PAIRS,
  UPGRADE, MEND, RUN, PAGE, JSON_LINES, LEADERS, OVERVIEW, ASK] = Array(20).keys();
export const [YES, NO, REFUSED, OUT_OF_MEMORY, NO_REQUEST, NO_ROOM] = Array(6).keys();

export const ANY = 2n ** 64n - 1n, ALL = [0n, 2n ** 64n - 1n];
const PAGE_SIZE = 65536, FIRST = 2 ** 26, MOST = 2 ** 32, VALUES = 520, PARTS = 258;
const encoder = new TextEncoder, decoder = new TextDecoder;

// What the program refuses with status 2: what it says, and the reply with what it prints all the same.
export class Refused extends Error {
  constructor(line, reply) {
    super(line);
    this.reply = reply;
  }
}

// An instance of the module with memory for requests behind its own. Pages that no request touches cost nothing.
let room;
function roomOf(size, total) {
  if (room?.size >= size && room.total >= total) return room;
  compiled ??= moduleOfPage();
  const {memory, ira_serve: serve} = new WebAssembly.Instance(compiled, {}).exports;
  let end = memory.buffer.byteLength;
  const take = length => {
    const at = end;
    end += 16 * Math.ceil((length + 1) / 16);
    return at;
  };
  const [lent, out, values, lengths, sizes, bytes] =
    [size, size, 8 * VALUES, 16 * PARTS, 8 * PARTS, total].map(take);
  const pages = Math.ceil((end - memory.buffer.byteLength) / PAGE_SIZE);
  try {
    memory.grow(BigInt(pages));
  } catch (fault) {
    if (!(fault instanceof TypeError)) throw fault;
    memory.grow(pages);
  }
  const view = new DataView(memory.buffer), all = new Uint8Array(memory.buffer);
  const made = {serve, size, total, view, all, lent, out, values, lengths, sizes, bytes};
  if (size == FIRST) room = made;
  return made;
}

// The status and the parts of one request: standard output, standard error, and each file that is written. `values` are
// those of ira_serve, `files` pairs of a name and a text.
export function serve(values, files = []) {
  const pieces = files.flatMap(([name, text]) =>
    [encoder.encode(name), typeof text == 'string' ? encoder.encode(text) : text]);
  const isNumber = value => BigInt.asUintN(64, BigInt(value)) == value;
  if (values.length > VALUES || pieces.length > 2 * PARTS || !values.every(isNumber)) {
    throw new RangeError('no such request');
  }
  const total = pieces.reduce((sum, piece) => sum + piece.length, 0);
  let size = FIRST;
  while (size < total) size *= 2;
  for (; size <= MOST; size *= 2) {
    const {serve, view, all, ...at} = roomOf(size, Math.max(total, PAGE_SIZE));
    const write = (from, numbers) =>
      numbers.forEach((number, k) => view.setBigUint64(from + 8 * k, BigInt(number), true));
    write(at.values, values);
    write(at.lengths, pieces.map(piece => piece.length));
    pieces.reduce((from, piece) => (all.set(piece, from), from + piece.length), at.bytes);
    const status = serve(...[at.lent, size, at.values, values.length, at.bytes, total, at.lengths, pieces.length,
      at.out, size, at.sizes, PARTS].map(BigInt));
    if (status == OUT_OF_MEMORY || status == NO_ROOM) continue;
    if (status == NO_REQUEST) throw new RangeError('no such request, or other files than it needs');
    const length = k => Number(view.getBigUint64(at.sizes + 8 * k, true)), parts = [];
    for (let k = 1, from = at.out; k <= length(0); from += length(k++)) parts.push(all.slice(from, from + length(k)));
    return {status, parts};
  }
  throw new RangeError('the request takes too much memory');
}

// What comes of a request: the status, as the program's; what it prints; the first line of that and those after it,
// where they are JSON; the files that it writes; and of `log`, `explain` and `audit` the page that a person reads.
function asked(values, files = []) {
  const {status, parts: [out, err, ...written]} = serve(values, files);
  const text = decoder.decode(out);
  const lines = values[0] == JSON_LINES ? text.split('\n').filter(Boolean).map(line => JSON.parse(line)) : [];
  const reply = {status, text, values: lines[0] ?? null, more: lines.slice(1), files: written, page: ''};
  // (what is written then is the page of a sentence)
  const said = [err, ...written].map(part => decoder.decode(part)).join('').trimEnd();
  if (status == REFUSED) throw new Refused(said, {...reply, files: []});
  return reply;
}

const ring = (texts, names) => texts.map((text, place) => [names?.[place] ?? `${place}.log`, text]);
const named = (kind, text) => [[`question.${kind}`, text]];

// The file of a question: of this text, or the one that a sentence stands for; none where neither is given.
function questionOf(texts, question, sentence, isDue = false) {
  const given = [question, sentence].filter(it => it != null).length;
  if (given > 1 || given < isDue) throw new TypeError('a question is given either by its text or by `ask`, a sentence');
  if (sentence == null) return question == null ? [] : named('ask', question);
  return [['--ask', texts.length >= 2 && texts.length <= 255 ? ask(texts.length, sentence) : '']];
}

// The reply with the page of the same request without JSON, and lines after its first one.
function paged(reply, values, files, said = '') {
  const page = decoder.decode(serve(values, files).parts[0]);
  return {...reply, page: page.replace('\n', () => `\n${said}`)};
}

// Why the text of one log alone is as it is.
export const log = (text, {name = '0.log'} = {}) =>
  paged(asked([JSON_LINES, EXPLAIN_LOG], [[name, text]]), [EXPLAIN_LOG], [[name, text]]);

// The values that ask who leads.
export const led = leads => leads == null ? [] : leads == 'any' ? [LEADERS, ANY] : [LEADERS, leads.length, ...leads];

// The answer for the logs of a ring, in the order of its places. With `over` or `leads` the status is NO after a yes
// too, where the election isn't over when the logs end, or others lead than are to, as `show` says.
export function logs(texts, {names, over = false, leads} = {}) {
  if (!over && leads == null) return asked([JSON_LINES, LOGS], ring(texts, names));
  const {status: found, values} = asked([JSON_LINES, ...led(leads), SHOW], ring(texts, names));
  const status = over && values.over === false ? NO : found;
  values.status = status;
  return {status, text: `${JSON.stringify(values)}\n`, values, more: [], files: [], page: ''};
}

// The answer for the logs of a ring, and why it is so, with `over` and `leads` as for `logs`; with a question, or `ask`,
// a sentence that stands for one, what is found for its cases, and why, of the case of a number or of the first ones;
// with a certificate too, the answer for all three, and why.
export function explain(texts, {question, ask, certificate, case: number, names, over = false, leads} = {}) {
  const of = questionOf(texts, question, ask, certificate !== undefined);
  const files = [...of, ...certificate === undefined ? [] : named('cert', certificate), ...ring(texts, names)];
  const values = certificate !== undefined ? [EXPLAIN_CERT] : !of.length ? [EXPLAIN]
    : [EXPLAIN_QUESTION, ...number === undefined ? [] : [number]];
  const isExpected = !of.length && (over || leads != null);
  const reply = isExpected && logs(texts, {names, over, leads});
  if (reply?.values?.answer != 'yes') return paged(asked([JSON_LINES, ...values], files), values, files);
  const [, ...lines] = decoder.decode(serve([...led(leads), SHOW], files).parts[0]).split('\n\n')[0].split('\n');
  return paged(reply, values, files, lines.map(line => `${line}\n`).join(''));
}

// How many nodes the ring of a log has, none where its head isn't whole.
export function nodesOf(text) {
  const lines = /^(?:[^\n]*\n){4}/.exec(Buffer.from(text).toString('latin1'));
  const head = lines && `${lines[0]}end 0\n`;
  return head && serve([LOG], [['0.log', Buffer.from(head, 'latin1')]]).status == YES ? +head.split(/[ \n]/)[3] : null;
}

const inFolder = (folder, name) => `${folder}${folder.endsWith('/') ? '' : '/'}${name}`;

// The texts and the names of the logs in a folder: 0.log, 1.log and so on, as many as the first one's head says.
export function readLogs(folder) {
  const names = [inFolder(folder, '0.log')], texts = [readFileSync(names[0])];
  for (let nodes = nodesOf(texts[0]); texts.length < nodes; texts.push(readFileSync(names.at(-1)))) {
    names.push(inFolder(folder, `${texts.length}.log`));
  }
  return {texts, names};
}

// What `explain` says of the logs in a folder. `leads` may be the name of a file in it too, with a place a line.
export function audit(folder, {over = false, leads} = {}) {
  const {texts, names} = readLogs(folder);
  if (typeof leads == 'string' && leads != 'any') {
    leads = readFileSync(inFolder(folder, leads), 'latin1').split('\n').slice(0, -1).map(Number);
  }
  return explain(texts, {names, over, leads});
}

// Throws, with the page that says why, unless the logs in a folder are a yes, their election is over, and those lead
// who are to: places, 'any', or the name of a file in the folder.
export function assertElection(folder, {leaders, over = true} = {}) {
  const {status, page} = audit(folder, {over, leads: leaders});
  if (status != YES) throw new AssertionError({message: `${folder}: ${page}`});
}

// The values and the files of a moment: where the logs end; when each node has made so many events; or the first that
// meets a case of a question, of the one of a number or of any.
function moment(texts, {at, question, ask, case: number}) {
  const of = questionOf(texts, question, ask);
  return [of.length ? [2, ...number === undefined ? [] : [number]] : at === undefined ? [] : [1, ...at], of];
}

// A ring at a moment, with an order of all events where these are wanted. With places in `leads` the status says whether
// these nodes lead when the logs end, and no other, so of an empty array whether nobody does; with 'any', whether some
// node does.
export function show(texts, {events = false, leads, names, ...when} = {}) {
  const [values, files] = moment(texts, when);
  return asked([JSON_LINES, ...led(leads), events ? EVENTS : SHOW, ...values], [...files, ...ring(texts, names)]);
}

// The answer's line, and a picture as the only file, or a page to move in it; without one where none is drawn.
export function draw(texts, {columns = ALL, page = false, names, ...when} = {}) {
  const [values, files] = moment(texts, when);
  return asked([page ? PAGE : DRAW, ...columns, ...values], [...files, ...ring(texts, names)]);
}

// What is found for each case of a question, or of that of a sentence; the only file is the certificate, where no case
// is met.
export const decide = (texts, question, {ask, names} = {}) =>
  asked([JSON_LINES, DECIDE], [...questionOf(texts, question, ask, true), ...ring(texts, names)]);

// The answer for logs, a question and a certificate.
export const check = (texts, question, certificate, {names} = {}) =>
  asked([JSON_LINES, CHECK], [...named('ask', question), ...named('cert', certificate), ...ring(texts, names)]);

// The question whether two nodes of a ring of so many ever lead at once.
export const pairs = nodes => asked([PAIRS, nodes]).text;

// The question whether a sentence on the nodes of a ring of so many ever holds.
export const ask = (nodes, sentence) => asked([ASK, nodes], [['SENTENCE', sentence]]).text;

// The logs of a ring in version 2, as files.
export const upgrade = (texts, {names} = {}) => asked([UPGRADE], ring(texts, names));

// Of what is left of the logs of a ring the longest beginnings such that all are consistent, as files; whether a node
// of whose log no whole head is left is taken for an initiator.
export const mend = (texts, {initiators = true, names} = {}) => asked([MEND, Number(initiators)], ring(texts, names));

// How each node ended in a run on one thread, and their logs as files.
export const run = (nodes, seed, {initiators = nodes, draws = 64, cap = 10000, terms = 1} = {}) =>
  asked([RUN, nodes, initiators, seed, draws, cap, terms]);

if (process.argv[1] && realpathSync(process.argv[1]) == fileURLToPath(import.meta.url)) {
  import('./cli.mjs').then(({start}) => start());
}
