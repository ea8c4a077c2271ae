'use strict';
const $ = id => document.getElementById(id);
const encoder = new TextEncoder, decoder = new TextDecoder;
const byPlace = new Intl.Collator('en', {numeric: true}).compare;

function tag(name, more, ...children) {
  const made = Object.assign(document.createElement(name), more);
  made.append(...children.flat(9).filter(child => child != null && child !== false));
  return made;
}
function fault(words) {
  $('fault').textContent = words || '';
  $('fault').hidden = !words;
}

// ---- the auditor ----
// The smallest module with a memory of 64 bit.
const SMALLEST = Uint8Array.of(0, 97, 115, 109, 1, 0, 0, 0, 5, 3, 1, 4, 1);
let worker, asked = new Map, count = 0, bytes;

async function readModule() {
  if (!globalThis.WebAssembly || !WebAssembly.validate(SMALLEST)) {
    throw new Error('This browser lacks 64-bit memory for WebAssembly (Memory64), which the auditor needs. Chrome, '
      + 'Chromium and Edge from 133 on and Firefox from 134 on have it.');
  }
  const damaged = new Error('The auditor in this page is damaged: get the page anew.');
  try {
    bytes = Uint8Array.from(atob($('module').textContent.trim()), c => c.charCodeAt(0));
  } catch {
    throw damaged;
  }
  const digest = globalThis.crypto?.subtle && new Uint8Array(await crypto.subtle.digest('SHA-256', bytes));
  const hex = digest && [...digest].map(byte => byte.toString(16).padStart(2, '0')).join('');
  if (hex && hex != $('module').dataset.sha256) throw damaged;
}

// A worker that has the module. What an older one was asked is dropped.
function begin() {
  worker?.terminate();
  for (const {reject} of asked.values()) reject(new Dropped);
  asked = new Map;
  worker = new Worker(URL.createObjectURL(new Blob([$('worker').textContent], {type: 'text/javascript'})));
  worker.onmessage = ({data: {id, fault: words, ...answer}}) => {
    const {resolve, reject} = asked.get(id);
    asked.delete(id);
    if (words) reject(new Error(words));
    else resolve(answer);
  };
  worker.onerror = () => fault('The auditor could not be started in this browser.');
  return send({module: bytes});
}
class Dropped extends Error {}
function send(message) {
  const id = count++;
  worker.postMessage({id, ...message});
  return new Promise((resolve, reject) => asked.set(id, {resolve, reject}));
}

const [LOG, LOGS, EXPLAIN_LOG, EXPLAIN, EXPLAIN_QUESTION, EXPLAIN_CERT, SHOW, EVENTS, DRAW, DECIDE, CHECK, PAIRS,
  UPGRADE, MEND, RUN, PAGE, AS_JSON, LEADERS, OVERVIEW, ASK] = Array(20).keys();
const ANY = 2n ** 64n - 1n;

// The status of the first of so many commands, and what each prints and writes.
async function askAll(values, files, count) {
  const {status, replies} = await send({values, files, count});
  if (status > 2) throw new Error('The auditor has no such request.');
  return replies.map(([out, err, ...files]) =>
    ({status, out: decoder.decode(out), err: decoder.decode(err), files}));
}
const ask = async (values, files) => (await askAll(values, files, 1))[0];

// ---- what is given ----
let rings = new Map, chosen, logs = [], question = null, cert = null, unasked = null;
const SENTENCES = {pairs: 'any leader, other leader', leads: 'any leader'};

const kindOf = ({name, text}) => /(^|\/)leaders$/.test(name) ? 'leaders' : [['ask', 'irask '], ['cert', 'ircert '], ['log', 'irlog ']].find(([suffix, begins]) =>
  name.endsWith(`.${suffix}`) || decoder.decode(text.subarray(0, begins.length)) == begins)?.[0];
const folderOf = name => name.slice(0, name.lastIndexOf('/') + 1);

// Files of one folder or several. Others than logs, leaders, questions and certificates count where they were chosen one by
// one.
function take(files, areChosen) {
  $('opened').hidden = true;
  rings = new Map;
  for (const file of files.sort((a, b) => byPlace(a.name, b.name))) {
    const kind = kindOf(file) ?? (areChosen && 'log'), folder = folderOf(file.name);
    if (!kind) continue;
    if (!rings.has(folder)) rings.set(folder, {log: [], leaders: [], ask: [], cert: []});
    rings.get(folder)[kind].push(file);
  }
  const folders = [...rings.keys()].filter(folder => rings.get(folder).log.length);
  $('ring').replaceChildren(...folders.map(folder => tag('option', {}, folder || '.')));
  $('rings').hidden = folders.length < 2;
  if (!folders.length && rings.size && logs.length) takeQuestions([...rings.values()]);
  else takeRing(rings.get(folders[0]));
}
function takeRing(ring) {
  chosen = ring;
  [logs, question, cert] = [ring?.log ?? [], null, null];
  $('leads').value = '';
  takeQuestions(ring ? [ring] : []);
}
function takeQuestions(groups) {
  for (const old of $('kind').querySelectorAll('.given')) old.remove();
  const questions = groups.flatMap(group => group.ask);
  $('kind').append(...questions.map(file => Object.assign(tag('option', {className: 'given', value: 'given'},
    file.name), {file})));
  certs = groups.flatMap(group => group.cert);
  for (const {text} of groups.flatMap(group => group.leaders)) {
    $('leads').value = decoder.decode(text).replace(/\n$/, '').replaceAll('\n', ',') || 'none';
  }
  $('kind').value = '';
  if (questions.length == 1) $('kind').selectedIndex = $('kind').options.length - 1;
  pickQuestion();
}
let certs = [];

async function pickQuestion() {
  const kind = $('kind').value, {file} = $('kind').selectedOptions[0];
  cert = file && certs.find(({name}) => name.replace(/\.cert$/, '') == file.name.replace(/\.ask$/, '')) || null;
  [question, unasked] = [kind == 'given' ? file : null, null];
  const typed = kind == 'hand' ? $('question').value || SENTENCES.leads : SENTENCES[kind];
  if (typed?.startsWith('irask ')) question = {name: 'question.ask', text: encoder.encode(typed)};
  else if (typed && logs.length > 1) {
    const sentence = typed.trim(), files = [{name: 'SENTENCE', text: encoder.encode(sentence)}];
    const made = await told(() => ask([ASK, logs.length], files));
    if (made?.out) question = {name: '--ask', text: encoder.encode(made.out), sentence};
    else if (made) unasked = {sentence, out: '', err: made.err + made.files.map(page => decoder.decode(page)).join('')};
  }
  $('question').hidden = !question && !unasked;
  if (question || typed) $('question').value = typed ?? decoder.decode(question.text);
  judge();
}

function showGiven() {
  const button = (file, title, sign, change) => {
    const onclick = () => (change(), delete chosen.answer, judge());
    return tag('button', {title, ariaLabel: `${file.name}: ${title}`, onclick}, sign);
  };
  const row = (file, i) => tag('li', {}, tag('div', {}, tag('span', {}, file.name),
    tag('small', {}, `${file.text.length} bytes`),
    i > 0 && button(file, 'one place earlier', '\u2191', () => logs.splice(i - 1, 2, file, logs[i - 1])),
    button(file, 'leave out', '\u00d7', () => logs.splice(i, 1))));
  $('logs').replaceChildren(...logs.map(row));
  $('certified').hidden = !cert;
  $('cert').textContent = cert?.name;
  $('at').hidden = $('moment').value != 'at';
}

// ---- what is answered ----
// What comes of some work, or nothing, where a fault is told or the work was dropped.
async function told(work) {
  try {
    return await work();
  } catch (why) {
    if (!(why instanceof Dropped)) fault(why.message);
  }
}
const number = (text, none) => /^\d{1,19}$/.test(text.trim()) ? BigInt(text.trim()) : text.trim() ? null : none;

// The question, or its sentence, on a command line.
const questionNamed = ({name, sentence}) => sentence ? `--ask ${quoted({name: sentence})}` : `--question ${quoted({name})}`;

// The values of the moment, its question, and its words on a command line; nothing where it isn't one.
function momentAsked() {
  const kind = $('moment').value;
  if (kind == 'first' && question) return {values: [2], files: [question], words: `${questionNamed(question)} `};
  if (kind != 'at') return {values: [], files: [], words: ''};
  const cut = $('at').value.split(',').map(text => number(text, null));
  return cut.includes(null) ? null : {values: [1, ...cut], files: [], words: `--at ${cut} `};
}

// Who is to lead, if that is asked, as values and as words on a command line; nothing where it is neither places nor any nor
// none. Of none the auditor isn't asked: a node leads just where the election is over.
function leadersAsked() {
  const named = $('leads').value.replaceAll(' ', '');
  if (!named || named == 'none') return {values: [], words: '', none: !!named};
  const places = named == 'any' ? [] : named.split(',').map(text => number(text, null));
  return places.includes(null) ? null : {values: [LEADERS, named == 'any' ? ANY : places.length, ...places], words: `--leads ${named} `};
}

// A name as a shell takes it.
const quoted = ({name}) => /^[\w./][\w./-]*$/.test(name) ? name : `'${name.replaceAll("'", "'\\''")}'`;
const namesOf = files => files.map(quoted).join(' ');
// The logs on a command line: by their folder, where it has just those of the ring.
function logsNamed() {
  if (!logs.length) return '';
  const [{name, text}] = logs, folder = folderOf(name), head = decoder.decode(text.subarray(0, 20));
  const nodes = /^irlog [12]\nnodes (\d+)\n/.exec(head)?.[1];
  const isWhole = folder && nodes == logs.length && logs.every(({name}, i) => name == `${folder}${i}.log`);
  return isWhole ? `--dir ${quoted({name: folder.slice(0, -1)})}` : namesOf(logs);
}
// A name as the program shows it, so that none makes a line of its own.
const shownName = name => Array.from(encoder.encode(name), byte => byte > 31 && byte < 127 ? String.fromCharCode(byte)
  : {9: '\\t', 13: '\\r'}[byte] ?? `\\x${byte.toString(16).padStart(2, '0')}`).join('');
const url = (bytes, type = 'text/plain') => URL.createObjectURL(new Blob([bytes], {type}));
const save = (name, bytes, type) => tag('a', {href: url(bytes, type), download: name}, name);

// What a command printed, under its line.
const printed = (line, {out, err}) => [tag('p', {className: 'command'}, `$ ira ${line}`),
  out && tag('pre', {tabIndex: 0}, out.replace(/\n$/, '')),
  err && tag('pre', {className: 'bad', tabIndex: 0}, err.replace(/\n$/, ''))];
const piece = (title, line, answer, ...more) => tag('section', {}, tag('h2', {}, title), printed(line, answer), more);

// The same as lines of JSON, which are asked for when they are looked at.
function asJson(line, values, files) {
  const [command] = /^\w+( --events)?/.exec(line), withJson = line.replace(command, '$& --json');
  const lines = tag('details', {className: 'json'}, tag('summary', {}, 'JSON'));
  lines.addEventListener('toggle', () => told(async () => {
    const answer = await ask([AS_JSON, ...values], files), name = `${command.replace(' --', '_')}.jsonl`;
    lines.append(tag('div', {}, printed(withJson, answer), tag('p', {}, 'Save: ', save(name, answer.out))));
  }), {once: true});
  return lines;
}
// What came of a command that has an answer in words and as JSON, and perhaps files to save.
const answered = (title, line, answer, values, files, links) =>
  piece(title, line, answer, links, asJson(line, values, files));

// A picture in a tree of its own, in which its style stays.
function picture(bytes, more) {
  const place = tag('div', {className: 'picture', tabIndex: 0, role: 'group', ariaLabel: 'Picture of the ring'});
  const drawn = new DOMParser().parseFromString(decoder.decode(bytes), 'image/svg+xml').documentElement;
  place.attachShadow({mode: 'open'}).append(document.importNode(drawn, true));
  return [place, tag('p', {}, 'Save: ', save('ring.svg', bytes, 'image/svg+xml'), ' ', more)];
}
// A button for the page to move in, which is large: it's made when it's asked for.
function toMoveIn(line, values, files) {
  const button = tag('button', {onclick: () => told(async () => {
    button.disabled = true;
    const answer = await ask(values, files), [page] = answer.files, at = url(page, 'text/html');
    const frame = tag('iframe', {src: at, title: 'Page to move in'});
    const tab = tag('a', {href: at, target: '_blank'}, 'open it in a tab of its own');
    const made = piece('A page to move in', line, {...answer, out: ''}, frame,
      tag('p', {}, 'Save: ', save('ring.html', page, 'text/html'), ', or ', tab));
    button.closest('section').after(made);
    frame.focus();
    made.scrollIntoView();
  })}, 'Move in it');
  return button;
}

let turn = 0;
async function judge() {
  const mine = ++turn, isNow = () => mine == turn;
  fault();
  showGiven();
  for (const part of [$('judged'), $('json'), $('answers')]) part.replaceChildren();
  $('answer').className = '';
  if (!logs.length) return $('answer').textContent = 'No logs yet.';
  $('answer').textContent = '\u2026';
  await told(async () => {
    if (asked.size) await begin();
    const add = made => isNow() && $('answers').append(made);
    const first = (line, {status, out, err}, more = '', kind = 'yes') => {
      $('judged').textContent = `$ ira ${line}`;
      $('answer').textContent = (out || err).trim() + more;
      $('answer').className = status ? 'bad' : kind;
    };
    const names = logs.length == 1 ? namesOf(logs) : logsNamed();
    if (logs.length == 1) {
      const answer = await ask([LOG], logs);
      if (!isNow()) return;
      first(`< ${names}`, answer, ', by itself');
      return add(answered('Why', `explain < ${names}`, await ask([EXPLAIN_LOG], logs), [EXPLAIN_LOG], logs));
    }
    const moment = momentAsked(), at = moment ?? {values: [], files: []};
    const [from, to] = [number($('from').value, 0n), number($('to').value, 2n ** 64n - 1n)];
    const shown = [from ?? 0n, to ?? 0n, ...at.values];
    const given = [question, cert].filter(file => file), end = 2 + 2 * given.length;
    const replies = await askAll([OVERVIEW, given.length, ...shown], [...given, ...logs], end + 2);
    const [answer, why] = replies, [drawn, page] = replies.slice(end), {status} = answer;
    const leaders = leadersAsked(), isAsked = leaders?.values.length && !status;
    const led = isAsked && await ask([...leaders.values, SHOW], logs);
    if (question?.sentence) replies[2] = await ask([DECIDE, 1], [question, ...logs]);
    if (!isNow()) return;
    const unmet = status ? '' : !why.out.endsWith('The election is over.\n') ? ', not over'
      : led.status || leaders?.none ? ', other leaders' : '';
    first(`logs ${names}`, answer, unmet, unmet ? 'unmet' : 'yes');
    $('json').append(asJson(`logs ${names}`, [LOGS], logs));
    add(answered('Why', `explain ${names}`, why, [EXPLAIN], logs));
    if (question) addQuestion(names, replies.slice(2, end), add);
    if (unasked) add(piece('The question', `ask --nodes ${logs.length} ${quoted({name: unasked.sentence})}`, unasked));
    if (!moment) return fault('A moment is numbers with commas between them.');
    if (from == null || to == null) return fault('A column is a number.');
    const files = [...moment.files, ...logs], [svg] = drawn.files;
    const columns = `${$('from').value && `--from ${from} `}${$('to').value && `--to ${to} `}`;
    const line = kind => `draw ${moment.words}${columns}--out ring.${kind} ${names}`;
    if (svg || drawn.err) add(piece('Picture', line('svg'), {...drawn, out: ''},
      svg && picture(svg, toMoveIn(line('html'), [PAGE, ...shown], files))));
    if (status) return;
    if (!leaders) return fault('Who is to lead are places with commas between them, any or none.');
    const looks = [...leaders.values, SHOW, ...moment.values], events = [EVENTS, ...moment.values];
    add(answered('Who leads, and what is on its way', `show ${leaders.words}${moment.words}${names}`,
      !led ? page : moment.words ? await ask(looks, files) : led, looks, files));
    add(answered('An order of all events', `show --events ${moment.words}${names}`, await ask(events, files), events,
      files));
  });
  if (isNow()) await told(() => answerEach(made => isNow() && $('answers').prepend(made)));
}
// The answers of several folders, one after another; each is kept, since others are chosen in between.
async function answerEach(add) {
  const each = [...rings].filter(([, {log}]) => log.length).map(([folder, ring]) => ({name: folder || '.', ring}));
  if (each.length < 2) return;
  for (const {ring} of each) ring.answer ??= (await ask([LOGS], ring.log)).out;
  const out = each.map(({name, ring}) => `${shownName(name)}: ${ring.answer}`).join('');
  add(piece('Each folder', `logs --each ${namesOf(each)}`, {out}));
}
function addQuestion(names, [decided, explained, checked, certified], add) {
  const of = questionNamed(question), files = [question, ...logs], [found] = decided.files;
  add(answered('The question', `decide ${of} --out question.cert ${names}`, decided, [DECIDE], files,
    found && tag('p', {}, 'Save: ', save('question.cert', found), ', the certificate that no moment held it')));
  add(answered('The question, explained', `explain ${of} ${names}`, explained, [EXPLAIN_QUESTION], files));
  if (!cert) return;
  const line = `${of} --cert ${quoted(cert)} ${names}`, all = [question, cert, ...logs];
  add(answered('The certificate', `check ${line}`, checked, [CHECK], all));
  add(answered('The certificate, explained', `explain ${line}`, certified, [EXPLAIN_CERT], all));
}

// An archive of files, each at most 8 GB.
function archive(files) {
  const blocks = files.flatMap(({name, text}) => {
    const head = new Uint8Array(512), put = (at, words) => head.set(encoder.encode(words), at);
    put(0, name);
    put(100, '0000644\0' + '0000000\0'.repeat(2));
    put(124, text.length.toString(8).padStart(11, '0') + '\0' + '00000000000\0        0');
    put(257, 'ustar\0' + '00');
    put(148, head.reduce((sum, byte) => sum + byte).toString(8).padStart(6, '0') + '\0 ');
    return [head, text, new Uint8Array(-text.length & 511)];
  });
  return new Blob([...blocks, new Uint8Array(1024)]);
}
// Logs that a command wrote: to save, or to go on with.
async function write(title, line, values, files) {
  fault();
  await told(async () => {
    const made = await ask(values, files), written = made.files.map((text, i) => ({name: `${i}.log`, text}));
    const links = written[0] && tag('p', {}, 'Save: ', save('logs.tar', archive(written), 'application/x-tar'),
      written.map(({name, text}) => [', ', save(name, text)]),
      ' ', tag('button', {onclick: () => take(written)}, 'Go on with these'));
    $('answers').prepend(piece(title, line, made, links));
  });
}

// ---- what is done ----
// The files of what was dropped: by a handle, or by an entry where a browser has no handles.
async function filesOf(it, folder = '') {
  const name = folder + it.name;
  if (it.getFile) return read(await it.getFile(), name);
  if (it.isFile) return read(await new Promise((resolve, reject) => it.file(resolve, reject)), name);
  const found = [];
  if (it.values) for await (const inside of it.values()) found.push(inside);
  else {
    const reader = it.createReader();
    const more = () => new Promise((resolve, reject) => reader.readEntries(resolve, reject));
    for (let some = await more(); some.length; some = await more()) found.push(...some);
  }
  return (await Promise.all(found.map(inside => filesOf(inside, `${name}/`)))).flat();
}
const read = async (file, name = file.webkitRelativePath || file.name) =>
  ({name, text: new Uint8Array(await file.arrayBuffer())});
for (const input of [$('folder'), $('files')]) input.onchange = () => told(async () => {
  take(await Promise.all([...input.files].map(file => read(file))), input == $('files'));
  input.value = '';
});
document.ondragover = event => (event.preventDefault(), $('drop').classList.add('over'));
document.ondragleave = () => $('drop').classList.remove('over');
document.ondrop = event => {
  event.preventDefault();
  $('drop').classList.remove('over');
  const dropped = [...event.dataTransfer.items].filter(item => item.kind == 'file')
    .map(item => item.getAsFileSystemHandle?.() ?? item.webkitGetAsEntry());
  told(async () => {
    const found = await Promise.all(dropped);
    take((await Promise.all(found.map(it => filesOf(it)))).flat(), found.every(it => it.isFile || it.kind == 'file'));
  });
};
$('paste').onclick = () => {
  const texts = $('pasted').value.split(/^(?=irlog |irask |ircert )/m).filter(text => text.trim());
  let place = 0;
  const nameOf = text => text.startsWith('irask ') ? 'pasted.ask' : text.startsWith('ircert ') ? 'pasted.cert'
    : `${place++}.log`;
  take(texts.map(text => ({name: nameOf(text),
    text: encoder.encode(text)})), true);
};
const examples = [...document.querySelectorAll('[data-example]')].map(({dataset: {example}, textContent}) =>
  ({name: example, text: encoder.encode(textContent)}));
const folders = new Set(examples.map(({name}) => folderOf(name).slice(0, -1)));
$('examples').append(...[...folders].map(name => tag('option', {}, name)));
$('examples').onchange = () => take(examples.filter(({name}) => folderOf(name) == `${$('examples').value}/`));
$('ring').onchange = () => takeRing([...rings.values()].filter(({log}) => log.length)[$('ring').selectedIndex]);
$('kind').onchange = pickQuestion;
$('question').onchange = () => {
  [$('kind').value, cert] = ['hand', null];
  pickQuestion();
};
$('uncertified').onclick = () => {
  cert = null;
  judge();
};
for (const input of [$('moment'), $('at'), $('leads'), $('from'), $('to')]) input.onchange = judge;
$('mend').onclick = () => write('Mended', `mend --start ${$('start').value} --out mended ${logsNamed()}`,
  [MEND, +($('start').value == 'initiator')], logs);
$('upgrade').onclick = () => write('Upgraded', `upgrade --out upgraded ${logsNamed()}`, [UPGRADE], logs);
$('record').onsubmit = event => {
  event.preventDefault();
  const {nodes, initiators, seed, terms} = Object.fromEntries([...$('record').elements].map(({name, value}) =>
    [name, value]));
  const values = [number(nodes, null), number(initiators, number(nodes, null)), number(seed, 1n), 64n, 10000n,
    number(terms, 1n)];
  if (values.includes(null)) return fault('Nodes, initiators, seed and terms are numbers.');
  const some = `--nodes ${values[0]} --initiators ${values[1]} --seed ${values[2]} --terms ${values[5]}`;
  write('Recorded', `run --alone ${some} --out ring`, [RUN, ...values], []);
};

told(async () => {
  await readModule();
  await begin();
  const name = decodeURIComponent(location.hash.slice(1)), isNamed = folders.has(name);
  $('examples').value = isNamed ? name : 'recorded_ring';
  $('examples').onchange();
  $('opened').hidden = isNamed;
});
