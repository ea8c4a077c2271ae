#!/usr/bin/env node
// The command line of `ira` in Node, where its program isn't made for the machine: `node ira.mjs logs --dir d`. What
// the module has is asked for, read, written, printed and ended as by the program (docs/COMMANDS.md); all else is
// refused in words, with status 2. A Node that has 64-bit memory for WebAssembly behind a flag is started anew with it.
import {spawnSync} from 'node:child_process';
import * as fs from 'node:fs';
import {dirname, join} from 'node:path';
import {fileURLToPath} from 'node:url';
import * as ira from './ira.mjs';

const FLAG = '--experimental-wasm-memory64', LETTERS = new TextDecoder, MOST_TEXT = 2 ** 26;
const HELP = "For more information, try '--help'.\n";
// Of each command its flags, its options with what their values are called, `#` in front of a number, and its words.
const COMMANDS = {
  logs: 'each sum over leads=P,..|any|FILE json dir=DIR LOG',
  explain: 'each over leads=P,..|any|FILE question=Q ask=SENTENCE case=#K cert=C json dir=DIR LOG',
  show: 'leads=P,..|any|FILE at=N0,N1,.. question=Q ask=SENTENCE case=#K events json dir=DIR LOG',
  draw: 'out=FILE! at=N0,N1,.. question=Q ask=SENTENCE case=#K from=#A to=#B dir=DIR LOG',
  check: 'question=Q! cert=C! depth=#D json dir=DIR LOG',
  decide: 'question=Q ask=SENTENCE out=C json dir=DIR LOG',
  pairs: 'N=#N!',
  ask: 'nodes=#N dir=DIR SENTENCE=SENTENCE!',
  run: 'nodes=#N! seed=#S! out=DIR! initiators=#M draws=#K cap=#C terms=#T alone',
  upgrade: 'out=DIR! dir=DIR LOG',
  mend: 'out=DIR! start=S lost=P,.. dir=DIR LOG',
};
const WITHIN = {depth: 4n, draws: 100000n};
const NO_REASONS = 'the module has no explain --leads: take logs --leads, or --json';
const LOGS = 'the logs are named either by <LOG>... or by --dir <DIR>';

// What ends the program early: a status, and what it prints.
class End extends Error {
  constructor(err, status = 2, out = '') {
    super(err);
    Object.assign(this, {err, status, out});
  }
}
const refuse = line => {
  throw new End(`error: ${line}\n\n${HELP}`);
};
const fail = (line, ...more) => {
  throw new End(`ira: ${line}\n`, ...more);
};
const shown = name => [...Buffer.from(name)].map(byte => byte >= 32 && byte < 127 ? String.fromCharCode(byte)
  : {9: '\\t', 13: '\\r'}[byte] ?? `\\x${byte.toString(16).padStart(2, '0')}`).join('');

function number(label, text, most = 2n ** 64n - 1n) {
  const value = /^\+?\d+$/.test(text) && BigInt(text.replace('+', ''));
  const why = text == '' ? 'cannot parse integer from empty string'
    : value === false ? 'invalid digit found in string' : value >= 2n ** 64n ? 'number too large to fit in target type'
      : value > most ? `${value} is not in 0..=${most}` : '';
  if (why) refuse(`invalid value '${shown(text)}' for '${label}': ${why}`);
  return value;
}

const isWord = name => /^[A-Z]/.test(name);
const labelOf = (name, value) =>
  isWord(name) ? `<${name}>` : `--${name}${value && ` <${value.replace('#', '')}>`}`;

// What the words after a command's name say: its options, and `LOG`, the names.
function parse(entries, words) {
  const forms = new Map(entries.split(' ').map(entry => {
    const [, name, value, must] = /^([^=!]*)=?([^!]*)(!?)$/.exec(entry);
    return [name, {value, must, label: labelOf(name, value)}];
  }));
  const said = {LOG: []}, left = words.entries();
  let isName = false;
  const give = (name, text) => {
    const {value, label} = forms.get(name);
    if (name in said && name != 'LOG') refuse(`the argument '${label}' cannot be used multiple times`);
    said[name] = value[0] == '#' ? number(label, text, WITHIN[name]) : text;
  };
  for (const [at, word] of left) {
    const [, name, value] = /^--([^=]+)(?:=([^]*))?$/.exec(word) ?? [];
    if (!isName && word == '--') isName = true;
    else if (isName || !word.startsWith('-') || word == '-') {
      const [single] = [...forms.keys()].filter(it => isWord(it) && it != 'LOG' && !(it in said));
      if (single) give(single, word);
      else if (forms.has('LOG')) said.LOG.push(word);
      else refuse(`unexpected argument '${shown(word)}' found`);
    } else if (word == '--help' || word == '-h') throw new End(usage());
    else if (!forms.has(name) || isWord(name)) refuse(`unexpected argument '${shown(word).split('=')[0]}' found`);
    else if (!forms.get(name).value) {
      const more = shown(value ?? '');
      if (value !== undefined) refuse(`unexpected value '${more}' for '--${name}' found; no more were expected`);
      give(name, true);
    } else {
      const next = value ?? (words[at + 1]?.startsWith('--') ? undefined : words[at + 1]);
      if (value === undefined && next?.match(/^-./)) refuse(`unexpected argument '${shown(next)}' found`);
      if (value === undefined && next !== undefined) left.next();
      const {label} = forms.get(name), isEmpty = next === '' && forms.get(name).value == 'DIR';
      if (next === undefined || isEmpty) refuse(`a value is required for '${label}' but none was supplied`);
      give(name, next);
    }
  }
  const lacking = [...forms].filter(([name, {must}]) => must && !(name in said)).map(([, {label}]) => `\n  ${label}`);
  if (lacking.length) refuse(`the following required arguments were not provided:${lacking.join('')}`);
  return said;
}

function usage() {
  const shownEntry = entry => {
    const [, name, value, must] = /^([^=!]*)=?([^!]*)(!?)$/.exec(entry), label = labelOf(name, value);
    return name == 'LOG' ? '[LOG]...' : must ? label : `[${label}]`;
  };
  const lines = Object.entries(COMMANDS)
    .map(([name, entries]) => `       ira ${name} ${entries.split(' ').map(shownEntry).join(' ')}\n`);
  return `Usage: ira < LOG\n${lines.join('')}\nThis is ira in Node; its page is docs/COMMANDS.md.\n`;
}

const inFolder = (folder, name) => `${folder}${folder.endsWith('/') ? '' : '/'}${name}`;
const stat = name => fs.statSync(name, {bigint: true, throwIfNoEntry: false});
const look = name => {
  try {
    return stat(name);
  } catch {
    return undefined;
  }
};
const isFolder = name => look(name)?.isDirectory() ?? false;

// The text of a file; nothing of one that isn't there, where it may be lost.
function read(name, isJson, mayBeLost = false) {
  try {
    return fs.readFileSync(name).subarray(0, MOST_TEXT + 1);
  } catch (fault) {
    if (mayBeLost && fault.code == 'ENOENT') return Buffer.alloc(0);
    const entry = look(name);
    const lost = name.endsWith('.log') ? '; of a log that is lost `ira mend --lost PLACE` makes an empty one' : '';
    const why = !entry ? `no such file${lost}`
      : entry.isDirectory() ? 'it is a folder; logs in a folder are named by --dir'
        : 'the system refuses to open or read it; `ls -l` says who may';
    const told = {fault: 'cannot read', file: name, status: 2, type: 'fault', version: 1};
    const end = new End(`ira: cannot read ${shown(name)}\n  ${why}\n`, 2, isJson ? `${JSON.stringify(told)}\n` : '');
    throw Object.assign(end, {unread: name});
  }
}

// The folder of the logs, if they are those of one, or else their names.
function sourceOf({dir, LOG}) {
  if (dir === undefined ? !LOG.length : LOG.length) refuse(LOGS);
  return dir ?? (LOG.length == 1 && isFolder(LOG[0]) ? LOG[0] : LOG);
}
function namesOf(source, isJson) {
  if (typeof source != 'string') return source;
  const nodes = ira.nodesOf(read(inFolder(source, '0.log'), isJson)) ?? 1;
  return [...Array(nodes).keys()].map(place => inFolder(source, `${place}.log`));
}
const numbers = text => text.split(',').map(part => /^\+?\d+$/.test(part) && BigInt(part.replace('+', '')) < 2n ** 64n
  ? BigInt(part.replace('+', '')) : null);
function listed(text) {
  const found = numbers(text);
  if (found.includes(null)) refuse('--lost <P,..> and --at <N0,N1,..> are numbers with commas between them, as 2,3');
  return found;
}

// Who is to lead, as the library takes it.
function leadersOf(text, source, isJson) {
  if (text === undefined || text == 'any') return text;
  if (!numbers(text).includes(null)) return numbers(text);
  const name = text.includes('/') || typeof source != 'string' ? text : inFolder(source, text);
  const lines = LETTERS.decode(read(name, isJson)).split('\n'), last = lines.pop();
  const isPlace = (line, k) => /^(0|[1-9]\d{0,2})$/.test(line) && line < 255 && k < 255;
  const line = 1 + [...lines, ...last ? ['-'] : []].findIndex((line, k) => !isPlace(line, k));
  if (line) throw Object.assign(new End(`ira: no place in line ${line} of ${shown(name)}\n`), {unread: name});
  return lines.map(Number);
}

function withoutOverwriting(out, names) {
  const file = out !== undefined && out != '-' && look(out);
  const same = file && file.isFile() && names.find(name => {
    const other = look(name);
    return other?.isFile() && other.dev == file.dev && other.ino == file.ino;
  });
  if (same) fail(`would overwrite ${shown(same)}`);
}

// Writes files, each beside its name first, and gives them their names when all are written.
function write(files) {
  const drafts = [];
  let name;
  try {
    for (const [to, text] of files) {
      name = to;
      if (dirname(to) != '.') fs.mkdirSync(dirname(to), {recursive: true});
      const old = look(to), at = old ? fs.realpathSync(to) : to;
      if (!to || /[/\\]$/.test(to) || old && !old.isFile() || !old && fs.lstatSync(to, {throwIfNoEntry: false})) {
        fs.writeFileSync(to, text);
        continue;
      }
      if (old) fs.closeSync(fs.openSync(at, 'r+'));
      let count = 0;
      while (fs.existsSync(join(dirname(at), `.ira-${count}`))) count++;
      const draft = join(dirname(at), `.ira-${count}`), file = fs.openSync(draft, 'wx');
      drafts.push([draft, at, to]);
      fs.writeFileSync(file, text);
      fs.fsyncSync(file);
      fs.closeSync(file);
      if (old) fs.chmodSync(draft, Number(old.mode) & 0o7777);
    }
    while (drafts.length) {
      name = drafts[0][2];
      fs.renameSync(drafts[0][0], drafts[0][1]);
      drafts.shift();
    }
  } catch (fault) {
    if (!fault.code) throw fault;
    drafts.forEach(([draft]) => fs.rmSync(draft, {force: true}));
    return `ira: cannot write ${shown(name)}
  it is a folder, its folder isn't there or can't be written in, or the disk is full\n`;
  }
  return '';
}

// What is printed of a request, and its files.
function asked(values, files) {
  const {status, parts: [out, err, ...written]} = ira.serve(values, files);
  return {status, out, err: LETTERS.decode(err), written};
}

// As `logs --over --leads` and `explain --over --leads` say it of these files, with the first line of JSON.
function expected(command, files, {over = false, json}, leads) {
  const texts = files.map(([, text]) => text), names = files.map(([name]) => name);
  const explains = command == 'explain', plain = explains ? ira.EXPLAIN : ira.LOGS;
  const isAsked = over || leads !== undefined;
  const {status, text, values} = isAsked ? ira.logs(texts, {names, over, leads}) : {};
  if (values?.answer != 'yes') return asked([...json ? [ira.JSON_LINES] : [], plain], files);
  if (json) return {status, out: text, err: ''};
  const {page} = ira.explain(texts, {names, over, leads});
  if (explains) return {status, out: page, err: ''};
  const [line, ...led] = page.split('\n\n')[0].split('\n'), isOver = !over || values.over;
  const out = [line, ...isOver ? [] : [page.trimEnd().split('\n\n').at(-1)], ...led].map(it => `${it}\n`).join('');
  return {status, out, err: ''};
}

// What the run of these files had, of which the answer is yes.
function featuresOf(files) {
  const {more} = ira.show(files.map(([, text]) => text), {names: files.map(([name]) => name)});
  const some = (type, is) => more.some(it => it.type == type && is(it));
  return {
    tie: some('round', it => it.drawn_by.length > 1), second_round: some('round', it => it.round > 1),
    second_term: some('node', it => it.term > 1), dropped: some('node', it => it.dropped),
    wake_up: some('node', it => it.start == 'passive' && it.draws),
  };
}

// How many of the runs had what.
function sumOf(runs, json) {
  const had = name => runs.filter(run => run[name]).length;
  const [second_round, second_term] = [had('second_round'), had('second_term')];
  const [tie, wake_up, dropped] = [had('tie'), had('wake_up'), had('dropped')];
  const line = {dropped, runs: runs.length, second_round, second_term, tie, type: 'sum', wake_up};
  if (json) return `${JSON.stringify(line)}\n`;
  return `of ${runs.length} runs: ${tie} with a tie, ${second_round} with a second round, ` +
    `${second_term} with a second term, ${wake_up} with a wake-up, ${dropped} with a dropped message\n`;
}

function each(command, folders, said) {
  if (!folders.length || said.dir !== undefined) refuse('--each and --sum take folders alone: --each <DIR>...');
  if (folders.includes('')) refuse('--each takes names of folders, and none is empty');
  const unread = [], out = [], runs = [];
  let status = 0;
  const tell = (dir, told, words) => out.push(said.json ? JSON.stringify(told) : `${shown(dir)}: ${words}`, '\n');
  for (const dir of folders) {
    try {
      const leads = leadersOf(said.leads, dir), files = namesOf(dir).map(name => [name, read(name)]);
      const [{out: line}, json] = [asked([ira.LOGS], files), {...said, json: true}];
      const answer = LETTERS.decode(line).trimEnd();
      let found = answer == 'yes' ? '' : answer, isOfRing = true;
      if (said.sum && !found) runs.push(featuresOf(files));
      if (!found && said.over && expected('logs', files, json).status) found = 'yes, not over';
      try {
        if (answer == 'yes' && said.leads && expected('logs', files, {json: true}, leads).status) {
          found ||= said.leads == 'any' ? 'yes, no leader' : 'yes, other leaders';
        }
      } catch (fault) {
        if (!(fault instanceof ira.Refused)) throw fault;
        found ||= 'yes, other leaders';
        isOfRing = false;
      }
      tell(dir, {answer, dir, status: Number(found != ''), type: 'answer', version: 1}, found || 'yes');
      if (found && isOfRing && command == 'explain') out.push(expected(command, files, said, leads).out);
      if (found) status = Math.max(status, 1);
    } catch (fault) {
      if (!fault.unread) throw fault;
      const {unread: file} = fault;
      tell(dir, {dir, fault: 'cannot read', file, status: 2, type: 'fault', version: 1}, `cannot read ${shown(file)}`);
      unread.push(`ira: cannot read ${shown(file)}\n`);
      status = 2;
    }
  }
  if (said.sum) out.push(sumOf(runs, said.json));
  return {status, out: Buffer.concat(out.map(it => Buffer.from(it))), err: unread.join('')};
}

// The logs of a ring that may be lost in part, as `mend` takes them.
function left(source, {lost, out}) {
  const places = lost === undefined ? undefined : listed(lost), isFolder = typeof source == 'string';
  let names = source;
  if (isFolder) {
    const heads = [...Array(255).keys()].map(place => inFolder(source, `${place}.log`));
    const found = heads.map(name => () => ira.nodesOf(read(name, false, true)) ?? 1);
    let nodes = 1;
    for (let place = 0; nodes < 2 && place < 255; place++) nodes = found[place]();
    names = heads.slice(0, nodes);
  }
  for (const place of names.slice(0, 255).keys()) withoutOverwriting(inFolder(out, `${place}.log`), names);
  const files = names.map((name, place) => [name, read(name, false, places?.includes(BigInt(place)) ?? isFolder)]);
  if (!files.some(([, text]) => ira.nodesOf(text))) names.forEach(name => read(name));
  return files;
}

function execute(command, said, input) {
  const {json, question, ask, cert, case: number, out} = said, form = json ? [ira.JSON_LINES] : [];
  const asks = question !== undefined || ask !== undefined;
  const isEach = command == 'logs' || command == 'explain';
  if (isEach && (said.each || said.sum || said.LOG.length > 1 && said.dir === undefined && said.LOG.every(isFolder))) {
    if (asks || (number ?? cert) !== undefined) refuse('--each goes with none of --question, --ask, --case and --cert');
    if (command == 'explain' && said.leads && !json) fail(NO_REASONS);
    return each(command, said.LOG, said);
  }
  if (question !== undefined && ask !== undefined || command == 'decide' && !asks) {
    refuse('the question is named either by --question <Q> or by --ask <SENTENCE>');
  }
  if (command == 'explain' || command == 'show' || command == 'draw') {
    if (number !== undefined && !asks) refuse('--case <K> needs --question <Q> or --ask <SENTENCE>');
    if (cert !== undefined && !asks) refuse('--cert <C> needs --question <Q> or --ask <SENTENCE>');
    if (number !== undefined && cert !== undefined) refuse('--case <K> and --cert <C> exclude one another');
    if (said.at !== undefined && asks) {
      refuse('--at <N0,N1,..> goes with neither --question <Q> nor --ask <SENTENCE>');
    }
    if (command == 'explain' && asks && (said.over || said.leads !== undefined)) {
      refuse('--question <Q> and --ask <SENTENCE> go with neither --over nor --leads <P,..|any|FILE>');
    }
  }
  switch (command) {
    case 'pairs': return asked([ira.PAIRS, said.N], []);
    case 'ask': {
      if ((said.nodes === undefined) == (said.dir === undefined)) {
        refuse("the ring's size is said either by --nodes <N> or by --dir <DIR>");
      }
      const nodes = said.nodes ?? ira.nodesOf(read(inFolder(said.dir, '0.log'))) ?? 0;
      return {status: 0, out: ira.ask(nodes, said.SENTENCE), err: ''};
    }
    case 'run': {
      if (!said.alone) fail('the module has no threads: run takes --alone here');
      const {nodes, seed, initiators = nodes, draws = 64, cap = 10000, terms = 1} = said;
      return {...asked([ira.RUN, nodes, initiators, seed, draws, cap, terms], []), folder: out};
    }
  }
  if (command == 'mend' && !['initiator', 'passive', undefined].includes(said.start)) {
    refuse('--start <S> is initiator or passive');
  }
  const at = said.at === undefined ? undefined : listed(said.at);
  if (command == 'explain' && said.dir === undefined && !said.LOG.length && !asks && !said.over &&
      said.leads === undefined) {
    return asked([...form, ira.EXPLAIN_LOG], [['-', readInput(input, json)]]);
  }
  const source = sourceOf(said);
  if (command == 'mend') {
    return {...asked([ira.MEND, Number(said.start != 'passive')], left(source, said)), folder: out};
  }
  const ending = command == 'draw' && /[^/\\]\.([^./\\]*)$/.exec(out)?.[1].toLowerCase();
  if (ending && ending != 'svg' && ending != 'html' || ending === '') {
    fail(`--out ends in neither .svg nor .html: ${shown(out)}`);
  }
  const leads = leadersOf(said.leads, source, json);
  if (command == 'explain' && said.leads !== undefined && !json) fail(NO_REASONS);
  const names = namesOf(source, json), before = question === undefined ? [] : [question];
  if (command != 'upgrade') withoutOverwriting(out, [...before, ...names]);
  const files = [...before, ...cert === undefined ? [] : [cert], ...names].map(name => [name, read(name, json)]);
  if (ask !== undefined) files.unshift(['--ask', names.length >= 2 && names.length <= 255 ? ira.ask(names.length, ask) : '']);
  const cases = number === undefined ? [] : [number];
  const moment = asks ? [2, ...cases] : at === undefined ? [] : [1, ...at];
  switch (command) {
    case 'upgrade': return {...asked([ira.UPGRADE], files), folder: out};
    case 'decide': return {...asked([...form, ira.DECIDE, ...ask !== undefined && !json ? [1] : []], files), file: out};
    case 'check': return asked([...form, ira.CHECK], files);
    case 'show': return asked([...form, ...ira.led(leads), said.events ? ira.EVENTS : ira.SHOW, ...moment], files);
    case 'draw': {
      const columns = [said.from ?? ira.ALL[0], said.to ?? ira.ALL[1]];
      return {...asked([ending == 'html' ? ira.PAGE : ira.DRAW, ...columns, ...moment], files), file: out};
    }
    case 'explain':
      if (cert !== undefined) return asked([...form, ira.EXPLAIN_CERT], files);
      if (asks) return asked([...form, ira.EXPLAIN_QUESTION, ...cases], files);
  }
  return expected(command, files, said, leads);
}

// What stands on standard input, of which a log has so much at the most.
function readInput(input, isJson) {
  try {
    return input().subarray(0, MOST_TEXT + 1);
  } catch {
    const told = {fault: 'cannot read', file: '-', status: 2, type: 'fault', version: 1};
    return fail('cannot read -', 2, isJson ? `${JSON.stringify(told)}\n` : '');
  }
}

// Whether a stream took a text. One that goes away early did.
function print(stream, text) {
  const bytes = Buffer.from(text);
  for (let at = 0; at < bytes.length;) {
    try {
      at += fs.writeSync(stream, bytes, at);
    } catch (fault) {
      if (fault.code == 'EPIPE') return true;
      if (fault.code != 'EAGAIN') return false;
    }
  }
  return true;
}

function found([command, ...words], input) {
  try {
    if (command === undefined) return asked([ira.LOG], [['-', readInput(input)]]);
    if (['--help', '-h', 'help'].includes(command)) throw new End(usage());
    if (['guide', 'version', '--version', '-V'].includes(command)) fail(`the module has no ${command}`);
    if (command == '--') refuse("'ira' requires a subcommand but one was not provided");
    if (command.startsWith('-')) refuse(`unexpected argument '${shown(command).split('=')[0]}' found`);
    if (!Object.hasOwn(COMMANDS, command)) refuse(`unrecognized subcommand '${shown(command)}'`);
    return execute(command, parse(COMMANDS[command], words), input);
  } catch (fault) {
    if (fault instanceof ira.Refused) return {status: 2, out: fault.reply.text, err: `${fault.message}\n`};
    if (fault instanceof RangeError) {
      const isMemory = /memory/.test(fault.message);
      return {status: isMemory ? 3 : 2, out: '', err: `ira: ${isMemory ? 'out of memory' : fault.message}\n`};
    }
    if (fault instanceof End) return fault;
    throw fault;
  }
}

// Does what the words ask for: the status. Where it's told so, it prints and reads standard input by other functions.
export function main(words, {write: to = print, read: from = () => fs.readFileSync(0)} = {}) {
  let {status, out, err, written = [], file, folder} = found(words, from);
  const isWritten = written.length > 0;
  if (isWritten && folder !== undefined) {
    err = write(written.map((text, place) => [inFolder(folder, `${place}.log`), text]));
    if (err) [status, out] = [2, ''];
  }
  if (isWritten && file == '-') out = written[0];
  if (!to(1, out)) [status, err] = [2, 'ira: cannot write the answer\n'];
  else if (isWritten && file !== undefined && file != '-') {
    err = write([[file, written[0]]]);
    if (err) status = 2;
  }
  to(2, err);
  return status;
}

export function start() {
  if (WebAssembly.validate(Uint8Array.of(0, 97, 115, 109, 1, 0, 0, 0, 5, 3, 1, 4, 1))) {
    process.exitCode = main(process.argv.slice(2));
  } else if (process.execArgv.includes(FLAG)) {
    print(2, 'ira: this Node has no 64-bit memory for WebAssembly\n');
    process.exitCode = 2;
  } else {
    process.exitCode = spawnSync(process.execPath, [FLAG, ...process.argv.slice(1)], {stdio: 'inherit'}).status ?? 2;
  }
}

if (process.argv[1] && fs.realpathSync(process.argv[1]) == fileURLToPath(import.meta.url)) start();
