// Asks the auditor for checks/library.py: reads how often a request is to be made, its values and its files, each
// number in eight bytes, and writes how many nanoseconds that took, the result, and the parts. A request that is to be made
// no times is a call of a function by its name: its file has the name and what it is given, and the part what comes of it. Of
// `main`, the command line, that is the status and what it prints, in a folder and with an input that it's given too.
import {readSync, writeSync} from 'node:fs';
import {main} from '../library/cli.mjs';
import * as ira from '../library/ira.mjs';

function read(size) {
  const bytes = Buffer.alloc(size);
  for (let at = 0; at < size;) {
    const count = readSync(0, bytes, at, size - at);
    if (!count) process.exit(at ? 1 : 0);
    at += count;
  }
  return bytes;
}
function write(bytes) {
  for (let at = 0; at < bytes.length;) at += writeSync(1, bytes, at);
}
const numbers = count => [...new BigUint64Array(Uint8Array.from(read(8 * count)).buffer)];

const latin = bytes => Buffer.from(bytes).toString('latin1');
const members = ({status, text, values, more, files, page}) => [status, text, values, more, files.map(latin), page];
function typed([folder, words, input]) {
  const said = ['', ''];
  process.chdir(folder);
  const write = (stream, text) => (said[stream - 1] += latin(text), true);
  return [main(words, {write, read: () => Buffer.from(input, 'latin1')}), ...said];
}
function called({name, given, options}) {
  if (name == 'main') return typed(given);
  try {
    const reply = ira[name](...given, options);
    return typeof reply == 'object' ? ['', ...members(reply)] : reply ?? null;
  } catch (fault) {
    return fault instanceof ira.Refused ? [fault.message, ...members(fault.reply)] : fault.message;
  }
}

for (;;) {
  const [times, count] = numbers(2), values = numbers(Number(count));
  const sizes = numbers(Number(numbers(1)[0])).map(Number);
  const pieces = sizes.map(read), files = [];
  for (let i = 0; i < pieces.length; i += 2) files.push([pieces[i].toString(), pieces[i + 1]]);
  const began = process.hrtime.bigint();
  let answer;
  try {
    for (let i = 0n; i < times; i++) answer = ira.serve(values, files);
    answer ??= {status: 0, parts: [Buffer.from(JSON.stringify(called(JSON.parse(pieces[1]))))]};
  } catch (fault) {
    if (!(fault instanceof RangeError)) throw fault;
    answer = {status: ira.NO_REQUEST, parts: []};
  }
  const elapsed = process.hrtime.bigint() - began, {status, parts} = answer;
  const told = [elapsed, status, parts.length, ...parts.map(part => part.length)];
  write(Buffer.from(BigUint64Array.from(told, BigInt).buffer));
  parts.forEach(write);
}
