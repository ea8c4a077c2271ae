// Asks the module. Memory that is lent doesn't come back, so each request has an instance of its own.
const PAGE = 65536, FIRST = 2 ** 26, MOST = 2 ** 31, PARTS = 258;
const encoder = new TextEncoder;
let compiled;

// Makes a memory longer by so many bytes.
function grow(memory, bytes) {
  const pages = Math.ceil(bytes / PAGE);
  try {
    memory.grow(BigInt(pages));
  } catch (fault) {
    if (!(fault instanceof TypeError)) throw fault;
    memory.grow(pages);
  }
}

// One request of so many replies with so much memory, and so much room for what comes of it.
function served(values, pieces, total, count, lent, room) {
  const {memory, ira_serve: serve} = new WebAssembly.Instance(compiled, {}).exports;
  let end = memory.buffer.byteLength;
  const [atLent, atValues, atTexts, atLengths, atOut, atParts] =
    [lent, 8 * values.length, total, 8 * pieces.length, room, 8 * PARTS].map(bytes => {
      const at = end;
      end += 16 * Math.ceil((bytes + 1) / 16);
      return at;
    });
  grow(memory, end - memory.buffer.byteLength);
  const view = new DataView(memory.buffer), write = (at, numbers) =>
    numbers.forEach((number, k) => view.setBigUint64(at + 8 * k, BigInt(number), true));
  write(atValues, values);
  write(atLengths, pieces.map(piece => piece.length));
  pieces.reduce((at, piece) => (new Uint8Array(memory.buffer).set(piece, at), at + piece.length), atTexts);
  const status = serve(...[atLent, lent, atValues, values.length, atTexts, total, atLengths, pieces.length, atOut,
    room, atParts, PARTS].map(BigInt));
  if (status > 2) return {status};
  const told = new DataView(memory.buffer);
  let [at, k] = [atOut, 0];
  const next = () => Number(told.getBigUint64(atParts + 8 * k++, true));
  const part = length => new Uint8Array(memory.buffer, (at += length) - length, length).slice();
  return {status, replies: Array.from({length: count}, () => Array.from({length: next()}, () => part(next())))};
}

// Lends what most requests take for files of this size, and more where that was too little, up to what may be lent. What
// the module doesn't touch costs nothing.
function ask({values, files, count}) {
  const pieces = files.flatMap(({name, text}) => [encoder.encode(name), text]);
  const total = pieces.reduce((sum, piece) => sum + piece.length, 0);
  let [lent, room] = [32, 8].map(times => Math.min(Math.max(FIRST, times * total), MOST));
  while (lent <= MOST && room <= MOST) {
    const answer = served(values, pieces, total, count, lent, room);
    if (answer.status == 3) lent *= 2;
    else if (answer.status == 5) room *= 2;
    else return answer;
  }
  return {fault: 'This takes more memory than the 2 GB that the page lends: use the program.'};
}

onmessage = async ({data: {id, module, ...request}}) => {
  try {
    if (module) compiled = await WebAssembly.compile(module);
    if (module && WebAssembly.Module.imports(compiled).length) throw new TypeError('imports');
    postMessage({id, ...module ? {} : ask(request)});
  } catch (fault) {
    postMessage({id, fault: module ? `The auditor in this page is damaged (${fault.message}): get the page anew.`
      : fault instanceof RangeError ? 'The browser gives the page no more memory: use the program.'
        : `The auditor stopped: ${fault.message}.`});
  }
};
