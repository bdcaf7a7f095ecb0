// The program's answers: words and files in, a status and two texts out. This part of the page runs in a worker, so that the page goes
// on while it works. It keeps nothing from one call to the next but memory, and an instance that has stopped within a call is thrown away.
const utf8 = new TextEncoder();
const MEMORY = 4;

class Instance {
  constructor(module) {
    this.exports = new WebAssembly.Instance(module).exports;
    this.room = 1 << 16;
  }

  // The address of so many bytes.
  taken(size, rooms) {
    const at = this.exports.obl0_room(BigInt(size));
    if (at === 0n) throw new NoMemory();
    rooms.push(at);
    return at;
  }

  // Texts one behind the other, and their lengths: the four numbers by which slices are handed over.
  joined(texts, rooms) {
    const total = texts.reduce((sum, it) => sum + it.length, 0);
    const bytes = this.taken(total, rooms), lengths = this.taken(8 * texts.length, rooms);
    let at = Number(bytes);
    const view = new DataView(this.exports.memory.buffer);
    texts.forEach((text, place) => {
      new Uint8Array(this.exports.memory.buffer, at, text.length).set(text);
      view.setBigUint64(Number(lengths) + 8 * place, BigInt(text.length), true);
      at += text.length;
    });
    return [bytes, BigInt(total), lengths, BigInt(texts.length)];
  }

  answer(words, files) {
    const rooms = [];
    const given = [...this.joined(words, rooms), ...this.joined(files, rooms)];
    const output = this.taken(8, rooms), length = this.taken(8, rooms);
    for (;;) {
      const size = this.room, room = this.taken(size, rooms);
      const status = this.exports.obl0_answer(...given, room, BigInt(size), output, length);
      if (status === MEMORY) throw new NoMemory();
      const view = new DataView(this.exports.memory.buffer);
      const split = Number(view.getBigUint64(Number(output), true)), whole = Number(view.getBigUint64(Number(length), true));
      // The answer is the same where it is asked for again, with room for it.
      this.room = Math.max(size, whole);
      if (whole > size) continue;
      const text = new Uint8Array(this.exports.memory.buffer, Number(room), whole).slice();
      for (const at of rooms) this.exports.obl0_free(at);
      return { status, out: text.subarray(0, split), err: text.subarray(split) };
    }
  }
}

class NoMemory extends Error {}

// Why a call has not ended, in a word.
function broken(error) {
  if (error instanceof NoMemory) return 'memory';
  const text = String(error);
  // The first two say in Chromium and in Firefox that the browser's stack ends; the last one that the module's own does, which lies before
  // all its memory.
  return /call stack|recursion|out of bounds/i.test(text) ? 'stack' : text;
}

let module, instance;
self.onmessage = ({ data }) => {
  if (data.bytes) {
    module = new WebAssembly.Module(data.bytes);
    return;
  }
  const bytes = it => typeof it === 'string' ? utf8.encode(it) : it;
  let told;
  try {
    instance ??= new Instance(module);
    told = instance.answer(data.words.map(bytes), data.files.flat().map(bytes));
  } catch (error) {
    instance = null;
    told = { broken: broken(error) };
  }
  self.postMessage({ number: data.number, ...told });
};
