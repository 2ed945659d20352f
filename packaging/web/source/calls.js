// Calls of the module: words and files in, the status and the two texts out. Nothing of this file is proved.

const utf8 = new TextEncoder();

// a text of an answer may have so many bytes before the call has to be made again with more room
const ROOM = 1 << 16;

// past this size of its memory an instance is given up after a call, since a memory never shrinks
const KEPT_MEMORY = 1 << 26;

// The call was stopped by the machine and not answered: its stack ran out, or what is handed in didn't fit.
class Stopped extends Error {}

class Calls {
  constructor(module) {
    this.module = module;
    this.instance = null;
  }

  get exports() {
    if (!this.instance) this.instance = new WebAssembly.Instance(this.module, {});
    return this.instance.exports;
  }

  // The answer to these words, with these files: pairs of a name and a content. A text with more than `most` bytes is
  // not fetched: the answer then has `tooLong`, how many bytes it has.
  call(words, files, most = Infinity) {
    try {
      const first = this.attempt(words, files, ROOM);
      const longest = Math.max(first.outSize, first.errSize);
      if (longest <= ROOM) return first;
      if (longest > most) return { ...first, tooLong: longest };
      return this.attempt(words, files, longest);
    } catch (stop) {
      // nothing is known of an instance that trapped, so the next call gets a new one
      this.instance = null;
      throw new Stopped(reasonOf(stop));
    } finally {
      if (this.instance && this.instance.exports.memory.buffer.byteLength > KEPT_MEMORY) this.instance = null;
    }
  }

  attempt(words, files, room) {
    const blocks = new Blocks(this.exports);
    try {
      const [wordSizes, allWords] = blocks.parts(words.map(bytesOf));
      const [fileSizes, allFiles] = blocks.parts(files.flatMap((file) => file.map(bytesOf)));
      const [out, err, told] = [blocks.block(room), blocks.block(room), blocks.block(16)];
      const start = performance.now();
      const status = this.exports.virage_call(
        wordSizes, BigInt(words.length), allWords.at, allWords.size, fileSizes, BigInt(files.length), allFiles.at,
        allFiles.size, out, BigInt(room), err, BigInt(room), told) & 255;
      const milliseconds = performance.now() - start;
      const [outSize, errSize] = blocks.numbers(told, 2);
      return {
        status, outSize, errSize, milliseconds, memory: this.exports.memory.buffer.byteLength,
        out: blocks.bytes(out, Math.min(room, outSize)), err: blocks.bytes(err, Math.min(room, errSize)) };
    } finally {
      blocks.giveBack();
    }
  }
}

// Blocks of the module's memory that are given back together.
class Blocks {
  constructor(exports) {
    this.exports = exports;
    this.taken = [];
  }

  block(size) {
    const at = this.exports.host_alloc(BigInt(Math.max(size, 16)));
    if (at === 0n) throw new Stopped('there is no memory for what is handed in');
    this.taken.push(at);
    return at;
  }

  // Puts byte strings one behind another, and their sizes beside them.
  parts(all) {
    const size = all.reduce((sum, part) => sum + part.length, 0);
    const sizes = this.block(8 * all.length);
    const at = this.block(size);
    const view = new DataView(this.exports.memory.buffer);
    const memory = new Uint8Array(this.exports.memory.buffer);
    let end = Number(at);
    all.forEach((part, i) => {
      view.setBigUint64(Number(sizes) + 8 * i, BigInt(part.length), true);
      memory.set(part, end);
      end += part.length;
    });
    return [sizes, { at, size: BigInt(size) }];
  }

  numbers(at, count) {
    const view = new DataView(this.exports.memory.buffer);
    return Array.from({ length: count }, (_, i) => Number(view.getBigUint64(Number(at) + 8 * i, true)));
  }

  bytes(at, size) {
    return new Uint8Array(this.exports.memory.buffer).slice(Number(at), Number(at) + size);
  }

  giveBack() {
    for (const at of this.taken) this.exports.host_free(at);
    this.taken = [];
  }
}

function bytesOf(part) {
  return typeof part === 'string' ? utf8.encode(part) : part;
}

function reasonOf(stop) {
  if (stop instanceof Stopped) return stop.message;
  if (stop instanceof Error) return `the module trapped (${stop.message}), as it does where its stack runs out`;
  return String(stop);
}
