// The page's side of a worker: calls that are promises, and an end to a call that takes too long.

// A call was ended by the reader, or because something newer is wanted.
class Ended extends Error {}

class Engine {
  constructor(module) {
    this.module = module;
    this.worker = null;
    this.waiting = new Map();
    this.last = 0;
  }

  // Makes the worker, where there is none.
  start() {
    if (this.worker) return;
    const text = document.getElementById('worker').textContent;
    const address = URL.createObjectURL(new Blob([text], { type: 'text/javascript' }));
    this.worker = new Worker(address);
    URL.revokeObjectURL(address);
    this.worker.onmessage = ({ data }) => this.receive(data);
    this.worker.onerror = (fault) => this.stop(fault.message || 'the worker ended');
    this.worker.postMessage({ module: this.module });
  }

  receive({ id, answer, stopped, tried }) {
    const call = this.waiting.get(id);
    if (!call) return;
    if (tried !== undefined) {
      call.tell(tried);
      return;
    }
    this.waiting.delete(id);
    if (stopped !== undefined) call.reject(new Ended(stopped));
    else call.resolve(answer);
  }

  ask(message, tell = () => {}) {
    this.start();
    this.last += 1;
    const id = this.last;
    return new Promise((resolve, reject) => {
      this.waiting.set(id, { resolve, reject, tell });
      this.worker.postMessage({ id, ...message });
    });
  }

  // The answer of the program to these words, with these files.
  call(words, files, most) {
    return this.ask({ words, files, most });
  }

  // A case that violates the property, if one of so many does.
  search(rule, property, seed, cases, tell) {
    return this.ask({ rule, property, seed, cases }, tell);
  }

  // Ends what runs. The next call gets a new worker.
  stop(why = 'stopped') {
    if (this.worker) this.worker.terminate();
    this.worker = null;
    const waiting = [...this.waiting.values()];
    this.waiting.clear();
    for (const call of waiting) call.reject(new Ended(why));
  }
}

// a module of one memory with 64-bit addresses
const WIDE_MEMORY = new Uint8Array([0, 97, 115, 109, 1, 0, 0, 0, 5, 3, 1, 4, 1]);

// The compiled module that the page holds. Where the browser can't run it, it is an Error that says why.
async function packedModule() {
  if (typeof WebAssembly !== 'object') throw new Error('It has no WebAssembly, or has it switched off.');
  if (!WebAssembly.validate(WIDE_MEMORY)) {
    throw new Error('Its WebAssembly has no 64-bit memories. Chrome, Edge and Chromium have them since version 133, '
      + 'and Firefox is said to have them since version 134.');
  }
  if (typeof DecompressionStream !== 'function') {
    throw new Error('It has no DecompressionStream, which unpacks the module.');
  }
  const packed = Uint8Array.from(atob(document.getElementById('module').textContent), (sign) => sign.charCodeAt(0));
  const unpacked = new Blob([packed]).stream().pipeThrough(new DecompressionStream('gzip'));
  return WebAssembly.compile(await new Response(unpacked).arrayBuffer());
}
