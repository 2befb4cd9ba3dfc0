// The program as a module of the page: each run is an instance of its own, in a worker, over files in memory.

// What the worker does. It is made of a blob, so a page that was opened from a folder has it too.
const WORKER = `
let module = null;
const decoder = new TextDecoder(), encoder = new TextEncoder();

// Lays words and files, runs, and takes the standard streams and the files that were made.
async function run({ words, files, made }) {
  const { exports } = await WebAssembly.instantiate(await module, {});
  const put = text => {
    const bytes = encoder.encode(text), at = exports.page_room(BigInt(bytes.length));
    if (!at) throw new Error("there is no memory for the files");
    new Uint8Array(exports.memory.buffer).set(bytes, Number(at));
    return [at, BigInt(bytes.length)];
  };
  const take = name => {
    const asked = put(name), length = BigInt.asIntN(64, exports.page_length(...asked));
    if (length < 0n) return null;
    const at = Number(exports.page_bytes(...asked));
    return decoder.decode(new Uint8Array(exports.memory.buffer).slice(at, at + Number(length)));
  };
  for (const word of ["ht", ...words]) if (!exports.page_word(...put(word))) throw new Error("there are too many words");
  for (const [name, text] of Object.entries(files)) if (!exports.page_lay(...put(name), ...put(text))) throw new Error("there is no memory for the files");
  const status = exports.page_run();
  return { status, out: take("/out"), err: take("/err"), made: Object.fromEntries(made.map(name => [name, take(name)])) };
}

onmessage = async ({ data }) => {
  try {
    // a promise, for the next run may be asked for before the module is there
    if (data.bytes) module = WebAssembly.compile(data.bytes);
    postMessage({ number: data.number, answer: await run(data) });
  } catch (error) {
    postMessage({ number: data.number, error: String(error.message || error) });
  }
};`;

class Engine {
  constructor(base64) {
    this.bytes = Uint8Array.from(atob(base64), it => it.charCodeAt(0));
    this.number = 0;
    this.waiting = new Map();
  }

  begin() {
    const place = URL.createObjectURL(new Blob([WORKER], { type: "text/javascript" }));
    this.worker = new Worker(place);
    URL.revokeObjectURL(place);
    this.isNew = true;
    this.worker.onmessage = ({ data }) => {
      const { resolve, reject } = this.waiting.get(data.number);
      this.waiting.delete(data.number);
      if (data.error) reject(new Error(data.error));
      else resolve(data.answer);
    };
    this.worker.onerror = event => this.end(event.message || "this browser can't run the program");
  }

  // Runs the program with these words over these files: its status, what it printed, and the files that are named in `made`,
  // null where there is none.
  ask(words, files, made = []) {
    if (!this.worker) this.begin();
    return new Promise((resolve, reject) => {
      const number = ++this.number;
      this.waiting.set(number, { resolve, reject });
      this.worker.postMessage({ number, words, files, made, bytes: this.isNew ? this.bytes : null });
      this.isNew = false;
    });
  }

  // Ends what is at work; the next run has a worker of its own.
  end(why) {
    if (this.worker) this.worker.terminate();
    this.worker = null;
    for (const { reject } of this.waiting.values()) reject(new Error(why));
    this.waiting.clear();
  }
}

// Whether this browser has memories of 64 bits: a module of 18 bytes that is nothing but one.
const runsModules = () => typeof WebAssembly === "object" && WebAssembly.validate(Uint8Array.of(0, 97, 115, 109, 1, 0, 0, 0, 5, 3, 1, 4, 0));
