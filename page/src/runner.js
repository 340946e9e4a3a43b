// Runs the tool in a worker, one run at a time. The page calls `runner.run` and, to stop, `runner.stop`.

// Thrown out of `run` where the user has stopped the run.
class Stopped extends Error {}

// Thrown out of `run` where the browser ended the run: its own stack ran out, or it cannot run the module at all.
class BrowserFault extends Error {}

class Runner {
  constructor(packed, workerText) {
    this.packed = packed;
    this.source = URL.createObjectURL(new Blob([workerText], { type: 'text/javascript' }));
    this.worker = null;
    this.waiting = null;
  }

  get isBusy() {
    return this.waiting !== null;
  }

  // Starts the worker, and has it compile the module, before the first run.
  prepare() {
    if (this.worker) return;
    this.worker = new Worker(this.source);
    this.worker.onmessage = ({ data }) => this.hear(data);
    this.worker.onerror = event => this.hear({ fault: event.message });
    this.worker.postMessage({ packed: this.packed });
  }

  // A request has `words`, `files` (each with `name` and `bytes`), `input` (bytes) and `limit` (a number of bytes).
  // The answer has `status`, `out` and `err` (bytes), `used` (bytes of memory) and `milliseconds`.
  run(request) {
    if (this.isBusy) this.stop();
    this.prepare();
    return new Promise((resolve, reject) => {
      this.waiting = { resolve, reject };
      this.worker.postMessage({ request });
    });
  }

  hear(data) {
    if (data.fault) {
      this.end();
      this.settle(waiting => waiting.reject(new BrowserFault(data.fault)));
    } else if (data.answer) {
      this.settle(waiting => waiting.resolve(data.answer));
    }
  }

  stop() {
    this.end();
    this.settle(waiting => waiting.reject(new Stopped()));
    this.prepare();
  }

  end() {
    if (this.worker) this.worker.terminate();
    this.worker = null;
  }

  settle(how) {
    const waiting = this.waiting;
    this.waiting = null;
    if (waiting) how(waiting);
  }
}
