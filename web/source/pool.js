// Workers that take calls in turn. Stopping ends them at once, whatever they are in, since a row can take minutes.

export class Stopped extends Error {}

export class Pool {
  constructor(compiled, makeWorker, count) {
    Object.assign(this, { compiled, makeWorker, count, workers: [], waiting: [], next: 0 });
  }

  // The answer of the module to a call, once a worker is free.
  run(name, call, { first = false } = {}) {
    return new Promise((resolve, reject) => {
      const task = { id: this.next++, name, call, resolve, reject };
      if (first) {
        this.waiting.unshift(task);
      } else {
        this.waiting.push(task);
      }
      this.hand();
    });
  }

  start() {
    const worker = this.makeWorker();
    const place = { worker, task: null, ready: false };
    worker.onmessage = ({ data }) => this.take(place, data);
    worker.onerror = (event) => this.fail(place, event.message || "a worker failed");
    worker.postMessage({ compiled: this.compiled });
    this.workers.push(place);
  }

  take(place, data) {
    const task = place.task;
    place.ready = true;
    place.task = null;
    if (task && data.id === task.id) {
      if (data.cause === undefined) {
        task.resolve(data.result);
      } else {
        task.reject(new Error(data.cause));
      }
    }
    this.hand();
  }

  fail(place, text) {
    this.workers = this.workers.filter((other) => other !== place);
    place.worker.terminate();
    place.task?.reject(new Error(text));
    if (!place.ready) {
      this.waiting.splice(0).forEach((task) => task.reject(new Error(text)));
    }
    this.hand();
  }

  hand() {
    const idle = this.workers.filter((place) => place.ready && !place.task);
    while (idle.length > 0 && this.waiting.length > 0) {
      const place = idle.pop();
      place.task = this.waiting.shift();
      place.worker.postMessage({ id: place.task.id, name: place.task.name, call: place.task.call });
    }
    const starting = this.workers.filter((place) => !place.ready).length;
    for (let k = starting; k < this.waiting.length && this.workers.length < this.count; k++) {
      this.start();
    }
  }

  stop() {
    const all = [...this.workers.map((place) => place.task).filter(Boolean), ...this.waiting];
    this.workers.forEach((place) => place.worker.terminate());
    this.workers = [];
    this.waiting = [];
    all.forEach((task) => task.reject(new Stopped("stopped")));
  }
}
