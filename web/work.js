// The work behind the page: one worker, which takes a request at a time, and is ended and begun anew where a request takes too long.

/** After this many milliseconds, a newer request ends the one that runs. */
const PATIENCE = 1500;

export class Work {
    /** Makes the work by the worker's source and the library's module; `listen` gets each part of an answer. */
    constructor(source, module, listen) {
        this.url = URL.createObjectURL(new Blob([source], { type: "text/javascript" }));
        this.module = module;
        this.listen = listen;
        this.id = 0;
        this.next = null;
        this.begin();
    }

    begin() {
        this.running = null;
        this.isReady = false;
        const worker = new Worker(this.url);
        const hear = (data) => worker === this.worker && this.hear(data); // one that was ended may still have posted
        worker.onmessage = ({ data }) => hear(data);
        worker.onerror = (event) => hear({ id: this.running?.id, part: "failed", value: event.message });
        worker.postMessage({ module: this.module });
        this.worker = worker;
    }

    /** Asks for a request, in place of one that still waits. */
    ask(request) {
        this.next = { ...request, id: ++this.id };
        if (this.running && performance.now() - this.running.since > PATIENCE) this.restart();
        else this.send();
        return this.id;
    }

    send() {
        if (!this.isReady || this.running || !this.next) return;
        this.running = { id: this.next.id, since: performance.now() };
        this.worker.postMessage(this.next);
        this.next = null;
    }

    restart() {
        this.worker.terminate();
        this.begin();
    }

    /** Ends what runs, and what waits. */
    stop() {
        this.next = null;
        this.restart();
    }

    /** How long the request has run, in milliseconds, or nothing where none does. */
    elapsed() {
        return this.running ? performance.now() - this.running.since : null;
    }

    /** Takes a part of an answer. Parts of a request that is no longer the last one are dropped. */
    hear({ id, part, value }) {
        const took = this.elapsed();
        if (part === "ready") {
            this.isReady = true;
        } else if (part === "failed" && id !== undefined) {
            this.restart(); // the library may hold what it could not free
        } else if (part === "done" || part === "import") {
            this.running = null;
        }
        if (id === this.id || (part === "failed" && id === undefined)) this.listen(part, value, took);
        this.send();
    }
}
