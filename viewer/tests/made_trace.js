'use strict';
// A trace of routes of about so many writes, as a small driver makes them that gives each length of prefix a region of
// slots: no entry is ever moved, and each write is right.
// node made_trace.js WRITES

const REGION = 120; // slots of a length

function randoms(seed) {
    let state = seed;
    return below => {
        state = (state * 1103515245 + 12345) % 2 ** 31;
        return Math.floor(state / 65536) % below;
    };
}

function maskOf(length) {
    return (0xffffffff << (32 - length)) >>> 0;
}

class RegionDriver {
    constructor() {
        this.random = randoms(7);
        this.table = new Map(); // slot and length, by priorities
        this.free = Array.from({ length: 33 }, (none, length) => Array.from({ length: REGION }, (no, at) => (32 - length) * REGION + at));
    }

    add(lines, puts, removed) {
        const length = 9 + this.random(24);
        const address = ((10 << 24 | this.random(32768) << 9 | this.random(512)) & maskOf(length)) >>> 0;
        const priority = length * 2 ** 32 + address;
        if (this.table.has(priority) || removed.has(priority) || this.free[length].length === 0) return;
        const slot = this.free[length].pop();
        const result = this.random(64);
        this.table.set(priority, { slot, length });
        lines.push(`{"add":[${priority},0,0,${address},${length},null,0,65535,0,65535,${result}]}`);
        puts.push([-priority, `{"put":[0,${address},0,0,0,0,${maskOf(length)},0,0,0,${priority},${result}],"slot":${slot}}`]);
    }

    remove(lines, erases, removed) {
        const names = [...this.table.keys()];
        const priority = names[this.random(names.length)];
        const { slot, length } = this.table.get(priority);
        this.table.delete(priority);
        removed.set(priority, () => this.free[length].push(slot));
        lines.push(`{"del":${priority}}`);
        erases.push([priority, `{"erase":${slot}}`]);
    }

    // The lines of a commit: removals and additions, and the writes by falling priority and then by rising priority.
    commit(number) {
        const [lines, puts, erases, removed] = [[], [], [], new Map()];
        const removals = Math.min(this.table.size, this.table.size > 2000 ? 12 : 4);
        for (let count = 0; count < removals; count++) this.remove(lines, erases, removed);
        for (let count = 0; count < 10; count++) this.add(lines, puts, removed);
        removed.forEach(release => release()); // no earlier, for the erases come last
        const writes = [...puts.sort((a, b) => a[0] - b[0]), ...erases.sort((a, b) => a[0] - b[0])].map(([, line]) => line);
        return { writes: writes.length, lines: [`{"commit":${number}}`, ...lines, ...writes, `{"done":${number}}`] };
    }
}

function madeTrace(most) {
    const driver = new RegionDriver();
    const lines = ['{"family":"route","mode":"cover","slots":4096}'];
    let writes = 0;
    for (let number = 1; writes < most; number++) {
        const commit = driver.commit(number);
        for (const line of commit.lines) lines.push(line);
        writes += commit.writes;
    }
    lines.push(`{"end":${writes}}`);
    return { text: `${lines.join('\n')}\n`, writes };
}

module.exports = { madeTrace };
if (require.main === module) process.stdout.write(madeTrace(Number(process.argv[2] || 100000)).text);
