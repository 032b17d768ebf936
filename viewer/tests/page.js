'use strict';
// Uses the page in a headless Chromium: loads traces, steps, types packets, and reads what stands there.
// node page.js BROWSER [WRITES [FOLDER]]: the browser's program, how many writes the last trace has, by default 100,000, and
// where pictures of the page go, if any.

const fs = require('fs');
const os = require('os');
const path = require('path');
const { judge, ended, page, top } = require('./judging.js');
const { Browser } = require('./browser.js');
const { madeTrace } = require('./made_trace.js');

const SHIFT = 8; // as the protocol counts modifiers
const [program, most = '100000', pictures] = process.argv.slice(2);
const folder = fs.mkdtempSync(path.join(os.tmpdir(), 'viewer_'));
const browser = new Browser(program, path.join(folder, 'profile'));

const text = selector => browser.value(`document.querySelector('${selector}').textContent`);
const answers = async () => [await text('#before'), await text('#now'), await text('#behind')];
const current = list => browser.value(`(document.querySelector('${list} [aria-current]') || { textContent: 'none' }).textContent`);
const rowsOf = list => browser.value(`document.querySelectorAll('${list} .row').length`);

async function settle() {
    await browser.until('view.isDrawn');
}

async function load(file) {
    await browser.value("document.getElementById('summary').textContent = 'Reading: nothing yet'");
    await browser.choose('#file', file);
    await browser.until("!document.getElementById('summary').textContent.startsWith('Reading') && view.isDrawn");
}

async function searched() {
    await browser.until('view.probes.searched === view.trace.commits.length && !/Searching/.test(document.getElementById("own-count").textContent)', 300);
    await settle();
}

async function press(key, modifiers) {
    await browser.press(key, modifiers);
    await settle();
}

async function type(packet) {
    await browser.type('#packet', packet);
    await searched();
}

async function picture(name) {
    if (pictures) await browser.picture(path.join(pictures, `${name}.png`));
}

async function tryErasedFirst() {
    await load(path.join(top, 'examples/cases/traces/erased_first.script'));
    await searched();
    judge('what it is', 'A trace of routes of IPv4: 4 slots, 3 commits, 5 writes. ', await text('#summary'));
    judge('the first place', 'Commit 1 of 3, before its first write', await text('#place b'));
    judge('what is found', ['✗ line 12, in commit 3: 10.1.0.0 gets none, and not 10.0.0.0/8 7 or 10.1.0.0/16 9'],
        await browser.value("[...document.querySelectorAll('#probes button')].map(button => button.textContent)"));
    await type('10.1.3.0');
    await press('ArrowRight', SHIFT);
    await press('ArrowRight', SHIFT);
    judge('two commits on', 'Commit 3 of 3, before its first write', await text('#place b'));
    judge('the answers there', ['10.0.0.0/8 7', '10.0.0.0/8 7 (slot 1)', '10.1.0.0/16 9'], await answers());
    await press('ArrowRight');
    judge('a write on', 'Line 12: slot 1 is erased: 10.0.0.0/8 7', await text('#place span'));
    judge('the answers there', ['10.0.0.0/8 7', 'none', '10.1.0.0/16 9'], await answers());
    judge('what is said of them', '✗ Wrong: neither the old answer nor the new one.', await text('#verdict'));
    judge('the line and its mark', '12slot 1 is erased: 10.0.0.0/8 7✗ wrong', await current('#lines'));
    judge('the slot', '1◀ erased', await current('#slots'));
    await picture('erased');
    await press('ArrowRight');
    judge('the next answers', ['10.0.0.0/8 7', '10.0.0.0/8 7 (slot 2)', '10.1.0.0/16 9'], await answers());
    judge('and what is said', '✓ The old answer.', await text('#verdict'));
    await press('End');
    judge('the last place', 'Commit 3 of 3, behind write 3 of 3', await text('#place b'));
    judge('and what is said there', '✓ The new answer.', await text('#verdict'));
    await press('Home');
    await press('w');
    judge('the next wrong answer', 'Commit 3 of 3, behind write 1 of 3', await text('#place b'));
    await press('ArrowLeft', SHIFT);
    await press('ArrowLeft', SHIFT);
    judge('a commit back', 'Commit 2 of 3, before its first write', await text('#place b'));
    await type('10.1.3');
    judge('a packet that is none', ['true', '✗ "10.1.3" is no IPv4 address'],
        [await browser.value("document.getElementById('packet').getAttribute('aria-invalid')"), await text('#verdict')]);
}

async function tryButtons() {
    await load(path.join(top, 'examples/cases/traces/other_order.script'));
    await searched();
    judge('a packet to begin with', '10.0.0.0', await browser.value("document.getElementById('packet').value"));
    judge('no wrong answers', true, (await text('#probes-count')).includes('None got a wrong answer'));
    for (const [button, place] of [['on', 'behind write 1 of 3'], ['on', 'behind write 2 of 3'], ['back', 'behind write 1 of 3'],
        ['last', 'behind write 6 of 6'], ['commit-back', 'before its first write'], ['first', 'before its first write']]) {
        await browser.value(`document.querySelector('[data-go=${button}]').click()`);
        await settle();
        judge(`the button ${button}`, place, (await text('#place b')).split(', ')[1]);
    }
    await browser.value("document.getElementById('slider').value = 8; document.getElementById('slider').dispatchEvent(new Event('input'))");
    await settle();
    judge('the slider', 'Commit 2 of 2, behind write 4 of 6', await text('#place b'));
    judge('and what it says', 'commit 2 of 2, behind write 4 of 6', await browser.value("document.getElementById('slider').getAttribute('aria-valuetext')"));
    judge('a new result', 'Line 17: slot 5 gets 10.0.0.0/8 6, whose entry slot 3 has too', await text('#place span'));
    await browser.value("document.getElementById('speed').value = '64'; document.getElementById('play').click()");
    await browser.until("document.getElementById('play').getAttribute('aria-pressed') === 'false'");
    await settle();
    judge('playing to the end', 'Commit 2 of 2, behind write 6 of 6', await text('#place b'));
}

async function tryBits() {
    await load(path.join(top, 'examples/cases/json/bits.report'));
    await type('1.2.3.4 10.0.0.0 tcp 80 2');
    await press('ArrowRight');
    await press('ArrowRight');
    judge('the words of its ports', 'source 0000, destination 0001', await text('#words'));
    await press('ArrowRight');
    judge('the drain', 'Commit 1 of 4, behind the drain behind write 2 of 3', await text('#place b'));
    await press('ArrowRight');
    judge('the answers of the list', ['none', '10 permit (slot 3)', '10 permit'], await answers());
    judge('the slot of the list', '3◀ 10 permit: any 10.0.0.0/8 tcp any any and destination bit 0● answers the packet', await current('#slots'));
    await press('End');
    judge('a refused commit', 'Commit 4 of 4, refused', await text('#place b'));
    await picture('bits');
}

async function tryFaults() {
    await load(path.join(top, 'examples/cases/traces/cut_off.script'));
    judge('a trace that is cut off', '✗ This is no trace. Line 6: the trace ends here without its last line. What stands before that line is shown.', await text('#fault'));
    judge('what stands before', 'Commit 1 of 1, before its first write', await text('#place b'));
    await load(page);
    judge('a file that is no trace', '✗ This is no trace. Line 1: this is no JSON.', await text('#fault'));
    judge('and nothing is shown', true, await browser.value("document.getElementById('main').hidden"));
}

// A trace of many writes: how long it takes to load and to step is told, and that few rows are drawn is judged.
async function tryMany() {
    const file = path.join(folder, 'many');
    const { text: lines, writes } = madeTrace(Number(most));
    fs.writeFileSync(file, lines);
    const before = Date.now();
    await load(file);
    const loaded = Date.now() - before;
    judge('a trace of many writes', true, (await text('#summary')).includes(`${writes} writes`));
    const steps = await browser.value(`new Promise(resolve => {
        const times = [];
        const step = () => {
            const start = performance.now();
            goTo((times.length * 5987) % view.trace.stops);
            requestAnimationFrame(() => {
                document.body.offsetHeight;
                times.push(performance.now() - start);
                if (times.length < 200) setTimeout(step);
                else resolve(times.sort((a, b) => a - b));
            });
        };
        step();
    })`);
    const [rows, slots] = [await rowsOf('#lines'), await rowsOf('#slots')];
    judge('few rows are drawn', true, rows > 0 && slots > 0 && rows + slots < 120);
    console.log(`viewer: ${writes} writes, ${(lines.length / 1e6).toFixed(1)} MB, were loaded in ${loaded} ms; a jump to another`
        + ` place and its drawing took ${steps[100].toFixed(1)} ms at the median and ${steps[199].toFixed(1)} at most`);
    await picture('many');
}

async function tryAll() {
    await browser.open(`file://${page}`);
    judge('nothing is shown at first', true, await browser.value("document.getElementById('main').hidden"));
    await tryErasedFirst();
    await tryButtons();
    await tryBits();
    await tryFaults();
    await tryMany();
    const told = browser.events.filter(({ method }) => ['Runtime.exceptionThrown', 'Log.entryAdded', 'Runtime.consoleAPICalled'].includes(method));
    judge('nothing is logged', [], told.map(({ params }) => params));
    const asked = browser.events.filter(({ method }) => method === 'Network.requestWillBeSent').map(({ params }) => params.request.url);
    judge('nothing else is fetched', [`file://${page}`], asked);
}

// The browser's own processes may write for a moment after it has ended.
async function remove(tries = 50) {
    try {
        fs.rmSync(folder, { recursive: true, force: true });
    } catch (error) {
        if (tries === 0) throw error;
        await new Promise(resolve => setTimeout(resolve, 100));
        await remove(tries - 1);
    }
}

tryAll().catch(error => judge('the page', 'no error', String(error.stack))).then(() => browser.end()).then(() => remove()).then(() => {
    ended('viewer, its page');
});
