'use strict';
// Tries the module of index.html without a page: on rows that were worked by hand, and where the program is built on the
// answers that it gives for the same scripts, and on what `tcam verify` says of traces that were changed.
// node logic.js

const fs = require('fs');
const path = require('path');
const { spawnSync } = require('child_process');
const { judge, ended, loadLogic, top } = require('./judging.js');

const logic = loadLogic();
const program = path.join(top, 'crates/tcam/out/tcam');
const traces = path.join(top, 'examples/cases/traces');

function fileText(...parts) {
    return fs.readFileSync(path.join(...parts), 'latin1');
}

// --- Rows worked by hand

// Lines of a trace by letters, for rows of what may stand where.
const LINES = {
    H: '{"family":"route","mode":"cover","slots":4}',
    C: '{"commit":1}',
    D: '{"commit":2}',
    a: '{"add":[34527510528,0,0,167772160,8,null,0,65535,0,65535,7]}',
    p: '{"put":[0,167772160,0,0,0,0,4278190080,0,0,0,34527510528,7],"slot":1}',
    e: '{"erase":1}',
    d: '{"done":1}',
    r: '{"refused":1}',
    E: '{"end":1}',
    F: '{"fault":"word count","line":9}',
    ' ': '',
};

const PLACES = [ // the lines, and the line that is at fault, or 0
    ['HCapdE', 0], ['HE', 0], ['HF', 0], ['HrE', 0], ['HCapepdE', 0], ['HCdE', 0], ['H  CapdE ', 0],
    ['', 1], [' ', 2], ['CapdE', 1], ['HHE', 2], ['HapdE', 2], ['HCapE', 5], ['HCapdD', 7], ['HCpadE', 4], ['HDE', 2],
    ['HCapdpE', 6], ['HCapdEE', 7], ['HCapd E F', 9], ['HCaCpdE', 4], ['HCrE', 3], ['HCapDdE', 5],
];

for (const [letters, line] of PLACES) {
    const text = [...letters].map(letter => `${LINES[letter]}\n`).join('');
    const { fault } = logic.readTrace(text);
    judge(`the lines ${letters}`, line, fault === null ? 0 : fault.line);
}

const FORMS = [ // a line behind the head, and whether it's one
    ['{ "commit" :\t1 }\r', true], ['{"commit":2,"commit":1}', true], ['{"comm\\u0069t":1}', true],
    ['{"commit":1.0}', false], ['{"commit":1e0}', false], ['{"commit":-0}', false], ['{"commit":01}', false], ['{"commit":"1"}', false],
    ['{"commit":4294967296}', false], ['{"commit":1,"x":1}', false], ['{"family mode slots":1}', false], ['[1]', false], ['null', false],
    ['{"constructor":1}', false], ['{"commit":1}x', false], ['commit', false], [`{"commit":1}${' '.repeat(500)}`, true],
    [`{"commit":1}${' '.repeat(501)}`, false], ['{"commit":1} \u00e9', false],
];

for (const [line, isOne] of FORMS) {
    const { fault } = logic.readTrace(`${LINES.H}\n${line}\n`);
    judge(`the line ${line.slice(0, 60)}`, isOne ? 3 : 2, fault.line);
}

const VALUES = [ // a line in a commit, and whether its numbers are within their limits
    [LINES.a, true], [LINES.p, true],
    ['{"add":[1099511627775,0,0,167772160,8,255,65535,65535,0,0,4294967295]}', true],
    ['{"add":[1099511627776,0,0,167772160,8,null,0,65535,0,65535,7]}', false],
    ['{"add":[1,0,0,167772161,8,null,0,65535,0,65535,7]}', false], ['{"add":[1,0,0,0,33,null,0,65535,0,65535,7]}', false],
    ['{"add":[1,0,0,0,0,256,0,65535,0,65535,7]}', false], ['{"add":[1,0,0,0,0,null,2,1,0,65535,7]}', false],
    ['{"add":[1,0,0,0,0,null,0,65536,0,65535,7]}', false], ['{"add":[1,0,0,0,0,null,0,65535,0,65535]}', false],
    ['{"add":[1,0,0,2147483648,1,0,0,0,0,0,0]}', true], ['{"add":[null,0,0,0,0,null,0,65535,0,65535,7]}', false],
    ['{"set":[1,2]}', true], ['{"set":[1]}', false], ['{"del":1}', true], ['{"del":[1]}', false],
    ['{"put":[0,0,0,0,0,0,0,0,0,0,1,2],"slot":4}', false], ['{"put":[0,0,0,0,0,0,0,0,0,0,1,2],"slot":3}', true],
    ['{"put":[0,0,0,0,4294967296,0,0,0,0,0,1,2],"slot":3}', false], ['{"erase":4}', false],
    ['{"port":65535,"table":"src","word":65535}', true], ['{"port":65536,"table":"src","word":0}', false],
    ['{"port":0,"table":"sport","word":0}', false], ['{"drain":true}', true], ['{"drain":false}', false],
];

for (const [line, isOne] of VALUES) {
    judge(`the line ${line}`, isOne ? 4 : 3, logic.readTrace(`${LINES.H}\n${LINES.C}\n${line}\n`).fault.line);
}

const ADDRESSES = [ // of IPv6, as written and in the recommended form (RFC 5952, section 4)
    ['2001:DB8:0:0:0:0:0:1', '2001:db8::1'], ['2001:db8:0:1:1:1:1:1', '2001:db8:0:1:1:1:1:1'], ['::', '::'], ['0:0:0:0:0:0:0:1', '::1'],
    ['2001:0:0:1:0:0:0:1', '2001:0:0:1::1'], ['2001:db8:0:0:1:0:0:1', '2001:db8::1:0:0:1'], ['1:0:0:0:0:0:0:0', '1::'],
];
for (const [written, shown] of ADDRESSES) judge(written, shown, logic.IPV6.write(logic.IPV6.read(written)));

const NO_PACKETS = ['', '10.0.0', '10.0.0.256', '10.0.0.01', '10.0.0.1 10.0.0.2 tcp 1', '10.0.0.1 10.0.0.2 ip 1 2', '10.0.0.1 10.0.0.2 6 65536 1', '::'];
for (const text of NO_PACKETS) {
    let said = 'none';
    try {
        logic.readPacket(text, logic.IPV4);
    } catch (error) {
        said = 'thrown';
    }
    judge(`the packet "${text}"`, 'thrown', said);
}
judge("a packet's numbers", [1, 4278190335, 17, 0, 65535], logic.readPacket('0.0.0.1 255.0.0.255 udp 0 65535', logic.IPV4));
judge('a packet by its destination', [0, 167838211, 0, 0, 0], logic.readPacket(' 10.1.2.3 ', logic.IPV4));

// What a packet gets at each stop of a trace: the answers of the rules before and behind the commit, and of the memory.
function answersOf(text, packet) {
    const trace = logic.readTrace(text);
    const player = new logic.Player(trace);
    const rows = [];
    for (let stop = 0; stop < trace.stops; stop++) {
        player.goTo(stop);
        const { before, behind, now, slot } = player.answers(logic.readPacket(packet, trace.version));
        rows.push(`${[before, behind, now].map(answer => logic.answerText(trace, answer)).join(', ')}${slot < 0 ? '' : ` of ${slot}`}`);
    }
    return rows;
}

function findingsOf(text) {
    const trace = logic.readTrace(text);
    return logic.whole(new logic.ProbeSearch(trace).run()).map(found => logic.findingText(trace, found));
}

function linesOfWrong(text, packet) {
    const trace = logic.readTrace(text);
    return logic.whole(logic.followPacket(trace, logic.readPacket(packet, trace.version))).map(found => found.line);
}

// The driver that empties a slot before it has made the copy: in between 10.0.0.0/8 has no entry.
const erasedFirst = fileText(traces, 'erased_first.script');
judge('10.1.2.3 where a slot is erased first', [
    'none, 10.0.0.0/8 7, none', 'none, 10.0.0.0/8 7, 10.0.0.0/8 7 of 1',
    '10.0.0.0/8 7, 10.1.2.0/24 8, 10.0.0.0/8 7 of 1', '10.0.0.0/8 7, 10.1.2.0/24 8, 10.1.2.0/24 8 of 0',
    '10.1.2.0/24 8, 10.1.2.0/24 8, 10.1.2.0/24 8 of 0', '10.1.2.0/24 8, 10.1.2.0/24 8, 10.1.2.0/24 8 of 0',
    '10.1.2.0/24 8, 10.1.2.0/24 8, 10.1.2.0/24 8 of 0', '10.1.2.0/24 8, 10.1.2.0/24 8, 10.1.2.0/24 8 of 0',
], answersOf(erasedFirst, '10.1.2.3'));
judge('10.1.3.0 there in the third commit', [
    '10.0.0.0/8 7, 10.1.0.0/16 9, 10.0.0.0/8 7 of 1', '10.0.0.0/8 7, 10.1.0.0/16 9, none',
    '10.0.0.0/8 7, 10.1.0.0/16 9, 10.0.0.0/8 7 of 2', '10.0.0.0/8 7, 10.1.0.0/16 9, 10.1.0.0/16 9 of 1',
], answersOf(erasedFirst, '10.1.3.0').slice(4));
judge('wrong for 10.1.3.0', [12], linesOfWrong(erasedFirst, '10.1.3.0'));
judge('wrong for 10.1.2.3', [], linesOfWrong(erasedFirst, '10.1.2.3'));
judge('what is found there', ['line 12, in commit 3: 10.1.0.0 gets none, and not 10.0.0.0/8 7 or 10.1.0.0/16 9'], findingsOf(erasedFirst));

// A copy before it is erased, in another order than the program's: no packet gets a wrong answer.
judge('what is found of another order', [], findingsOf(fileText(traces, 'other_order.script')));
judge('what is found of a commit without its write', ['line 4, at the end of commit 1: 10.1.0.0 gets none, and not 10.1.0.0/16 7'],
    findingsOf(fileText(traces, 'put_left_out.script')));
judge('what is found of a wider rule first', ['line 5, in commit 1: 0.0.0.0 10.1.0.0 0 0 0 gets 20 permit, and not none or 10 deny'],
    findingsOf(fileText(traces, 'wider_first.script')));
judge('wrong for a packet outside of the narrower rule', [], linesOfWrong(fileText(traces, 'wider_first.script'), '1.2.3.4 10.2.0.0 tcp 1 2'));
judge('what is found of an entry behind a wider one', ['line 9, at the end of commit 2: 10.1.0.0 gets 10.0.0.0/8 7, and not 10.1.0.0/16 9'],
    findingsOf(fileText(traces, 'wrong_place.script')));

// Ports 1 and 2 by a bit: the entry hits where the table's word has it.
const byBits = fileText(top, 'examples/cases/json/bits.report');
judge('port 2 by bits', [
    'none, 10 permit, none', 'none, 10 permit, none', 'none, 10 permit, none', 'none, 10 permit, none', 'none, 10 permit, 10 permit of 3',
    '10 permit, 10 deny, 10 permit of 3', '10 permit, 10 deny, 10 deny of 3', '10 deny, none, 10 deny of 3', '10 deny, none, none', 'none, none, none',
], answersOf(byBits, '1.2.3.4 10.0.0.0 tcp 80 2'));
judge('port 3 by bits', Array(10).fill('none, none, none'), answersOf(byBits, '1.2.3.4 10.0.0.0 tcp 80 3'));
judge('what is found by bits', [], findingsOf(byBits));
const withoutAWord = byBits.replace('{"port":2,"table":"dst","word":1}\n', '');
judge('what is found where a word of a table is left out', ['line 7, at the end of commit 1', '2 gets none, and not 10 permit'],
    findingsOf(withoutAWord)[0].split(/: .* tcp \d+ /));
judge('wrong for port 2 then', [7, 10, 11], linesOfWrong(withoutAWord, '0.0.0.0 10.0.0.1 tcp 0 2'));
const withAWordMore = byBits.replace('{"drain":true}', '{"port":3,"table":"dst","word":1}');
judge('wrong for port 3 where its word is wrong', [7, 8, 11, 12], linesOfWrong(withAWordMore, '0.0.0.0 10.0.0.1 tcp 0 3'));
judge('that it is found', 'line 7', findingsOf(withAWordMore)[0].slice(0, 6));

// An entry with a mask that is too short catches packets beside its rule.
const shortMask = `${LINES.H}\n${LINES.C}\n{"add":[68887314432,0,0,167837696,16,null,0,65535,0,65535,7]}\n`
    + '{"put":[0,167837696,0,0,0,0,4278190080,0,0,0,68887314432,7],"slot":1}\n{"done":1}\n{"end":1}\n';
judge('wrong for a packet beside the rule', [4, 5], linesOfWrong(shortMask, '10.0.0.0'));
judge('that it is found', [4, 5], findingsOf(shortMask).map(text => Number(text.split(/[ ,]/)[1])));

const REMARKS = [ // commands behind a route 10.0.0.0/8, and what is said of the last one
    ['{"add":[34527510528,0,0,167772160,8,null,0,65535,0,65535,7]}', 'the set has this rule already'],
    ['{"del":1}', 'the set has no such rule'], ['{"set":[34527510528,9]}', ''],
    ['{"del":34527510528}\n{"add":[34527510528,0,0,167772160,8,null,0,65535,0,65535,9]}', ''],
    ['{"set":[34527510528,9]}\n{"del":34527510528}', 'the batch changes this rule twice'],
];
for (const [commands, remark] of REMARKS) {
    const trace = logic.readTrace(`${LINES.H}\n${LINES.C}\n${LINES.a}\n${LINES.p}\n${LINES.d}\n${LINES.D}\n${commands}\n{"done":2}\n`);
    judge(`the commands ${commands}`, remark, trace.commits[1].commands.slice(-1)[0].remark);
}

// Of IPv6 a number of 128 bits is four words: a route to 2001:db8::/32 with result 7, and one to 2001:db8::/48.
const ipv6 = [
    '{"family":"route6","mode":"cover","slots":8}', '{"commit":1}',
    '{"add":[32,536939960,0,0,0,0,0,0,0,0,536939960,0,0,0,32,null,0,65535,0,65535,7]}',
    '{"put":[0,0,0,0,536939960,0,0,0,0,0,0,0,0,0,0,4294967295,0,0,0,0,0,0,32,536939960,0,0,0,7],"slot":3}', '{"done":1}',
    '{"commit":2}', '{"add":[48,536939960,0,0,0,0,0,0,0,0,536939960,0,0,0,48,null,0,65535,0,65535,9]}',
    '{"put":[0,0,0,0,536939960,0,0,0,0,0,0,0,0,0,0,4294967295,4294901760,0,0,0,0,0,48,536939960,0,0,0,9],"slot":1}', '{"done":2}',
    '{"commit":3}', '{"del":[32,536939960,0,0,0]}', '{"set":[48,536939960,0,0,0,4]}', '{"erase":3}',
    '{"put":[0,0,0,0,536939960,0,0,0,0,0,0,0,0,0,0,4294967295,4294901760,0,0,0,0,0,48,536939960,0,0,0,4],"slot":1}', '{"done":3}', '{"end":4}',
];
judge('2001:db8:0:1:: of IPv6', [
    'none, 2001:db8::/32 7, none', 'none, 2001:db8::/32 7, 2001:db8::/32 7 of 3', '2001:db8::/32 7, 2001:db8::/48 9, 2001:db8::/32 7 of 3',
    '2001:db8::/32 7, 2001:db8::/48 9, 2001:db8::/48 9 of 1', '2001:db8::/48 9, 2001:db8::/48 4, 2001:db8::/48 9 of 1',
    '2001:db8::/48 9, 2001:db8::/48 4, 2001:db8::/48 9 of 1', '2001:db8::/48 9, 2001:db8::/48 4, 2001:db8::/48 4 of 1',
], answersOf(ipv6.join('\n'), '2001:db8:0:1::'));
judge('what is found of IPv6', [], findingsOf(ipv6.join('\n')));
judge('and where the wider route is put first of all', ['line 9, at the end of commit 2: 2001:db8:: gets 2001:db8::/32 7, and not 2001:db8::/48 9'],
    findingsOf(ipv6.join('\n').replace('"slot":3', '"slot":0')).slice(0, 1));
judge('a line of IPv4 there', 3, logic.readTrace(`${ipv6.slice(0, 2).join('\n')}\n${LINES.a}\n`).fault.line);

// The way back is the way there: at random places the same as from the start.
const bitsTrace = logic.readTrace(byBits);
const wanderer = new logic.Player(bitsTrace);
for (const stop of [9, 0, 6, 2, 8, 7, 3, 9, 1, 4, 5, 0]) {
    wanderer.goTo(stop);
    const fresh = new logic.Player(bitsTrace);
    fresh.goTo(stop);
    judge(`stop ${stop}`, [fresh.memory, fresh.sets].map(picture), [wanderer.memory, wanderer.sets].map(picture));
}

function picture(state) {
    if (state.slots) return [state.slots.map(entry => entry && entry.result), [...state.tables.dst.slice(0, 5)]];
    return [state.before, state.behind].map(set => [...set.values()].map(rule => rule.result));
}

// --- Against the program

function run(words, input) {
    const { stdout, status } = spawnSync(program, words, { input, maxBuffer: 2 ** 28 });
    return { report: stdout.toString('latin1').split('\n').slice(0, -1), status };
}

// The packets of a script, none for a frame, and its probes.
function commandsOf(script) {
    const [packets, probes] = [[], []];
    for (const line of script.split('\n')) {
        const [word, ...rest] = line.trim().split(/[ \t]+/);
        if (word === 'packet') packets.push(rest.join(' '));
        if (word === 'frame') packets.push(null);
        if (word === 'probe') probes.push(rest.join(' '));
    }
    return { packets, probes };
}

// The stop behind each write of a commit, at its number; that of 0 is before the first one.
function stopsOf(trace, commit) {
    const stops = [commit.firstStop];
    for (let behind = 1; behind <= commit.events; behind++) stops[trace.events[commit.firstEvent + behind - 1].write] = commit.firstStop + behind;
    return stops;
}

// What the memory answers at a stop.
function answerAt(player, stop, packet) {
    player.goTo(stop);
    return logic.answerText(player.trace, player.answers(logic.readPacket(packet, player.trace.version)).now);
}

function compareScript(name, words, script) {
    const { report, status } = run(words, script);
    const json = run([...words.filter(word => !['--trace', '--json'].includes(word)), '--json'], script);
    if (status > 2 || json.status > 2 || json.report.some(line => line.startsWith('{"fault":"not with json"'))) return;
    const trace = logic.readTrace(`${json.report.join('\n')}\n`);
    judge(`${name}: whether it is a trace`, null, trace.fault);
    judge(`${name}: what is found`, [], logic.whole(new logic.ProbeSearch(trace).run()).map(found => logic.findingText(trace, found)));
    const { packets, probes } = commandsOf(script);
    const player = new logic.Player(trace);
    comparePackets(name, player, report, packets);
    if (!words.includes('--depth')) compareProbes(name, player, report, probes);
}

// What each packet gets behind the last commit ahead of it in the report: one of the script may have been made in two.
function comparePackets(name, player, report, packets) {
    let commit;
    let at = 0;
    for (const line of report) {
        const told = /^commit (\d+) /.exec(line);
        if (told !== null) commit = player.trace.commits[told[1] - 1];
        if (!line.startsWith('packet ')) continue;
        const packet = packets[at];
        at += 1;
        if (packet === null || commit === undefined) continue;
        judge(`${name}: packet ${packet}`, line.slice(7), answerAt(player, commit.firstStop + commit.events, packet));
    }
}

// The look-ups of probes behind each write, which a report has before the line of the commit.
function compareProbes(name, player, report, probes) {
    const { trace } = player;
    let number = 1;
    let stops = null;
    for (const line of report) {
        const probed = /^w (\d+) p (\d+) (.*)$/.exec(line);
        if (line.startsWith('commit ')) [number, stops] = [number + 1, null];
        if (probed === null) continue;
        stops = stops || stopsOf(trace, trace.commits[number - 1]);
        judge(`${name}: ${line} of commit ${number}`, probed[3], answerAt(player, stops[probed[1]], probes[probed[2] - 1]));
    }
}

function compareExamples() {
    const families = ['route', 'acl', 'route6', 'acl6'].filter(family => run([family, '--help'], '').report.some(line => line.includes('--json')));
    for (const folder of ['examples', ...fs.readdirSync(path.join(top, 'examples/cases')).map(name => `examples/cases/${name}`)]) {
        if (!fs.statSync(path.join(top, folder)).isDirectory()) continue;
        for (const file of fs.readdirSync(path.join(top, folder)).filter(name => name.endsWith('.script'))) {
            const words = fileText(top, folder, file.replace(/script$/, 'args')).trim().split(' ');
            if (families.includes(words[0])) compareScript(`${folder}/${file}`, words, fileText(top, folder, file));
        }
    }
}

function randoms(seed) {
    let state = seed;
    return below => {
        state = (state * 1103515245 + 12345) % 2 ** 31;
        return Math.floor(state / 65536) % below;
    };
}

// A script of an access list whose rules overlap much, with probes and packets.
function madeScript(random) {
    const one = (...words) => words[random(words.length)];
    const address = () => `10.${random(4)}.${random(3)}.${random(2)}`;
    const side = () => one('any', '10.0.0.0/8', `10.${random(4)}.0.0/16`, `10.${random(4)}.${random(3)}.0/24`, `${address()}/32`);
    const ports = () => one('any', '80', '80-443', '1-2', '1000-1100', '2-3');
    const packet = () => `${address()} ${address()} ${one('tcp', 'udp', '1')} ${random(5)} ${one('80', '443', '1', '2', '3', '5000')}`;
    const lines = Array.from({ length: 6 }, () => `probe ${packet()}`);
    const rules = new Set();
    for (let commit = 0; commit < 12; commit++) {
        const named = new Set();
        for (let count = 1 + random(6); count > 0; count--) {
            const sequence = 1 + random(30);
            if (named.has(sequence)) continue;
            named.add(sequence);
            const rule = `acl add ${sequence} ${one('permit', 'deny')} ${side()} ${side()} ${one('any', 'tcp', 'udp')} ${ports()} ${ports()}`;
            const change = !rules.has(sequence) ? rule : one(`acl del ${sequence}`, `acl set ${sequence} permit`, `acl del ${sequence}\n${rule}`);
            lines.push(change);
            if (change.includes('add')) rules.add(sequence);
            else if (change.includes('del')) rules.delete(sequence);
        }
        lines.push('commit', ...Array.from({ length: 4 }, () => `packet ${packet()}`));
    }
    return `${lines.join('\n')}\n`;
}

// A trace with one line changed: the page and `tcam verify` agree on whether it is a trace, and where it isn't one; and a
// wrong answer is found only where the order is broken at that line or before.
function compareChanged(name, text) {
    const [line] = run(['verify'], text).report;
    const trace = logic.readTrace(text);
    const at = Number((/line (\d+)/.exec(line) || [0, 0])[1]);
    if (line.startsWith('line ')) judge(`${name}: the fault`, at, trace.fault === null ? 0 : trace.fault.line);
    else if (line.startsWith('yes ')) judge(`${name}: the fault`, null, trace.fault);
    else judge(`${name}: the fault isn't before line ${at}`, true, trace.fault === null || trace.fault.line >= at);
    const wrong = logic.whole(new logic.ProbeSearch(trace).run()).map(found => found.line);
    if (line.startsWith('yes ')) judge(`${name}: what is found`, [], wrong);
    else judge(`${name}: what is found isn't before line ${at}`, true, wrong.every(found => found >= at));
}

function changed(lines, random) {
    const at = random(lines.length);
    const other = random(lines.length);
    const digit = /\d+/g;
    switch (random(4)) {
        case 0: return lines.filter((line, number) => number !== at);
        case 1: return [...lines.slice(0, at), lines[other], ...lines.slice(at)];
        case 2: return lines.map((line, number) => number === at ? lines[other] : number === other ? lines[at] : line);
        default: {
            const numbers = lines[at].match(digit) || ['0'];
            const which = random(numbers.length);
            let seen = -1;
            return lines.map((line, number) => number !== at ? line : line.replace(digit, found => {
                seen += 1;
                return seen === which ? String(Number(found) + 1 - 2 * random(2)) : found;
            }));
        }
    }
}

if (fs.existsSync(program)) {
    compareExamples();
    const random = randoms(5);
    for (let seed = 1; seed <= 8; seed++) {
        const script = madeScript(random);
        compareScript(`script ${seed} by covers`, ['acl', '--slots', '1024'], script);
        compareScript(`script ${seed} by bits`, ['acl', '--slots', '64', '--ranges', 'bits'], script);
        const { report } = run(['acl', '--slots', '24', '--ranges', 'bits', '--json'], script);
        if (report.length > 2000) continue;
        for (let count = 0; count < 12; count++) {
            compareChanged(`script ${seed}, change ${count}`, `${changed(report, random).join('\n')}\n`);
        }
    }
} else {
    console.log('viewer: the program is not built here, so its answers are not compared');
}
ended('viewer, its module');
