'use strict';
// What the tests of the page share: how they judge, and how they get at the module inside it.

const fs = require('fs');
const path = require('path');

const top = path.join(__dirname, '../..');
const page = path.join(top, 'viewer/index.html');
const counts = { passed: 0, failed: 0 };

function judge(name, wanted, got) {
    const [left, right] = [wanted, got].map(value => JSON.stringify(value));
    counts[left === right ? 'passed' : 'failed'] += 1;
    if (left !== right) console.log(`${name}: wanted\n${left}\ngot\n${right}`);
}

// Says how many passed, and sets the exit status.
function ended(name) {
    console.log(`${name}: ${counts.passed} passed, ${counts.failed} failed`);
    process.exitCode = counts.failed === 0 && counts.passed > 0 ? 0 : 1;
}

function loadLogic() {
    const [, code] = /<script id="logic">\n([^]*?)<\/script>/.exec(fs.readFileSync(page, 'utf8'));
    return new Function(`${code}\nreturn TraceLogic;`)();
}

module.exports = { judge, ended, loadLogic, page, top };
