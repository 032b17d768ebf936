'use strict';
// A headless Chromium over a pipe, without any library: it is sent commands of the DevTools protocol, and answers them.

const { spawn } = require('child_process');

class Browser {
    constructor(program, folder) {
        const words = ['--headless', '--disable-gpu', '--no-first-run', '--remote-debugging-pipe', `--user-data-dir=${folder}`];
        if (process.getuid() === 0) words.push('--no-sandbox');
        this.process = spawn(program, words, { stdio: ['ignore', 'ignore', 'ignore', 'pipe', 'pipe'] });
        this.waiting = new Map(); // what is called when a command is answered
        this.events = []; // all that was told without being asked
        this.sent = 0;
        this.rest = '';
        this.process.stdio[4].on('data', bytes => this.take(bytes.toString('utf8')));
        this.process.on('exit', () => this.waiting.forEach(({ reject }) => reject(new Error('the browser ended'))));
    }

    // Messages are JSON, and end with a zero.
    take(text) {
        const messages = (this.rest + text).split('\0');
        this.rest = messages.pop();
        for (const message of messages.map(JSON.parse)) {
            if (message.id === undefined) this.events.push(message);
            else if (message.error) this.waiting.get(message.id).reject(new Error(message.error.message));
            else this.waiting.get(message.id).resolve(message.result);
            this.waiting.delete(message.id);
        }
    }

    send(method, params = {}) {
        this.sent += 1;
        const message = { id: this.sent, method, params, sessionId: this.session };
        return new Promise((resolve, reject) => {
            this.waiting.set(message.id, { resolve, reject });
            this.process.stdio[3].write(`${JSON.stringify(message)}\0`);
        });
    }

    async open(address, width = 1280, height = 800) {
        const { targetId } = await this.send('Target.createTarget', { url: 'about:blank' });
        this.session = (await this.send('Target.attachToTarget', { targetId, flatten: true })).sessionId;
        for (const domain of ['Page', 'Runtime', 'Network', 'DOM', 'Log']) await this.send(`${domain}.enable`);
        await this.send('Emulation.setDeviceMetricsOverride', { width, height, deviceScaleFactor: 1, mobile: false });
        await this.send('Page.navigate', { url: address });
        await this.until('document.readyState === "complete"');
    }

    async value(expression) {
        const { result, exceptionDetails } = await this.send('Runtime.evaluate', { expression, returnByValue: true, awaitPromise: true });
        if (exceptionDetails) throw new Error(`${expression}: ${exceptionDetails.exception.description}`);
        return result.value;
    }

    // Waits until an expression of the page is true.
    async until(expression, seconds = 60) {
        const end = Date.now() + seconds * 1000;
        while (!await this.value(expression)) {
            if (Date.now() > end) throw new Error(`not within ${seconds} s: ${expression}`);
            await new Promise(resolve => setTimeout(resolve, 20));
        }
    }

    async choose(selector, file) {
        const { root } = await this.send('DOM.getDocument');
        const { nodeId } = await this.send('DOM.querySelector', { nodeId: root.nodeId, selector });
        await this.send('DOM.setFileInputFiles', { nodeId, files: [file] });
    }

    async press(key, modifiers = 0) {
        const text = key.length === 1 ? key : undefined;
        await this.send('Input.dispatchKeyEvent', { type: 'keyDown', key, code: key, text, modifiers });
        await this.send('Input.dispatchKeyEvent', { type: 'keyUp', key, code: key, modifiers });
    }

    // Puts a text into a field in place of what stands there.
    async type(selector, text) {
        await this.value(`document.querySelector('${selector}').focus(); document.querySelector('${selector}').select()`);
        await this.send('Input.insertText', { text });
        await this.value('document.activeElement.blur()');
    }

    async picture(file) {
        const { data } = await this.send('Page.captureScreenshot', { format: 'png' });
        require('fs').writeFileSync(file, Buffer.from(data, 'base64'));
    }

    // Ends it, and returns when it has ended.
    end() {
        return new Promise(resolve => {
            this.process.on('exit', resolve);
            this.process.kill();
            this.process.stdio.slice(3).forEach(pipe => pipe.destroy());
        });
    }
}

module.exports = { Browser };
