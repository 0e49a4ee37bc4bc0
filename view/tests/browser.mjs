// A browser that is driven over its DevTools pipe, without packages: const page = await browser(); await page.open(url); await page.run('document.title')
import { spawn } from 'node:child_process';
import { mkdtempSync, rmSync, writeFileSync } from 'node:fs';
import { tmpdir } from 'node:os';
import { join } from 'node:path';

const KEYS = { Tab: 9, Enter: 13, End: 35, Home: 36, PageDown: 34, ArrowLeft: 37, ArrowUp: 38, ArrowRight: 39, ArrowDown: 40 };
const WORDS = ['--headless=new', '--no-sandbox', '--disable-gpu', '--disable-dev-shm-usage', '--no-first-run', '--hide-scrollbars', '--remote-debugging-pipe'];
const TIME_OUT = 120000; // where nothing is answered for so long, the browser is lost

// Waits until something is so.
export async function until(what, isSo) {
    for (const end = Date.now() + TIME_OUT; !await isSo(); await new Promise(done => setTimeout(done, 10))) {
        if (Date.now() > end) throw new Error(`waited in vain for ${what}`);
    }
}

// The two pipes: messages are JSON and end with a zero octet.
function connected(child, heard) {
    const waiting = new Map(), parts = [];
    let last = 0;
    const take = message => {
        if (!message.id) return void heard.push(message);
        const { done, failed, clock } = waiting.get(message.id);
        clearTimeout(clock);
        waiting.delete(message.id);
        return message.error ? failed(new Error(JSON.stringify(message.error))) : done(message.result);
    };
    child.stdio[4].on('data', data => {
        for (let at; (at = data.indexOf(0)) >= 0; data = data.subarray(at + 1)) take(JSON.parse(Buffer.concat([...parts.splice(0), data.subarray(0, at)])));
        if (data.length) parts.push(data);
    });
    child.once('exit', () => { for (const { failed } of waiting.values()) failed(new Error('the browser has ended')); });
    return (method, params = {}, sessionId = undefined) => new Promise((done, failed) => {
        const clock = setTimeout(() => failed(new Error(`${method} is not answered`)), TIME_OUT);
        waiting.set(++last, { done, failed, clock });
        child.stdio[3].write(`${JSON.stringify({ id: last, method, params, sessionId })}\0`);
    });
}

export async function browser(program = process.env.CHROMIUM ?? 'chromium') {
    const profile = mkdtempSync(join(tmpdir(), 'view-browser-')), heard = [];
    const child = spawn(program, [...WORDS, `--user-data-dir=${profile}`, 'about:blank'], { stdio: ['ignore', 'ignore', 'ignore', 'pipe', 'pipe'] });
    const ended = new Promise(done => child.once('exit', done)), lacking = new Promise((_, failed) => child.once('error', failed));
    const send = connected(child, heard);
    const { targetId } = await Promise.race([send('Target.createTarget', { url: 'about:blank' }), lacking]);
    const { sessionId } = await send('Target.attachToTarget', { targetId, flatten: true });
    const tell = (method, params) => send(method, params, sessionId);
    for (const domain of ['Page', 'Runtime', 'Log', 'Network', 'DOM']) await tell(`${domain}.enable`);

    // Runs an expression in the page, as its own policy allows it.
    const run = async expression => {
        const asked = { expression, awaitPromise: true, returnByValue: true, allowUnsafeEvalBlockedByCSP: false };
        const { result, exceptionDetails: thrown } = await tell('Runtime.evaluate', asked);
        if (thrown) throw new Error(thrown.exception?.description ?? thrown.text);
        return result.value;
    };
    const wait = expression => until(expression, () => run(expression));
    const mouse = (type, [x, y], more) => tell('Input.dispatchMouseEvent', { type, x, y, ...more });
    const pressed = { button: 'left', buttons: 1, clickCount: 1 };
    return {
        tell, run, wait, heard,
        async open(url) {
            await tell('Page.navigate', { url: 'about:blank' });
            heard.length = 0;
            await tell('Page.navigate', { url });
            await wait('document.documentElement?.dataset?.ready');
        },
        size: (width, height) => tell('Emulation.setDeviceMetricsOverride', { width, height, deviceScaleFactor: 1, mobile: false }),
        dark: on => tell('Emulation.setEmulatedMedia', { features: [{ name: 'prefers-color-scheme', value: on ? 'dark' : 'light' }] }),
        async shot(file) {
            const { data } = await tell('Page.captureScreenshot', { format: 'png' });
            writeFileSync(file, Buffer.from(data, 'base64'));
        },
        async key(key) {
            for (const type of ['keyDown', 'keyUp']) await tell('Input.dispatchKeyEvent', { type, key, code: key, windowsVirtualKeyCode: KEYS[key] });
        },
        move: place => mouse('mouseMoved', place),
        async drag(from, to) {
            await mouse('mouseMoved', from);
            await mouse('mousePressed', from, pressed);
            await mouse('mouseMoved', to, pressed);
            await mouse('mouseReleased', to, { ...pressed, buttons: 0 });
        },
        downloads: folder => send('Browser.setDownloadBehavior', { behavior: 'allow', downloadPath: folder }),
        async close() {
            await send('Browser.close').catch(() => child.kill());
            await ended;
            rmSync(profile, { recursive: true, force: true, maxRetries: 5 });
        },
    };
}
